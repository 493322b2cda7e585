package trace

import (
	"crypto/sha256"
	"fmt"
	"sort"
	"sync"

	"go.etcd.io/etcd/raft"
	"go.etcd.io/etcd/raft/confchange"
	pb "go.etcd.io/etcd/raft/raftpb"
	"go.etcd.io/etcd/raft/tracker"
)

// Etcd records a node of etcd's raft 3.4 from its messages and its Ready values. `etcd/main.go` has the five calls.
type Etcd struct {
	lock      sync.Mutex
	id, first uint64
	storage   raft.Storage
	conf      pb.ConfState      // in effect: the last one that was applied
	taken     []pb.Message      // appends and snapshots that no response has answered yet
	lines     []map[string]any  // they are written once the Ready is on disk
	wrote     map[uint64]uint64 // for each term that the node has led, the last index that it wrote
	leads     bool
	term      uint64
	asked     uint64 // the term of its last campaign
	reached   uint64 // the term that the record has the node in
	committed uint64
	from      uint64 // from this index on, `tail` replaces the log on disk until the Ready is saved
	tail      []pb.Entry
}

// NewEtcd opens the record when the process starts. All nodes begin with the same log, of which `first` is the next
// index (after StartNode with three peers it is 4), and `voters` are the voters, in one order in all processes.
func NewEtcd(path string, id uint64, voters []uint64, first uint64, storage raft.Storage) *Etcd {
	must(Open(path))
	hard, conf, err := storage.InitialState()
	must(err)
	if len(conf.Voters) == 0 {
		conf.Voters = voters
	}
	e := &Etcd{id: id, first: first, storage: storage, conf: conf, wrote: map[uint64]uint64{}, term: hard.Term, committed: hard.Commit}
	Event(map[string]any{"event": "started", "voters": [][]uint64{voters}, "first": first, "configs": "applied"})
	if hard.Vote == id { // its campaign is in the record, or no message of it has left
		e.asked = hard.Term
	}
	e.Saved()
	if last := e.from - 1; last >= first {
		Event(map[string]any{"event": "restarted", "server": id, "index": last, "last_term": e.termAt(last)})
	} else if last == first-1 {
		Event(map[string]any{"event": "restarted", "server": id, "index": last})
	}
	return e
}

// Step is called with each message from the network, before the node takes it.
func (e *Etcd) Step(m pb.Message) {
	e.lock.Lock()
	defer e.lock.Unlock()
	if m.Type == pb.MsgApp || m.Type == pb.MsgSnap {
		e.taken = append(e.taken, m)
	}
}

// Ready is called before anything of the Ready is written to disk or sent.
func (e *Etcd) Ready(rd raft.Ready) {
	e.lock.Lock()
	defer e.lock.Unlock()
	hard := rd.HardState
	if !raft.IsEmptyHardState(hard) {
		e.term = hard.Term
	}
	if rd.SoftState != nil {
		e.leads = rd.SoftState.RaftState == raft.StateLeader
	}
	own := e.write(rd)
	for _, m := range rd.Messages {
		own = e.append(own, m.Term)
		switch {
		case m.Type == pb.MsgVote:
			e.campaign(m.Term)
		case m.Type == pb.MsgVoteResp && !m.Reject:
			e.line(m.Term, map[string]any{"event": "granted", "server": e.id, "term": m.Term, "candidate": m.To})
		case m.Type == pb.MsgAppResp:
			e.answer(m)
		}
	}
	if hard.Vote == e.id {
		e.campaign(hard.Term)
	}
	e.append(own, e.term+1)
	if e.leads && hard.Commit > e.committed && hard.Commit >= e.first {
		e.line(0, map[string]any{"event": "committed", "leader": e.id, "term": e.term, "index": hard.Commit})
	}
	if hard.Commit > e.committed {
		e.committed = hard.Commit
	}
	waiting := []pb.Message{} // a message of a former term is not answered any more
	for _, m := range e.taken {
		if m.Term >= e.term {
			waiting = append(waiting, m)
		}
	}
	e.taken = waiting
}

// Saved is called when the Ready is on disk, before its messages are sent.
func (e *Etcd) Saved() {
	e.lock.Lock()
	defer e.lock.Unlock()
	for _, line := range e.lines {
		Event(line)
	}
	last, err := e.storage.LastIndex()
	must(err)
	e.lines, e.tail, e.from = nil, nil, last+1
}

// Applied is called when CommittedEntries are applied, and with the configuration that is then in effect.
func (e *Etcd) Applied(entries []pb.Entry, conf pb.ConfState) {
	e.conf = conf
	if n := len(entries); n > 0 && entries[n-1].Index >= e.first {
		Event(map[string]any{"event": "applied", "server": e.id, "index": entries[n-1].Index})
	}
}

func (e *Etcd) line(term uint64, fields map[string]any) {
	e.lines = append(e.lines, fields)
	if term > e.reached {
		e.reached = term
	}
}

func (e *Etcd) campaign(term uint64) {
	if term > e.asked {
		e.asked = term
		e.line(term, map[string]any{"event": "campaigned", "server": e.id, "term": term})
	}
}

// write records what the node has made in the terms that it has led, also if it has stepped down since. Entries that are
// in messages alone were truncated before they were on disk. It returns the others.
func (e *Etcd) write(rd raft.Ready) (own []pb.Entry) {
	if e.leads {
		e.wrote[e.term] += 0
	}
	made := append([]pb.Entry{}, rd.Entries...)
	for _, m := range rd.Messages {
		if m.Type == pb.MsgApp || m.Type == pb.MsgSnap || m.Type == pb.MsgHeartbeat {
			e.wrote[m.Term] += 0
			made = append(made, m.Entries...)
		}
	}
	for _, entry := range rd.Entries {
		if last, led := e.wrote[entry.Term]; led && entry.Index > last {
			own = append(own, entry)
		}
	}
	sort.SliceStable(made, func(i, j int) bool { return made[i].Index < made[j].Index })
	for _, entry := range made {
		if last, led := e.wrote[entry.Term]; led && entry.Index > last {
			e.wrote[entry.Term] = entry.Index
			fields := map[string]any{"event": "wrote", "leader": e.id, "term": entry.Term, "index": entry.Index, "content": content(entry)}
			if entry.Type != pb.EntryNormal {
				fields["voters"] = configsAfter(e.conf, entry)
			}
			Event(fields)
		}
	}
	return own
}

// append puts own entries of terms before `term` into the log and acknowledges them. It returns the others.
func (e *Etcd) append(own []pb.Entry, term uint64) []pb.Entry {
	for n := 1; len(own) > 0 && own[0].Term < term; own, n = own[n:], 1 {
		for n < len(own) && own[n].Term == own[0].Term {
			n++
		}
		e.change(own[0].Term, e.id, own[:n])
		e.line(0, map[string]any{"event": "acked", "server": e.id, "term": own[0].Term, "leader": e.id, "index": own[n-1].Index})
	}
	return own
}

// answer records what a response confirms: the log has the leader's entries up to its index, so also those of all
// requests of the leader that end there or before.
func (e *Etcd) answer(m pb.Message) {
	waiting, rejects := []pb.Message{}, m.Reject
	for _, r := range e.taken {
		last := r.Index + uint64(len(r.Entries)) + r.Snapshot.Metadata.Index
		switch {
		case r.From == m.To && r.Term == m.Term && !m.Reject && last <= m.Index:
			e.take(r, last == m.Index)
		case r.From == m.To && r.Term == m.Term && rejects && r.Index == m.Index:
			rejects = false
		default:
			waiting = append(waiting, r)
		}
	}
	e.taken = waiting
	if m.Reject || m.Index < e.first {
		return
	}
	if e.reached < m.Term {
		e.change(m.Term, m.To, nil)
	}
	e.line(0, map[string]any{"event": "acked", "server": e.id, "term": m.Term, "leader": m.To, "index": m.Index})
}

// take puts what a request has and the log does not into the log. A snapshot below what is confirmed was not installed.
func (e *Etcd) take(r pb.Message, isConfirmed bool) {
	if snap := r.Snapshot.Metadata; r.Type == pb.MsgSnap && isConfirmed && e.termAt(snap.Index) != snap.Term {
		e.from, e.tail = snap.Index, []pb.Entry{{Index: snap.Index, Term: snap.Term}}
		e.line(r.Term, map[string]any{"event": "appended", "server": e.id, "term": r.Term, "leader": r.From, "index": snap.Index})
	}
	for k, entry := range r.Entries {
		if entry.Index >= e.first && e.termAt(entry.Index) != entry.Term {
			e.change(r.Term, r.From, r.Entries[k:])
			return
		}
	}
}

// change records that the log keeps what is before the entries, and ends with them.
func (e *Etcd) change(term, leader uint64, entries []pb.Entry) {
	prev, list := e.from+uint64(len(e.tail))-1, [][2]any{}
	if len(entries) > 0 {
		if prev = entries[0].Index - 1; prev+1 < e.from {
			e.from, e.tail = prev+1, nil
		}
		e.tail = append(append([]pb.Entry{}, e.tail[:prev+1-e.from]...), entries...)
	}
	for _, entry := range entries {
		list = append(list, [2]any{entry.Term, content(entry)})
	}
	e.line(term, map[string]any{"event": "appended", "server": e.id, "term": term, "leader": leader, "prev": prev, "entries": list})
}

// termAt returns the term of an entry of the log, and 0 if the log does not have it.
func (e *Etcd) termAt(index uint64) uint64 {
	if index >= e.from {
		if index-e.from < uint64(len(e.tail)) {
			return e.tail[index-e.from].Term
		}
		return 0
	}
	term, _ := e.storage.Term(index)
	return term
}

// configsAfter returns the configs after a change, by the library's own rules.
func configsAfter(conf pb.ConfState, entry pb.Entry) [][]uint64 {
	var one pb.ConfChange
	var change pb.ConfChangeV2
	if entry.Type == pb.EntryConfChangeV2 {
		must(change.Unmarshal(entry.Data))
	} else {
		must(one.Unmarshal(entry.Data))
		change = one.AsV2()
	}
	config, progress, err := confchange.Restore(confchange.Changer{Tracker: tracker.MakeProgressTracker(1)}, conf)
	must(err)
	changer := confchange.Changer{Tracker: tracker.ProgressTracker{Config: config, Progress: progress}}
	if auto, joint := change.EnterJoint(); joint {
		config, _, err = changer.EnterJoint(auto, change.Changes...)
	} else if change.LeaveJoint() {
		config, _, err = changer.LeaveJoint()
	} else {
		config, _, err = changer.Simple(change.Changes...)
	}
	must(err)
	configs := [][]uint64{config.Voters[0].Slice()}
	if len(config.Voters[1]) > 0 {
		configs = append(configs, config.Voters[1].Slice())
	}
	return configs
}

// content names what an entry has. Each change of members is a content of its own.
func content(entry pb.Entry) string {
	if entry.Type != pb.EntryNormal {
		return fmt.Sprintf("config %d.%d", entry.Term, entry.Index)
	}
	return fmt.Sprintf("%x", sha256.Sum256(entry.Data))
}
