package trace

import (
	"crypto/sha256"
	"fmt"
	"sync"

	"github.com/hashicorp/raft"
)

// Hashicorp records a server of hashicorp's raft 1.1. It stands in for all that NewRaft is handed but the configuration:
// the stores of logs, of stable values and of snapshots, the transport, and the state machine. A server is named by its
// address. Commits are recorded when the leader writes its next entry.
type Hashicorp struct {
	raft.LogStore
	raft.StableStore
	raft.SnapshotStore
	raft.Transport
	raft.FSM
	lock      sync.Mutex
	raft      *raft.Raft
	requests  chan raft.RPC
	request   any    // the one that the server handles
	term      uint64 // of the request, with the server that has sent it
	leader    raft.ServerAddress
	voteTerm  uint64
	asked     uint64 // the term of its last campaign
	reached   uint64 // the term that the record has the server in
	last      uint64 // the index of its last entry
	first     uint64
	led       uint64 // the last term that it has led
	began     uint64 // the index of its first entry in that term
	committed uint64
}

// NewHashicorp opens the record when the process starts, after BootstrapCluster with the same stores. That call writes
// the configuration at index 1, so the first recorded index is 2. The voters are in one order in all processes.
func NewHashicorp(path string, voters []raft.ServerAddress, logs raft.LogStore, stable raft.StableStore,
	snapshots raft.SnapshotStore, transport raft.Transport, machine raft.FSM) *Hashicorp {
	must(Open(path))
	h := &Hashicorp{LogStore: logs, StableStore: stable, SnapshotStore: snapshots, Transport: transport, FSM: machine,
		requests: make(chan raft.RPC), first: 2}
	Event(map[string]any{"event": "started", "voters": [][]raft.ServerAddress{voters}, "first": h.first})
	var log raft.Log
	var err error
	h.last, err = logs.LastIndex()
	must(err)
	if h.last > 0 {
		must(logs.GetLog(h.last, &log))
	}
	list, err := snapshots.List()
	must(err)
	if len(list) > 0 && list[0].Index > h.last {
		h.last, log.Term = list[0].Index, list[0].Term
	}
	if h.last >= h.first {
		Event(map[string]any{"event": "restarted", "server": h.LocalAddr(), "index": h.last, "last_term": log.Term})
	} else {
		Event(map[string]any{"event": "restarted", "server": h.LocalAddr(), "index": h.first - 1})
	}
	go h.pass()
	return h
}

// Started is called with what NewRaft returns.
func (h *Hashicorp) Started(r *raft.Raft) {
	h.lock.Lock()
	defer h.lock.Unlock()
	h.raft = r
}

// Consumer hands requests over one by one, so that what the stores are asked for belongs to the last one.
func (h *Hashicorp) Consumer() <-chan raft.RPC {
	return h.requests
}

func (h *Hashicorp) pass() {
	for rpc := range h.Transport.Consumer() {
		h.lock.Lock()
		h.request = rpc.Command
		switch r := rpc.Command.(type) {
		case *raft.AppendEntriesRequest:
			h.term, h.leader = r.Term, h.DecodePeer(r.Leader)
		case *raft.InstallSnapshotRequest:
			h.term, h.leader = r.Term, h.DecodePeer(r.Leader)
		}
		h.lock.Unlock()
		answers := make(chan raft.RPCResponse, 1)
		h.requests <- raft.RPC{Command: rpc.Command, Reader: rpc.Reader, RespChan: answers}
		answer := <-answers
		h.lock.Lock()
		switch r := rpc.Command.(type) {
		case *raft.AppendEntriesRequest:
			if answer.Error == nil && answer.Response.(*raft.AppendEntriesResponse).Success {
				h.confirm(r.PrevLogEntry + uint64(len(r.Entries)))
			}
		case *raft.InstallSnapshotRequest:
			if answer.Error == nil && answer.Response.(*raft.InstallSnapshotResponse).Success {
				h.confirm(r.LastLogIndex)
			}
		}
		h.lock.Unlock()
		rpc.RespChan <- answer
	}
}

// confirm records what a follower's response says. A response to a heartbeat confirms nothing: its index is 0.
func (h *Hashicorp) confirm(index uint64) {
	if index < h.first {
		return
	}
	if h.reached < h.term {
		h.appended(map[string]any{"term": h.term, "leader": h.leader, "prev": h.last, "entries": []any{}})
	}
	Event(map[string]any{"event": "acked", "server": h.LocalAddr(), "term": h.term, "leader": h.leader, "index": index})
}

func (h *Hashicorp) appended(fields map[string]any) {
	fields["event"], fields["server"] = "appended", h.LocalAddr()
	Event(fields)
	h.reached = fields["term"].(uint64)
}

// StoreLog stores one log.
func (h *Hashicorp) StoreLog(log *raft.Log) error {
	return h.StoreLogs([]*raft.Log{log})
}

// StoreLogs stores what a leader has made or a follower was sent.
func (h *Hashicorp) StoreLogs(logs []*raft.Log) error {
	h.lock.Lock()
	defer h.lock.Unlock()
	term, leader, leads, entries := h.term, h.leader, h.raft != nil && h.raft.State() == raft.Leader, [][2]any{}
	if leads {
		term, leader = logs[0].Term, h.LocalAddr()
		if h.led < term {
			h.led, h.began = term, logs[0].Index
		} else if committed := h.raft.AppliedIndex(); committed >= h.began && committed > h.committed {
			h.committed = committed
			Event(map[string]any{"event": "committed", "leader": leader, "term": term, "index": committed})
		}
	}
	for _, log := range logs {
		entries = append(entries, [2]any{log.Term, command(log)})
		fields := map[string]any{"event": "wrote", "leader": leader, "term": term, "index": log.Index, "content": command(log)}
		if log.Type == raft.LogConfiguration {
			fields["voters"] = configsOf(log)
		}
		if leads {
			Event(fields)
		}
	}
	if err := h.LogStore.StoreLogs(logs); err != nil {
		return err
	}
	h.last = logs[len(logs)-1].Index
	h.appended(map[string]any{"term": term, "leader": leader, "prev": logs[0].Index - 1, "entries": entries})
	if leads {
		Event(map[string]any{"event": "acked", "server": leader, "term": term, "leader": leader, "index": h.last})
	}
	return nil
}

// DeleteRange truncates the log, or removes what a snapshot has.
func (h *Hashicorp) DeleteRange(from, to uint64) error {
	h.lock.Lock()
	defer h.lock.Unlock()
	err := h.LogStore.DeleteRange(from, to)
	if last, _ := h.LogStore.LastIndex(); err == nil && to == h.last && last > 0 {
		h.last = from - 1
		h.appended(map[string]any{"term": h.term, "leader": h.leader, "prev": h.last, "entries": []any{}})
	}
	return err
}

// SetUint64 notes the term of a vote that is stored next.
func (h *Hashicorp) SetUint64(key []byte, value uint64) error {
	h.lock.Lock()
	defer h.lock.Unlock()
	if string(key) == "LastVoteTerm" {
		h.voteTerm = value
	}
	return h.StableStore.SetUint64(key, value)
}

// Set stores a vote.
func (h *Hashicorp) Set(key, value []byte) error {
	h.lock.Lock()
	defer h.lock.Unlock()
	err := h.StableStore.Set(key, value)
	if candidate := h.DecodePeer(value); err == nil && string(key) == "LastVoteCand" && candidate == h.LocalAddr() {
		h.campaign(h.voteTerm)
	} else if err == nil && string(key) == "LastVoteCand" {
		Event(map[string]any{"event": "granted", "server": h.LocalAddr(), "term": h.voteTerm, "candidate": candidate})
		h.reached = h.voteTerm
	}
	return err
}

// RequestVote asks for a vote, which the library may do before its own vote is stored.
func (h *Hashicorp) RequestVote(id raft.ServerID, to raft.ServerAddress, r *raft.RequestVoteRequest, is *raft.RequestVoteResponse) error {
	h.lock.Lock()
	h.campaign(r.Term)
	h.lock.Unlock()
	return h.Transport.RequestVote(id, to, r, is)
}

func (h *Hashicorp) campaign(term uint64) {
	if h.asked < term {
		h.asked, h.reached = term, term
		Event(map[string]any{"event": "campaigned", "server": h.LocalAddr(), "term": term})
	}
}

// Apply hands a log to the state machine.
func (h *Hashicorp) Apply(log *raft.Log) any {
	is := h.FSM.Apply(log)
	Event(map[string]any{"event": "applied", "server": h.LocalAddr(), "index": log.Index})
	return is
}

// Create begins a snapshot. One that a leader has sent replaces the log if it is past its end.
func (h *Hashicorp) Create(version raft.SnapshotVersion, index, term uint64, configuration raft.Configuration,
	configurationIndex uint64, transport raft.Transport) (raft.SnapshotSink, error) {
	h.lock.Lock()
	defer h.lock.Unlock()
	r, is := h.request.(*raft.InstallSnapshotRequest)
	sink, err := h.SnapshotStore.Create(version, index, term, configuration, configurationIndex, transport)
	if err == nil && is && r.LastLogIndex == index && index > h.last {
		sink = installed{sink, h, index}
	}
	return sink, err
}

type installed struct {
	raft.SnapshotSink
	h     *Hashicorp
	index uint64
}

func (s installed) Close() error {
	s.h.lock.Lock()
	defer s.h.lock.Unlock()
	err := s.SnapshotSink.Close()
	if err == nil {
		s.h.last = s.index
		s.h.appended(map[string]any{"term": s.h.term, "leader": s.h.leader, "index": s.index})
	}
	return err
}

func configsOf(log *raft.Log) [][]raft.ServerAddress {
	voters := []raft.ServerAddress{}
	for _, server := range raft.DecodeConfiguration(log.Data).Servers {
		if server.Suffrage == raft.Voter {
			voters = append(voters, server.Address)
		}
	}
	return [][]raft.ServerAddress{voters}
}

// command names what a log has.
func command(log *raft.Log) string {
	if log.Type == raft.LogCommand {
		return fmt.Sprintf("%x", sha256.Sum256(log.Data))
	}
	return fmt.Sprintf("%d %d.%d", log.Type, log.Term, log.Index)
}
