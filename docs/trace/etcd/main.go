// Three processes of etcd's raft on loopback, which are killed and restarted. Each records what it does.
package main

import (
	"bytes"
	"context"
	"encoding/gob"
	"fmt"
	"io"
	"log"
	"math/rand"
	"net"
	"os"
	"path/filepath"
	"time"

	"go.etcd.io/etcd/raft"
	pb "go.etcd.io/etcd/raft/raftpb"

	"trace"
	"trace/cluster"
)

// A record of the file in which a server keeps what a Ready has for its disk, and up to where it has compacted its log.
type saved struct {
	Hard      pb.HardState
	Entries   []pb.Entry
	Snapshot  pb.Snapshot
	Compacted uint64
	Conf      pb.ConfState
}

func main() {
	cluster.Main(serve)
}

func must(err error) {
	if err != nil {
		panic(err)
	}
}

// load makes the storage from the file.
func load(path string) (*raft.MemoryStorage, *cluster.File) {
	storage := raft.NewMemoryStorage()
	return storage, cluster.OpenFile(path, func(record []byte) {
		var is saved
		must(gob.NewDecoder(bytes.NewReader(record)).Decode(&is))
		keep(storage, is)
	})
}

func keep(storage *raft.MemoryStorage, is saved) {
	if !raft.IsEmptySnap(is.Snapshot) {
		must(storage.ApplySnapshot(is.Snapshot))
	}
	if !raft.IsEmptyHardState(is.Hard) {
		must(storage.SetHardState(is.Hard))
	}
	must(storage.Append(is.Entries))
	if first, _ := storage.FirstIndex(); is.Compacted >= first {
		_, err := storage.CreateSnapshot(is.Compacted, &is.Conf, nil)
		must(err)
		must(storage.Compact(is.Compacted))
	}
}

func save(storage *raft.MemoryStorage, file *cluster.File, is saved) {
	var record bytes.Buffer
	must(gob.NewEncoder(&record).Encode(is))
	file.Append(record.Bytes())
	keep(storage, is)
}

func serve(id int, addresses []string, folder string) {
	path := filepath.Join(folder, fmt.Sprint(id))
	voters, peers, network := []uint64{}, []raft.Peer{}, map[uint64]chan pb.Message{}
	for i := range addresses {
		to := uint64(i + 1)
		voters, peers = append(voters, to), append(peers, raft.Peer{ID: to})
		network[to] = make(chan pb.Message, 64)
		go send(addresses[i], network[to])
	}
	storage, file := load(path + ".disk")
	recorder := trace.NewEtcd(path+".jsonl", uint64(id), voters, uint64(len(voters)+1), storage)
	config := &raft.Config{ID: uint64(id), ElectionTick: 10, HeartbeatTick: 2, Storage: storage, MaxSizePerMsg: 200, MaxInflightMsgs: 8,
		PreVote: rand.Intn(2) == 0, Logger: &raft.DefaultLogger{Logger: log.New(io.Discard, "", 0)}}
	var node raft.Node
	if last, _ := storage.LastIndex(); last == 0 {
		node = raft.StartNode(config, peers)
	} else {
		node = raft.RestartNode(config)
	}
	go receive(addresses[id-1], recorder, node)
	go propose(id, node)
	applied, err := os.OpenFile(path+".applied", os.O_CREATE|os.O_WRONLY|os.O_APPEND, 0o644)
	must(err)
	_, conf, err := storage.InitialState()
	must(err)
	for ticks := time.Tick(10 * time.Millisecond); ; {
		select {
		case <-ticks:
			node.Tick()
		case rd := <-node.Ready():
			recorder.Ready(rd)
			save(storage, file, saved{Hard: rd.HardState, Entries: rd.Entries, Snapshot: rd.Snapshot})
			recorder.Saved()
			for _, m := range rd.Messages {
				select {
				case network[m.To] <- m:
				default: // the network is slow, and loses the message
					if m.Type == pb.MsgSnap {
						node.ReportSnapshot(m.To, raft.SnapshotFailure)
					}
				}
			}
			if !raft.IsEmptySnap(rd.Snapshot) {
				conf = rd.Snapshot.Metadata.ConfState
			}
			for _, entry := range rd.CommittedEntries {
				if entry.Type == pb.EntryConfChange {
					var change pb.ConfChange
					must(change.Unmarshal(entry.Data))
					conf = *node.ApplyConfChange(change)
				} else if entry.Type == pb.EntryConfChangeV2 {
					var change pb.ConfChangeV2
					must(change.Unmarshal(entry.Data))
					conf = *node.ApplyConfChange(change)
				}
				fmt.Fprintf(applied, "%d %d:%q\n", entry.Index, entry.Term, entry.Data)
			}
			recorder.Applied(rd.CommittedEntries, conf)
			if n := len(rd.CommittedEntries); n > 0 && cluster.Event(100) {
				save(storage, file, saved{Compacted: rd.CommittedEntries[n-1].Index, Conf: conf})
			}
			node.Advance()
		}
	}
}

// send hands the messages to a server, one connection after the other. It loses some.
func send(address string, messages chan pb.Message) {
	var connection net.Conn
	var encoder *gob.Encoder
	for m := range messages {
		if cluster.Event(40) {
			continue
		}
		if connection == nil {
			var err error
			if connection, err = net.Dial("tcp", address); err != nil {
				connection = nil
				continue
			}
			encoder = gob.NewEncoder(connection)
		}
		if encoder.Encode(m) != nil {
			connection.Close()
			connection = nil
		}
	}
}

func receive(address string, recorder *trace.Etcd, node raft.Node) {
	listener, err := net.Listen("tcp", address)
	must(err)
	for {
		connection, err := listener.Accept()
		must(err)
		go func() {
			decoder := gob.NewDecoder(connection)
			for {
				var m pb.Message
				if decoder.Decode(&m) != nil {
					connection.Close()
					return
				}
				recorder.Step(m)
				node.Step(context.TODO(), m)
			}
		}()
	}
}

// propose proposes entries and, at times, a change of members.
func propose(id int, node raft.Node) {
	for n := 0; ; n++ {
		time.Sleep(time.Duration(rand.Intn(20)) * time.Millisecond)
		wait, cancel := context.WithTimeout(context.Background(), 100*time.Millisecond)
		node.Propose(wait, []byte(fmt.Sprintf("%d.%d.%d", id, os.Getpid(), n)))
		if cluster.Event(50) { // the last server becomes a voter or a learner, at once or through a joint configuration
			change := pb.ConfChangeV2{Transition: pb.ConfChangeTransitionJointExplicit}
			node.ProposeConfChange(wait, pb.ConfChangeV2{}) // leaves a joint configuration
			change.Changes = []pb.ConfChangeSingle{{Type: pb.ConfChangeAddNode, NodeID: cluster.Servers}}
			if cluster.Event(2) {
				change.Changes[0].Type = pb.ConfChangeAddLearnerNode
			}
			if cluster.Event(2) {
				change.Transition = pb.ConfChangeTransitionAuto
			}
			node.ProposeConfChange(wait, change)
		}
		cancel()
		if cluster.Event(200) {
			node.TransferLeadership(context.TODO(), uint64(id), uint64(1+rand.Intn(cluster.Servers)))
		}
	}
}
