// Three processes of hashicorp's raft on loopback, which are killed and restarted. Each records what it does.
package main

import (
	"bytes"
	"encoding/gob"
	"fmt"
	"io"
	"math/rand"
	"os"
	"path/filepath"
	"time"

	"github.com/hashicorp/go-hclog"
	"github.com/hashicorp/raft"

	"trace"
	"trace/cluster"
)

// A write to the disk: logs, a range to delete, or a value.
type write struct {
	Logs       []*raft.Log
	From, To   uint64
	Key, Value []byte
	Number     uint64
}

// disk is a store of logs and of values that keeps each write in a file.
type disk struct {
	*raft.InmemStore
	file *cluster.File
}

func open(path string) *disk {
	d := &disk{InmemStore: raft.NewInmemStore()}
	d.file = cluster.OpenFile(path, func(record []byte) {
		var w write
		must(gob.NewDecoder(bytes.NewReader(record)).Decode(&w))
		must(d.do(w))
	})
	return d
}

func (d *disk) do(w write) error {
	switch {
	case len(w.Logs) > 0:
		return d.InmemStore.StoreLogs(w.Logs)
	case w.To > 0:
		return d.InmemStore.DeleteRange(w.From, w.To)
	case w.Value != nil:
		return d.InmemStore.Set(w.Key, w.Value)
	}
	return d.InmemStore.SetUint64(w.Key, w.Number)
}

func (d *disk) save(w write) error {
	var record bytes.Buffer
	must(gob.NewEncoder(&record).Encode(w))
	d.file.Append(record.Bytes())
	return d.do(w)
}

func (d *disk) StoreLog(log *raft.Log) error          { return d.StoreLogs([]*raft.Log{log}) }
func (d *disk) StoreLogs(logs []*raft.Log) error      { return d.save(write{Logs: logs}) }
func (d *disk) DeleteRange(from, to uint64) error     { return d.save(write{From: from, To: to}) }
func (d *disk) Set(key, value []byte) error           { return d.save(write{Key: key, Value: value}) }
func (d *disk) SetUint64(key []byte, is uint64) error { return d.save(write{Key: key, Number: is}) }

// machine writes what is applied into a file. Its snapshots have nothing.
type machine struct{ file *os.File }

func (m machine) Apply(log *raft.Log) any {
	fmt.Fprintf(m.file, "%d %d:%s\n", log.Index, log.Term, log.Data)
	return nil
}
func (m machine) Snapshot() (raft.FSMSnapshot, error)  { return m, nil }
func (m machine) Restore(from io.ReadCloser) error     { return from.Close() }
func (m machine) Persist(sink raft.SnapshotSink) error { return sink.Close() }
func (m machine) Release()                             {}

func must(err error) {
	if err != nil {
		panic(err)
	}
}

func main() {
	cluster.Main(serve)
}

func serve(id int, addresses []string, folder string) {
	path := filepath.Join(folder, fmt.Sprint(id))
	config := raft.DefaultConfig()
	config.LocalID = raft.ServerID(addresses[id-1])
	config.HeartbeatTimeout, config.ElectionTimeout = 100*time.Millisecond, 100*time.Millisecond
	config.LeaderLeaseTimeout, config.CommitTimeout = 50*time.Millisecond, 5*time.Millisecond
	config.SnapshotThreshold, config.SnapshotInterval, config.TrailingLogs = 100, 500*time.Millisecond, 20
	config.MaxAppendEntries = 4
	config.Logger = hclog.New(&hclog.LoggerOptions{Output: io.Discard})
	members, voters := raft.Configuration{}, []raft.ServerAddress{}
	for _, address := range addresses {
		voters = append(voters, raft.ServerAddress(address))
		members.Servers = append(members.Servers, raft.Server{ID: raft.ServerID(address), Address: raft.ServerAddress(address)})
	}
	store := open(path + ".disk")
	snapshots, err := raft.NewFileSnapshotStore(path+".snapshots", 2, io.Discard)
	must(err)
	transport, err := raft.NewTCPTransport(addresses[id-1], nil, 3, time.Second, io.Discard)
	must(err)
	known, err := raft.HasExistingState(store, store, snapshots)
	must(err)
	if !known {
		must(raft.BootstrapCluster(config, store, store, snapshots, transport, members))
	}
	file, err := os.OpenFile(path+".applied", os.O_CREATE|os.O_WRONLY|os.O_APPEND, 0o644)
	must(err)
	recorder := trace.NewHashicorp(path+".jsonl", voters, store, store, snapshots, transport, machine{file})
	server, err := raft.NewRaft(config, recorder, recorder, recorder, recorder, recorder)
	must(err)
	recorder.Started(server)
	for n := 0; ; n++ {
		time.Sleep(time.Duration(rand.Intn(10)) * time.Millisecond)
		server.Apply([]byte(fmt.Sprintf("%d.%d.%d", id, os.Getpid(), n)), 0)
		if last := members.Servers[cluster.Servers-1]; cluster.Event(100) && server.Barrier(time.Second).Error() == nil {
			if cluster.Event(2) {
				server.AddVoter(last.ID, last.Address, 0, 0).Error()
			} else {
				server.DemoteVoter(last.ID, 0, 0).Error()
			}
		} else if cluster.Event(400) {
			server.LeadershipTransfer()
		}
	}
}
