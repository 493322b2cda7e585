// Package cluster runs three processes of a program on loopback, kills and restarts them, and compares what they have
// applied. A program whose first word is "server" is one of them.
package cluster

import (
	"bufio"
	"encoding/binary"
	"flag"
	"fmt"
	"math/rand"
	"net"
	"os"
	"os/exec"
	"path/filepath"
	"strings"
	"time"
)

// Servers is the number of processes.
const Servers = 3

// Main runs one server, or the cluster that consists of such servers. A server is told its number, the addresses of all
// of them, and the folder for what it keeps.
func Main(server func(id int, addresses []string, folder string)) {
	seed := flag.Int64("seed", 1, "decides when which server is killed")
	seconds := flag.Int("seconds", 8, "how long the cluster runs")
	folder := flag.String("folder", "", "where the servers keep their files")
	id := flag.Int("id", 0, "this process is the server with this number")
	addresses := flag.String("addresses", "", "the addresses of the servers")
	flag.Parse()
	rand.Seed(*seed*10 + int64(*id))
	if *id > 0 {
		server(*id, strings.Split(*addresses, ","), *folder)
		return
	}
	run(*folder, time.Duration(*seconds)*time.Second, *seed)
}

// Event lets something happen once in n calls.
func Event(n int) bool {
	return rand.Intn(n) == 0
}

func run(folder string, time_ time.Duration, seed int64) {
	list := make([]string, Servers)
	for i := range list {
		listener, err := net.Listen("tcp", "127.0.0.1:0")
		must(err)
		list[i] = listener.Addr().String()
		must(listener.Close())
	}
	running := make([]*exec.Cmd, Servers)
	start := func(i int) {
		words := []string{fmt.Sprint("-id=", i+1), "-addresses=" + strings.Join(list, ","), "-folder=" + folder, fmt.Sprint("-seed=", seed)}
		running[i] = exec.Command(os.Args[0], words...)
		running[i].Stderr = os.Stderr
		must(running[i].Start())
	}
	kill := func(i int) {
		must(running[i].Process.Kill())
		running[i].Wait()
	}
	for i := range running {
		start(i)
	}
	kills := 0
	for end := time.Now().Add(time_); time.Now().Before(end); kills++ {
		time.Sleep(time.Duration(100+rand.Intn(900)) * time.Millisecond)
		i := rand.Intn(Servers)
		kill(i)
		time.Sleep(time.Duration(rand.Intn(300)) * time.Millisecond)
		start(i)
	}
	for i := range running {
		kill(i)
	}
	compare(folder, kills)
}

// compare reads what each server says that it has applied: an index and an entry a line.
func compare(folder string, kills int) {
	applied, of := map[string]string{}, map[string]string{}
	files, err := filepath.Glob(filepath.Join(folder, "*.applied"))
	must(err)
	for _, name := range files {
		file, err := os.Open(name)
		must(err)
		for lines := bufio.NewScanner(file); lines.Scan(); {
			index, entry, whole := strings.Cut(lines.Text(), " ")
			if was, known := applied[index]; whole && known && was != entry {
				fmt.Printf("differ: %s has applied %s at index %s, %s has applied %s\n", name, entry, index, of[index], was)
				os.Exit(1)
			} else if whole {
				applied[index], of[index] = entry, name
			}
		}
	}
	fmt.Printf("agree: %d entries applied, %d servers killed\n", len(applied), kills)
}

// File is a file of records, to which a process appends.
type File struct{ file *os.File }

// OpenFile hands over the records of a file, and removes one at its end that was not written whole.
func OpenFile(path string, take func(record []byte)) *File {
	all, err := os.ReadFile(path)
	if err != nil && !os.IsNotExist(err) {
		panic(err)
	}
	whole := 0
	for len(all)-whole >= 8 {
		size := int(binary.BigEndian.Uint64(all[whole:]))
		if len(all)-whole-8 < size {
			break
		}
		take(all[whole+8 : whole+8+size])
		whole += 8 + size
	}
	file, err := os.OpenFile(path, os.O_CREATE|os.O_WRONLY|os.O_APPEND, 0o644)
	must(err)
	must(file.Truncate(int64(whole)))
	return &File{file}
}

// Append writes a record. It survives the death of the process.
func (f *File) Append(record []byte) {
	size := make([]byte, 8)
	binary.BigEndian.PutUint64(size, uint64(len(record)))
	_, err := f.file.Write(append(size, record...))
	must(err)
}

func must(err error) {
	if err != nil {
		panic(err)
	}
}
