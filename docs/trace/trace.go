// Package trace writes the events of a process into a file.
package trace

import (
	"encoding/json"
	"os"
	"sync"
)

var (
	lock sync.Mutex
	file *os.File
)

// Open opens the file of the process, to append to it. It is called once, before the first event.
func Open(path string) (err error) {
	file, err = os.OpenFile(path, os.O_APPEND|os.O_CREATE|os.O_WRONLY, 0o644)
	return err
}

// Event writes the line of an event. The operating system has the line when Event returns.
func Event(fields map[string]any) {
	line, err := json.Marshal(fields)
	must(err)
	lock.Lock()
	defer lock.Unlock()
	_, err = file.Write(append(line, '\n'))
	must(err)
}

// must ends the process, because a record that lacks a line says little.
func must(err error) {
	if err != nil {
		panic(err)
	}
}
