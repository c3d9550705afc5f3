package main

import (
	"bufio"
	"errors"
	"fmt"
	"io"
	"os"
	"strings"
	"sync"

	"lrcman/service/client"
)

const (
	nameOfMover = "mover"
	movesAtOnce = 8
)

// A mover makes the script of a round that tools/balance has planned, and moves what that leases.
type mover struct {
	worker
	drained map[string]bool // nodes, as the script names them
	leases  []*client.Grant
}

// make makes the commands of a script, from the position that its first line has. It tells whether it made all: where somebody
// else's command comes between, the plan is none any more.
func (m *mover) make(script io.Reader) (bool, error) {
	var at client.Position
	lines := bufio.NewScanner(script)
	if !lines.Scan() {
		return true, lines.Err()
	}
	if _, err := fmt.Sscanf(lines.Text(), "# at %d opens %d", &at.N, &at.Opens); err != nil {
		return false, fmt.Errorf("the script does not begin with where the book stood: %q", lines.Text())
	}
	for lines.Scan() {
		command := client.Command(lines.Text())
		reply, err := m.book.Call(m.name, command, client.WithPosition(at))
		var told *client.Error
		if errors.As(err, &told) && told.Code == client.CodeMoved {
			return false, nil
		}
		if err != nil {
			return false, err
		}
		m.note(command, reply)
		at.N = reply.N
	}
	return true, lines.Err()
}

func (m *mover) note(command client.Command, reply *client.Reply) {
	word, node, _ := strings.Cut(string(command), " ")
	switch {
	case reply.Kind == client.Granted:
		m.leases = append(m.leases, reply.Lease)
	case reply.Kind == client.Changed:
		m.drained[node] = word == "drain"
	}
}

// undrain takes back each drain of a script that was not made to its end.
func (m *mover) undrain() error {
	for node, isDrained := range m.drained {
		if isDrained {
			if err := m.book.Change(client.Command("undrain " + node)); err != nil {
				return err
			}
		}
	}
	return nil
}

// move moves what was leased, and returns the first failure.
func (m *mover) move() (failed error) {
	leases, lock, movers := make(chan *client.Grant), sync.Mutex{}, sync.WaitGroup{}
	for i := 0; i < movesAtOnce; i++ {
		movers.Add(1)
		go func() {
			defer movers.Done()
			for lease := range leases {
				if _, err := m.work(lease); err != nil {
					lock.Lock()
					failed = err
					lock.Unlock()
				}
			}
		}()
	}
	for _, lease := range m.leases {
		leases <- lease
	}
	close(leases)
	movers.Wait()
	return
}

// runMove makes the script on standard input.
func runMove(given options) error {
	book, err := newBook(given.cluster)
	if err != nil {
		return err
	}
	m := &mover{worker: worker{nameOfMover, book, newNodes(given.cluster, limitOfNodes), choice{}}, drained: map[string]bool{}}
	isMade, err := m.make(os.Stdin)
	if !isMade {
		if err == nil {
			fmt.Println("another command came between: the rest of the script is not made")
		}
		if failed := m.undrain(); err == nil {
			err = failed
		}
	}
	if failed := m.move(); err == nil {
		err = failed
	}
	return err
}
