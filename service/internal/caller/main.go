// Command caller makes calls of a book by the client of this service, from several goroutines at once, until standard input ends
// or so many are made. It prints a line of JSON for each: the command, and what its caller was told in the end.
package main

import (
	"bufio"
	"context"
	"encoding/json"
	"errors"
	"flag"
	"fmt"
	"io"
	"os"
	"strings"
	"sync"
	"sync/atomic"
	"time"

	"lrcman/service/client"
)

// A caller makes calls. No two of them have the same command, but for ticks.
type caller struct {
	client *client.Client
	book   string
	first  uint64 // the number of the first call
	most   uint64 // so many calls; 0: any number
	isTick bool
	made   uint64
	isOver int32
	mu     sync.Mutex
	out    *bufio.Writer
}

// A told is what came of a call.
type told struct {
	Command client.Command `json:"command"`
	Outcome string         `json:"outcome"` // told, forgotten, or nothing made
	N       uint64         `json:"n"`
	Again   bool           `json:"again"` // a try before the one that was told had made it
	Error   string         `json:"error,omitempty"`
}

func (c *caller) command(number uint64) client.Command {
	if c.isTick {
		return "tick"
	}
	return client.Commandf("done %d 3 %d", number%4096, uint32(c.first+number))
}

func (c *caller) work() {
	for atomic.LoadInt32(&c.isOver) == 0 {
		number := atomic.AddUint64(&c.made, 1)
		if c.most > 0 && number > c.most {
			return
		}
		c.say(c.call(c.command(number)))
	}
}

// call makes a call, and asks again by its key until it is told.
func (c *caller) call(command client.Command) told {
	found, options := told{Command: command, Outcome: "told"}, []client.Option(nil)
	for {
		reply, err := c.client.Call(context.Background(), c.book, command, options...)
		var unknown *client.OutcomeUnknown
		var forgotten *client.KeyForgotten
		switch {
		case err == nil:
			found.N, found.Again = reply.N, reply.Again
			return found
		case errors.As(err, &forgotten):
			found.Outcome, found.Error = "forgotten", err.Error()
			return found
		case !errors.As(err, &unknown):
			found.Outcome, found.Error = "nothing made", err.Error()
			return found
		}
		options = []client.Option{client.WithKey(unknown.Key, unknown.Since)}
	}
}

func (c *caller) say(it told) {
	text, _ := json.Marshal(it) // (a struct without fault)
	c.mu.Lock()
	defer c.mu.Unlock()
	c.out.Write(append(text, '\n'))
}

func main() {
	servers := flag.String("servers", "", "HOST:PORT,.. of members")
	goroutines := flag.Int("callers", 8, "callers at once")
	c := &caller{out: bufio.NewWriter(os.Stdout)}
	flag.StringVar(&c.book, "book", "p0", "the book")
	flag.Uint64Var(&c.first, "first", 0, "the number of the first call")
	flag.Uint64Var(&c.most, "calls", 0, "calls; 0: until standard input ends")
	flag.BoolVar(&c.isTick, "ticks", false, "all calls are ticks")
	attempt := flag.Duration("attempt", time.Second, "how long a member may take to answer")
	flag.Parse()
	var err error
	c.client, err = client.New(client.Config{Servers: strings.Split(*servers, ","), Attempt: *attempt, Pause: 20 * time.Millisecond})
	if err != nil {
		fmt.Fprintln(os.Stderr, "caller:", err)
		os.Exit(2)
	}
	go func() {
		_, _ = io.Copy(io.Discard, os.Stdin)
		if c.most == 0 {
			atomic.StoreInt32(&c.isOver, 1)
		}
	}()
	var all sync.WaitGroup
	for i := 0; i < *goroutines; i++ {
		all.Add(1)
		go func() {
			defer all.Done()
			c.work()
		}()
	}
	all.Wait()
	if err := c.out.Flush(); err != nil {
		os.Exit(1)
	}
}
