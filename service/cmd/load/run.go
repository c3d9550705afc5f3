package main

import (
	"context"
	"errors"
	"fmt"
	"sort"
	"sync"
	"time"

	lrcmand "lrcman/service/client"
)

// patience is how long a client asks for one reply before the run fails.
const patience = time.Minute

// pause is the time before a request is made again.
const pause = 5 * time.Millisecond

// An asker makes the requests of one client. It may be asked for one request again until it is told.
type asker interface {
	// ask makes request number step at an address, and tells whether the rules refused it.
	ask(address string, step uint64) (isRefused bool, err error)
	close()
}

// A reply is when a client was told, from the begin of the run, and how long that took.
type reply struct{ at, took time.Duration }

// A client asks one request after the other, each until it is told.
type client struct {
	number  int
	asker   asker
	replies []reply
	again   int
	refused int
	err     error
}

// A report is what came of a run.
type report struct {
	Told    int     `json:"told"`
	Again   int     `json:"again"`   // requests that were made once more
	Refused int     `json:"refused"` // replies that are refusals of the rules
	Seconds float64 `json:"seconds"`
	Rate    float64 `json:"rate"` // told a second
	P50     float64 `json:"p50_ms"`
	P99     float64 `json:"p99_ms"`
	Silence float64 `json:"silence_ms"` // the longest time in which nobody was told
}

func run(o *options) (*report, error) {
	heard, err := indexOf(o)
	if err != nil {
		return nil, err
	}
	clients := make([]*client, o.clients)
	for i := range clients {
		clients[i] = &client{number: i, asker: askerOf(o, i, heard)}
	}
	begun := time.Now()
	var all sync.WaitGroup
	for _, c := range clients {
		all.Add(1)
		go func(c *client) {
			defer all.Done()
			defer c.asker.close()
			c.work(o, begun)
		}(c)
	}
	all.Wait()
	return reportOf(clients, time.Since(begun))
}

// indexOf is an index of the log that lrcmand has reached: the since of the first requests.
func indexOf(o *options) (uint64, error) {
	if o.kind == put {
		return 0, nil
	}
	asked, err := lrcmand.New(lrcmand.Config{Servers: o.addresses, Timeout: patience, Attempt: o.limit})
	if err != nil {
		return 0, err
	}
	defer asked.Close()
	return asked.Index(context.Background())
}

func askerOf(o *options, number int, heard uint64) asker {
	if o.kind == put {
		return &putter{client: number, limit: o.limit}
	}
	return &caller{kind: o.kind, client: uint64(number), books: o.books, run: o.run, limit: o.limit, heard: heard}
}

func (c *client) work(o *options, begun time.Time) {
	at := c.number
	for step := uint64(0); c.err == nil; step++ {
		if o.isOver(step, time.Since(begun)) {
			return
		}
		asked := time.Now()
		for {
			isRefused, err := c.asker.ask(o.addresses[at%len(o.addresses)], step)
			if err == nil {
				c.note(begun, asked, isRefused)
				break
			}
			var refused *refusal
			if time.Since(asked) > patience || errors.As(err, &refused) {
				c.err = fmt.Errorf("client %d, request %d is not told: %w", c.number, step, err)
				return
			}
			c.again++
			at++
			time.Sleep(pause)
		}
	}
}

// isOver tells whether a client begins no further request. A stripe that was placed is dropped first: else the next run would
// find it there.
func (o *options) isOver(step uint64, elapsed time.Duration) bool {
	isWhole := o.kind != turns || step%2 == 0
	return isWhole && (o.each > 0 && step >= o.each || o.each == 0 && elapsed >= o.time)
}

func (c *client) note(begun, asked time.Time, isRefused bool) {
	c.replies = append(c.replies, reply{time.Since(begun), time.Since(asked)})
	if isRefused {
		c.refused++
	}
}

func reportOf(clients []*client, took time.Duration) (*report, error) {
	var replies []reply
	sum := &report{Seconds: took.Seconds()}
	for _, c := range clients {
		if c.err != nil {
			return nil, c.err
		}
		replies = append(replies, c.replies...)
		sum.Again += c.again
		sum.Refused += c.refused
	}
	sum.Told, sum.Rate = len(replies), float64(len(replies))/took.Seconds()
	sum.Silence = milliseconds(silence(replies, took))
	sort.Slice(replies, func(i, j int) bool { return replies[i].took < replies[j].took })
	if len(replies) > 0 {
		sum.P50 = milliseconds(replies[len(replies)/2].took)
		sum.P99 = milliseconds(replies[len(replies)*99/100].took)
	}
	return sum, nil
}

func milliseconds(d time.Duration) float64 { return float64(d.Microseconds()) / 1000 }

// silence is the longest time in which nobody was told.
func silence(replies []reply, took time.Duration) time.Duration {
	sort.Slice(replies, func(i, j int) bool { return replies[i].at < replies[j].at })
	last, longest := time.Duration(0), time.Duration(0)
	for _, it := range append(replies[:len(replies):len(replies)], reply{at: took}) {
		if it.at-last > longest {
			longest = it.at - last
		}
		last = it.at
	}
	return longest
}
