package httpapi

import (
	"context"
	"fmt"
	"net/http"
	"net/url"
	"runtime"
	"runtime/debug"
	"sync"
	"time"

	"lrcman/service/internal/state"
)

// flights are the looks that take long, those at whole books. So few are taken at once that cores are left for calls; others wait
// in the order in which they came. Looks that ask for the same share the next one of it, so each client sees what stands at the
// moment of its request or later, and 64 clients of a table cost little more than two.
type flights struct {
	slots chan struct{} // has one for each look that is being taken
	mu    sync.Mutex
	next  map[string]*flight // those that have not begun, by what they look at
}

// restTimes is how many times as long as a look took there is none in its place. What a look is answered has to be sent, and its
// book is locked for a part of it: so calls have most of the time, however many look.
const (
	restTimes = 3
	mostRest  = 100 * time.Millisecond
)

// A flight is a look that is taken once for all who ask for it before it begins.
type flight struct {
	waiting int           // clients; the lock of the flights guards it
	landed  chan struct{} // closed when it was taken
	found   sight
	err     error
	fault   string // that the look met; its clients meet it, too
}

// A sight is what a look at a whole book finds: the text of the answer, or of its rows.
type sight struct {
	at     state.Position
	now    freshness
	text   []byte
	isSafe *bool
}

// newFlights lets looks have half of the cores: calls, syncs and other members need the rest.
func newFlights() *flights {
	most := runtime.GOMAXPROCS(0) / 2
	if most < 1 {
		most = 1
	}
	return &flights{slots: make(chan struct{}, most), next: map[string]*flight{}}
}

// take returns what a look finds that begins after now. It waits for it no longer than the context lives.
func (s *flights) take(ctx context.Context, what string, look func() (sight, error)) (sight, error) {
	f := s.join(what, look)
	select {
	case <-f.landed:
		if f.fault != "" {
			panic(f.fault)
		}
		return f.found, f.err
	case <-ctx.Done():
		s.leave(f)
		return sight{}, errTooManyLooks
	}
}

var errTooManyLooks = &failure{Status: http.StatusServiceUnavailable, Code: "busy", Words: "too many looks at whole books are being taken"}

func (s *flights) join(what string, look func() (sight, error)) *flight {
	s.mu.Lock()
	defer s.mu.Unlock()
	f := s.next[what]
	if f == nil {
		f = &flight{landed: make(chan struct{})}
		s.next[what] = f
		go s.fly(what, f, look)
	}
	f.waiting++
	return f
}

func (s *flights) leave(f *flight) {
	s.mu.Lock()
	defer s.mu.Unlock()
	f.waiting--
}

// fly takes a look once there is room, if anybody still waits for it. Then its room stays empty for some times as long.
func (s *flights) fly(what string, f *flight, look func() (sight, error)) {
	s.slots <- struct{}{}
	begun := time.Now()
	defer func() { time.Sleep(restOf(time.Since(begun))); <-s.slots }()
	defer close(f.landed)
	if !s.begin(what, f) {
		return
	}
	defer func() {
		if fault := recover(); fault != nil {
			f.fault = fmt.Sprintf("%v\n%s", fault, debug.Stack())
		}
	}()
	f.found, f.err = look()
}

func restOf(took time.Duration) time.Duration {
	if rest := restTimes * took; rest < mostRest {
		return rest
	}
	return mostRest
}

// begin lets nobody else join, and tells whether anybody has.
func (s *flights) begin(what string, f *flight) bool {
	s.mu.Lock()
	defer s.mu.Unlock()
	delete(s.next, what)
	return f.waiting > 0
}

// whatOf names the look that a request asks for. Each waits for itself until this member is up to date, so that is not in it.
func whatOf(q *request) string {
	others := url.Values{}
	for name, values := range q.query {
		if name != "now" {
			others[name] = values
		}
	}
	return q.r.URL.Path + "?" + others.Encode()
}
