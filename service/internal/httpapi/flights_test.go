package httpapi

import (
	"context"
	"errors"
	"fmt"
	"net/http"
	"net/http/httptest"
	"strings"
	"sync"
	"sync/atomic"
	"testing"
	"time"

	"lrcman/service/internal/state"
)

// taker takes looks at flights with one slot, in goroutines of their own.
type taker struct {
	*testing.T
	flights *flights
	held    chan struct{} // closed: the look that has the slot ends
	all     sync.WaitGroup
}

// newTaker begins with a look that has the only slot until it is told to end.
func newTaker(t *testing.T) *taker {
	f := newFlights()
	f.slots = make(chan struct{}, 1)
	taker := &taker{T: t, flights: f, held: make(chan struct{})}
	begun := make(chan struct{})
	taker.take(context.Background(), "first", func() (sight, error) { close(begun); <-taker.held; return sight{}, nil }, nil)
	<-begun
	return taker
}

func (t *taker) take(ctx context.Context, what string, look func() (sight, error), then func(sight, error)) {
	t.all.Add(1)
	go func() {
		defer t.all.Done()
		found, err := t.flights.take(ctx, what, look)
		if then != nil {
			then(found, err)
		}
	}()
}

// waitFor returns when so many clients wait for a look that has not begun.
func (t *taker) waitFor(what string, clients int) {
	t.Helper()
	for end := time.Now().Add(20 * time.Second); ; time.Sleep(time.Millisecond) {
		t.flights.mu.Lock()
		f, count := t.flights.next[what], 0
		if f != nil {
			count = f.waiting
		}
		t.flights.mu.Unlock()
		if count == clients {
			return
		}
		if time.Now().After(end) {
			t.Fatalf("%d clients wait for %s, and not %d", count, what, clients)
		}
	}
}

func TestOneLookServesAllWhoAskBeforeItBegins(t *testing.T) {
	taker := newTaker(t)
	var looks, told int32
	look := func() (sight, error) { return sight{at: state.Position{Made: uint64(atomic.AddInt32(&looks, 1))}}, nil }
	for i := 0; i < 20; i++ {
		taker.take(context.Background(), "same", look, func(found sight, err error) {
			if err != nil || found.at.Made != 1 {
				t.Errorf("%+v, %v", found, err)
			}
			atomic.AddInt32(&told, 1)
		})
	}
	taker.waitFor("same", 20)
	close(taker.held)
	taker.all.Wait()
	if looks != 1 || told != 20 {
		t.Errorf("%d looks, of which %d clients were told", looks, told)
	}
}

// What is under way may have seen the book before a client asked: it is not that client's look.
func TestALookThatHasBegunIsNotJoined(t *testing.T) {
	taker := newTaker(t)
	found := make(chan sight, 1)
	look := func() (sight, error) { return sight{text: []byte("second")}, nil }
	taker.take(context.Background(), "first", look, func(it sight, _ error) { found <- it })
	taker.waitFor("first", 1)
	close(taker.held)
	if it := <-found; string(it.text) != "second" {
		t.Errorf("found %q", it.text)
	}
	taker.all.Wait()
}

func TestLooksAreTakenInTheirOrderAndSoManyAtOnce(t *testing.T) {
	taker := newTaker(t)
	var order []string
	now, most := int32(0), int32(0)
	for _, what := range []string{"a", "b", "c", "d"} {
		what := what
		taker.take(context.Background(), what, func() (sight, error) {
			if count := atomic.AddInt32(&now, 1); count > most {
				most = count
			}
			order = append(order, what)
			time.Sleep(time.Millisecond)
			atomic.AddInt32(&now, -1)
			return sight{}, nil
		}, nil)
		taker.waitFor(what, 1)
		time.Sleep(5 * time.Millisecond) // (until its goroutine stands at the slots)
	}
	close(taker.held)
	taker.all.Wait()
	if strings.Join(order, "") != "abcd" || most != 1 {
		t.Errorf("taken in the order %v, %d at once", order, most)
	}
}

func TestALookThatWaitsTooLongIsToldBusy(t *testing.T) {
	taker := newTaker(t)
	ctx, cancel := context.WithCancel(context.Background())
	var looks int32
	told := make(chan error, 1)
	look := func() (sight, error) { atomic.AddInt32(&looks, 1); return sight{}, nil }
	taker.take(ctx, "late", look, func(_ sight, err error) { told <- err })
	taker.waitFor("late", 1)
	cancel()
	fail := failureOf(<-told)
	if fail.Status != http.StatusServiceUnavailable || fail.Code != "busy" {
		t.Errorf("%+v", fail)
	}
	taker.waitFor("late", 0)
	close(taker.held)
	taker.take(context.Background(), "next", look, nil)
	taker.all.Wait()
	if looks != 1 {
		t.Errorf("%d looks, and one of them nobody waited for", looks)
	}
}

// A fault of a look is one of the requests that asked for it: the process goes on.
func TestAFaultOfALookIsThatOfItsRequests(t *testing.T) {
	f := newFlights()
	defer func() {
		if fault := fmt.Sprint(recover()); !strings.Contains(fault, "a fault") {
			t.Error(fault)
		}
		if _, err := f.take(context.Background(), "x", func() (sight, error) { return sight{}, errors.New("told") }); err == nil {
			t.Error("no error is told")
		}
	}()
	f.take(context.Background(), "x", func() (sight, error) { panic("a fault") })
}

// Looks at whole books wait for each other, and nothing else waits for them.
func TestSmallLooksAndCallsDoNotWaitForLongOnes(t *testing.T) {
	s := newService(t, func(with *setup) { with.Config.Timeout = time.Second })
	all := s.api.flights
	for i := 0; i < cap(all.slots); i++ {
		all.slots <- struct{}{}
	}
	for _, path := range []string{"/books/p0/image", "/books/p0/show/stripes", "/books/p0/may-stop?node=1", "/books/p0?now=1"} {
		answer, text := s.ask("GET", path, "")
		if answer.StatusCode != 503 || answer.Header.Get("Retry-After") == "" || !strings.Contains(text, `"busy"`) {
			t.Errorf("%s: %d %s", path, answer.StatusCode, text)
		}
	}
	for _, path := range []string{"/books/p0/nodes?now=1", "/books", "/status", "/health", "/books/p0/log", "/books/p0/workers",
		"/books/p0/peek?command=tick"} {
		if answer, text := s.ask("GET", path, ""); answer.StatusCode != 200 {
			t.Errorf("%s: %d %s", path, answer.StatusCode, text)
		}
	}
	if answer, text := s.ask("POST", "/books/p0/call", `{"command":"tick"}`); answer.StatusCode != 200 {
		t.Errorf("%d %s", answer.StatusCode, text)
	}
	<-all.slots
	if answer, text := s.ask("GET", "/books/p0/image", ""); answer.StatusCode != 200 {
		t.Errorf("%d %s", answer.StatusCode, text)
	}
}

// A call waits until a book was seen, and not until what was seen is written.
func TestATableIsWrittenBesideCalls(t *testing.T) {
	s := newService(t, nil)
	l := &looks{s.state, s.api.cfg.Replica, s.api.flights}
	r := httptest.NewRequest("GET", "/books/p0/show/stripes", nil)
	q := &request{w: httptest.NewRecorder(), r: r, ctx: r.Context(), api: s.api, names: map[string]string{"book": "p0"}}
	writes, called, done := make(chan struct{}), make(chan struct{}), make(chan struct{})
	go func() {
		defer close(done)
		l.lookLong(q, func(*state.View, *sight) (func() ([]byte, error), error) {
			return func() ([]byte, error) { close(writes); <-called; return nil, nil }, nil
		})
	}()
	<-writes
	if answer, text := s.ask("POST", "/books/p0/call", `{"command":"tick"}`); answer.StatusCode != 200 {
		t.Errorf("%d %s", answer.StatusCode, text)
	}
	close(called)
	<-done
}
