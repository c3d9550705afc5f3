package state

import (
	"sync"
	"sync/atomic"
	"testing"
	"time"
)

// A call waits for one look at most, however many there are.
func TestACallWaitsForOneLookAtMost(t *testing.T) {
	p := newPlayer(t)
	const lookers = 32
	var looks int32
	var stop int32
	var wait sync.WaitGroup
	for i := 0; i < lookers; i++ {
		wait.Add(1)
		go func() {
			defer wait.Done()
			for atomic.LoadInt32(&stop) == 0 {
				err := p.s.Look("p0", func(*View) error {
					atomic.AddInt32(&looks, 1)
					time.Sleep(2 * time.Millisecond)
					return nil
				})
				if err != nil {
					t.Error(err)
				}
			}
		}()
	}
	for atomic.LoadInt32(&looks) < lookers {
		time.Sleep(time.Millisecond)
	}
	waited := int32(0)
	for i := uint64(1); i <= 50; i++ {
		before := atomic.LoadInt32(&looks)
		answers := p.items(call(t, "tick"), call(t, "tick"), call(t, "tick")) // (no look comes between items of an entry)
		if answers[2].Made != 3*i {
			t.Error(answers)
		}
		waited += atomic.LoadInt32(&looks) - before
	}
	if waited > 50*4 { // (some begin between the count and the entry, and where this goroutine is not run)
		t.Errorf("50 entries waited for %d looks", waited)
	}
	atomic.StoreInt32(&stop, 1)
	wait.Wait()
}

// Looks come in turn with entries: they do not wait until there are none.
func TestALookWaitsForOneEntryAtMost(t *testing.T) {
	p := newPlayer(t)
	var entries int32
	stop, done := make(chan struct{}), make(chan struct{})
	go func() {
		defer close(done)
		for {
			select {
			case <-stop:
				return
			default:
				p.call("tick")
				atomic.AddInt32(&entries, 1)
			}
		}
	}()
	waited := int32(0)
	for i := 0; i < 200; i++ {
		before := atomic.LoadInt32(&entries)
		if err := p.s.Look("p0", func(*View) error { waited += atomic.LoadInt32(&entries) - before; return nil }); err != nil {
			t.Error(err)
		}
	}
	if waited > 200*100 {
		t.Errorf("200 looks waited for %d entries", waited)
	}
	close(stop)
	<-done
}

// A look at one book holds up none of the others, nor the list of them.
func TestALookHoldsUpNoOtherBook(t *testing.T) {
	p := newPlayer(t)
	p.item(&Item{Action: Create, Book: "p1", Nodes: twenty})
	looks, called, done := make(chan struct{}), make(chan struct{}), make(chan error)
	go func() { done <- p.s.Look("p0", func(*View) error { close(looks); <-called; return nil }) }()
	<-looks
	go func() {
		defer close(called)
		p.item(&Item{Action: Call, Book: "p1", Session: 1, Command: call(t, "tick").Command})
		p.s.Names()
	}()
	select {
	case <-called:
	case <-time.After(20 * time.Second):
		t.Fatal("a call of another book waits for a look")
	}
	if err := <-done; err != nil {
		t.Error(err)
	}
}
