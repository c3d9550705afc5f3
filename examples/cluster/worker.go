package main

import (
	"fmt"
	"time"

	"lrcman/service/client"
)

const (
	pauseOfWorker = 100 * time.Millisecond // while there is nothing to do
	mostReports   = 100                    // while the target is offline
)

// A worker takes leases, brings the bytes of their fragments onto their targets, and reports.
type worker struct {
	name   string
	book   *Book
	nodes  *Nodes
	wanted choice
}

// A result is what became of a lease.
type result struct {
	isDone bool
	words  string
	reads  int // fragments
}

// repair does the work of a lease. Fragments that are named as missing are not read: so a damaged one is rebuilt and not moved.
func (w *worker) repair(lease *client.Grant, missing []int) (result, error) {
	name, target := Name{int(lease.Stripe), int(lease.Fragment), lease.Epoch}, int(lease.Target.Node)
	placed, err := w.book.Stripe(name.Stripe)
	if err != nil {
		return result{}, err
	}
	data, reads, err := rebuild(w.book, w.nodes, name.Stripe, name.Fragment, missing)
	if err == nil {
		err = w.nodes.Write(target, name, data)
	}
	switch {
	case err == errFenced: // a later lease was granted, and its worker has written
		return result{words: err.Error()}, nil
	case isUndetermined(err): // the lease is kept until ticks end it, so that this worker goes on with others meanwhile
		return result{words: err.Error()}, nil
	case err != nil: // the target does not answer
		reply, abandoned := w.book.Call(w.name, lease.Abandon())
		if abandoned != nil {
			return result{}, abandoned
		}
		return result{words: fmt.Sprintf("abandoned (%s): %v", reply.Line, err)}, nil
	}
	done, err := w.report(lease, name)
	if former, isThere := placed.Homes[name.Fragment]; done.isDone && isThere && former != target {
		_ = w.nodes.Delete(former, Name{name.Stripe, name.Fragment, name.Epoch - 1}) // (what is left takes room, and is never read)
	}
	done.reads = reads
	return done, err
}

// report tells the book that the fragment is on its target.
func (w *worker) report(lease *client.Grant, name Name) (result, error) {
	for try := 0; ; try++ {
		reply, err := w.book.Call(w.name, lease.Done())
		switch {
		case err != nil: // (what was written stays: nobody may know whether it was reported, and then it is at home there)
			return result{}, err
		case reply.Kind == client.Ended:
			return result{isDone: true, words: "done"}, nil
		case reply.Refusal == notHolder: // what is there under this epoch is another worker's
			return result{words: reply.Line}, nil
		case reply.Refusal == targetOffline && try < mostReports: // until it is back, or the lease ends
			time.Sleep(pauseOfWorker)
		default: // the lease has ended: what was written is nobody's
			return result{words: reply.Line}, w.nodes.Delete(int(lease.Target.Node), name)
		}
	}
}

// next asks for a lease.
func (w *worker) next() (*client.Grant, error) {
	if w.wanted.isAny() {
		return w.book.Next(w.name)
	}
	return w.book.NextOf(w.name, w.wanted)
}

// turn works on one lease, and tells whether there was one.
func (w *worker) turn() (bool, error) {
	lease, err := w.next()
	if err != nil || lease == nil {
		return false, err
	}
	return w.work(lease)
}

// work does the work of a lease, and says what became of it.
func (w *worker) work(lease *client.Grant) (bool, error) {
	done, err := w.repair(lease, nil)
	fmt.Printf("stripe %d fragment %d epoch %d %s reads %d: %s\n", lease.Stripe, lease.Fragment, lease.Epoch, lease.Repair,
		done.reads, done.words)
	return done.isDone, err
}

func runWorker(given options) error {
	book, err := newBook(given.cluster)
	if err != nil {
		return err
	}
	w := &worker{fmt.Sprintf("worker-%d", given.number), book, newNodes(given.cluster, limitOfNodes), given.wanted}
	for {
		isDone, err := w.turn()
		if err != nil {
			fmt.Println("worker:", err) // and go on: the lease ends by ticks
		}
		if !isDone {
			time.Sleep(pauseOfWorker)
		}
	}
}
