package httpapi

import (
	"errors"
	"io"
	"net"
	"net/http"
	"os"
	"sync"
	"time"
)

// The room for bodies and answers, in bytes.
const (
	roomOfBodies  = 64 << 20  // for all bodies at once
	roomOfCalls   = 8 << 20   // of these for bodies that are no longer than a call, so that texts don't hold up calls
	costOfByte    = 2         // of a body: in the body, and in the entry that is made of it
	roomOfAnswers = 256 << 20 // for all answers that are being sent
	leastAnswer   = 64 << 10  // shorter ones are not counted
)

// A room is what all bodies together may take, from before they are read until their requests are answered; or all answers.
type room struct {
	mu          sync.Mutex
	most, taken int64
}

// take takes room, if there is so much left beside what is kept for others.
func (o *room) take(cost, kept int64) bool {
	o.mu.Lock()
	defer o.mu.Unlock()
	if o.taken+cost > o.most-kept {
		return false
	}
	o.taken += cost
	return true
}

func (o *room) giveBack(cost int64) {
	o.mu.Lock()
	defer o.mu.Unlock()
	o.taken -= cost
}

func (q *request) giveBack() { q.api.bodies.giveBack(q.taken) }

// connOf is the connection that a request came over; nil if it came over none, as in tests.
func connOf(r *http.Request) net.Conn {
	c, _ := r.Context().Value(connKey{}).(net.Conn)
	return c
}

// limitTimes gives the client time to take what comes next, and to send the body, whoever reads it.
func (q *request) limitTimes() {
	q.limitWrite()
	if q.conn != nil && !q.isRead {
		q.conn.SetReadDeadline(time.Now().Add(q.api.cfg.Knobs.BodyTime))
	}
}

// limitWrite gives the client time to take what comes next.
func (q *request) limitWrite() {
	if q.conn != nil {
		q.conn.SetWriteDeadline(time.Now().Add(q.api.cfg.Knobs.WriteTime))
	}
}

// body reads the body, which has to come in time.
func (q *request) body() ([]byte, error) { return q.bodyUpTo(q.most) }

func (q *request) bodyUpTo(most int64) ([]byte, error) {
	length := q.r.ContentLength
	if length < 0 {
		return nil, &failure{Status: http.StatusLengthRequired, Words: "the body has no length"}
	}
	if length > most {
		return nil, tooLarge("body has", most)
	}
	kept := int64(roomOfCalls)
	if length <= mostCall {
		kept = 0
	}
	if !q.api.bodies.take(length*costOfByte, kept) {
		return nil, &failure{Status: http.StatusServiceUnavailable, Code: "busy", Words: "too many bytes of other requests are being read"}
	}
	q.taken += length * costOfByte
	return q.read(length)
}

// read reads so many bytes. A connection may be closed for another one meanwhile.
func (q *request) read(length int64) ([]byte, error) {
	text := make([]byte, length)
	_, err := io.ReadFull(q.r.Body, text)
	if errors.Is(err, os.ErrDeadlineExceeded) {
		return nil, &failure{Status: http.StatusRequestTimeout, Words: "the body came too slowly"}
	} else if err != nil {
		return nil, bad("the body can't be read")
	}
	q.isRead = true
	q.enter(answering)
	if q.conn != nil {
		q.conn.SetReadDeadline(time.Time{}) // (what is read from now on is whether the client is still there)
	}
	return text, nil
}

func (q *request) enter(now stage) {
	if q.conn != nil {
		q.connections().enter(q.conn, now)
	}
}

func (q *request) connections() *Connections {
	if q.isWatch {
		return q.api.cfg.Watchers
	}
	return q.api.cfg.Connections
}

// leaveBody ends a connection whose request has a body that nobody read. It is answered, and then what still comes is passed over until
// the deadline of the body: a client that sends it all before it reads would else hear of a broken connection in place of its answer.
func (q *request) leaveBody() {
	if q.isRead {
		return
	}
	if flusher, ok := q.w.(http.Flusher); ok {
		flusher.Flush()
	}
	if q.r.Header.Get("Expect") == "" { // (who waits for a word before it sends has heard that there is none)
		io.CopyN(io.Discard, q.r.Body, mostImage)
	}
}
