package httpapi

import (
	"encoding/json"
	"fmt"
	"math"
	"net/http"
	"time"

	"lrcman/service/book"
	"lrcman/service/internal/state"
)

// ofStream is how many entries a stream writes at once.
const ofStream = 256

// keepAlive is how often a stream in which nothing comes gets an empty line.
const keepAlive = 15 * time.Second

// logs are the requests for entries of books, of which some are streams.
type logs struct {
	state   *state.State
	streams chan struct{}
	stop    <-chan struct{} // closed when streams are to end
}

func (l *logs) answer(q *request) error {
	from, err := book.ParseNumber(q.query.Get("from"), math.MaxUint64)
	if q.query.Get("from") == "" {
		from, err = 0, nil
	}
	if err != nil {
		return bad("the parameter \"from\" %v", err)
	}
	select {
	case l.streams <- struct{}{}:
		defer func() { <-l.streams }()
	default:
		return &failure{Status: http.StatusTooManyRequests, Words: fmt.Sprintf("%d streams are open already", mostStreams)}
	}
	first, err := l.entries(q.names["book"], from)
	if err != nil {
		return err
	}
	q.w.Header().Set("Content-Type", "application/x-ndjson")
	q.w.WriteHeader(http.StatusOK)
	if q.r.Method != http.MethodHead {
		l.stream(q, from, first)
	}
	return nil
}

// A part is what a stream writes next.
type part struct {
	rows           []book.Entry
	grown, removed <-chan struct{}
}

func (l *logs) entries(name string, from uint64) (next part, err error) {
	err = l.state.Look(name, func(view *state.View) (err error) {
		next.grown, next.removed = view.Grown(), view.Removed()
		next.rows, err = view.Entries(from, ofStream)
		return err
	})
	return next, err
}

// follow is the part behind another one, unless the book was removed: one of its name is another book.
func (l *logs) follow(name string, before part, from uint64) (part, error) {
	next, err := l.entries(name, from)
	select {
	case <-before.removed:
		return next, state.ErrNoBook
	default:
		return next, err
	}
}

// stream writes entries, and waits for further ones if the client follows. What goes wrong is the last line.
func (l *logs) stream(q *request, from uint64, now part) {
	for {
		text, err := linesOf(from, now.rows)
		if !q.pass(text) {
			return
		}
		from += uint64(len(now.rows))
		if err == nil && len(now.rows) == 0 && !l.wait(q, now.grown) {
			return
		}
		if err == nil {
			now, err = l.follow(q.names["book"], now, from)
		}
		if err != nil {
			text, _ := json.Marshal(failureOf(err))
			q.w.Write(append(text, '\n'))
			return
		}
	}
}

// linesOf has a line for each entry behind a place, up to the first that has none.
func linesOf(from uint64, rows []book.Entry) ([]byte, error) {
	var text []byte
	for i := range rows {
		reply, err := rows[i].Reply.JSON()
		if err != nil {
			return text, err
		}
		line, err := json.Marshal(callResponse{Made: from + uint64(i) + 1, Session: rows[i].Session, Command: rows[i].Command.String(),
			ReplyJSON: reply})
		if err != nil {
			return text, err
		}
		text = append(append(text, line...), '\n')
	}
	return text, nil
}

func (q *request) pass(text []byte) bool {
	q.limitWrite()
	_, err := q.w.Write(text)
	if flusher, ok := q.w.(http.Flusher); ok {
		flusher.Flush()
	}
	return err == nil
}

// wait returns true when an entry has come, and false when the stream is over.
func (l *logs) wait(q *request, grown <-chan struct{}) bool {
	if q.query.Get("follow") != "1" {
		return false
	}
	for {
		select {
		case <-grown:
			return true
		case <-time.After(keepAlive):
			if !q.pass([]byte("\n")) {
				return false
			}
		case <-q.r.Context().Done():
			return false
		case <-l.stop:
			return false
		}
	}
}
