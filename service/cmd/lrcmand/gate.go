package main

import (
	"encoding/json"
	"net/http"
	"strconv"
	"sync/atomic"
	"time"
)

// A gate answers clients itself while the member starts or ends, and lets them through between. Nothing is made of what it refuses.
type gate struct {
	shut     atomic.Pointer[reason] // nil: it is open
	underWay int64                  // atomic: requests that were let through and are not answered yet
}

// A reason says why no request is let through.
type reason struct {
	code  string // of the error
	word  string // of /readyz
	words string
}

var (
	starts = &reason{"starting", "starts", "this member starts: it reads its log"}
	ends   = &reason{"ended", "ends", "this member ends"}
)

// before is the gate before a handler.
func (g *gate) before(next http.Handler) http.Handler {
	return http.HandlerFunc(func(w http.ResponseWriter, r *http.Request) { g.answer(w, r, next) })
}

// answer answers a request. Whoever asks whether the process lives is told so.
func (g *gate) answer(w http.ResponseWriter, r *http.Request, next http.Handler) {
	atomic.AddInt64(&g.underWay, 1) // (before it looks: so quiet does not miss one that was let through)
	defer atomic.AddInt64(&g.underWay, -1)
	why := g.shut.Load()
	switch {
	case why == nil:
		next.ServeHTTP(w, r)
	case r.URL.Path == "/livez":
		say(w, http.StatusOK, map[string]bool{"ok": true})
	default:
		why.refuse(w, r)
	}
}

// A refusal is the answer to a request that is not let through.
type refusal struct {
	Status  int               `json:"status"`
	Words   string            `json:"error"`
	Code    string            `json:"code"`
	Reasons map[string]string `json:"reasons,omitempty"`
}

func (why *reason) refuse(w http.ResponseWriter, r *http.Request) {
	answer := refusal{Status: http.StatusServiceUnavailable, Words: why.words, Code: why.code}
	if r.URL.Path == "/readyz" {
		answer.Reasons = map[string]string{why.word: why.words}
	}
	w.Header().Set("Connection", "close")
	w.Header().Set("Retry-After", "1")
	say(w, answer.Status, answer)
}

// say writes an answer of one object, on one line.
func say(w http.ResponseWriter, status int, value interface{}) {
	text, err := json.Marshal(value)
	if err != nil { // (numbers and texts alone: never an error)
		text = nil
	}
	text = append(text, '\n')
	header := w.Header()
	header.Set("Content-Type", "application/json")
	header.Set("Content-Length", strconv.Itoa(len(text)))
	header.Set("X-Content-Type-Options", "nosniff")
	header.Set("Cache-Control", "no-store")
	w.WriteHeader(status)
	w.Write(text) // (the client may be gone)
}

// quiet waits until all requests that were let through are answered, or time is up.
func (g *gate) quiet(limit time.Duration) {
	for end := time.Now().Add(limit); atomic.LoadInt64(&g.underWay) > 0 && time.Now().Before(end); {
		time.Sleep(2 * time.Millisecond)
	}
}
