package httpapi

import (
	"errors"
	"net/http"
	"runtime/debug"
	"time"
)

// A Served tells of a request that was answered.
type Served struct {
	Label  string // the pattern of its route, or Other
	Book   string // the name of a book in its path, or ""
	Timing Timing
	Status int
	Took   time.Duration
}

// noted notes the status with which an answer begins.
type noted struct {
	http.ResponseWriter
	status   int
	hasBegun bool // before a fault
}

func (n *noted) WriteHeader(status int) {
	if n.status == 0 {
		n.status = status
	}
	n.ResponseWriter.WriteHeader(status)
}

func (n *noted) Write(text []byte) (int, error) {
	if n.status == 0 {
		n.status = http.StatusOK
	}
	return n.ResponseWriter.Write(text)
}

// A streamer is an answer that can be sent bit by bit.
type streamer struct {
	*noted
	http.Flusher
}

// serve answers one request.
func (a *API) serve(w http.ResponseWriter, r *http.Request, isWatch bool) {
	if q := a.answerAndTell(w, r, isWatch); q != nil {
		q.leaveBody()
	}
}

// answerAndTell answers a request, and tells the observer and the audit of it. It returns nil if the service has a fault.
func (a *API) answerAndTell(w http.ResponseWriter, r *http.Request, isWatch bool) (q *request) {
	answer, begin := &noted{ResponseWriter: w}, time.Now()
	to := a.find(r, isWatch)
	if r.URL.RawQuery != "" && r.URL.Query().Get("follow") == "1" {
		to.timing = NotTimed
	}
	defer func() {
		fault := recover()
		if fault != nil {
			a.noteFault(answer, to, fault)
		} else if answer.status == 0 {
			answer.status = http.StatusOK
		}
		if a.cfg.Observe != nil {
			a.cfg.Observe(Served{to.label, to.names["book"], to.timing, answer.status, time.Since(begin)})
		}
		if fault != nil && (answer.hasBegun || fault == http.ErrAbortHandler) {
			panic(http.ErrAbortHandler) // (the connection is closed without a further line)
		}
	}()
	q = a.answerIn(answerOf(w, answer), r, to, isWatch)
	a.audit.note(q, answer.status, w.Header().Get("Lrcmand-Index"))
	return q
}

// answerOf is an answer that can be sent bit by bit, if that it is of can be.
func answerOf(w http.ResponseWriter, answer *noted) http.ResponseWriter {
	if flusher, ok := w.(http.Flusher); ok {
		return streamer{answer, flusher}
	}
	return answer
}

// noteFault logs what a handler panicked with, and answers if there is no answer yet.
func (a *API) noteFault(answer *noted, to target, fault interface{}) {
	if fault == http.ErrAbortHandler {
		answer.status = http.StatusInternalServerError
		return
	}
	a.cfg.Log.Error("a request met a fault", "route", to.label, "fault", fault, "stack", string(debug.Stack()))
	answer.hasBegun = answer.status != 0
	if !answer.hasBegun {
		answer.Header().Set("Connection", "close")
		q := &request{w: answer, api: a, r: &http.Request{}}
		q.fail(failureOf(errors.New("the service has a fault, which its log tells")))
	}
	answer.status = http.StatusInternalServerError
}

// safeHeaders are made once, since each answer has them. Nobody changes such a value in its place: Set puts another one there.
var safeHeaders = []struct {
	name   string
	values []string
}{
	{"X-Content-Type-Options", []string{"nosniff"}},
	{"Referrer-Policy", []string{"no-referrer"}},
	{"X-Frame-Options", []string{"DENY"}},
	{"Content-Security-Policy", []string{"default-src 'none'; frame-ancestors 'none'"}},
	{"Cache-Control", []string{"no-store"}},
}

// setSafeHeaders keeps browsers from taking an answer for anything else than it is. (The page has a policy of its own)
func setSafeHeaders(header http.Header) {
	for _, it := range safeHeaders {
		header[it.name] = it.values
	}
}
