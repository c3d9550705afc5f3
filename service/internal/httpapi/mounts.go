package httpapi

import (
	"context"
	"encoding/json"
	"net/http"
	"strings"
)

// A Mount is a route that another package answers: the page, its events, and metrics.
type Mount struct {
	Route
	Answer http.HandlerFunc
}

// route is the route of a mount, which answers.
func (m Mount) route() Route {
	route := m.Route
	route.serve = func(q *request) error {
		m.Answer(deadlineWriter{q.w, q}, q.r.WithContext(context.WithValue(q.r.Context(), callerKey{}, q.caller)))
		return nil
	}
	return route
}

// Refuse answers a request of a mount with an error.
func Refuse(w http.ResponseWriter, status int, words string) {
	RefuseFor(w, &failure{Status: status, Words: words})
}

// RefuseFor answers a request of a mount with the failure that an error is.
func RefuseFor(w http.ResponseWriter, err error) {
	fail := failureOf(err)
	text, err := json.Marshal(fail)
	if err != nil {
		text = nil // (it can't be: words alone are in it)
	}
	fail.setHeaders(w.Header())
	w.Header().Set("Content-Type", "application/json")
	w.WriteHeader(fail.Status)
	w.Write(append(text, '\n')) // (the client may be gone)
}

type callerKey struct{}

// A Scope is which books a request may be told of.
type Scope struct{ caller *caller }

// ScopeOf is that of a request that a mount answers.
func ScopeOf(r *http.Request) Scope {
	it, _ := r.Context().Value(callerKey{}).(*caller)
	if it == nil {
		it = everybody
	}
	return Scope{it}
}

// Books are those of the names that may be told of.
func (s Scope) Books(names []string) []string {
	if s.caller.books == nil {
		return names
	}
	found := []string{}
	for _, name := range names {
		if s.caller.mayBook(name) {
			found = append(found, name)
		}
	}
	return found
}

// String is alike for requests that may be told of the same books.
func (s Scope) String() string { return strings.Join(s.caller.books, ",") }

// A deadlineWriter gives the client time to take each part of an answer.
type deadlineWriter struct {
	http.ResponseWriter
	q *request
}

func (d deadlineWriter) Write(text []byte) (int, error) {
	d.q.limitWrite()
	return d.ResponseWriter.Write(text)
}

// Flush sends what was written.
func (d deadlineWriter) Flush() {
	if flusher, ok := d.ResponseWriter.(http.Flusher); ok {
		flusher.Flush()
	}
}
