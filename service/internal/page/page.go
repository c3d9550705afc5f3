// Package page has what people look at: one page, and the events that it shows.
//
// The page is a file without requests to elsewhere. Events are server-sent: a JSON object when something has changed, at most
// one each second.
package page

import (
	"bytes"
	"crypto/sha256"
	_ "embed" // for the page
	"encoding/base64"
	"encoding/json"
	"fmt"
	"net/http"
	"sort"
	"strconv"
	"strings"
	"sync"
	"time"

	"lrcman/service/internal/engine"
	"lrcman/service/internal/httpapi"
	"lrcman/service/internal/survey"
)

//go:embed page.html
var page []byte

// What an event has at most.
const (
	mostRows    = 200 // of stripes at risk, and of leases
	mostStreams = 64
)

// How often an event is made, and a line sent where none was.
const (
	each = time.Second
	beat = 15 * time.Second
)

// Sources are what events are made of.
type Sources struct {
	Watcher *survey.Watcher
	Status  func() engine.Status
	Done    <-chan struct{} // closed when streams are to end
}

// A Page is what people look at.
type Page struct {
	Sources
	streams chan struct{}
	mu      sync.Mutex
	cached  map[string]*cachedEvent
}

// A cachedEvent is the last event of a book, which all its streams share.
type cachedEvent struct {
	mu   sync.Mutex
	made time.Time
	text []byte
}

// New makes a page.
func New(from Sources) *Page {
	return &Page{Sources: from, streams: make(chan struct{}, mostStreams), cached: map[string]*cachedEvent{}}
}

// Mounts are where the page and its events are.
func (p *Page) Mounts() []httpapi.Mount {
	return []httpapi.Mount{
		{Route: httpapi.Route{Method: "GET", Pattern: "/", Role: httpapi.Nobody, Query: "book"}, Answer: p.Page},
		{Route: httpapi.Route{Method: "GET", Pattern: "/events", Role: httpapi.Look, Query: "book", Timing: httpapi.NotTimed}, Answer: p.Events},
	}
}

// policy lets the page load nothing but what stands in it, and ask nobody but this server.
var policy = fmt.Sprintf("default-src 'none'; script-src '%s'; style-src '%s'; connect-src 'self'; img-src data:; base-uri 'none'; "+
	"form-action 'none'; frame-ancestors 'none'", sumOf("script"), sumOf("style"))

// sumOf is the checksum of what stands in an element of the page.
func sumOf(element string) string {
	_, text, _ := bytes.Cut(page, []byte("<"+element+">"))
	text, _, _ = bytes.Cut(text, []byte("</"+element+">"))
	sum := sha256.Sum256(text)
	return "sha256-" + base64.StdEncoding.EncodeToString(sum[:])
}

// Page answers with the page. It tells nothing of the store, so it needs no role.
func (p *Page) Page(w http.ResponseWriter, r *http.Request) {
	if r.Method != http.MethodGet && r.Method != http.MethodHead {
		w.Header().Set("Allow", "GET, HEAD")
		httpapi.Refuse(w, http.StatusMethodNotAllowed, "the page can only be read")
		return
	}
	head := w.Header()
	head.Set("Content-Type", "text/html; charset=utf-8")
	head.Set("Content-Security-Policy", policy)
	head.Set("Cache-Control", "no-cache")
	head.Set("Content-Length", strconv.Itoa(len(page)))
	if r.Method == http.MethodGet {
		w.Write(page) // (the client may be gone)
	}
}

// A Member is how this member sees its group.
type Member struct {
	ID      uint64          `json:"id"`
	Leader  uint64          `json:"leader"`
	Term    uint64          `json:"term"`
	Commit  uint64          `json:"commit"`
	Applied uint64          `json:"applied"`
	Members []engine.Member `json:"members"`
}

// An Event is what the page shows. Without a book only the first two fields are there.
type Event struct {
	Member Member   `json:"member"`
	Books  []string `json:"books"`
	*BookEvent
}

// A BookEvent is what an event tells of a book.
type BookEvent struct {
	*survey.Report
	Health     *survey.Health   `json:"health"`
	Capacity   *survey.Capacity `json:"capacity"`
	Risks      []survey.Risk    `json:"risks"`
	RisksMore  int              `json:"risks_more"`
	Leases     []survey.Lease   `json:"leases"`
	LeasesMore int              `json:"leases_more"`
	Rates      survey.Rates     `json:"rates"`
	Last       []survey.Line    `json:"last"`
}

func (p *Page) event(name string, scope httpapi.Scope) ([]byte, error) {
	status := p.Status()
	event := Event{Books: scope.Books(p.Watcher.Names()), Member: Member{status.ID, status.Leader, status.Term, status.Commit, status.Applied,
		append([]engine.Member{}, status.Members...)}}
	if name != "" {
		report, err := p.Watcher.Report(name)
		if err != nil {
			return nil, err
		}
		event.BookEvent = p.bookEvent(report)
		if event.Health, err = p.Watcher.Health(name); err != nil {
			return nil, err
		}
		if event.Capacity, err = p.Watcher.Capacity(name); err != nil {
			return nil, err
		}
	}
	return json.Marshal(event)
}

func (p *Page) bookEvent(r *survey.Report) *BookEvent {
	event := &BookEvent{Report: r, Risks: r.Risks, Leases: oldest(r.Leases), Rates: p.Watcher.Rates(r.Book, r.Work), Last: p.Watcher.Last(r.Book)}
	if more := len(r.Risks) - mostRows; more > 0 {
		event.Risks, event.RisksMore = r.Risks[:mostRows], more
	}
	if more := len(r.Leases) - mostRows; more > 0 {
		event.Leases, event.LeasesMore = event.Leases[:mostRows], more
	}
	return event
}

// text is the event of a book, made at most once in a while for all streams that may be told of the same books.
func (p *Page) text(name string, scope httpapi.Scope) ([]byte, error) {
	key := name + " " + scope.String()
	p.mu.Lock()
	k := p.cached[key]
	if k == nil {
		k = &cachedEvent{}
	}
	p.mu.Unlock()
	k.mu.Lock()
	defer k.mu.Unlock()
	if k.text != nil && time.Since(k.made) < each/2 {
		return k.text, nil
	}
	text, err := p.event(name, scope)
	if err != nil {
		return nil, err
	}
	k.text, k.made = text, time.Now()
	p.mu.Lock()
	p.cached[key] = k // (only of a book that there is)
	p.forgetRemoved()
	p.mu.Unlock()
	return text, nil
}

// forgetRemoved drops the events of books that were removed: else they would be kept for ever.
func (p *Page) forgetRemoved() {
	there := map[string]bool{"": true}
	for _, name := range p.Watcher.Names() {
		there[name] = true
	}
	for key := range p.cached {
		if name, _, _ := strings.Cut(key, " "); !there[name] {
			delete(p.cached, key)
		}
	}
}

// Events sends the events of a book until the client goes.
func (p *Page) Events(w http.ResponseWriter, r *http.Request) {
	name, err := p.bookOf(r)
	if err != nil {
		httpapi.Refuse(w, http.StatusBadRequest, err.Error())
		return
	}
	flusher, ok := w.(http.Flusher)
	if r.Method != http.MethodGet && r.Method != http.MethodHead || !ok {
		w.Header().Set("Allow", "GET, HEAD")
		httpapi.Refuse(w, http.StatusMethodNotAllowed, "events can only be read")
		return
	}
	select {
	case p.streams <- struct{}{}:
		defer func() { <-p.streams }()
	default:
		httpapi.Refuse(w, http.StatusTooManyRequests, fmt.Sprintf("there are %d streams of events already", cap(p.streams)))
		return
	}
	scope := httpapi.ScopeOf(r)
	text, err := p.text(name, scope)
	if err != nil {
		httpapi.RefuseFor(w, err)
		return
	}
	w.Header().Set("Content-Type", "text/event-stream")
	w.Header().Set("X-Accel-Buffering", "no")
	s := &stream{w: w, flusher: flusher}
	if r.Method != http.MethodHead && s.send(text) == nil {
		p.follow(r, name, scope, s)
	}
}

// bookOf is the book that a request names, or else the first one; "" if there is none.
func (p *Page) bookOf(r *http.Request) (string, error) {
	for parameter, values := range r.URL.Query() {
		if parameter != "book" || len(values) != 1 {
			return "", fmt.Errorf("the parameter %q is unknown, or there twice", parameter)
		}
	}
	if name := r.URL.Query().Get("book"); name != "" {
		return name, nil
	}
	return p.first(httpapi.ScopeOf(r)), nil
}

// first is the first book that may be told of, or "".
func (p *Page) first(scope httpapi.Scope) string {
	if names := scope.Books(p.Watcher.Names()); len(names) > 0 {
		return names[0]
	}
	return ""
}

func (p *Page) follow(r *http.Request, name string, scope httpapi.Scope, s *stream) {
	ticker := time.NewTicker(each)
	defer ticker.Stop()
	for {
		select {
		case <-r.Context().Done():
			return
		case <-p.Done:
			return
		case <-ticker.C:
		}
		if name == "" { // the first book may have come
			name = p.first(scope)
		}
		text, err := p.text(name, scope)
		if err != nil || s.send(text) != nil {
			return
		}
	}
}

// A stream is one client's events.
type stream struct {
	w       http.ResponseWriter
	flusher http.Flusher
	last    []byte // the event that was sent last
	at      time.Time
}

// send sends an event if it is another one than the last. A client that heard nothing for a while gets a line that says nothing,
// by which a broken connection is found.
func (s *stream) send(text []byte) error {
	now := time.Now()
	var err error
	switch {
	case !bytes.Equal(text, s.last):
		_, err = fmt.Fprintf(s.w, "data: {\"time\":%d,%s\n\n", now.UnixMilli(), text[1:])
	case now.Sub(s.at) >= beat:
		_, err = fmt.Fprint(s.w, ": here\n\n")
	default:
		return nil
	}
	s.last, s.at = text, now
	s.flusher.Flush()
	return err
}

// oldest are the leases in the order of their grants, the oldest first.
func oldest(leases []survey.Lease) []survey.Lease {
	sorted := append([]survey.Lease{}, leases...)
	sort.SliceStable(sorted, func(i, j int) bool {
		a, b := sorted[i], sorted[j]
		if a.Ticks != b.Ticks {
			return a.Ticks > b.Ticks
		}
		return a.Since.Before(b.Since)
	})
	return sorted
}
