package client

import (
	"encoding/json"
	"fmt"
	"io"
	"math/rand"
	"net"
	"net/http"
	"net/http/httptest"
	"strconv"
	"strings"
	"sync"
	"testing"
	"time"
)

// A call is a request with a key, as the fake group has it.
type call struct {
	Command string `json:"command"`
	Key     string `json:"key"`
	Since   uint64 `json:"since"`
	Session int    `json:"session"`
	Worker  string `json:"worker"`
	At      *uint64
	Opens   *uint64
}

// A group keeps one book as docs/SERVICE.md has it, but that it keeps few keys. All members of a test share it.
type group struct {
	mu      sync.Mutex
	index   uint64
	made    map[string]int // how often a key was made
	order   []string       // the keys that are known
	n       map[string]uint64
	forgot  uint64
	entries uint64
	late    []call // taken, and made at a later request
	window  int
	calls   []call // that came, in each try
	ahead   []call // with a since that is not reached yet: their keys would never be forgotten
}

func newGroup(window int) *group {
	return &group{index: 10, forgot: 5, made: map[string]int{}, n: map[string]uint64{}, window: window}
}

// apply makes a call at most once, and returns its status, its code and its number.
func (g *group) apply(it call) (status int, code string, n uint64, again bool) {
	g.index++
	if n, isKnown := g.n[it.Key]; isKnown {
		return 200, "", n, true
	}
	if it.Since < g.forgot {
		return 409, CodeKeyForgotten, 0, false
	}
	g.entries++
	g.made[it.Key]++
	g.n[it.Key] = g.entries
	if g.order = append(g.order, it.Key); len(g.order) > g.window {
		delete(g.n, g.order[0])
		g.order, g.forgot = g.order[1:], g.index-uint64(g.window)
	}
	return 200, "", g.entries, false
}

// others makes so many calls of other clients.
func (g *group) others(count int) {
	for i := 0; i < count; i++ {
		g.apply(call{Key: fmt.Sprintf("other%d", g.index), Since: g.index})
	}
}

func (g *group) makeLate() {
	for _, it := range g.late {
		g.apply(it)
	}
	g.late = nil
}

// A fault is what a member does with a request, and how it answers.
type fault int

const (
	none       fault = iota
	busy             // 503, nothing made
	tooMany          // 429, nothing made
	full             // 507, nothing made
	unknown          // 504, made
	notYet           // 504, made later
	never            // 504, never made
	cutBefore        // the connection breaks, nothing made
	cutAfter         // the connection breaks, made
	cutWithin        // the answer breaks off, made
	hang             // no answer in time, made
	strange          // 502 of somebody between, made
	strange503       // 503 of somebody between, made
	broken           // 500, made
	faults           // how many there are
)

// A member of a fake group.
type member struct {
	g      *group
	faults []fault // of calls to come, the next one first; none behind them
	others int     // calls of others that are made before each call
	rest   string  // Retry-After of 503 and 429
	end    chan struct{}
}

// plan has the member do these with the calls to come, beside so many calls of others.
func (m *member) plan(others int, faults ...fault) {
	m.g.mu.Lock()
	defer m.g.mu.Unlock()
	m.faults, m.others = faults, others
}

// times tells how often a key was made, and how many keys were.
func (g *group) times(key string) (ofKey, keys int) {
	g.mu.Lock()
	defer g.mu.Unlock()
	return g.made[key], len(g.made)
}

// tries are the calls that came.
func (g *group) tries() []call {
	g.mu.Lock()
	defer g.mu.Unlock()
	return append([]call(nil), g.calls...)
}

func (m *member) next() fault {
	if len(m.faults) == 0 {
		return none
	}
	it := m.faults[0]
	m.faults = m.faults[1:]
	return it
}

func (m *member) ServeHTTP(w http.ResponseWriter, r *http.Request) {
	m.g.mu.Lock()
	defer m.g.mu.Unlock()
	switch {
	case r.URL.Path == "/status":
		fmt.Fprintf(w, `{"id":1,"leader":1,"applied":%d,"members":[]}`, m.g.index)
	case strings.HasSuffix(r.URL.Path, "/call"):
		text, _ := io.ReadAll(r.Body)
		var it call
		if json.Unmarshal(text, &it) != nil || it.Key == "" || it.Since == 0 {
			m.fail(w, 400, "bad_request")
			return
		}
		if it.Since > m.g.index {
			m.g.ahead = append(m.g.ahead, it)
		}
		m.g.calls = append(m.g.calls, it)
		m.g.makeLate()
		m.g.others(m.others)
		m.answer(w, it, m.next())
	default:
		m.fail(w, 404, "not_found")
	}
}

func (m *member) answer(w http.ResponseWriter, it call, what fault) {
	made := func() { m.g.apply(it) }
	switch what {
	case none:
		m.tell(w, it)
	case busy, tooMany, full:
		if m.rest != "" {
			w.Header().Set("Retry-After", m.rest)
		}
		m.fail(w, map[fault]int{busy: 503, tooMany: 429, full: 507}[what], "busy")
	case unknown:
		made()
		m.fail(w, 504, CodeOutcomeUnknown)
	case notYet:
		m.g.late = append(m.g.late, it)
		m.fail(w, 504, CodeOutcomeUnknown)
	case never:
		m.fail(w, 504, CodeOutcomeUnknown)
	case cutBefore:
		cut(w, "")
	case cutAfter:
		made()
		cut(w, "")
	case cutWithin:
		made()
		cut(w, fmt.Sprintf("HTTP/1.1 200 OK\r\nContent-Length: 300\r\nLrcmand-Index: %d\r\n\r\n{\"n\":1,", m.g.index))
	case hang:
		made()
		m.g.mu.Unlock()
		<-m.end
		m.g.mu.Lock()
	case strange, strange503:
		made()
		w.WriteHeader(map[fault]int{strange: 502, strange503: 503}[what])
		io.WriteString(w, "<html>bad gateway</html>")
	case broken:
		made()
		m.fail(w, 500, "fault")
	}
}

func (m *member) tell(w http.ResponseWriter, it call) {
	status, code, n, again := m.g.apply(it)
	if status != 200 {
		m.fail(w, status, code)
		return
	}
	w.Header().Set("Lrcmand-Index", strconv.FormatUint(m.g.index, 10))
	fmt.Fprintf(w, `{"n":%d,"opens":7,"reply":"ticked 1 0","kind":"ticked","clock":1,"ended":0,"again":%v}`+"\n", n, again)
}

func (m *member) fail(w http.ResponseWriter, status int, code string) {
	w.Header().Set("Lrcmand-Index", strconv.FormatUint(m.g.index, 10))
	w.WriteHeader(status)
	fmt.Fprintf(w, `{"status":%d,"error":"words","code":"%s"}`+"\n", status, code)
}

// cut writes a text, and resets the connection behind it.
func cut(w http.ResponseWriter, text string) {
	conn, _, err := w.(http.Hijacker).Hijack()
	if err != nil {
		panic(err)
	}
	io.WriteString(conn, text)
	if text == "" {
		conn.(*net.TCPConn).SetLinger(0)
	}
	conn.Close()
}

// serve starts members over one group, and returns them with a client of all.
func serve(t *testing.T, g *group, count int, cfg Config) ([]*member, *Client) {
	t.Helper()
	var members []*member
	end := make(chan struct{})
	for i := 0; i < count; i++ {
		m := &member{g: g, end: end}
		server := httptest.NewServer(m)
		t.Cleanup(server.Close)
		members, cfg.Servers = append(members, m), append(cfg.Servers, server.URL)
	}
	t.Cleanup(func() { close(end) })
	return members, newClient(t, cfg)
}

func newClient(t *testing.T, cfg Config) *Client {
	t.Helper()
	if cfg.Pause == 0 {
		cfg.Pause = time.Millisecond
	}
	if cfg.Timeout == 0 {
		cfg.Timeout = 10 * time.Second
	}
	c, err := New(cfg)
	if err != nil {
		t.Fatal(err)
	}
	t.Cleanup(c.Close)
	return c
}

// someFaults are so many faults by chance.
func someFaults(dice *rand.Rand, count int) []fault {
	var found []fault
	for i := 0; i < count; i++ {
		found = append(found, fault(dice.Intn(int(faults))))
	}
	return found
}
