package main

import (
	"encoding/json"
	"errors"
	"fmt"
	"io"
	"net"
	"net/http"
	"net/http/httptest"
	"strings"
	"sync"
	"testing"
	"time"
)

// A service tells each key once, and fails the first time that it hears of every third.
type service struct {
	mu    sync.Mutex
	heard map[string]int
	since map[string]uint64 // of the first try of each key; the index rises with each call
	index uint64
	calls map[string]int // told, by book and command
}

func (s *service) ServeHTTP(w http.ResponseWriter, r *http.Request) {
	var body struct {
		Command, Key string
		Since        uint64
	}
	if r.URL.Path == "/status" {
		io.WriteString(w, `{"applied":7}`)
		return
	}
	text, err := io.ReadAll(r.Body)
	if err != nil || json.Unmarshal(text, &body) != nil {
		w.WriteHeader(http.StatusBadRequest)
		return
	}
	s.mu.Lock()
	defer s.mu.Unlock()
	s.heard[body.Key]++
	if s.index++; s.heard[body.Key] == 1 {
		s.since[body.Key] = body.Since
	}
	if body.Since < 7 || body.Since > 7+s.index || body.Since != s.since[body.Key] {
		w.WriteHeader(http.StatusConflict)
		return
	}
	w.Header().Set("Lrcmand-Index", fmt.Sprint(7+s.index))
	if len(s.heard)%3 == 0 && s.heard[body.Key] == 1 {
		w.WriteHeader(http.StatusServiceUnavailable)
		return
	}
	s.calls[r.URL.Path+" "+body.Command]++
	kind := "placed"
	if strings.HasPrefix(body.Command, "drop") {
		kind = "refused"
	}
	io.WriteString(w, `{"n":1,"kind":"`+kind+`"}`)
}

func TestEachRequestIsToldOnce(t *testing.T) {
	for _, it := range []struct {
		kind    string
		refused int
		call    string
	}{
		{"tick", 0, "/books/p0/call tick"},
		{"turns", 12, "/books/p1/call place 1"},
		{"fill", 0, "/books/p2/call place 5"},
	} {
		s := &service{heard: map[string]int{}, since: map[string]uint64{}, calls: map[string]int{}}
		server := httptest.NewServer(s)
		address := strings.TrimPrefix(server.URL, "http://")
		words := "--clients 4 --each 6 --books 4 --run r --kind " + it.kind + " --addresses " + address
		o, err := parse(strings.Fields(words))
		if err != nil {
			t.Fatal(err)
		}
		report, err := run(o)
		server.Close()
		if err != nil {
			t.Fatal(err)
		}
		told := 0
		for _, count := range s.calls {
			told += count
		}
		if report.Told != 24 || told != 24 || len(s.heard) != 24 {
			t.Errorf("%s: %d told, the service told %d of %d keys, and not 24", it.kind, report.Told, told, len(s.heard))
		}
		if s.since["r-0-5"] <= 7 {
			t.Errorf("%s: the last request of client 0 has the since %d", it.kind, s.since["r-0-5"])
		}
		if report.Again != 8 || report.Refused != it.refused || s.calls[it.call] == 0 {
			t.Errorf("%s: %+v, calls %v", it.kind, report, s.calls)
		}
	}
}

func TestAnotherAddressIsTried(t *testing.T) {
	s := &service{heard: map[string]int{}, since: map[string]uint64{}, calls: map[string]int{}}
	server := httptest.NewServer(s)
	defer server.Close()
	nobody, err := net.Listen("tcp", "127.0.0.1:0")
	if err != nil {
		t.Fatal(err)
	}
	nobody.Close()
	addresses := nobody.Addr().String() + "," + strings.TrimPrefix(server.URL, "http://")
	o, err := parse([]string{"--addresses", addresses, "--clients", "2", "--each", "1", "--run", "r"})
	if err != nil {
		t.Fatal(err)
	}
	if report, err := run(o); err != nil || report.Told != 2 || report.Again != 1 {
		t.Errorf("%+v, %v", report, err)
	}
}

// A key that is forgotten is no reply, and no further try makes it one.
func TestWhatIsRefusedIsNotAskedAgain(t *testing.T) {
	tries := 0
	server := httptest.NewServer(http.HandlerFunc(func(w http.ResponseWriter, r *http.Request) {
		if r.URL.Path == "/status" {
			io.WriteString(w, `{"applied":7}`)
			return
		}
		tries++
		w.WriteHeader(http.StatusConflict)
	}))
	defer server.Close()
	o, err := parse([]string{"--addresses", strings.TrimPrefix(server.URL, "http://"), "--clients", "1", "--each", "1", "--run", "r"})
	if err != nil {
		t.Fatal(err)
	}
	var refused *refusal
	if _, err := run(o); !errors.As(err, &refused) || refused.status != 409 || tries != 1 {
		t.Errorf("%v after %d tries", err, tries)
	}
}

func TestSilence(t *testing.T) {
	for _, it := range []struct {
		told          []time.Duration
		took, longest time.Duration
	}{
		{nil, 5, 5},
		{[]time.Duration{1, 2, 3}, 4, 1},
		{[]time.Duration{6, 1, 2}, 7, 4},
		{[]time.Duration{1}, 9, 8},
	} {
		var replies []reply
		for _, at := range it.told {
			replies = append(replies, reply{at: at})
		}
		if found := silence(replies, it.took); found != it.longest {
			t.Errorf("told at %v of %d: %d, and not %d", it.told, it.took, found, it.longest)
		}
	}
}

func TestQuantiles(t *testing.T) {
	one := &client{}
	for i := 1; i <= 100; i++ {
		one.replies = append(one.replies, reply{at: time.Duration(i), took: time.Duration(101-i) * time.Millisecond})
	}
	found, err := reportOf([]*client{one}, 50*time.Second)
	if err != nil || found.P50 != 51 || found.P99 != 100 || found.Rate != 2 {
		t.Errorf("%+v, %v", found, err)
	}
}

func TestOptionsAreRefused(t *testing.T) {
	good := "--addresses a --run r"
	if _, err := parse(strings.Fields(good)); err != nil {
		t.Error(err)
	}
	for _, words := range []string{"--run r", "--addresses a", good + " --kind none", good + " --clients 0", good + " --each -1"} {
		if _, err := parse(strings.Fields(words)); err == nil {
			t.Errorf("%q is taken", words)
		}
	}
}
