package httpapi

import (
	"bufio"
	"fmt"
	"io"
	"net"
	"net/http"
	"net/http/httptest"
	"strings"
	"testing"
	"time"
)

// A limited service lets in so many connections.
func limited(t *testing.T, most int, change func(*setup)) *service {
	t.Helper()
	s := newService(t, func(with *setup) {
		with.Knobs, with.Connections = Knobs{BodyTime: 2 * time.Second}, NewConnections(most)
		if change != nil {
			change(with)
		}
	})
	server := httptest.NewUnstartedServer(nil)
	server.Config = s.api.Server()
	server.Listener = s.api.cfg.Connections.Limit(server.Listener, false)
	server.Start()
	t.Cleanup(func() { server.CloseClientConnections(); server.Close() })
	s.url = server.URL
	return s
}

// wait waits until something holds.
func wait(t testing.TB, what string, holds func() bool) {
	t.Helper()
	for end := time.Now().Add(20 * time.Second); !holds(); time.Sleep(5 * time.Millisecond) {
		if time.Now().After(end) {
			t.Fatalf("not in 20 s: %s", what)
		}
	}
}

func (s *service) dialWith(text string) net.Conn {
	c := s.dial()
	fmt.Fprint(c, text)
	return c
}

// isClosed tells whether a connection is closed from the other side, within a while.
func isClosed(c net.Conn, within time.Duration) bool {
	c.SetReadDeadline(time.Now().Add(within))
	_, err := io.Copy(io.Discard, c)
	netErr, isNet := err.(net.Error)
	return !(isNet && netErr.Timeout())
}

func TestWhatWaitsIsClosedForNewConnections(t *testing.T) {
	const most, ask = 8, "GET /health HTTP/1.1\r\nHost: x\r\n\r\n"
	for _, it := range []struct {
		name, text string
		isBody     bool
		isAnswered bool
	}{
		{"idle", "", false, false},
		{"half a head", "GET /health HTTP/1.1\r\nHost:", false, false},
		{"half a body", "POST /books/p0/call HTTP/1.1\r\nHost: x\r\nContent-Type: application/json\r\nContent-Length: 100\r\n\r\n{", true, false},
		{"between two requests", ask, false, true},
		{"a body that nobody reads", "GET /health HTTP/1.1\r\nHost: x\r\nContent-Length: 100\r\n\r\n", false, true},
	} {
		s := limited(t, most, func(with *setup) { with.Knobs.BodyTime = time.Hour })
		var held []net.Conn
		for i := 0; i < most; i++ {
			held = append(held, s.dialWith(it.text))
			if it.isAnswered {
				s.status(held[i], 200)
			}
			wait(t, it.name+": it is let in", func() bool {
				return s.api.cfg.Connections.Counts().Waiting == i+1 && (!it.isBody || s.roomTaken() == int64(i+1)*100*costOfByte)
			})
		}
		s.status(s.dialWith(ask), 200)
		if !isClosed(held[0], 20*time.Second) {
			t.Errorf("%s: the oldest is not closed for a new one", it.name)
		}
		if counts := s.api.cfg.Connections.Counts(); counts.Closed != 1 || counts.Refused != 0 || counts.Waiting+counts.Answering != most {
			t.Errorf("%s: %+v", it.name, counts)
		}
		s.status(s.dialWith(ask), 200)
		if counts := s.api.cfg.Connections.Counts(); counts.Closed != 2 || counts.Waiting+counts.Answering != most {
			t.Errorf("%s: %+v", it.name, counts)
		}
	}
}

// What came last waits for the shortest time, whatever the others wait for.
func TestTheNewestIsNotClosedForTheNext(t *testing.T) {
	s := limited(t, 3, nil)
	for i := 0; i < 3; i++ {
		s.dialWith("POST /books/p0/call HTTP/1.1\r\nHost: x\r\nContent-Type: application/json\r\nContent-Length: 18\r\n\r\n{")
		wait(t, "a body comes", func() bool { return s.roomTaken() == int64(i+1)*18*costOfByte })
	}
	newest := s.dialWith("GET /health HTTP/1.1\r\nHost: x\r\n")
	wait(t, "it is let in", func() bool { return s.api.cfg.Connections.Counts().Closed == 1 })
	s.status(s.dialWith("GET /health HTTP/1.1\r\nHost: x\r\n\r\n"), 200)
	fmt.Fprint(newest, "\r\n")
	s.status(newest, 200)
}

func TestWhereAllAreAnsweredOneMoreIsTold(t *testing.T) {
	const most = 4
	s := limited(t, most, nil)
	var streams []net.Conn
	for i := 0; i < most; i++ {
		c := s.dialWith("GET /books/p0/log?follow=1 HTTP/1.1\r\nHost: x\r\n\r\n")
		s.status(c, 200)
		streams = append(streams, c)
	}
	answer, err := http.ReadResponse(bufio.NewReader(s.dialWith("GET /health HTTP/1.1\r\nHost: x\r\n\r\n")), nil)
	if err != nil || answer.StatusCode != 503 || answer.Header.Get("Retry-After") != "1" || !answer.Close {
		t.Fatal(answer, err)
	}
	text, err := io.ReadAll(answer.Body)
	if err != nil || !strings.Contains(string(text), `{"status":503,"code":"busy","error":"`) {
		t.Error(string(text), err)
	}
	if it := s.api.cfg.Connections.Counts(); it.Answering != most || it.Refused != 1 || it.Closed != 0 {
		t.Errorf("%+v", it)
	}
	streams[0].Close()
	wait(t, "a place is given back", func() bool { return s.api.cfg.Connections.Counts().Answering == most-1 })
	s.status(s.dialWith("GET /health HTTP/1.1\r\nHost: x\r\n\r\n"), 200)
}

// An addressed connection says that it comes from there.
type addressed struct {
	net.Conn
	address string
}

func (a addressed) RemoteAddr() net.Addr {
	address, _ := net.ResolveTCPAddr("tcp", a.address)
	return address
}

func (a addressed) Close() error { return nil }

func TestAnAddressHasHalfOfThemWhereOthersWait(t *testing.T) {
	s := NewConnections(8)
	admit := func(address string) *conn { return s.admit(addressed{nil, address}) }
	isOpen := func(it *conn) bool { return it.place != nil }
	first := admit("10.0.0.2:1")
	var greedy []*conn
	for i := 0; i < 7; i++ {
		greedy = append(greedy, admit(fmt.Sprintf("10.0.0.1:%d", i+1)))
	}
	if admit("10.0.0.1:9"); !isOpen(first) || isOpen(greedy[0]) {
		t.Error("one with more than half has another's connection closed")
	}
	if admit("10.0.0.3:1"); !isOpen(first) || isOpen(greedy[1]) {
		t.Error("the oldest is closed, and not that of the address with more than half")
	}
	s = NewConnections(8)
	first = admit("10.0.0.2:1")
	for i := 0; i < 7; i++ {
		s.enter(admit(fmt.Sprintf("10.0.0.1:%d", i+1)), answering)
	}
	if admit("10.0.0.1:9") != nil || !isOpen(first) {
		t.Error("one with more than half, which are all answered, gets another's")
	}
	if it := admit("10.0.0.3:1"); it == nil || isOpen(first) {
		t.Error("one without any does not get the one that waits")
	}
	s = NewConnections(8)
	first = admit("10.0.0.2:1")
	for i := 0; i < 5; i++ {
		greedy[i] = admit(fmt.Sprintf("10.0.0.1:%d", i+1))
	}
	greedy[0].Close()
	greedy[1].Close()
	for i := 0; i < 5; i++ {
		admit(fmt.Sprintf("10.0.1.%d:1", i+1))
	}
	if isOpen(first) || !isOpen(greedy[2]) {
		t.Error("one that has no more than half any more is still taken from first")
	}
	s = NewConnections(2 * keptForOthers)
	for i := 0; i < 3*keptForOthers; i++ { // (of which some are refused)
		if it := admit("10.0.0.1:1"); it != nil {
			s.enter(it, answering)
		}
	}
	if one, two, three := admit("10.0.0.2:1"), admit("10.0.0.3:1"), admit("10.0.0.1:1"); one == nil || two == nil || three != nil {
		t.Error("one address has all of them")
	}
	if networkOf("[2001:db8::1:2:3:4]:5") != networkOf("[2001:db8::9]:6") || networkOf("[2001:db8:0:1::1]:5") == networkOf("[2001:db8::9]:6") {
		t.Error("addresses of one IPv6 network count alone")
	}
}

func TestABodyThatNobodyReadsEndsItsConnection(t *testing.T) {
	s := newService(t, func(with *setup) { with.Knobs.BodyTime = time.Second })
	for head, status := range map[string]int{
		"GET /health HTTP/1.1\r\nHost: x\r\nContent-Length: 1000\r\n\r\n":                          200,
		"GET /nothing HTTP/1.1\r\nHost: x\r\nContent-Length: 1000\r\n\r\n":                         404,
		"POST /books HTTP/1.1\r\nHost: x\r\nContent-Length: 1000\r\n\r\n":                          405,
		"PUT /books/p1 HTTP/1.1\r\nHost: x\r\nContent-Type: a/b\r\nContent-Length: 1000\r\n\r\n":   415,
		"PUT /books/p1 HTTP/1.1\r\nHost: x\r\nTransfer-Encoding: chunked\r\n\r\n":                  411,
		"GET /books/p0/log HTTP/1.1\r\nHost: x\r\nTransfer-Encoding: chunked\r\n\r\n":              200,
		"PUT /books/p1 HTTP/1.1\r\nHost: x\r\nContent-Length: 2000000\r\n\r\n":                     413,
		"PUT /books/p1 HTTP/1.1\r\nHost: x\r\nContent-Length: 20\r\nExpect: 100-continue\r\n\r\nx": 100,
	} {
		begun := time.Now()
		c := s.dialWith(head)
		answer, err := http.ReadResponse(bufio.NewReader(c), nil)
		if err != nil || answer.StatusCode != status || status != 100 && !answer.Close {
			t.Errorf("%q: %v %v", head, answer, err)
		}
		if took := time.Since(begun); took > 900*time.Millisecond {
			t.Errorf("%q: answered after %v", head, took)
		}
		if !isClosed(c, 20*time.Second) {
			t.Errorf("%q: it stays open", head)
		}
	}
}

// A client that takes no answer does not keep a connection, nor a stream.
func TestAnAnswerThatNobodyTakesIsBrokenOff(t *testing.T) {
	gone := make(chan struct{}, 1)
	s := limited(t, 8, func(with *setup) {
		with.Knobs.WriteTime = 200 * time.Millisecond
		with.Mounts = []Mount{mountAt("/long", func(w http.ResponseWriter, r *http.Request) {
			for text := make([]byte, 1<<20); ; {
				if _, err := w.Write(text); err != nil {
					gone <- struct{}{}
					return
				}
			}
		})}
	})
	s.dialWith("GET /long HTTP/1.1\r\nHost: x\r\n\r\n")
	select {
	case <-gone:
	case <-time.After(20 * time.Second):
		t.Error("it is written for ever")
	}
	wait(t, "its connection is closed", func() bool { it := s.api.cfg.Connections.Counts(); return it.Answering+it.Waiting == 0 })
}

func TestAStreamThatEndsGivesItsPlaceBack(t *testing.T) {
	s := newService(t, nil)
	for round := 0; round < 2; round++ {
		var ends []func()
		wait(t, "64 streams are let in", func() bool {
			for len(ends) < mostStreams {
				answer, err := http.Get(s.url + "/books/p0/log?follow=1")
				if err != nil || answer.StatusCode != 200 {
					return false
				}
				ends = append(ends, func() { answer.Body.Close() })
			}
			return true
		})
		if answer, fail := s.failed("GET", "/books/p0/log?follow=1", ""); fail.Status != 429 || !answer.Close || answer.Header.Get("Retry-After") != "1" {
			t.Errorf("%+v %v", fail, answer.Header)
		}
		for _, end := range ends {
			end()
		}
	}
}

func TestThePortOfWatchersAnswersThemAlone(t *testing.T) {
	s := newService(t, func(with *setup) {
		with.Mounts = []Mount{{Route{Method: "GET", Pattern: "/metrics", Role: Look}, func(w http.ResponseWriter, r *http.Request) { io.WriteString(w, "m") }}}
	})
	s.api.cfg.Rights, s.api.cfg.Rates = rightsOf(t, "look "+lookToken+"\n"), NewRates(1)
	server := httptest.NewUnstartedServer(nil)
	server.Config = s.api.WatchServer()
	server.Listener = s.api.cfg.Watchers.Limit(server.Listener, false)
	server.Start()
	defer server.Close()
	s.refused("GET", "/metrics", "", 401, "no token")
	s.url = server.URL
	for i := 0; i < 5; i++ { // (nor is it counted)
		s.expect("GET", "/health", "", 200, `{"ok":true}`)
		s.expect("GET", "/metrics", "", 200, "m")
	}
	s.refused("GET", "/books", "", 404, "nothing at this path", bearer(lookToken))
	s.refused("POST", "/snapshot", "", 404, "nothing at this path")
	s.refused("POST", "/health", "", 405, "this takes GET")
}

// What is no HTTP/1.1 is refused by package http itself, without an object, as the page says.
func TestWhatIsNoRequestIsRefused(t *testing.T) {
	s := newService(t, nil)
	for text, status := range map[string]int{
		"x\r\n\r\n":                    400,
		"GET /health HTTP/1.1\r\n\r\n": 400, // (without Host)
		"GET /health HTTP/1.1\r\nHost: x\r\nExpect: more\r\n\r\n":                           417,
		"GET /health HTTP/1.1\r\nHost: x\r\nX: " + strings.Repeat("x", 40<<10) + "\r\n\r\n": 431,
		"PUT /books/p1 HTTP/1.1\r\nHost: x\r\nTransfer-Encoding: gzip\r\n\r\n":              501,
		"GET /health HTTP/3.1\r\nHost: x\r\n\r\n":                                           505,
	} {
		c := s.dialWith(text)
		answer, err := http.ReadResponse(bufio.NewReader(c), nil)
		if err != nil || answer.StatusCode != status || !answer.Close {
			t.Errorf("%.60q: %v %v", text, answer, err)
		}
	}
}

func TestAnIdleConnectionIsClosed(t *testing.T) {
	s := newService(t, func(with *setup) { with.Knobs.IdleTime = 100 * time.Millisecond })
	if idle := New(Config{Engine: s.engine, State: s.state}).Server().IdleTimeout; idle != 15*time.Second {
		t.Errorf("%v", idle)
	}
	c := s.dialWith("GET /health HTTP/1.1\r\nHost: x\r\n\r\n")
	s.status(c, 200)
	if !isClosed(c, 20*time.Second) {
		t.Error("it stays open")
	}
}
