package httpapi

import (
	"io"
	"net/http"
	"net/http/httptest"
	"regexp"
	"strings"
	"sync"
	"testing"
	"time"

	"lrcman/service/internal/logging"
)

// lines keep what is written to a log.
type lines struct {
	mu  sync.Mutex
	all []string
}

func (l *lines) add(line string) {
	l.mu.Lock()
	defer l.mu.Unlock()
	l.all = append(l.all, line)
}

func (l *lines) Write(text []byte) (int, error) {
	l.add(string(text))
	return len(text), nil
}

func (l *lines) take() []string {
	l.mu.Lock()
	defer l.mu.Unlock()
	all := l.all
	l.all = nil
	return all
}

// takeLine takes what was said, and waits until there is something if that is expected: the line comes after the answer.
func (l *lines) takeLine(isExpected bool) []string {
	for end := time.Now().Add(time.Minute); ; time.Sleep(time.Millisecond) {
		if all := l.take(); len(all) > 0 || !isExpected || time.Now().After(end) {
			return all
		}
	}
}

func TestWhatOperatorsAskIsWrittenDown(t *testing.T) {
	said := &lines{}
	s := newService(t, func(with *setup) { with.Audit = said.add })
	said.take()
	s.api.cfg.Rights = rightsOf(t, "operate "+operateToken+" name=ops\nwork "+workToken+" name=w1\nlook "+lookToken+"\n")
	for _, it := range []struct {
		method, path, body, token string
		want                      string // the line, but for its time and address; "": there is none
	}{
		{"PUT", "/books/p1", nodes(4), operateToken, "name=ops method=PUT path=/books/p1 status=200"},
		{"POST", "/books/p1/call", `{"command":"fail 1"}`, operateToken, "name=ops method=POST path=/books/p1/call status=200"},
		{"POST", "/books/p1/call", `{"command":"fail 99"}`, operateToken, "name=ops method=POST path=/books/p1/call status=200"},
		{"POST", "/snapshot", "", operateToken, "name=ops method=POST path=/snapshot status=503"},
		{"GET", "/books", "", operateToken, ""},
		{"POST", "/books/p1/call", `{"command":"next"}`, operateToken, ""},
		{"POST", "/books/p1/call", `{"command":"next"}`, workToken, ""},
		{"POST", "/books/p1/call", `{"command":"place 1"}`, workToken, "name=w1 method=POST path=/books/p1/call status=403"},
		{"DELETE", "/books/p1", `{"at":0,"opens":1}`, lookToken, `name="" method=DELETE path=/books/p1 status=403`},
		{"GET", "/books", "", "", `name="" method=GET path=/books status=401`},
		{"GET", "/books/a%0atime=1%20name=x", "", "", `name="" method=GET path="/books/a%0atime=1%20name=x" status=401`},
		{"GET", "/nothing", "", "", ""},
		{"GET", "/health", "", "", ""},
	} {
		authorization := ""
		if it.token != "" {
			authorization = "Bearer " + it.token
		}
		s.ask(it.method, it.path, it.body, header("Authorization", authorization))
		said := said.takeLine(it.want != "")
		if len(said) != map[bool]int{true: 0, false: 1}[it.want == ""] {
			t.Errorf("%+v: %q", it, said)
			continue
		}
		if it.want == "" {
			continue
		}
		found := regexp.MustCompile(`^time=(\S+) (name=\S+) address=127\.0\.0\.1:\d+ (method=.* status=\d+) index=(\S+)$`).FindStringSubmatch(said[0])
		if found == nil || found[2]+" "+found[3] != it.want {
			t.Errorf("%+v: %q", it, said)
			continue
		}
		if at, err := time.Parse(time.RFC3339Nano, found[1]); err != nil || time.Since(at) > time.Minute {
			t.Errorf("%q: %v", said, err)
		}
	}
}

func TestRefusalsDoNotFillALog(t *testing.T) {
	said := &lines{}
	s := newService(t, func(with *setup) { with.Audit = said.add })
	now := time.Unix(1000, 0)
	s.api.audit.refused.rates.now = func() time.Time { return now }
	s.api.cfg.Rights = rightsOf(t, "look "+lookToken+"\n")
	said.take()
	for i := 0; i < mostRefusals+7; i++ {
		s.ask("GET", "/books", "")
	}
	if all := said.take(); len(all) != mostRefusals {
		t.Errorf("%d lines", len(all))
	}
	now = now.Add(time.Second)
	s.ask("GET", "/books", "")
	if all := said.take(); len(all) != 1 || !strings.HasSuffix(all[0], " left_out=7") {
		t.Errorf("%q", all)
	}
}

func TestAFaultIsToldOnceAndAnswered(t *testing.T) {
	said, served := &lines{}, make(chan Served, 100)
	s := newService(t, func(with *setup) {
		with.Log = logging.New(said, logging.Config{})
		with.Observe = func(it Served) {
			it.Took = 0
			served <- it
		}
		with.Mounts = []Mount{mountAt("/panic", func(http.ResponseWriter, *http.Request) { panic("this can't be") }),
			mountAt("/late", func(w http.ResponseWriter, _ *http.Request) {
				w.Write([]byte("begun"))
				w.(http.Flusher).Flush()
				panic("later on")
			}), mountAt("/nothing", func(http.ResponseWriter, *http.Request) {})}
	})
	<-served // the request that makes a book
	// expectServed waits for the next request that is observed: that comes after its answer.
	expectServed := func(want Served) {
		t.Helper()
		select {
		case it := <-served:
			if it != want {
				t.Errorf("%+v, and not %+v", it, want)
			}
		case <-time.After(time.Minute):
			t.Errorf("%+v was not observed", want)
		}
	}
	answer, fail := s.failed("GET", "/panic", "")
	expectServed(Served{"/panic", "", NotTimed, 500, 0})
	if fail.Status != 500 || fail.Code != "fault" || !answer.Close {
		t.Errorf("%+v", fail)
	}
	if all := said.take(); len(all) != 1 || !strings.Contains(all[0], ` error a request met a fault route=/panic fault="this can't be" stack=`) || !strings.Contains(all[0], "audit_test.go") {
		t.Errorf("%q", all)
	}
	if answer, err := http.Get(s.url + "/late"); err != nil {
		t.Error(err)
	} else if text, err := io.ReadAll(answer.Body); err == nil {
		t.Errorf("what was broken off looks whole: %q", text)
	}
	if all := said.take(); len(all) != 1 || !strings.Contains(all[0], `a request met a fault route=/late fault="later on"`) {
		t.Errorf("%q", all)
	}
	expectServed(Served{"/late", "", NotTimed, 500, 0})
	s.ask("GET", "/nothing", "")
	expectServed(Served{"/nothing", "", NotTimed, 200, 0})
	if len(served) != 0 {
		t.Errorf("%+v was observed too", <-served)
	}
	for i := 0; i < 20; i++ {
		s.ask("GET", "/panic", "")
	}
	if all := said.take(); len(all) > 10 {
		t.Errorf("%d lines", len(all))
	}
}

func TestTheServerTellsItsFaults(t *testing.T) {
	said := &lines{}
	s := newService(t, func(with *setup) { with.Log = logging.New(said, logging.Config{}) })
	for i := 0; i < 20; i++ {
		s.api.Server().ErrorLog.Printf("http: TLS handshake error from x: EOF")
	}
	if all := said.take(); len(all) == 0 || len(all) > 10 || !strings.HasSuffix(all[0], " warn the port for clients: http: TLS handshake error from x: EOF\n") {
		t.Errorf("%q", all)
	}
}

func TestHeadIsGetWithoutABody(t *testing.T) {
	s := newService(t, func(with *setup) {
		with.Mounts = []Mount{mountAt("/", func(w http.ResponseWriter, _ *http.Request) { w.Write([]byte("page")) })}
	})
	for _, path := range []string{"/", "/health", "/books", "/books/p0", "/books/p0/image", "/books/p0/log", "/books/p0/log?follow=1", "/books/p9", "/nothing"} {
		begun := time.Now()
		head, text := s.ask("HEAD", path, "")
		if text != "" || time.Since(begun) > 5*time.Second {
			t.Errorf("%s: %q", path, text)
		}
		if strings.Contains(path, "follow") {
			continue
		}
		get, _ := s.ask("GET", path, "")
		if head.StatusCode != get.StatusCode || head.Header.Get("Content-Type") != get.Header.Get("Content-Type") ||
			head.Header.Get("Lrcmand-Entries") != get.Header.Get("Lrcmand-Entries") {
			t.Errorf("%s: %d %v, and with GET %d %v", path, head.StatusCode, head.Header, get.StatusCode, get.Header)
		}
	}
	answer, _ := s.ask("HEAD", "/books/p0/call", "")
	if answer.StatusCode != 405 || answer.Header.Get("Allow") != "POST" {
		t.Error(answer.StatusCode, answer.Header)
	}
	recorder := httptest.NewRecorder()
	s.api.ServeHTTP(recorder, httptest.NewRequest("OPTIONS", "/books/p0", nil))
	if recorder.Code != 405 || recorder.Header().Get("Allow") != "PUT, DELETE, GET, HEAD" {
		t.Error(recorder.Code, recorder.Header())
	}
}
