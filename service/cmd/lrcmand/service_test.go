package main

import (
	"bytes"
	"encoding/json"
	"fmt"
	"net"
	"net/http"
	"net/http/httptest"
	"os"
	"path/filepath"
	"strings"
	"testing"
	"time"

	"lrcman/service/internal/logging"
	"lrcman/service/internal/testports"
	"lrcman/service/internal/usage"
)

func TestAGateRefusesByNameAndLetsThroughWhatItMay(t *testing.T) {
	g := shutGate(starts)
	handler := g.before(http.HandlerFunc(func(w http.ResponseWriter, r *http.Request) { w.WriteHeader(http.StatusTeapot) }))
	ask := func(path string) (*http.Response, refusal) {
		recorder, found := httptest.NewRecorder(), refusal{}
		handler.ServeHTTP(recorder, httptest.NewRequest("POST", path, strings.NewReader("body")))
		json.Unmarshal(recorder.Body.Bytes(), &found)
		return recorder.Result(), found
	}
	for code, why := range map[string]*reason{"starting": starts, "ended": ends} {
		g.shut.Store(why)
		for _, path := range []string{"/books/p0/call", "/health", "/readyz"} {
			answer, found := ask(path)
			if answer.StatusCode != 503 || answer.Header.Get("Connection") != "close" || answer.Header.Get("Retry-After") != "1" {
				t.Error(path, answer.Status, answer.Header)
			}
			if found.Status != 503 || found.Code != code || found.Words == "" || (found.Reasons[why.word] != "") != (path == "/readyz") {
				t.Errorf("%s: %+v", path, found)
			}
		}
		if answer, _ := ask("/livez"); answer.StatusCode != 200 {
			t.Error(answer.Status)
		}
	}
	g.shut.Store(nil)
	if answer, _ := ask("/books/p0/call"); answer.StatusCode != http.StatusTeapot {
		t.Error(answer.Status)
	}
}

func TestAGateIsQuietOnceAllIsAnswered(t *testing.T) {
	entered, leave := make(chan bool), make(chan bool)
	g := &gate{}
	handler := g.before(http.HandlerFunc(func(w http.ResponseWriter, r *http.Request) { entered <- true; <-leave }))
	go handler.ServeHTTP(httptest.NewRecorder(), httptest.NewRequest("GET", "/", nil))
	<-entered
	begun := time.Now()
	if g.quiet(50 * time.Millisecond); time.Since(begun) < 50*time.Millisecond {
		t.Error("it is quiet while a request is under way")
	}
	time.AfterFunc(20*time.Millisecond, func() { close(leave) })
	begun = time.Now()
	if g.quiet(time.Minute); time.Since(begun) > 30*time.Second {
		t.Error("it is not quiet behind the last answer")
	}
}

// One server follows another on one port, and each connection has an answer of one of them.
func TestAPortGoesFromOneServerToTheNext(t *testing.T) {
	listener, err := net.Listen("tcp", "127.0.0.1:0")
	if err != nil {
		t.Fatal(err)
	}
	port := newRelay(listener)
	server := func(status int) *http.Server {
		return &http.Server{Handler: http.HandlerFunc(func(w http.ResponseWriter, r *http.Request) { w.WriteHeader(status) })}
	}
	first, second := server(503), server(200)
	go first.Serve(port.turn())
	client := &http.Client{Transport: &http.Transport{DisableKeepAlives: true}, Timeout: 10 * time.Second}
	ask := func() int {
		answer, err := client.Get("http://" + listener.Addr().String())
		if err != nil {
			t.Fatal(err)
		}
		answer.Body.Close()
		return answer.StatusCode
	}
	if status := ask(); status != 503 {
		t.Error(status)
	}
	go second.Serve(port.last())
	first.Close()
	for i := 0; i < 50; i++ {
		if status := ask(); status != 200 {
			t.Fatal(i, status)
		}
	}
	second.Close()
	if conn, err := net.Dial("tcp", listener.Addr().String()); err == nil {
		conn.Close()
		t.Error("the port is still there")
	}
}

func TestSystemdIsToldIfItAsks(t *testing.T) {
	if err := notify("READY=1"); err != nil { // (nobody asks)
		t.Error(err)
	}
	name := filepath.Join(t.TempDir(), "notify")
	socket, err := net.ListenUnixgram("unixgram", &net.UnixAddr{Name: name, Net: "unixgram"})
	if err != nil {
		t.Fatal(err)
	}
	defer socket.Close()
	t.Setenv("NOTIFY_SOCKET", name)
	if err := notify("STOPPING=1"); err != nil {
		t.Fatal(err)
	}
	text := make([]byte, 100)
	socket.SetReadDeadline(time.Now().Add(10 * time.Second))
	if n, err := socket.Read(text); err != nil || string(text[:n]) != "STOPPING=1" {
		t.Errorf("%q %v", text[:n], err)
	}
	t.Setenv("NOTIFY_SOCKET", name+".none")
	if notify("READY=1") == nil {
		t.Error("told to nobody")
	}
}

func TestWhatTheCommandLineAsksForIsAnswered(t *testing.T) {
	for word, parts := range map[string][]string{
		"--version": {"lrcmand " + version, "commit " + commit, "interface ", "rules ", "form ", "go1."},
		"-h":        {"usage: lrcmand --data DIR", "lrcmand check", "Member:\n  --data DIR", "(127.0.0.1:7421)", "Times:", "--log-level"},
		"--help":    {"usage: lrcmand --data DIR"},
	} {
		_, err := parse([]string{word})
		told, is := err.(answer)
		if !is {
			t.Errorf("%s: %v", word, err)
		}
		for _, part := range parts {
			if !strings.Contains(string(told), part) {
				t.Errorf("%s lacks %q: %s", word, part, told)
			}
		}
		if strings.Contains(string(told), "Others:") {
			t.Errorf("an option is in no group: %s", told)
		}
		for _, line := range strings.Split(string(told), "\n") {
			if len(line) > 130 {
				t.Errorf("a long line: %s", line)
			}
		}
	}
}

func TestRepairsHaveHelpToo(t *testing.T) {
	for _, word := range []string{"restore", "recover"} {
		var out, says bytes.Buffer
		if status := runRepair([]string{word, "-h"}, &out, &says); status != 0 || says.Len() > 0 || !strings.Contains(out.String(), "  --data ") {
			t.Errorf("%s: %d %q %q", word, status, out.String(), says.String())
		}
	}
}

func TestOptionsStandInTheEnvironmentToo(t *testing.T) {
	t.Setenv(usage.Variable("LRCMAND", "snapshot-every"), "77")
	t.Setenv("LRCMAND_DATA", "there")
	t.Setenv("LRCMAND_SERVER", "http://h1:7421") // (of ctl)
	o, err := parse([]string{"--data", "here"})
	if err != nil || o.snapshotEvery != 77 || o.data != "here" {
		t.Error(o, err)
	}
}

// A member that gets no request ends at once where all are answered, and says so.
func TestAMemberEndsQuietly(t *testing.T) {
	address, said := testports.Free(t), &bytes.Buffer{}
	o, err := parse([]string{"--data", t.TempDir(), "--listen", address, "--tick", "0"})
	if err != nil {
		t.Fatal(err)
	}
	s, status := startService(o, logging.New(said, logging.Config{}))
	if s == nil {
		t.Fatal(status, said)
	}
	for end := time.Now().Add(30 * time.Second); ; time.Sleep(10 * time.Millisecond) {
		answer, err := http.Get("http://" + address + "/health")
		if err == nil {
			if answer.Body.Close(); answer.StatusCode == 200 {
				break
			}
		}
		if time.Now().After(end) {
			t.Fatal(err)
		}
	}
	s.drain()
	if _, err := http.Get("http://" + address + "/health"); err == nil {
		t.Error("the port is still there")
	}
	s.close()
	<-s.engine.Done()
	if text := said.String(); !strings.Contains(text, " info member serves member=1 listen="+address) || strings.Contains(text, " warn ") {
		t.Error(text)
	}
}

func TestCheckJudgesWithoutAStart(t *testing.T) {
	folder := filepath.Join(t.TempDir(), "data")
	o, err := parse([]string{"--data", folder})
	if err != nil || check(o) != 0 {
		t.Error(err)
	}
	broken := filepath.Join(t.TempDir(), "cert")
	if err := os.WriteFile(broken, []byte("no certificate"), 0o600); err != nil {
		t.Fatal(err)
	}
	if o, err = parse([]string{"--data", folder, "--cert", broken, "--key", broken}); err != nil || check(o) != statusUsage {
		t.Error(o, err)
	}
	if _, err := os.Stat(folder); err == nil {
		t.Error(fmt.Sprint("it made ", folder))
	}
}
