package httpapi

import (
	"bufio"
	"fmt"
	"net/http"
	"strings"
	"testing"
)

func withHosts(more ...string) func(*setup) {
	return func(with *setup) {
		with.Hosts = NewHosts([]string{"h1:7421", "0.0.0.0:7421", "store.example"}, func() []string { return more })
		with.Mounts = []Mount{mountAt("/", func(w http.ResponseWriter, r *http.Request) {})}
	}
}

// asHost asks for another host than the address says.
func asHost(host string) option { return func(r *http.Request) { r.Host = host } }

func TestAMemberIsCalledByItsNames(t *testing.T) {
	s := newService(t, withHosts("h4:7421"))
	for host, isOurs := range map[string]bool{
		"127.0.0.1:7421": true, "10.1.2.3": true, "[::1]:7421": true, "[::1]": true, "localhost:80": true, "LOCALHOST": true, "localhost.": true,
		"h1:7421": true, "h1": true, "H1:1": true, "store.example:7421": true, "h4:7421": true, "h4": true,
		"rebind.evil.example": false, "rebind.evil.example:7421": false, "h2": false, "xh1": false, "h1.evil.example": false, "localhost.evil.example": false,
		"127.0.0.1.evil.example": false,
	} {
		answer, fail := s.failed("PUT", "/members/9", `{"peer":"h:1","client":"h:2"}`, asHost(host))
		if isOurs != (answer.StatusCode == 409) || !isOurs && (answer.StatusCode != 403 || fail.Code != "forbidden_origin") {
			t.Errorf("%s: %d %+v", host, answer.StatusCode, fail)
		}
	}
	c := s.dial() // no browser leaves it out
	fmt.Fprintf(c, "GET /health HTTP/1.0\r\n\r\n")
	s.status(c, 200)
}

func TestAPageOfElsewhereCommandsNothing(t *testing.T) {
	s := newService(t, withHosts())
	own := s.url
	for _, it := range []struct {
		method, path, body string
		origin, site, mode string
		status             int
	}{
		{"PUT", "/books/p1", nodes(4), own, "same-origin", "cors", 200},
		{"PUT", "/books/p2", nodes(4), "http://evil.example", "cross-site", "cors", 403},
		{"PUT", "/books/p2", nodes(4), "http://evil.example", "", "", 403},
		{"PUT", "/books/p2", nodes(4), strings.Replace(own, "http:", "https:", 1), "", "", 403},
		{"PUT", "/books/p2", nodes(4), "http://127.0.0.1:1", "same-site", "cors", 403}, // another port of this machine
		{"PUT", "/books/p2", nodes(4), "null", "", "", 403},
		{"POST", "/snapshot", "", "http://evil.example", "", "no-cors", 403},
		{"POST", "/snapshot", "", "", "cross-site", "navigate", 403}, // a form
		{"POST", "/leader/1", "", "", "same-site", "navigate", 403},
		{"DELETE", "/books/p0", `{"at":0,"opens":1}`, "http://evil.example", "", "", 403},
		{"GET", "/books", "", "", "cross-site", "no-cors", 403},
		{"GET", "/books", "", "", "cross-site", "navigate", 403},
		{"GET", "/books", "", "http://evil.example", "", "", 403},
		{"GET", "/books", "", "", "none", "navigate", 200}, // somebody wrote the address
		{"GET", "/books", "", "", "same-origin", "cors", 200},
		{"GET", "/", "", "", "cross-site", "navigate", 200}, // somebody follows a link to the page
		{"HEAD", "/", "", "", "cross-site", "navigate", 403},
		{"GET", "/", "", "", "cross-site", "no-cors", 403},
	} {
		answer, text := s.ask(it.method, it.path, it.body, header("Origin", it.origin), header("Sec-Fetch-Site", it.site), header("Sec-Fetch-Mode", it.mode))
		if answer.StatusCode != it.status || it.status == 403 && it.method != "HEAD" && !strings.Contains(text, `"code":"forbidden_origin"`) {
			t.Errorf("%+v: %d %s", it, answer.StatusCode, text)
		}
		for name := range answer.Header {
			if strings.HasPrefix(name, "Access-Control-") {
				t.Errorf("%+v: %s", it, name)
			}
		}
	}
	for _, second := range []string{"http://evil.example", own} { // (no browser sends two)
		answer, text := s.ask("GET", "/books", "", func(r *http.Request) { r.Header["Origin"] = []string{own, second} })
		if answer.StatusCode != 403 {
			t.Errorf("two origins: %d %s", answer.StatusCode, text)
		}
	}
}

// A page may send a POST without being asked whether it may, if it has no type or a plain one.
func TestPostAndDeleteAreOfJSON(t *testing.T) {
	s := newService(t, nil)
	for _, it := range []struct{ method, path string }{{"POST", "/snapshot"}, {"POST", "/leader/1"}, {"DELETE", "/members/2"}} {
		for _, kind := range []string{"", "text/plain", "application/x-www-form-urlencoded", "multipart/form-data; boundary=x"} {
			s.refused(it.method, it.path, "", 415, "has to be application/json", header("Content-Type", kind))
		}
	}
	if s.engine.Saved != 0 {
		t.Error("a snapshot was asked for")
	}
	c := s.dial() // what a browser asks first, of all that a page may not send unasked
	fmt.Fprintf(c, "OPTIONS /books/p0/nodes HTTP/1.1\r\nHost: %s\r\nAccess-Control-Request-Method: PUT\r\n\r\n", strings.TrimPrefix(s.url, "http://"))
	answer, err := http.ReadResponse(bufio.NewReader(c), nil)
	if err != nil || answer.StatusCode != 405 || answer.Header.Get("Access-Control-Allow-Origin") != "" {
		t.Error(answer, err)
	}
}

func TestAnswersAreTakenForNothingElse(t *testing.T) {
	s := newService(t, nil)
	for _, path := range []string{"/health", "/books/p0/image", "/nothing", "/books/p0/log"} {
		answer, _ := s.ask("GET", path, "")
		for name, want := range map[string]string{"X-Content-Type-Options": "nosniff", "Referrer-Policy": "no-referrer", "X-Frame-Options": "DENY",
			"Cache-Control": "no-store", "Content-Security-Policy": "default-src 'none'; frame-ancestors 'none'"} {
			if have := answer.Header.Get(name); have != want {
				t.Errorf("%s: %s: %q", path, name, have)
			}
		}
	}
}
