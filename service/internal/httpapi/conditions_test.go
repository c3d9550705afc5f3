package httpapi

import (
	"encoding/json"
	"fmt"
	"strings"
	"testing"
)

// tag is where a book stands, as the ETag of a look tells it.
func (s *service) tag(path string) string {
	s.t.Helper()
	answer, text := s.ask("GET", path, "")
	want := fmt.Sprintf("%q", answer.Header.Get("Lrcmand-Entries")+"-"+answer.Header.Get("Lrcmand-Opens"))
	if tag := answer.Header.Get("ETag"); answer.StatusCode != 200 || tag != want {
		s.t.Errorf("%s: ETag %s and not %s: %s", path, tag, want, text)
	}
	return answer.Header.Get("ETag")
}

func TestALookHasATagThatAChangeMayAskFor(t *testing.T) {
	s := newService(t, nil)
	before := s.tag("/books/p0")
	for _, path := range []string{"/books/p0/nodes", "/books/p0/image", "/books/p0/show/stripes?format=csv", "/books/p0/workers"} {
		if tag := s.tag(path); tag != before {
			t.Errorf("%s: %s", path, tag)
		}
	}
	match := func(tag string) option { return header("If-Match", tag) }
	ask := func(method, path, body, tag string, status int, part string) {
		t.Helper()
		if answer, text := s.ask(method, path, body, match(tag)); answer.StatusCode != status || !strings.Contains(text, part) {
			t.Errorf("%s %s with %s: %d %s, and not %d with %s", method, path, tag, answer.StatusCode, text, status, part)
		}
	}
	tick := `{"command":"tick"}`
	ask("POST", "/books/p0/call", tick, before, 200, `"n":1`)
	after := s.tag("/books/p0")
	if after == before {
		t.Error("the tag stays as it is")
	}
	ask("POST", "/books/p0/call", tick, before, 412, `"code":"moved"`)
	ask("PUT", "/books/p0/nodes", nodes(5), before, 412, `"code":"moved"`)
	ask("DELETE", "/books/p0", "", before, 412, `"code":"moved"`)
	s.refused("POST", "/books/p0/call", `{"command":"tick","at":0,"opens":1024}`, 409, "the book stands at 1")
	ask("POST", "/books/p0/call", `{"command":"tick","at":1,"opens":1024}`, after, 400, "come as fields or parameters, or as If-Match")
	ask("PUT", "/books/p0/nodes?at=1&opens=1024", nodes(5), after, 400, "come as fields or parameters, or as If-Match")
	ask("DELETE", "/books/p0", `{"at":1,"opens":1024}`, after, 400, "come as fields or parameters, or as If-Match")
	for _, tag := range []string{"*", "1-1024", `W/"1-1024"`, `"1-1024", "2-1024"`, `"1"`, `"-1"`, `"01-1024"`, `"1-1024-1"`, `"x-y"`} {
		ask("POST", "/books/p0/call", tick, tag, 400, "If-Match has to be the ETag of a look")
	}
	ask("PUT", "/books/p9", nodes(4), after, 400, "this takes no If-Match")
	ask("PUT", "/rules", `{"rules":2}`, after, 400, "this takes no If-Match")
	ask("PUT", "/books/p0/nodes", nodes(5), after, 200, `"n":1`)
	ask("DELETE", "/books/p0", "", s.tag("/books/p0"), 200, `"n":1`)
	s.refused("DELETE", "/books/p0", "", 400, "")
}

func TestARequestIsToldItsName(t *testing.T) {
	said := &lines{}
	s := newService(t, func(with *setup) { with.Audit = said.add })
	said.take()
	for id, want := range map[string]string{"a-7": "a-7", "": "", "two words": "", strings.Repeat("x", 65): ""} {
		answer, _ := s.ask("POST", "/snapshot", "", header("X-Request-Id", id))
		if got := answer.Header.Get("X-Request-Id"); got != want {
			t.Errorf("%q: %q and not %q", id, got, want)
		}
		line := strings.Join(said.takeLine(true), "")
		if want == "" && strings.Contains(line, "request=") || want != "" && !strings.HasSuffix(line, " request="+want) {
			t.Errorf("%q: %s", id, line)
		}
	}
}

func TestBooksAreListedInParts(t *testing.T) {
	s := newService(t, nil)
	for _, name := range []string{"p1", "p2", "p3"} {
		s.expect("PUT", "/books/"+name, nodes(4), 200, fmt.Sprintf(`{"n":0,"opens":%d}`, 1024*(1+strings.Index("p0p1p2p3", name)/2)))
	}
	names := func(query string, isMore bool) string {
		t.Helper()
		var found struct {
			Books []struct{ Name string }
			More  bool
		}
		_, text := s.ask("GET", "/books"+query, "")
		if err := json.Unmarshal([]byte(text), &found); err != nil {
			t.Error(query, text)
		}
		if found.More != isMore {
			t.Errorf("%s: %+v", query, found)
		}
		all := ""
		for _, it := range found.Books {
			all += it.Name
		}
		return all
	}
	for _, it := range []struct {
		query, want string
		isMore      bool
	}{{"", "p0p1p2p3", false}, {"?limit=2", "p0p1", true}, {"?limit=2&from=p1", "p2p3", false}, {"?from=p0", "p1p2p3", false},
		{"?limit=4", "p0p1p2p3", false}, {"?from=p3&limit=1", "", false}, {"?from=p10&limit=1&now=1", "p2", true}} {
		if got := names(it.query, it.isMore); got != it.want {
			t.Errorf("%s: %s and not %s", it.query, got, it.want)
		}
	}
	s.refused("GET", "/books?limit=0", "", 400, `the parameter "limit"`)
	s.refused("GET", "/books?limit=x", "", 400, `the parameter "limit"`)
	s.refused("GET", "/books?from=%2F", "", 400, `the parameter "from"`)
}
