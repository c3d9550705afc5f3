package client

import (
	"context"
	"errors"
	"fmt"
	"io"
	"net/http"
	"net/http/httptest"
	"reflect"
	"strings"
	"sync"
	"testing"
	"time"
)

func entryLine(n int) string {
	const form = `{"n":%d,"session":2,"command":"tick","reply":"ticked %d 0","kind":"ticked","clock":%d,"ended":0}` + "\n"
	return fmt.Sprintf(form, n, n, n)
}

// A script is what a member of a test answers, request by request. Where it ends with an exclamation mark, the connection is cut
// then; with a tilde, nothing more comes.
type script struct {
	mu      sync.Mutex // of what follows: a request that the client gave up may still be answered
	answers []string
	asked   []string
	end     chan struct{}
}

// next notes a request, and returns what it is answered.
func (s *script) next(r *http.Request) (text string, isThere bool) {
	s.mu.Lock()
	defer s.mu.Unlock()
	s.asked = append(s.asked, r.URL.RawQuery)
	if len(s.answers) == 0 {
		return "", false
	}
	text = s.answers[0]
	s.answers = s.answers[1:]
	return text, true
}

// requests are the parameters of those that came.
func (s *script) requests() []string {
	s.mu.Lock()
	defer s.mu.Unlock()
	return append([]string(nil), s.asked...)
}

func (s *script) ServeHTTP(w http.ResponseWriter, r *http.Request) {
	text, isThere := s.next(r)
	if !isThere {
		w.WriteHeader(503)
		io.WriteString(w, `{"status":503,"error":"there is no leader"}`)
		return
	}
	if strings.HasPrefix(text, `{"status":410`) || strings.HasPrefix(text, `{"status":404`) {
		var status int
		fmt.Sscanf(text, `{"status":%d`, &status)
		w.WriteHeader(status)
	}
	io.WriteString(w, strings.TrimRight(text, "!~"))
	w.(http.Flusher).Flush()
	if strings.HasSuffix(text, "!") {
		cut(w, "")
	} else if strings.HasSuffix(text, "~") {
		<-s.end
	}
}

func play(t *testing.T, cfg Config, scripts ...*script) *Client {
	t.Helper()
	for _, s := range scripts {
		server := httptest.NewServer(s)
		s.end = make(chan struct{})
		t.Cleanup(server.Close)
		t.Cleanup(func(end chan struct{}) func() { return func() { close(end) } }(s.end))
		cfg.Servers = append(cfg.Servers, server.URL)
	}
	if cfg.Timeout == 0 {
		cfg.Timeout = 300 * time.Millisecond
	}
	return newClient(t, cfg)
}

// read follows a log until it has so many entries, or fails.
func read(c *Client, from uint64, count int) ([]uint64, error) {
	var numbers []uint64
	enough := errors.New("enough")
	err := c.Follow(background, "p0", from, func(entry Entry) error {
		if numbers = append(numbers, entry.N); entry.Session != 2 || entry.Command != "tick" || entry.Clock != uint32(entry.N) {
			return fmt.Errorf("entry %+v", entry)
		}
		if len(numbers) == count {
			return enough
		}
		return nil
	})
	if err == enough {
		err = nil
	}
	return numbers, err
}

func TestALogGoesOnAtAnotherMember(t *testing.T) {
	one := &script{answers: []string{entryLine(4) + "\n" + entryLine(5) + `{"n":6,"se!`,
		entryLine(7) + entryLine(8) + `{"status":503,"error":"it ends"}` + "\n"}}
	two := &script{answers: []string{entryLine(5) + entryLine(6), entryLine(9) + "~"}}
	c := play(t, Config{Silence: 200 * time.Millisecond}, one, two)
	numbers, err := read(c, 3, 6)
	if err != nil || !reflect.DeepEqual(numbers, []uint64{4, 5, 6, 7, 8, 9}) {
		t.Errorf("%v %v; asked %v and %v", numbers, err, one.requests(), two.requests())
	}
	if one.requests()[0] != "follow=1&from=3" || two.requests()[0] != "follow=1&from=5" {
		t.Errorf("asked %v and %v", one.requests(), two.requests())
	}
}

func TestASilentLogGoesOnAtAnotherMember(t *testing.T) {
	one, two := &script{answers: []string{entryLine(4) + "~"}}, &script{answers: []string{entryLine(5)}}
	c := play(t, Config{Silence: 50 * time.Millisecond}, one, two)
	if numbers, err := read(c, 3, 2); err != nil || !reflect.DeepEqual(numbers, []uint64{4, 5}) {
		t.Errorf("%v %v", numbers, err)
	}
}

func TestEntriesThatAreForgotten(t *testing.T) {
	gone := func(before int) string { return fmt.Sprintf(`{"status":410,"error":"forgotten","before":%d}`, before) }
	one, two := &script{answers: []string{gone(7), gone(7)}}, &script{answers: []string{entryLine(4), gone(6)}}
	c := play(t, Config{}, one, two)
	if numbers, err := read(c, 3, 1); err != nil || len(numbers) != 1 {
		t.Errorf("another member has it: %v %v", numbers, err)
	}
	var forgotten *Forgotten
	if _, err := read(c, 3, 1); !errors.As(err, &forgotten) || forgotten.First != 6 {
		t.Errorf("all have forgotten: %v", err)
	}
	one, two = &script{answers: []string{gone(7)}}, &script{}
	if _, err := read(play(t, Config{}, one, two), 3, 1); !errors.As(err, &forgotten) || forgotten.First != 7 || len(one.requests()) != 1 {
		t.Errorf("one has forgotten and the other does not answer: %v, asked %v", err, one.requests())
	}
}

func TestALogEnds(t *testing.T) {
	var told *Error
	gone := `{"status":404,"error":"there is no book","code":"no_book"}` + "\n"
	for _, text := range []string{gone, entryLine(4) + gone} {
		if _, err := read(play(t, Config{}, &script{answers: []string{text}}), 3, 2); !errors.As(err, &told) || told.Code != CodeNoBook {
			t.Errorf("of a book that is gone: %v", err)
		}
	}
	if _, err := read(play(t, Config{}, &script{}), 3, 1); !errors.As(err, &told) || told.Status != 503 {
		t.Errorf("nobody answers: %v", err)
	}
	for text, words := range map[string]string{entryLine(5): "entry 5 of the log comes after entry 3", "x\n": "is not what lrcmand writes"} {
		if _, err := read(play(t, Config{}, &script{answers: []string{text}}), 3, 1); err == nil || !strings.Contains(err.Error(), words) {
			t.Errorf("%q: %v", text, err)
		}
	}
	ctx, cancel := context.WithCancel(background)
	c := play(t, Config{}, &script{answers: []string{entryLine(4) + "~"}})
	if err := c.Follow(ctx, "p0", 3, func(Entry) error { cancel(); return nil }); err != context.Canceled {
		t.Errorf("a context that is over: %v", err)
	}
}

func TestALogIsReadToItsEnd(t *testing.T) {
	one, two := &script{answers: []string{entryLine(1) + "!"}}, &script{answers: []string{entryLine(2) + entryLine(3)}}
	var numbers []uint64
	err := play(t, Config{}, one, two).Log(background, "p0", 0, func(entry Entry) error {
		numbers = append(numbers, entry.N)
		return nil
	})
	if err != nil || !reflect.DeepEqual(numbers, []uint64{1, 2, 3}) || two.requests()[0] != "from=1" {
		t.Errorf("%v %v, asked %v", numbers, err, two.requests())
	}
}
