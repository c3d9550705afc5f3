package httpapi

import (
	"errors"
	"fmt"
	"strings"
	"testing"
	"time"

	"lrcman/service/internal/disk"
	"lrcman/service/internal/state"
	"lrcman/service/internal/testengine"
)

func (s *service) eventually(method, path string, status int) {
	s.t.Helper()
	for end := time.Now().Add(30 * time.Second); ; time.Sleep(10 * time.Millisecond) {
		answer, text := s.ask(method, path, "")
		if answer.StatusCode == status {
			return
		}
		if time.Now().After(end) {
			s.t.Fatalf("%s %s: %d and not %d: %s", method, path, answer.StatusCode, status, text)
		}
	}
}

func TestAMemberTellsWhyItIsNotReady(t *testing.T) {
	why := ""
	s := newService(t, func(with *setup) { with.Checks = []Check{{"disk", func() string { return why }}} })
	s.eventually("GET", "/readyz", 200)
	s.expect("GET", "/readyz", "", 200, `{"ok":true}`)
	why = "it is full"
	s.expect("GET", "/readyz", "", 503, `{"status":503,"code":"not_ready","error":"it is full","reasons":{"disk":"it is full"}}`)
	s.expect("GET", "/health", "", 200, `{"ok":true}`) // (it has a leader and keeps up)
	s.engine.Change(func(e *testengine.Local) { e.Leader = 0 })
	s.expect("GET", "/readyz", "", 503, `{"status":503,"code":"not_ready","error":"it is full; there is no leader",`+
		`"reasons":{"disk":"it is full","leader":"there is no leader"}}`)
	s.expect("GET", "/livez", "", 200, `{"ok":true}`)
}

func TestAMemberThatIsBehindIsNotReady(t *testing.T) {
	s := newService(t, func(with *setup) { with.engine.Silent = errors.New("nobody answers") })
	s.expect("GET", "/readyz", "", 503, `{"status":503,"code":"not_ready","error":"this member is behind: it has applied 1 of 0 entries",`+
		`"reasons":{"behind":"this member is behind: it has applied 1 of 0 entries"}}`)
}

func TestAMemberWhoseLoopStandsStillIsStuck(t *testing.T) {
	s := newService(t, nil)
	s.engine.Change(func(e *testengine.Local) { e.Turned = time.Now() })
	s.expect("GET", "/livez", "", 200, `{"ok":true}`)
	s.engine.Change(func(e *testengine.Local) { e.Turned = time.Now().Add(-2 * stuckTime) })
	s.refused("GET", "/livez", "", 503, "the loop of this member has stood still for 2m0s")
}

// Where the disk has too little room nothing is changed, but looks go on, and what makes room is done.
func TestAFullDiskIsToldByName(t *testing.T) {
	isFull := false
	s := newService(t, func(with *setup) {
		with.replica.MayChange = func(item *state.Item) error {
			if isFull && item.Action != state.Remove {
				return disk.ErrFull
			}
			return nil
		}
	})
	s.call("place 1")
	isFull = true
	for _, it := range [][]string{{"POST", "/books/p0/call", `{"command":"tick"}`}, {"PUT", "/books/p1", nodes(4)}, {"PUT", "/books/p0/nodes", nodes(5)},
		{"PUT", "/rules", `{"rules":2}`}} {
		answer, text := s.ask(it[0], it[1], it[2])
		if answer.StatusCode != 507 || answer.Header.Get("Retry-After") != "1" || !strings.HasPrefix(text, `{"status":507,"code":"disk_full",`) {
			t.Errorf("%v: %d %s", it[:2], answer.StatusCode, text)
		}
	}
	answer, text := s.ask("GET", "/books/p0?now=1", "")
	if answer.StatusCode != 200 || !strings.Contains(text, `"n":1,`) {
		t.Error(text)
	}
	place := fmt.Sprintf(`{"at":1,"opens":%s}`, answer.Header.Get("Lrcmand-Opens"))
	if answer, text := s.ask("DELETE", "/books/p0", place); answer.StatusCode != 200 {
		t.Error(place, text)
	}
}
