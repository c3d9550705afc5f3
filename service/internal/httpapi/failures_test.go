package httpapi

import (
	"encoding/json"
	"errors"
	"net/http"
	"testing"

	"lrcman/service/internal/engine"
	"lrcman/service/internal/replica"
	"lrcman/service/internal/state"
)

// failed is what a request is refused with.
func (s *service) failed(method, path, body string, options ...option) (*http.Response, failure) {
	s.t.Helper()
	answer, text := s.ask(method, path, body, options...)
	var fail failure
	if err := json.Unmarshal([]byte(text), &fail); err != nil || fail.Status != answer.StatusCode {
		s.t.Errorf("%s %s %.200s: %d %s", method, path, body, answer.StatusCode, text)
	}
	return answer, fail
}

func TestEachErrorHasACode(t *testing.T) {
	s := newService(t, nil)
	for _, it := range []struct{ method, path, body, code string }{
		{"GET", "/nothing", "", "not_found"},
		{"POST", "/books", "", "method_not_allowed"},
		{"GET", "/books/p9", "", "no_book"},
		{"GET", "/books/p0/stripes/17", "", "not_found"},
		{"GET", "/books/p0?now=2", "", "bad_request"},
		{"POST", "/books/p9/call", `{"command":"tick"}`, "no_book"},
		{"POST", "/books/p0/call", `{"command":"tick","at":1,"opens":1}`, "moved"},
		{"PUT", "/books/p0", nodes(5), "book_exists"},
		{"PUT", "/books/p1", nodes(0), "bad_text"},
		{"PUT", "/books/p0/nodes", `{"nodes":"x"}`, "wrong_type"},
		{"PUT", "/members/9", `{"peer":"h:1","client":"h:2"}`, "refused_change"},
		{"DELETE", "/members/2", "", "outcome_unknown"},
		{"POST", "/leader/2", "", "busy"},
		{"POST", "/snapshot", "", "busy"},
	} {
		answer, fail := s.failed(it.method, it.path, it.body)
		if fail.Code != it.code {
			t.Errorf("%s %s: code %q, and not %q", it.method, it.path, fail.Code, it.code)
		}
		want := map[int]string{503: "1", 429: "1"}[fail.Status]
		if wait := answer.Header.Get("Retry-After"); wait != want {
			t.Errorf("%s %s: %d with Retry-After %q", it.method, it.path, fail.Status, wait)
		}
	}
}

// What the library refuses at a look is no lack of a leader.
func TestErrorsByNameHaveTheirStatus(t *testing.T) {
	for _, it := range []struct {
		err    error
		status int
		code   string
	}{
		{errors.New("the library has no memory"), 500, "fault"},
		{engine.ErrNoLeader, 503, "no_leader"},
		{engine.ErrEnded, 503, "ended"},
		{engine.ErrOutcomeUnknown, 504, "outcome_unknown"},
		{replica.ErrFull, 429, "too_many_requests"},
		{state.ErrDiffers, 503, "differs"},
		{replica.ErrLate, 503, "busy"},
	} {
		if fail := failureOf(it.err); fail.Status != it.status || fail.Code != it.code || fail.Maybe != (it.status == 504) {
			t.Errorf("%v: %+v", it.err, fail)
		}
	}
}
