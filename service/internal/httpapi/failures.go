package httpapi

import (
	"errors"
	"fmt"
	"net/http"

	"lrcman/service/book"
	"lrcman/service/internal/disk"
	"lrcman/service/internal/engine"
	"lrcman/service/internal/replica"
	"lrcman/service/internal/state"
)

// A failure is an answer other than 200.
type failure struct {
	Status int     `json:"status"`
	Code   string  `json:"code"` // tells failures of one status apart; where it is "", failureOf gives it that of its status
	Words  string  `json:"error"`
	Maybe  bool    `json:"maybe,omitempty"`  // it may have been made
	Since  *uint64 `json:"since,omitempty"`  // to be sent with the same key, if it is asked for again
	Before *uint64 `json:"before,omitempty"` // of a log: the first place that this member has
	Leader string  `json:"leader,omitempty"` // HOST:PORT of the leader for clients, where it alone is asked for this
	// Of a member that is not ready: why, in words, by what is the matter.
	Reasons map[string]string `json:"reasons,omitempty"`
	allow   string
}

// Error is the line of words.
func (f *failure) Error() string { return f.Words }

// setHeaders sets the headers that go with a failure.
func (f *failure) setHeaders(header http.Header) {
	if f.allow != "" {
		header.Set("Allow", f.allow)
	}
	switch f.Status {
	case http.StatusUnauthorized:
		header.Set("WWW-Authenticate", "Bearer")
	case http.StatusTooManyRequests:
		header.Set("Retry-After", "1")
		header.Set("Connection", "close") // (who asks too much may not keep a connection, too)
	case http.StatusServiceUnavailable, http.StatusInsufficientStorage:
		header.Set("Retry-After", "1")
	}
}

// codesOf are the codes of failures that have none of their own, by status.
var codesOf = map[int]string{
	http.StatusBadRequest:            "bad_request",
	http.StatusUnauthorized:          "unauthorized",
	http.StatusForbidden:             "forbidden",
	http.StatusNotFound:              "not_found",
	http.StatusMethodNotAllowed:      "method_not_allowed",
	http.StatusRequestTimeout:        "too_slow",
	http.StatusConflict:              "refused_change",
	http.StatusGone:                  "forgotten_entries",
	http.StatusLengthRequired:        "length_required",
	http.StatusRequestEntityTooLarge: "too_large",
	http.StatusUnsupportedMediaType:  "wrong_type",
	http.StatusUnprocessableEntity:   "bad_text",
	http.StatusTooManyRequests:       "too_many_requests",
	http.StatusInternalServerError:   "fault",
	http.StatusServiceUnavailable:    "busy",
	http.StatusGatewayTimeout:        "outcome_unknown",
	http.StatusInsufficientStorage:   "disk_full",
}

func bad(form string, values ...interface{}) error {
	return &failure{Status: http.StatusBadRequest, Words: fmt.Sprintf(form, values...)}
}

// failureOf is the answer to an error, with its code.
func failureOf(err error) *failure {
	fail := *failureWithoutCode(err)
	if fail.Code == "" {
		fail.Code = codesOf[fail.Status]
	}
	return &fail
}

func failureWithoutCode(err error) *failure {
	var fail *failure
	var forgotten *state.Forgotten
	var refused engine.Refused
	var notLeader *engine.NotLeader
	var unknown *replica.Unknown
	switch {
	case errors.As(err, &fail):
		return fail
	case errors.As(err, &forgotten):
		return &failure{Status: http.StatusGone, Words: err.Error(), Before: &forgotten.First}
	case errors.As(err, &refused):
		return &failure{Status: http.StatusConflict, Words: err.Error()}
	case errors.As(err, &notLeader):
		return &failure{Status: http.StatusServiceUnavailable, Code: "not_leader", Words: err.Error(), Leader: notLeader.Leader.Client}
	case errors.As(err, &unknown) && unknown.HasKey:
		return &failure{Status: http.StatusGatewayTimeout, Words: err.Error(), Maybe: true, Since: &unknown.Since}
	case errors.Is(err, engine.ErrOutcomeUnknown):
		return &failure{Status: http.StatusGatewayTimeout, Words: err.Error(), Maybe: true}
	}
	for _, it := range failuresOf {
		if errors.Is(err, it.err) {
			return &failure{Status: it.status, Code: it.code, Words: err.Error()}
		}
	}
	return &failure{Status: http.StatusInternalServerError, Words: err.Error()} // (of the library: memory was refused, say)
}

// failuresOf are the answers to errors by name.
var failuresOf = []struct {
	err    error
	status int
	code   string
}{
	{state.ErrNoBook, http.StatusNotFound, "no_book"},
	{state.ErrDiffers, http.StatusServiceUnavailable, "differs"},
	{book.ErrNotFound, http.StatusNotFound, "not_found"},
	{book.ErrUndetermined, http.StatusConflict, "undetermined"},
	{replica.ErrLate, http.StatusServiceUnavailable, "busy"},
	{replica.ErrFull, http.StatusTooManyRequests, "too_many_requests"},
	{disk.ErrFull, http.StatusInsufficientStorage, "disk_full"},
	{engine.ErrNoLeader, http.StatusServiceUnavailable, "no_leader"},
	{engine.ErrNotMoved, http.StatusServiceUnavailable, "busy"},
	{engine.ErrBusy, http.StatusServiceUnavailable, "busy"},
	{engine.ErrEnded, http.StatusServiceUnavailable, "ended"},
	{engine.ErrRemoved, http.StatusServiceUnavailable, "ended"},
}
