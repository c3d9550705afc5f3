package client

import (
	"fmt"
	"net/http"
)

// The codes of errors. docs/SERVICE.md has all of them.
const (
	CodeNoBook         = "no_book"
	CodeBookExists     = "book_exists"
	CodeTooManyBooks   = "too_many_books"
	CodeBadText        = "bad_text"
	CodeKeyReused      = "key_reused"
	CodeKeyForgotten   = "key_forgotten"
	CodeMoved          = "moved"
	CodeOutOfRange     = "out_of_range"
	CodeOtherRules     = "other_rules"
	CodeNotChanged     = "not_changed"
	CodeSpent          = "spent"
	CodeNoLeader       = "no_leader"
	CodeNotLeader      = "not_leader"
	CodeOutcomeUnknown = "outcome_unknown"
	CodeUndetermined   = "undetermined"
	CodeForgotten      = "forgotten_entries"
	CodeRefusedChange  = "refused_change"
)

// An Error is an answer of a member other than 200.
type Error struct {
	Status int
	Code   string // a word for programs, as no_book
	Words  string // words for people
	Server string // the URL of the member that answered
	Leader string // with not_leader: HOST:PORT of the leader, where it is known
}

// Error has the words, the status and who told it.
func (e *Error) Error() string {
	words := e.Words
	if words == "" {
		words = http.StatusText(e.Status)
	}
	return fmt.Sprintf("%s (%d from %s)", words, e.Status, e.Server)
}

// An OutcomeUnknown says that the outcome of a request is unknown: it may have been made, or still be made. To retry by
// WithKey(Key, Since) makes it once all the same. Where Key is empty, asking again changes nothing that was made.
type OutcomeUnknown struct {
	Key   string
	Since uint64
	Err   error // what went wrong last
}

// Error has what went wrong, and says that the outcome is unknown.
func (u *OutcomeUnknown) Error() string {
	return fmt.Sprintf("outcome unknown: %v", u.Err)
}

// Unwrap is what went wrong last.
func (u *OutcomeUnknown) Unwrap() error { return u.Err }

// A KeyForgotten says that a request may have been made, and that the group has forgotten its key since. To ask again does not
// help.
type KeyForgotten struct {
	Key   string
	Since uint64
	Err   error // the answer of the member
}

// Error has the answer, and says that the outcome stays unknown.
func (f *KeyForgotten) Error() string {
	return fmt.Sprintf("outcome unknown, and the key is forgotten: %v", f.Err)
}

// Unwrap is the answer of the member.
func (f *KeyForgotten) Unwrap() error { return f.Err }

// A Forgotten says that no member has the entries of a log that were asked for.
type Forgotten struct {
	First uint64 // the first place that a member has: ask behind it
}

// Error names the place.
func (f *Forgotten) Error() string {
	return fmt.Sprintf("the entries up to %d are forgotten", f.First)
}
