package httpapi

import (
	"fmt"
	"math"
	"net/http"
	"strings"

	"lrcman/service/book"
	"lrcman/service/internal/state"
)

// tagOf is the ETag of a book that stands at a place. (How new the look is changes without it)
func tagOf(at state.Position) string { return fmt.Sprintf(`"%d-%d"`, at.Made, at.Opens) }

// takesMatch are the routes at which a change may be asked for only where the book stands as a look told.
var takesMatch = map[string]bool{"POST /books/{book}/call": true, "PUT /books/{book}/nodes": true, "DELETE /books/{book}": true}

// checkMatch refuses a condition where none is looked at.
func (q *request) checkMatch(route *Route) error {
	if q.r.Header.Get("If-Match") != "" && route.Method != http.MethodGet && !takesMatch[route.Method+" "+route.Pattern] {
		return bad("this takes no If-Match")
	}
	return nil
}

// match is the place that If-Match asks for; nil without it.
func (q *request) match() (*state.Position, error) {
	text := q.r.Header.Get("If-Match")
	if text == "" {
		return nil, nil
	}
	made, opens, isTag := strings.Cut(strings.TrimSuffix(strings.TrimPrefix(text, `"`), `"`), "-")
	at := &state.Position{}
	var wrong, wrongToo error
	at.Made, wrong = book.ParseNumber(made, math.MaxUint64)
	at.Opens, wrongToo = book.ParseNumber(opens, math.MaxUint64)
	if !isTag || wrong != nil || wrongToo != nil || tagOf(*at) != text {
		return nil, bad("If-Match has to be the ETag of a look at the book, as \"12-1024\" in quotes")
	}
	return at, nil
}

// condition is the place that a change asks for, which comes in one of two ways; nil: any place.
func (q *request) condition(given *state.Position) (*state.Position, error) {
	matched, err := q.match()
	if err != nil || matched == nil {
		return given, err
	}
	if given != nil {
		return nil, bad("\"at\" and \"opens\" come as fields or parameters, or as If-Match")
	}
	return matched, nil
}

// removal is the place that the body of a removal asks for.
func (q *request) removal(text []byte) (*state.Position, error) {
	at, err := removalOf(text)
	if err != nil {
		return nil, err
	}
	return q.condition(at)
}
