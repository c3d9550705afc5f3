package httpapi

import (
	"net/http"

	"lrcman/service/book"
	"lrcman/service/internal/state"
)

// matrix answers with the generator matrix of a code, which no book changes.
func matrix(q *request) error {
	code, isThere := codes[q.query.Get("code")]
	if !isThere {
		return bad("the parameter \"code\" has to be wide or narrow")
	}
	rows, err := book.Matrix(code)
	if err != nil {
		return err
	}
	return q.say(http.StatusOK, struct {
		Code string         `json:"code"`
		Rows []book.Numbers `json:"rows"`
	}{code.String(), rows})
}

var codes = map[string]book.Code{book.Wide.String(): book.Wide, book.Narrow.String(): book.Narrow}

// number reads a parameter that has to be there.
func (q *request) number(name string, most uint64) (uint64, error) {
	value, err := book.ParseNumber(q.query.Get(name), most)
	if err != nil {
		return 0, bad("the parameter %q %v", name, err)
	}
	return value, nil
}

// missing are the fragments that a request names as missing too.
func (q *request) missing() ([]uint8, error) {
	var further []uint8
	for _, text := range q.query["missing"] {
		fragment, err := book.ParseNumber(text, book.Fragments-1)
		if err != nil {
			return nil, bad("the parameter \"missing\" %v", err)
		}
		further = append(further, uint8(fragment))
	}
	return further, nil
}

// recipe answers with how a fragment is rebuilt: what a worker reads, where, and each coefficient.
func (l *looks) recipe(q *request) error {
	stripe, err := q.number("stripe", book.Stripes-1)
	if err != nil {
		return err
	}
	fragment, err := q.number("fragment", book.Fragments-1)
	if err != nil {
		return err
	}
	further, err := q.missing()
	if err != nil {
		return err
	}
	var found book.Rebuild
	now, at, err := l.look(q, func(view *state.View) (err error) {
		found, err = view.Rebuild(uint16(stripe), uint8(fragment), further)
		return err
	})
	if err != nil {
		return err
	}
	return q.sayRecipe(&found, position{at.Made, at.Opens, now})
}

func (q *request) sayRecipe(found *book.Rebuild, at position) error {
	if q.query.Get("format") == "csv" {
		q.write(http.StatusOK, "text/csv; charset=utf-8", found.Table().CSV())
		return nil
	}
	return q.say(http.StatusOK, struct {
		position
		Code    string       `json:"code"`
		Missing book.Numbers `json:"missing_fragments"`
		Rows    *book.Table  `json:"rows"`
	}{at, found.Recipe.Code.String(), found.MissingFragments(), found.Table()})
}
