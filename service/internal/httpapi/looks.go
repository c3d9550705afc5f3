package httpapi

import (
	"encoding/json"
	"errors"
	"fmt"
	"math"
	"net/http"
	"strconv"
	"strings"

	"lrcman/service/book"
	"lrcman/service/internal/replica"
	"lrcman/service/internal/state"
)

// looks are the requests that look at books.
type looks struct {
	state   *state.State
	replica *replica.Replica
	flights *flights
}

// freshness tells how new a look is.
type freshness struct {
	Index uint64 `json:"index"`
	Age   int64  `json:"age_ms"`
	fresh replica.Freshness
}

// begin is called before a look is taken: first of all it waits until this member is up to date, if that is asked for.
func (l *looks) begin(q *request) (freshness, error) {
	if err := l.wait(q); err != nil {
		return freshness{}, err
	}
	return l.freshness(), nil
}

func (l *looks) wait(q *request) error {
	if q.query.Get("now") != "1" {
		return nil
	}
	return l.replica.Barrier(q.ctx)
}

// freshness is that of a look that begins now.
func (l *looks) freshness() freshness {
	fresh := l.replica.Freshness()
	return freshness{Index: fresh.Index, fresh: fresh}
}

// end is called after a look was taken.
func (l *looks) end(q *request, n *freshness) {
	n.Age = l.replica.Age(n.fresh)
	q.setIndex(n.Index)
	q.w.Header().Set("Lrcmand-Age-Ms", strconv.FormatInt(n.Age, 10))
}

// look takes a look at the book of the path, and tells how new it is.
func (l *looks) look(q *request, look func(*state.View) error) (freshness, state.Position, error) {
	var at state.Position
	now, err := l.begin(q)
	if err != nil {
		return now, at, err
	}
	err = l.state.Look(q.names["book"], func(view *state.View) error {
		at = view.Position
		return look(view)
	})
	l.endAt(q, &now, at, err)
	return now, at, err
}

// endAt is called after a look was taken at a book, which stood there.
func (l *looks) endAt(q *request, now *freshness, at state.Position, err error) {
	l.end(q, now)
	q.w.Header().Set("Lrcmand-Entries", strconv.FormatUint(at.Made, 10))
	q.w.Header().Set("Lrcmand-Opens", strconv.FormatUint(at.Opens, 10))
	if err == nil {
		q.w.Header().Set("ETag", tagOf(at))
	}
}

// lookLong takes a look at all of the book of the path, or shares one, and tells how new it is. What the look returns makes the text
// of what it has seen, beside calls.
func (l *looks) lookLong(q *request, look func(*state.View, *sight) (func() ([]byte, error), error)) (sight, error) {
	name := q.names["book"]
	return l.lookTogether(q, func(found *sight) error {
		var write func() ([]byte, error)
		err := l.state.Look(name, func(view *state.View) (err error) {
			found.at = view.Position
			write, err = look(view, found)
			return err
		})
		if err == nil {
			found.text, err = write()
		}
		return err
	})
}

// lookTogether takes a long look at the book of the path, or shares one, and tells how new it is.
func (l *looks) lookTogether(q *request, look func(*sight) error) (sight, error) {
	if err := l.wait(q); err != nil {
		return sight{}, err
	}
	found, err := l.flights.take(q.ctx, whatOf(q), func() (found sight, err error) {
		found.now = l.freshness()
		err = look(&found)
		return found, err
	})
	if err == error(errTooManyLooks) {
		return found, err
	}
	l.endAt(q, &found.now, found.at, err)
	return found, err
}

// A position is where a book stands and how new that is, in each look.
type position struct {
	Made  uint64 `json:"n"`
	Opens uint64 `json:"opens"`
	freshness
}

// A bookRow is a book in the list of all.
type bookRow struct {
	Name  string `json:"name"`
	Made  uint64 `json:"n"`
	Opens uint64 `json:"opens"`
}

func (l *looks) books(q *request) error {
	part, err := partOf(q)
	if err != nil {
		return err
	}
	now, err := l.begin(q)
	if err != nil {
		return err
	}
	names, isMore := part.of((Scope{q.caller}).Books(l.state.Names()))
	rows := []bookRow{}
	for _, name := range names {
		err := l.state.Look(name, func(view *state.View) error {
			rows = append(rows, bookRow{name, view.Position.Made, view.Position.Opens})
			return nil
		})
		if err != nil && err != state.ErrNoBook { // (a restore may have taken it away)
			return err
		}
	}
	l.end(q, &now)
	return q.say(http.StatusOK, struct {
		freshness
		Books  []bookRow `json:"books"`
		IsMore bool      `json:"more,omitempty"`
	}{now, rows, isMore})
}

// A namesPart is which names of a list are asked for: those behind a name, and so many; 0: all.
type namesPart struct {
	from  string
	limit int
}

func partOf(q *request) (part namesPart, err error) {
	if part.from = q.query.Get("from"); part.from != "" && !isName(part.from) {
		return part, bad("the parameter \"from\" has to be the name of a book")
	}
	if q.query.Get("limit") == "" {
		return part, nil
	}
	limit, err := q.number("limit", math.MaxInt32)
	if err == nil && limit == 0 {
		err = bad("the parameter \"limit\" is 1 or more")
	}
	part.limit = int(limit)
	return part, err
}

// of is that part of names in their order, and whether there are more behind it.
func (p namesPart) of(names []string) (part []string, isMore bool) {
	for _, name := range names {
		if name <= p.from {
			continue
		}
		if p.limit > 0 && len(part) == p.limit {
			return part, true
		}
		part = append(part, name)
	}
	return part, false
}

func (l *looks) bookStatus(q *request) error {
	return l.table(q, "status")
}

func (l *looks) nodes(q *request) error {
	var text []byte
	_, _, err := l.look(q, func(view *state.View) error {
		text = view.Nodes
		return nil
	})
	if err == nil {
		q.write(http.StatusOK, "application/toml", text)
	}
	return err
}

func (l *looks) image(q *request) error {
	found, err := l.lookLong(q, func(view *state.View, _ *sight) (func() ([]byte, error), error) {
		text, err := view.Image()
		return func() ([]byte, error) { return text, nil }, err
	})
	if err == nil {
		q.write(http.StatusOK, "text/plain; charset=utf-8", found.text)
	}
	return err
}

func (l *looks) peek(q *request) error {
	command, err := book.Parse(q.query.Get("command"))
	if err != nil {
		return bad("%v", err)
	}
	session := uint64(1)
	if text := q.query.Get("session"); text != "" {
		if session, err = book.ParseNumber(text, book.Sessions); err != nil || session == 0 {
			return bad("the session is out of its range, 1 to %d: %q", book.Sessions, text)
		}
	}
	var reply book.Reply
	now, at, err := l.look(q, func(view *state.View) (err error) {
		reply, err = view.Peek(uint8(session), command)
		return err
	})
	if err != nil {
		return err
	}
	said, err := reply.JSON()
	if err != nil {
		return err
	}
	return q.say(http.StatusOK, struct {
		position
		book.ReplyJSON
	}{position{at.Made, at.Opens, now}, said})
}

// isCSV tells whether a table is asked for as CSV, and not as JSON.
func (q *request) isCSV() bool { return q.query.Get("format") == "csv" }

// rowsOf are the rows of a table as a request asks for them.
func rowsOf(q *request, table *book.Table) []byte {
	if q.isCSV() {
		return table.CSV()
	}
	return table.JSON()
}

// sayTable answers with a table, whose rows are written.
func (q *request) sayTable(found sight) error {
	if q.isCSV() {
		q.write(http.StatusOK, "text/csv; charset=utf-8", found.text)
		return nil
	}
	head, err := json.Marshal(struct {
		position
		IsSafe *bool `json:"safe,omitempty"`
	}{position{found.at.Made, found.at.Opens, found.now}, found.isSafe})
	if err != nil {
		return err
	}
	const rows, end = `,"rows":`, "}\n"
	text := make([]byte, 0, len(head)+len(rows)+len(found.text)+len(end))
	text = append(append(text, head[:len(head)-1]...), rows...)
	q.write(http.StatusOK, "application/json", append(append(text, found.text...), end...))
	return nil
}

func (l *looks) stripe(q *request) error {
	stripe, err := book.ParseNumber(q.names["stripe"], book.Stripes-1)
	if err != nil {
		return bad("the stripe %v", err)
	}
	var table *book.Table
	now, at, err := l.look(q, func(view *state.View) (err error) {
		table, err = view.ShowStripe(uint16(stripe))
		return err
	})
	if errors.Is(err, book.ErrNotFound) {
		return notFound(fmt.Sprintf("there is no stripe %d", stripe))
	} else if err != nil {
		return err
	}
	return q.sayTable(sight{at: at, now: now, text: rowsOf(q, table)})
}

func (l *looks) show(q *request) error { return l.table(q, q.names["view"]) }

func (l *looks) table(q *request, view string) error {
	if !isView[view] {
		return notFound("there is no such table; it has to be " + strings.Join(book.Views, ", "))
	}
	name := q.names["book"]
	found, err := l.lookTogether(q, func(found *sight) (err error) {
		var table *book.Table
		if table, found.at, err = l.state.Table(name, view); err == nil {
			found.text = rowsOf(q, table)
		}
		return err
	})
	if err != nil {
		return err
	}
	return q.sayTable(found)
}

func notFound(words string) error { return &failure{Status: http.StatusNotFound, Words: words} }

var isView = func() map[string]bool {
	set := map[string]bool{}
	for _, view := range book.Views {
		set[view] = true
	}
	return set
}()

func (l *looks) workers(q *request) error {
	var rows []state.Holder
	now, at, err := l.look(q, func(view *state.View) (err error) {
		rows, err = view.Holders()
		return err
	})
	if err != nil {
		return err
	}
	return q.say(http.StatusOK, struct {
		position
		Rows []state.Holder `json:"rows"`
	}{position{at.Made, at.Opens, now}, rows})
}

func (l *looks) mayStop(q *request) error { return l.forecast(q, book.Stop) }
func (l *looks) mayLose(q *request) error { return l.forecast(q, book.Lose) }

func (l *looks) forecast(q *request, outage book.Outage) error {
	var selected book.Selection
	for _, it := range []struct {
		name string
		most uint64
	}{{"node", math.MaxUint16}, {"fault", math.MaxUint8}, {"upgrade", math.MaxUint8}} {
		for _, text := range q.query[it.name] {
			number, err := book.ParseNumber(text, it.most)
			if err != nil {
				return bad("the parameter %q %v", it.name, err)
			}
			switch it.name {
			case "node":
				selected.Nodes = append(selected.Nodes, uint16(number))
			case "fault":
				selected.Faults = append(selected.Faults, uint8(number))
			case "upgrade":
				selected.Upgrades = append(selected.Upgrades, uint8(number))
			}
		}
	}
	if len(selected.Nodes)+len(selected.Faults)+len(selected.Upgrades) == 0 {
		return bad("name a node, a fault or an upgrade")
	}
	name := q.names["book"]
	found, err := l.lookTogether(q, func(found *sight) error {
		return l.state.LookLong(name, func(b *book.Book, at state.Position) error {
			table, isSafe, err := b.ShowForecast(outage, selected)
			if found.at, found.isSafe = at, &isSafe; err == nil {
				found.text = rowsOf(q, table)
			}
			return err
		})
	})
	if err != nil {
		return err
	}
	return q.sayTable(found)
}
