package httpapi

import (
	"fmt"
	"net/http"
	"runtime"
	"strconv"

	"lrcman/service/book"
	"lrcman/service/internal/engine"
	"lrcman/service/internal/replica"
	"lrcman/service/internal/state"
)

// group is the requests about this member and the others.
type group struct {
	engine  engine.Engine
	state   *state.State
	replica *replica.Replica
	refused *tally
	checks  []Check
	build   Build
	backups chan struct{} // has room for those that may be sent at once
}

const mostBackups = 2

func (g *group) version(q *request) error {
	return q.say(http.StatusOK, struct {
		Service int `json:"service"`
		Build
		Form      int    `json:"form"`
		Interface uint32 `json:"interface"`
		Rules     uint32 `json:"rules"`
		Go        string `json:"go"`
	}{1, g.build, state.Form, book.Interface(), g.state.Rules(), runtime.Version()})
}

func (g *group) status(q *request) error {
	return q.say(http.StatusOK, struct {
		engine.Status
		Age     int64          `json:"age_ms"`
		Rules   uint32         `json:"rules"`
		Refused map[int]uint64 `json:"refused"`
	}{g.engine.Status(), g.replica.Age(g.replica.Freshness()), g.state.Rules(), g.refused.counts()})
}

func (g *group) members(q *request) error { return g.sayMembers(q, false) }

// sayMembers answers with the members; isAgain says that they were changed so before.
func (g *group) sayMembers(q *request, isAgain bool) error {
	type row struct {
		engine.Member
		Leader bool `json:"leader"`
	}
	status := g.engine.Status()
	rows := []row{}
	for _, member := range status.Members {
		rows = append(rows, row{member, member.ID == status.Leader})
	}
	q.setIndex(status.Applied)
	return q.say(http.StatusOK, struct {
		Members []row `json:"members"`
		IsAgain bool  `json:"again,omitempty"`
	}{rows, isAgain})
}

func memberID(q *request) (uint64, error) {
	id, err := book.ParseNumber(q.names["id"], engine.MostID)
	if err != nil || id == 0 {
		return 0, bad("the number of a member is 1 to %d: %q", engine.MostID, q.names["id"])
	}
	return id, nil
}

func (g *group) addMember(q *request) error {
	id, err := memberID(q)
	if err != nil {
		return err
	}
	if _, err := isJSON(q.r, false); err != nil {
		return err
	}
	text, err := q.body()
	if err != nil {
		return err
	}
	member, err := memberOf(text, id)
	if err != nil {
		return err
	}
	isAgain, err := g.engine.Add(q.ctx, member, q.query.Get("force") == "1")
	if err != nil {
		return err
	}
	return g.sayMembers(q, isAgain)
}

func (g *group) removeMember(q *request) error {
	id, err := memberID(q)
	if err != nil {
		return err
	}
	isAgain, err := g.engine.Remove(q.ctx, id, q.query.Get("force") == "1")
	if err != nil {
		return err
	}
	return g.sayMembers(q, isAgain)
}

// lead answers once the member of the path leads.
func (g *group) lead(q *request) error {
	id, err := memberID(q)
	if err != nil {
		return err
	}
	if err := g.engine.Lead(q.ctx, id); err != nil {
		return err
	}
	return g.members(q)
}

func (g *group) snapshot(q *request) error {
	if err := g.engine.Snapshot(q.ctx); err != nil {
		return err
	}
	return g.status(q)
}

// backup sends all that this member has, of one place of the log: all that was told before the request is in it, unless it has
// now=0. A member that has lost its majority still sends what it has then.
func (g *group) backup(q *request) error {
	select {
	case g.backups <- struct{}{}:
		defer func() { <-g.backups }()
	default:
		return &failure{Status: http.StatusTooManyRequests, Words: fmt.Sprintf("%d backups are sent already", mostBackups)}
	}
	if q.query.Get("now") != "0" {
		if err := g.replica.Barrier(q.ctx); err != nil {
			return err
		}
	}
	backup, err := g.engine.Backup(q.ctx)
	if err != nil {
		return err
	}
	defer backup.Close()
	q.w.Header().Set("Content-Type", "application/octet-stream")
	q.w.Header().Set("Cache-Control", "no-store")
	q.w.Header().Set("Lrcmand-Index", strconv.FormatUint(backup.Index, 10))
	q.w.WriteHeader(http.StatusOK)
	if err := backup.Write(patient{q}); err != nil {
		if q.conn != nil { // so that the client sees that it is not whole
			q.conn.Close()
		}
	}
	return nil
}

// A patient writer gives the client time for each part that it takes.
type patient struct{ q *request }

func (p patient) Write(text []byte) (int, error) {
	p.q.limitWrite()
	return p.q.w.Write(text)
}
