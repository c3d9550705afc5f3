package main

import (
	"context"
	"errors"
	"fmt"
	"io"
	"net/url"
	"strings"
	"testing"

	lrcmand "lrcman/service/client"
	"lrcman/service/internal/survey/recorded"
)

var always = context.Background()

// newClient is the client of a member that has the book of a state that the plain model wrote.
func newClient(t *testing.T, state string) *lrcmand.Client {
	t.Helper()
	address := start(t)
	b, err := recorded.Load(state)
	if err != nil {
		t.Fatal(err)
	}
	makeBook(t, address, b)
	c, err := lrcmand.New(lrcmand.Config{Servers: []string{address}})
	if err != nil {
		t.Fatal(err)
	}
	t.Cleanup(c.Close)
	return c
}

// linesOf are the rows of a table as CSV has them, with "-" for what is not there.
func linesOf(rows [][]interface{}) string {
	text := ""
	for _, row := range rows {
		for i, cell := range row {
			if i > 0 {
				text += ","
			}
			text += cellOf(cell)
		}
		text += "\n"
	}
	return text
}

func cellOf(cell interface{}) string {
	switch it := cell.(type) {
	case bool:
		return map[bool]string{false: "no", true: "yes"}[it]
	case *int:
		if it != nil {
			return fmt.Sprint(*it)
		}
		return "-"
	case *uint32:
		if it != nil {
			return fmt.Sprint(*it)
		}
		return "-"
	case *lrcmand.Seat:
		if it != nil {
			return it.String()
		}
		return "-"
	case []uint8, []int:
		return strings.Trim(fmt.Sprint(it), "[]")
	}
	return fmt.Sprint(cell)
}

func maskOf(members []uint8) string {
	set := 0
	for _, it := range members {
		set |= 1 << it
	}
	return fmt.Sprintf("0x%04x", set)
}

// A typedLook is a table of a path, and its rows as the client has them.
type typedLook struct {
	path   string
	values url.Values
	rows   func() ([][]interface{}, error)
}

func looksOf(t *testing.T, c *lrcmand.Client) []typedLook {
	return append(append(showsOf(c), healthOf(c)), forecastsOf(t, c)...)
}

func forecastsOf(t *testing.T, c *lrcmand.Client) []typedLook {
	t.Helper()
	nodes, _, err := c.ShowNodes(always, "p0")
	if err != nil || len(nodes) < 4 {
		t.Fatal(nodes, err)
	}
	outage := lrcmand.Outage{Nodes: []uint16{nodes[0].Number, nodes[1].Number}, Faults: []uint8{nodes[2].Fault},
		Upgrades: []uint8{nodes[3].Upgrade}}
	values := url.Values{"node": {fmt.Sprint(outage.Nodes[0]), fmt.Sprint(outage.Nodes[1])}, "fault": {fmt.Sprint(outage.Faults[0])},
		"upgrade": {fmt.Sprint(outage.Upgrades[0])}}
	return []typedLook{
		{"/may-stop", values, func() ([][]interface{}, error) {
			found, _, err := c.MayStop(always, "p0", outage)
			return outlooks(found), err
		}},
		{"/may-lose", values, func() ([][]interface{}, error) {
			found, _, err := c.MayLose(always, "p0", outage)
			return outlooks(found), err
		}},
	}
}

func healthOf(c *lrcmand.Client) typedLook {
	return typedLook{"/show/health", nil, func() (rows [][]interface{}, err error) {
		found, _, err := c.ShowHealth(always, "p0")
		for _, it := range found {
			rows = append(rows, []interface{}{it.Reason, it.Count, it.First})
		}
		return rows, err
	}}
}

func showsOf(c *lrcmand.Client) []typedLook {
	return []typedLook{
		{"/show/stripes", nil, func() (rows [][]interface{}, err error) {
			found, _, err := c.ShowStripes(always, "p0")
			for _, it := range found {
				row := []interface{}{it.Number, it.Code, it.Level, it.Margin, maskOf(it.Missing), it.Missing, maskOf(it.Homeless), it.Homeless}
				for fragment := 0; fragment < 16; fragment++ {
					if fragment < len(it.Homes) {
						row = append(row, it.Homes[fragment])
					} else {
						row = append(row, "")
					}
				}
				rows = append(rows, row)
			}
			return rows, err
		}},
		{"/show/nodes", nil, func() (rows [][]interface{}, err error) {
			found, _, err := c.ShowNodes(always, "p0")
			for _, it := range found {
				rows = append(rows, []interface{}{it.Number, it.Fault, it.Upgrade, it.Mode, it.Down, it.Upgrading, it.Online, it.Homes,
					it.Targets, it.Load, it.Slots})
			}
			return rows, err
		}},
		{"/show/leases", nil, func() (rows [][]interface{}, err error) {
			found, _, err := c.ShowLeases(always, "p0")
			for _, it := range found {
				rows = append(rows, []interface{}{it.Stripe, it.Fragment, it.Holder, it.Target, it.Epoch, it.Expiry})
			}
			return rows, err
		}},
		{"/show/work", nil, func() (rows [][]interface{}, err error) {
			found, _, err := c.ShowWork(always, "p0")
			for _, it := range found {
				rows = append(rows, []interface{}{it.Stripe, it.Fragment, it.Repair, it.Sources, it.Reads, it.Standing, it.Holder, it.Epoch})
			}
			return rows, err
		}},
	}
}

func outlooks(found lrcmand.Forecast) (rows [][]interface{}) {
	for _, it := range found.Rows {
		rows = append(rows, []interface{}{it.Stripe, it.Code, it.LevelBefore, it.MarginBefore, it.LevelAfter, it.MarginAfter,
			maskOf(it.Missing), it.Missing, it.LeasesEnded, it.Harmed})
	}
	return rows
}

// What the client reads into types is what a member prints, cell by cell.
func TestLooksOfTheClientAreTheTables(t *testing.T) {
	rows := map[string]int{}
	for _, state := range []string{"rack", "harm", "upgrade"} {
		compareLooks(t, newClient(t, state), rows)
	}
	for _, path := range []string{"/show/stripes", "/show/nodes", "/show/leases", "/show/work", "/show/health", "/may-stop", "/may-lose"} {
		if recorded.HasRules() && rows[path] == 0 {
			t.Errorf("no state has a row of %s", path)
		}
	}
}

// compareLooks adds how many rows each look has.
func compareLooks(t *testing.T, c *lrcmand.Client, count map[string]int) {
	t.Helper()
	for _, it := range looksOf(t, c) {
		values := url.Values{"format": {"csv"}}
		for name, numbers := range it.values {
			values[name] = numbers
		}
		printed, err := c.Get(always, "/books/p0"+it.path, values)
		if err != nil {
			t.Fatal(err)
		}
		rows, err := it.rows()
		_, want, _ := strings.Cut(string(printed.Text), "\n")
		// CSV has nothing where a lease is not there, or a stripe can't be rebuilt; the client has no value in both cases.
		got := linesOf(rows)
		if it.path == "/show/work" {
			got = strings.NewReplacer(",-,", ",,", ",-\n", ",\n").Replace(strings.ReplaceAll(got, ",-,-\n", ",,\n"))
		}
		if count[it.path] += len(rows); err != nil || got != want {
			t.Errorf("%s: %v\n%s and not\n%s", it.path, err, got, want)
		}
	}
}

// Each request that changes something is taken by a member, and made once where it comes again with its key.
func TestChangesOfTheClientAreMadeOnce(t *testing.T) {
	c := newClient(t, "rack")
	nodes, look, err := c.Nodes(always, "p0", lrcmand.WithNow())
	if err != nil || look.N == 0 || look.Opens == 0 {
		t.Fatalf("%+v %v", look, err)
	}
	since, err := c.Index(always)
	if err != nil {
		t.Fatal(err)
	}
	key := func(name string) lrcmand.Option { return lrcmand.WithKey(name, since) }
	sinceTick := uint64(0)
	for _, isAgain := range []bool{false, true} {
		made, err := c.CreateBook(always, "p1", nodes, key("create"))
		if err != nil || made.Again != isAgain || made.Opens == 0 {
			t.Errorf("create: %+v %v", made, err)
		}
		if sinceTick == 0 {
			if sinceTick, err = c.Index(always); err != nil {
				t.Fatal(err)
			}
		}
		reply, err := c.Call(always, "p1", "tick", lrcmand.WithKey("tick", sinceTick), lrcmand.WithSession(3), lrcmand.WithWorker("w7"))
		if err != nil || reply.N != 1 || reply.Clock != 1 || reply.Again != isAgain {
			t.Errorf("tick: %+v %v", reply, err)
		}
		image, _, err := c.Image(always, "p1", lrcmand.WithNow())
		if err != nil {
			t.Fatal(err)
		}
		if made, err = c.CreateBookIn(always, "p2", nodes, image, key("image")); err != nil || made.N != 1 || made.Again != isAgain {
			t.Errorf("create in an image: %+v %v", made, err)
		}
	}
	checkRemovals(t, c, nodes, key("remove"))
}

// checkRemovals has the book p1 go on over its nodes, and removes p2, which is asked for once more.
func checkRemovals(t *testing.T, c *lrcmand.Client, nodes string, key lrcmand.Option) {
	t.Helper()
	_, look, err := c.Nodes(always, "p1", lrcmand.WithNow())
	if err != nil {
		t.Fatal(err)
	}
	if _, err := c.ReopenBook(always, "p1", nodes, lrcmand.WithPosition(look.Position())); err != nil {
		t.Error(err)
	}
	var told *lrcmand.Error
	if err := c.RemoveBook(always, "p1", lrcmand.Position{N: 7, Opens: look.Opens}); !errors.As(err, &told) || told.Code != lrcmand.CodeMoved {
		t.Errorf("a book that stands elsewhere: %v", err)
	}
	_, look, err = c.Nodes(always, "p2", lrcmand.WithNow())
	for i := 0; i < 2 && err == nil; i++ {
		err = c.RemoveBook(always, "p2", look.Position(), key)
	}
	if err != nil {
		t.Error(err)
	}
	books, _, err := c.Books(always, lrcmand.WithNow())
	if err != nil || len(books) != 2 {
		t.Errorf("%+v %v", books, err)
	}
}

// The other requests are taken too, and the log is that of the book.
func TestAMemberAnswersAllThatTheClientAsks(t *testing.T) {
	c := newClient(t, "rack")
	b, err := recorded.Load("rack")
	if err != nil {
		t.Fatal(err)
	}
	count := 0
	err = c.Log(always, "p0", 0, func(entry lrcmand.Entry) error {
		if count++; string(entry.Command) != b.Lines[count-1].Command {
			return fmt.Errorf("entry %+v, and not %+v", entry, b.Lines[count-1])
		}
		return nil
	})
	if err != nil || count != len(b.Lines) {
		t.Errorf("%d of %d entries: %v", count, len(b.Lines), err)
	}
	status, err := c.Status(always)
	if err != nil || status.ID != 1 || status.Leader != 1 || len(status.Members) != 1 {
		t.Errorf("%+v %v", status, err)
	}
	rules, err := c.Rules(always)
	if err != nil || rules.Group != rules.Program || rules.Group == 0 {
		t.Errorf("%+v %v", rules, err)
	}
	if _, err := c.Lead(always, 1); err != nil {
		t.Error(err)
	}
	if err := c.Health(always); err != nil {
		t.Error(err)
	}
	if rows, err := c.Matrix(always, "narrow"); recorded.HasRules() && (err != nil || len(rows) != 10 || len(rows[0]) != 6) {
		t.Errorf("%v %v", rows, err)
	}
	from, err := c.Backup(always)
	if err != nil {
		t.Fatal(err)
	}
	if text, err := io.ReadAll(from); err != nil || len(text) < 1000 || from.Close() != nil {
		t.Errorf("%d bytes: %v", len(text), err)
	}
	if err := c.Snapshot(always); err != nil {
		t.Error(err)
	}
}
