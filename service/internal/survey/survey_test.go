package survey_test

import (
	"context"
	"fmt"
	"reflect"
	"strconv"
	"strings"
	"testing"
	"time"

	"lrcman/service/book"
	"lrcman/service/internal/state"
	"lrcman/service/internal/survey"
	"lrcman/service/internal/survey/recorded"
)

var states = []string{"quiet", "rack", "upgrade", "harm", "most"}

func load(t *testing.T, name string) *recorded.Book {
	t.Helper()
	b, err := recorded.Load(name)
	if err != nil {
		t.Fatal(err)
	}
	return b
}

// A clock goes on only when it is told to.
type clock struct{ now time.Time }

func newClock() *clock                                  { return &clock{time.Unix(1_700_000_000, 0)} }
func (c *clock) time() time.Time                        { return c.now }
func (c *clock) pass(d time.Duration)                   { c.now = c.now.Add(d) }
func (c *clock) watch(b recorded.Books) *survey.Watcher { return survey.NewWatcher(b, c.time) }

func report(t *testing.T, w *survey.Watcher, name string) *survey.Report {
	t.Helper()
	r, err := w.Report(name)
	if err != nil {
		t.Fatal(err)
	}
	return r
}

func TestAReportCountsWhatTheModelCounts(t *testing.T) {
	for _, name := range states {
		b := load(t, name)
		r := report(t, newClock().watch(recorded.Books{name: b}), name)
		got := map[string]int{"stripes": r.Stripes.All, "whole": r.Stripes.Whole, "at_risk_margin_0": r.Stripes.AtRisk[0],
			"at_risk_margin_1": r.Stripes.AtRisk[1], "at_risk_margin_2": r.Stripes.AtRisk[2], "unavailable": r.Stripes.Unavailable,
			"lost": r.Stripes.Lost, "missing_fragments": r.Stripes.Missing, "homeless_fragments": r.Stripes.Homeless,
			"leases": len(r.Leases), "clock": int(r.Clock), "entries": int(r.N)}
		for what, value := range got {
			if want := b.Value(what); value != want {
				t.Errorf("%s: %s is %d, and the model has %d", name, what, value, want)
			}
		}
		standings := map[string]int{"leased": r.Work.Leased, "open": r.Work.Open, "no_node": r.Work.NoNode, "unrecoverable": r.Work.Unrecoverable}
		for standing, count := range standings {
			if want := b.Standing(standing); count != want {
				t.Errorf("%s: %d fragments are %s, and the model has %d", name, count, standing, want)
			}
		}
		kinds := map[string]int{"local": -r.Work.Local, "global": -r.Work.Global, "move": -r.Work.Move}
		for _, task := range b.Tasks {
			kinds[task.Kind]++
		}
		for kind, lacking := range kinds {
			if lacking != 0 || r.Work.All() != len(b.Tasks) {
				t.Errorf("%s: work %+v, and the model has %d rows, and %d more that are %s", name, r.Work, len(b.Tasks), lacking, kind)
			}
		}
		upgrading := "none"
		if r.Upgrading != nil {
			upgrading = fmt.Sprint(*r.Upgrading)
		}
		if upgrading != b.Status["upgrading"] {
			t.Errorf("%s: upgrading %s, and the model has %s", name, upgrading, b.Status["upgrading"])
		}
	}
}

func TestANodeHasItsTargetsAndWhatLeavesIt(t *testing.T) {
	for _, name := range states {
		b := load(t, name)
		targets, leaving := map[uint16]uint32{}, map[uint16]uint32{}
		for _, lease := range b.Leases {
			targets[nodeOf(lease.Target)]++
			for _, stripe := range b.Stripes {
				if home := stripe.Homes[lease.Fragment]; stripe.Stripe == lease.Stripe && home != "-" {
					leaving[nodeOf(home)]++
				}
			}
		}
		for _, node := range report(t, newClock().watch(recorded.Books{name: b}), name).Nodes {
			if node.Targets != targets[node.Node] || node.Leaving != leaving[node.Node] {
				t.Errorf("%s: %+v, and the model has %d targets, of which %d leave", name, node, targets[node.Node], leaving[node.Node])
			}
		}
	}
}

func nodeOf(seat string) uint16 {
	node, _, _ := strings.Cut(seat, ":")
	number, _ := strconv.Atoi(node)
	return uint16(number)
}

func TestHealthIsThatOfTheModel(t *testing.T) {
	want := map[string]string{"quiet": "ok", "rack": "margin_1", "upgrade": "margin_1", "harm": "lost", "most": "margin_2"}
	for name, word := range want {
		b := load(t, name)
		w := newClock().watch(recorded.Books{name: b})
		if known := w.Known(name); known != nil {
			t.Errorf("%s: %+v is known before it was made", name, known)
		}
		health, err := w.Health(name)
		if err != nil || health.Word != word || health.N != uint64(len(b.Lines)) || !reflect.DeepEqual(health.Reasons, b.Reasons) {
			t.Errorf("%s: %+v, and the model has %s, %v; %v", name, health, word, b.Reasons, err)
		}
	}
	if health, err := newClock().watch(recorded.Books{}).Health("none"); err == nil {
		t.Errorf("a book that is not there has the health %+v", health)
	}
}

func TestHealthIsMadeAnewWhereABookHasChanged(t *testing.T) {
	rack, quiet := load(t, "rack"), load(t, "quiet")
	rack.Show(40)
	w := newClock().watch(recorded.Books{"rack": rack, "quiet": quiet})
	first, err := w.Health("rack")
	if err != nil || first.N != 40 {
		t.Fatal(first, err)
	}
	rack.Show(50)
	if again, err := w.Health("rack"); err != nil || again != first {
		t.Errorf("whoever asks waits for a new one: %+v, %v", again, err)
	}
	ctx, stop := context.WithCancel(context.Background())
	ended := make(chan struct{})
	go func() { defer close(ended); w.WatchHealth(ctx) }()
	before, _ := w.Health("quiet")
	for known := first; known.N != 50 || w.Known("quiet") == nil; known = w.Known("rack") {
		time.Sleep(time.Millisecond)
	}
	stop()
	<-ended
	if now := w.Known("quiet"); now != before {
		t.Errorf("that of a book that is as it was is made anew: %p and not %p", now, before)
	}
}

func TestCapacityIsThatOfTheModel(t *testing.T) {
	for _, name := range states {
		b := load(t, name)
		found, err := newClock().watch(recorded.Books{name: b}).Capacity(name)
		if err != nil || string(found.Rows.CSV()) != b.Room || found.N != uint64(len(b.Lines)) {
			t.Errorf("%s: %+v, and the model has %s; %v", name, found, b.Room, err)
		}
	}
	if found, err := newClock().watch(recorded.Books{}).Capacity("none"); err == nil {
		t.Errorf("a book that is not there has the capacity %+v", found)
	}
}

// counting are books that count how often a table of each was taken, and that may be opened again.
type counting struct {
	recorded.Books
	*clock
	taken map[string]int
	cost  time.Duration // that a table takes
	opens uint64
}

func (c *counting) Look(name string, look func(survey.View) error) error {
	return c.Books.Look(name, func(v survey.View) error { return look(countingView{v, c, name}) })
}

type countingView struct {
	survey.View
	of   *counting
	name string
}

func (v countingView) Position() state.Position {
	at := v.View.Position()
	at.Opens += v.of.opens
	return at
}

func (v countingView) Show(table string) (book.TableSnapshot, error) {
	v.of.taken[v.name]++
	made, err := v.View.Show(table)
	return func() (*book.Table, error) {
		v.of.pass(v.of.cost)
		return made()
	}, err
}

// A table that takes long is made at most once in twenty times its duration, and anew where the book was opened again.
func TestCapacityTakesASmallShareOfTheTime(t *testing.T) {
	rack, clock := load(t, "rack"), newClock()
	books := &counting{recorded.Books{"rack": rack}, clock, map[string]int{}, time.Second, 0}
	w := survey.NewWatcher(books, clock.time)
	rack.Show(40)
	for i, it := range []struct {
		passes time.Duration
		change func()
		taken  int
	}{
		{0, func() {}, 1}, {19 * time.Second, func() { rack.Show(50) }, 1}, {time.Second, func() {}, 2}, {time.Minute, func() {}, 2},
		{time.Minute, func() { books.opens++ }, 3}, {time.Minute, func() {}, 3},
	} {
		it.change()
		clock.pass(it.passes)
		if _, err := w.Capacity("rack"); err != nil {
			t.Fatal(err)
		}
		w.Renew("rack")
		if books.taken["rack"] != it.taken {
			t.Errorf("step %d: it was made %d times, and not %d", i, books.taken["rack"], it.taken)
		}
	}
}

// It takes long, so it is made anew only of a book that has changed, and only for a while after somebody asked for it.
func TestCapacityIsMadeAnewWhereSomebodyLooksAtIt(t *testing.T) {
	rack, quiet := load(t, "rack"), load(t, "quiet")
	clock := newClock()
	books := &counting{recorded.Books{"rack": rack, "quiet": quiet}, clock, map[string]int{}, 0, 0}
	w := survey.NewWatcher(books, clock.time)
	rack.Show(40)
	first, err := w.Capacity("rack")
	if err != nil || first.N != 40 || books.taken["rack"] != 1 {
		t.Fatal(first, books.taken, err)
	}
	renew := func() {
		w.Renew("rack")
		w.Renew("quiet")
	}
	renew()
	rack.Show(50)
	if again, err := w.Capacity("rack"); err != nil || again != first || books.taken["rack"] != 1 {
		t.Errorf("whoever asks waits for a new one: %+v, %v, %v", again, books.taken, err)
	}
	clock.pass(59 * time.Second)
	renew()
	if now, err := w.Capacity("rack"); err != nil || now.N != 50 || books.taken["rack"] != 2 {
		t.Errorf("it is not made anew: %+v, %v, %v", now, books.taken, err)
	}
	rack.Show(60)
	clock.pass(61 * time.Second)
	renew()
	if books.taken["rack"] != 2 || books.taken["quiet"] != 0 {
		t.Errorf("it is made though nobody looks: %v", books.taken)
	}
	if known, err := w.Capacity("rack"); err != nil || known.N != 50 {
		t.Errorf("%+v, %v", known, err)
	}
	renew()
	if now, err := w.Capacity("rack"); err != nil || now.N != 60 || books.taken["rack"] != 3 {
		t.Errorf("it is not made anew: %+v, %v, %v", now, books.taken, err)
	}
}

func TestStripesAtRiskStandWorstFirst(t *testing.T) {
	r := report(t, newClock().watch(recorded.Books{"harm": load(t, "harm")}), "harm")
	ranks := map[string]int{"lost": 0, "unavailable": 1, "risk": 2}
	for i := 1; i < len(r.Risks); i++ {
		if ranks[r.Risks[i-1].Level] > ranks[r.Risks[i].Level] {
			t.Errorf("stripe %d stands before stripe %d", r.Risks[i-1].Stripe, r.Risks[i].Stripe)
		}
	}
	if len(r.Risks) != 6 {
		t.Errorf("%d rows", len(r.Risks))
	}
}

func TestCountsBeginWithTheWatch(t *testing.T) {
	b := load(t, "rack")
	b.Show(40)
	w := newClock().watch(recorded.Books{"rack": b})
	w.Step()
	if counts := w.Counts("rack"); len(counts.Commands) != 0 {
		t.Errorf("entries of before were counted: %v", counts.Commands)
	}
	if last := w.Last("rack"); len(last) != 20 || last[19].N != 40 || last[19].Command != b.Lines[39].Command {
		t.Errorf("the last lines are %v", last)
	}
	b.Show(len(b.Lines))
	w.Step()
	w.Step()
	total := uint64(0)
	for _, count := range w.Counts("rack").Commands {
		total += count
	}
	if total != uint64(len(b.Lines)-40) {
		t.Errorf("%d entries were counted of %d", total, len(b.Lines)-40)
	}
}

func TestAllEntriesOfANewBookAreCounted(t *testing.T) {
	for _, name := range states {
		books := recorded.Books{}
		w := newClock().watch(books)
		w.Step()
		b := load(t, name)
		books[name] = b
		w.Step()
		got := map[string]uint64{}
		for cause, count := range w.Counts(name).Commands {
			got[cause.Command+" "+cause.Reply] = count
		}
		if !reflect.DeepEqual(got, b.Counts) {
			t.Errorf("%s: counted %v, and the model made %v", name, got, b.Counts)
		}
		last := w.Last(name)
		if end := last[len(last)-1]; end.N != uint64(len(b.Lines)) || end.Reply != b.Lines[len(b.Lines)-1].Reply {
			t.Errorf("%s: the last line is %v", name, end)
		}
	}
}

func TestForgottenEntriesAreTold(t *testing.T) {
	b := load(t, "rack")
	b.Show(10)
	w := newClock().watch(recorded.Books{"rack": b})
	w.Step()
	b.First = 30
	b.Show(50)
	w.Step()
	total := uint64(0)
	counts := w.Counts("rack")
	for _, count := range counts.Commands {
		total += count
	}
	if counts.Missed != 20 || total != 20 {
		t.Errorf("%d missed, %d counted", counts.Missed, total)
	}
}

func TestRatesAndTheTimeThatIsLeft(t *testing.T) {
	b := load(t, "rack")
	c := newClock()
	w := c.watch(recorded.Books{"rack": b})
	b.Show(61)
	w.Step()
	c.pass(100 * time.Second)
	b.Show(len(b.Lines))
	w.Step()
	work := report(t, w, "rack").Work
	rates := w.Rates("rack", work)
	done := b.Counts["done ended"]
	if rates.Seconds != 100 || rates.Done != float64(done)/100 || rates.Commands != float64(len(b.Lines)-61)/100 {
		t.Errorf("%+v, of %d done", rates, done)
	}
	able := b.Standing("open") + b.Standing("leased")
	if rates.Left == nil || *rates.Left != int64(able)*100/int64(done) {
		t.Errorf("%v seconds are left for %d fragments, of which %d were done in 100", rates.Left, able, done)
	}
	c.pass(2 * time.Hour)
	if rates := w.Rates("rack", work); rates.Left != nil || rates.Done != 0 {
		t.Errorf("after two hours: %+v", rates)
	}
	if rates := w.Rates("rack", survey.Work{}); rates.Left == nil || *rates.Left != 0 {
		t.Errorf("without work: %+v", rates)
	}
}

func TestLeasesHaveAgesAndWorkers(t *testing.T) {
	b := load(t, "rack")
	c := newClock()
	w := c.watch(recorded.Books{"rack": b})
	b.Show(61)
	w.Step()
	c.pass(time.Minute)
	granted := c.now
	b.Show(len(b.Lines))
	w.Step()
	c.pass(time.Minute)
	leases := report(t, w, "rack").Leases
	for i, lease := range leases {
		want := b.Leases[i]
		if lease.Worker != want.Worker || lease.Ticks != 3-(want.Expiry-uint32(b.Value("clock"))) || lease.Target != want.Target {
			t.Errorf("lease %+v, and the model has %+v", lease, want)
		}
		if !lease.Since.Equal(granted) || lease.AtLeast {
			t.Errorf("lease %+v was granted at %v", lease, granted)
		}
	}
	late := report(t, c.watch(recorded.Books{"rack": b}), "rack").Leases
	if !late[0].AtLeast || !late[0].Since.Equal(c.now) {
		t.Errorf("a lease of before the watch: %+v", late[0])
	}
}

func TestAReportIsKeptWhileNothingChanges(t *testing.T) {
	b := load(t, "rack")
	b.Show(90)
	c := newClock()
	w := c.watch(recorded.Books{"rack": b})
	first := report(t, w, "rack")
	c.pass(time.Hour)
	if report(t, w, "rack") != first {
		t.Error("it was made anew though nothing changed")
	}
	b.Show(91)
	if report(t, w, "rack") == first {
		t.Error("it was kept though the book changed")
	}
	b.Show(92)
	c.pass(500 * time.Millisecond)
	if r := report(t, w, "rack"); r.N != 91 {
		t.Error("it was made anew twice in a second")
	}
	c.pass(500 * time.Millisecond)
	if r := report(t, w, "rack"); r.N != 92 {
		t.Errorf("it is of entry %d", r.N)
	}
}

func TestABookThatIsRemovedIsForgotten(t *testing.T) {
	b := load(t, "rack")
	all := recorded.Books{"rack": b}
	w := newClock().watch(all)
	b.Show(90)
	w.Step()
	b.Show(91)
	w.Step()
	if counts := w.Counts("rack"); len(counts.Commands) != 1 || len(w.Last("rack")) == 0 {
		t.Errorf("of one entry: %+v", counts)
	}
	delete(all, "rack")
	w.Step()
	all["rack"] = load(t, "rack")
	all["rack"].Show(3)
	w.Step()
	sum := uint64(0)
	for _, count := range w.Counts("rack").Commands {
		sum += count
	}
	if last := w.Last("rack"); sum != 3 || len(last) != 3 || last[0].N != 1 {
		t.Errorf("a book of the same name: %d entries, the last %+v", sum, last)
	}
}

func TestABookThatIsNotThere(t *testing.T) {
	if _, err := newClock().watch(recorded.Books{}).Report("p9"); err == nil {
		t.Error("a report of no book")
	}
}
