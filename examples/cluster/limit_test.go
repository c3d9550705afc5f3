package main

import (
	"fmt"
	"reflect"
	"strings"
	"testing"
)

func granted(fragment, node int) string {
	return fmt.Sprintf(`{"reply":"granted","kind":"granted","stripe":1,"fragment":%d,"target":"%d:0","epoch":1,"repair":"move"}`,
		fragment, node)
}

func TestAWorkerKeepsToTheLimit(t *testing.T) {
	row := func(fragment int, standing string) string {
		return fmt.Sprintf(`{"stripe":1,"fragment":%d,"kind":"move","standing":"%s"}`, fragment, standing)
	}
	work := row(2, "leased") + "," + row(3, "open") + "," + row(4, "open") + "," + row(5, "no_node")
	both := map[string]string{"lease 1 3": granted(3, 8), "lease 1 4": granted(4, 7)}
	for _, it := range []struct {
		name    string
		limit   int
		work    string
		peeks   map[string]string
		targets []int
		lease   string
		asked   []string
		want    int // the fragment; 0: none
	}{
		{"any number", 0, work, map[string]string{"next": granted(3, 8)}, []int{9}, refused(101), []string{"peek next", "next"}, 3},
		{"well", 2, work, both, []int{1, 2}, granted(3, 8), []string{"peek lease 1 3", "lease 1 3"}, 3},
		{"the first target has enough", 2, work, both, []int{2, 2}, granted(4, 7),
			[]string{"peek lease 1 3", "peek lease 1 4", "lease 1 4"}, 4},
		{"the first one has no seat", 2, work, map[string]string{"lease 1 4": granted(4, 7)}, []int{0}, granted(4, 7),
			[]string{"peek lease 1 3", "peek lease 1 4", "lease 1 4"}, 4},
		{"another worker was first", 2, work, both, []int{1, 2}, refused(110), []string{"peek lease 1 3", "lease 1 3"}, 0},
		{"another worker came between", 2, work, both, []int{1, 3}, granted(3, 8),
			[]string{"peek lease 1 3", "lease 1 3", "abandon 1 3 1"}, 0},
		{"the target is another one then", 2, work, both, []int{1, 3}, granted(3, 7), []string{"peek lease 1 3", "lease 1 3"}, 3},
		{"all have enough", 1, row(3, "open"), both, []int{1}, refused(101), []string{"peek lease 1 3"}, 0},
		{"nothing to do", 1, "", both, []int{0}, refused(101), nil, 0},
	} {
		fake := &fakeBook{replies: map[string][]string{"lease": {it.lease}, "next": {granted(3, 8)}, "abandon": {ended}},
			work: it.work, peeks: it.peeks, targets: it.targets}
		book, nodes := newTest(t, fake)
		found, err := (&worker{"w", book, nodes, choice{limit: it.limit}}).next()
		isRight := found == nil && it.want == 0 || found != nil && int(found.Fragment) == it.want
		if !isRight || err != nil || !reflect.DeepEqual(fake.asked, it.asked) {
			t.Errorf("%s: %+v %v, asked %q", it.name, found, err, fake.asked)
		}
	}
}

func TestAWorkerLeavesMovesToOthers(t *testing.T) {
	row := func(fragment int, kind string) string {
		return fmt.Sprintf(`{"stripe":1,"fragment":%d,"kind":"%s","standing":"open"}`, fragment, kind)
	}
	peeks := map[string]string{"lease 1 3": granted(3, 8), "lease 1 4": granted(4, 8)}
	for _, it := range []struct {
		work  string
		asked []string
	}{
		{row(3, "move"), nil},
		{row(3, "move") + "," + row(4, "local"), []string{"peek lease 1 4", "lease 1 4"}},
		{row(4, "global") + "," + row(3, "move"), []string{"peek lease 1 4", "lease 1 4"}},
	} {
		fake := &fakeBook{replies: map[string][]string{"lease": {granted(4, 8)}}, work: it.work, peeks: peeks, targets: []int{9}}
		book, nodes := newTest(t, fake)
		found, err := (&worker{"w", book, nodes, choice{noneMoved: true}}).next()
		if err != nil || (found == nil) != (it.asked == nil) || !reflect.DeepEqual(fake.asked, it.asked) {
			t.Errorf("%s: %+v %v, asked %q", it.work, found, err, fake.asked)
		}
	}
}

// A script is made from where its book stood. Where another command comes between, its drains are taken back.
func TestAMoverMakesAScript(t *testing.T) {
	script := "# at 7 opens 2\ndrain 4\ndrain 5\nundrain 4\nlease 1 3\nundrain 5\n"
	asked := []string{"drain 4", "drain 5", "undrain 4", "lease 1 3", "undrain 5"}
	for _, it := range []struct {
		name, script string
		faults       []string // an empty one is none
		isMade       bool
		fails        bool
		asked        []string
		leases       int
	}{
		{name: "well", script: script, isMade: true, asked: asked, leases: 1},
		{name: "nothing to do", isMade: true},
		{name: "no position", script: "drain 4\n", fails: true},
		{name: "moved at once", script: script, faults: []string{"409 moved"}},
		{name: "moved later", script: script, faults: []string{"", "", "", "409 moved"},
			asked: []string{"drain 4", "drain 5", "undrain 4", "undrain 5"}},
		{name: "refused", script: script, faults: []string{"", "403 forbidden"}, fails: true, asked: []string{"drain 4", "undrain 4"}},
	} {
		fake := &fakeBook{faults: it.faults,
			replies: map[string][]string{"drain": {changed}, "undrain": {changed}, "lease": {granted(3, 8)}}}
		book, nodes := newTest(t, fake)
		m := &mover{worker: worker{nameOfMover, book, nodes, choice{}}, drained: map[string]bool{}}
		isMade, err := m.make(strings.NewReader(it.script))
		if !isMade && m.undrain() != nil {
			t.Errorf("%s: a drain is not taken back", it.name)
		}
		if isMade != it.isMade || (err != nil) != it.fails || !reflect.DeepEqual(fake.asked, it.asked) || len(m.leases) != it.leases {
			t.Errorf("%s: %v %v, asked %q, %d leases", it.name, isMade, err, fake.asked, len(m.leases))
		}
		for i, at := range fake.positions {
			if want := fmt.Sprint(7+i, " ", 2); it.isMade && at != want {
				t.Errorf("%s: call %d at %s, and not %s", it.name, i, at, want)
			}
		}
	}
}
