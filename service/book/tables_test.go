package book

import (
	"encoding/json"
	"errors"
	"fmt"
	"strings"
	"testing"
)

// Cells are written as package json has their values.
func TestCellsAreWritten(t *testing.T) {
	for _, it := range []struct {
		csv   string
		value interface{}
	}{
		{"0", 0}, {"18446744073709551615", uint64(1<<64 - 1)}, {"at_risk", "at_risk"}, {"yes", true}, {"no", false}, {"none", "none"},
		{"0x0000", "0x0000"}, {"0xfa09", "0xfa09"}, {"-", nil}, {"", nil}, {"65535:7", "65535:7"}, {"down upgrading", "down upgrading"},
	} {
		value, err := json.Marshal(it.value)
		if err != nil {
			t.Fatal(err)
		}
		table := &Table{[]byte("one,two\n" + it.csv + "," + it.csv + "\n" + it.csv + "," + it.csv + "\n")}
		row := `{"one":` + string(value) + `,"two":` + string(value) + `}`
		if text := string(table.JSON()); text != "["+row+","+row+"]" {
			t.Errorf("%s: JSON is %s", it.csv, text)
		}
	}
	if text := string((&Table{[]byte("one\n")}).JSON()); text != "[]" {
		t.Errorf("no row: %s", text)
	}
	lists := &Table{[]byte("sources,reads\n,\n7,7\n0 12 255,3\n")}
	if text := string(lists.JSON()); text != `[{"sources":[],"reads":null},{"sources":[7],"reads":7},{"sources":[0,12,255],"reads":3}]` {
		t.Errorf("lists: %s", text)
	}
}

// table is a table of a book.
func table(t *testing.T, b *Book, view string) *Table {
	t.Helper()
	snapshot, err := b.Show(view, twenty())
	if err != nil {
		t.Fatal(view, err)
	}
	found, err := snapshot()
	if err != nil {
		t.Fatal(view, err)
	}
	return found
}

// various has stripes of several levels, and all that the tables tell of.
func various(t *testing.T) *Book {
	return open(t, "place 1", "place6 2", "place 5", "fail 1", "next", "drain 2", "down 3", "tick", "next", "upgrade 4", "down 7")
}

// Those that are made of a copy are those of the book itself, and change with it no more.
func TestTablesAreOfTheWholeBook(t *testing.T) {
	b := various(t)
	for i, view := range Views {
		direct, err := b.table(views[view])
		if err != nil {
			t.Fatal(view, err)
		}
		snapshot, err := b.Show(view, twenty())
		if err != nil {
			t.Fatal(view, err)
		}
		if _, err := b.Call(1, Command{Kind: Place6, Stripe: uint16(100 + i)}); err != nil {
			t.Fatal(err)
		}
		found, err := snapshot()
		if err != nil || string(found.CSV()) != string(direct) {
			t.Errorf("%s: %q and not %q, %v", view, found.CSV(), direct, err)
		}
		checkJSON(t, view, found)
	}
	if len(views) != len(Views) {
		t.Error(views)
	}
	if _, err := b.Show("all", twenty()); err == nil {
		t.Error("there is a table of all")
	}
	if _, err := b.ShowStripe(3); !errors.Is(err, ErrNotFound) {
		t.Error(err)
	}
}

// What takes long is made of a copy over the text of the nodes, beside calls: without nodes there is none.
func TestLongTablesAreMadeOfACopy(t *testing.T) {
	isShort := map[string]bool{"status": true, "leases": true, "work": true}
	b := various(t)
	for _, view := range Views {
		snapshot, err := b.Show(view, nil)
		if err != nil {
			t.Fatal(view, err)
		}
		if _, err := snapshot(); (err == nil) != isShort[view] {
			t.Errorf("%s over no nodes: %v", view, err)
		}
	}
}

// checkJSON compares the rows of JSON with those of CSV.
func checkJSON(t *testing.T, view string, found *Table) {
	t.Helper()
	var rows []map[string]interface{}
	text, err := json.Marshal(found)
	if err == nil {
		err = json.Unmarshal(text, &rows)
	}
	want := found.rows()
	if err != nil || len(rows) != len(want) || len(rows) == 0 {
		t.Fatal(view, err, string(text))
	}
	for i, row := range want {
		if len(rows[i]) != len(row) || len(row) != len(found.Columns()) {
			t.Error(view, row)
		}
		for j, column := range found.Columns() {
			if have := cellOf(rows[i][column]); have != row[j] && !(have == "" && row[j] == "-") {
				t.Errorf("%s: %s is %v, and CSV has %q", view, column, rows[i][column], row[j])
			}
		}
	}
}

// cellOf is a value of JSON as CSV has it.
func cellOf(value interface{}) string {
	switch v := value.(type) {
	case nil:
		return ""
	case bool:
		return map[bool]string{false: "no", true: "yes"}[v]
	case []interface{}:
		return strings.Trim(fmt.Sprint(v), "[]")
	}
	return fmt.Sprint(value)
}

// The row of one stripe is made here: it is that of the table.
func TestTheRowOfAStripeIsThatOfTheTable(t *testing.T) {
	b := various(t)
	for _, node := range []uint16{0, 4, 5, 6, 8, 9} { // so that each level is there
		if _, err := b.Call(1, Command{Kind: Fail, Node: node}); err != nil {
			t.Fatal(err)
		}
		all := table(t, b, "stripes")
		head, rest, _ := strings.Cut(string(all.CSV()), "\n")
		for _, line := range strings.Split(strings.TrimRight(rest, "\n"), "\n") {
			var stripe uint16
			fmt.Sscanf(line, "%d,", &stripe)
			if one, err := b.ShowStripe(stripe); err != nil || string(one.CSV()) != head+"\n"+line+"\n" {
				t.Errorf("%q and not %q, %v", one.CSV(), line, err)
			}
		}
	}
}

func TestHealthIsRowsOfTheTable(t *testing.T) {
	for want, b := range map[string]*Book{"[{ok 0 []}]": open(t, "place 1"),
		"[{margin_2 1 [1]} {waiting 1 [1 3]}]":                     open(t, "place 1", "fail 3"),
		"[{unavailable 1 [1]} {margin_0 1 [2]} {upgrading 1 [4]}]": open(t, "place 1", "place6 2", "upgrade 4", "down 0", "down 1", "down 2")} {
		if rows, err := b.Health(); err != nil || fmt.Sprint(rows) != want {
			t.Errorf("%v and not %s, %v", rows, want, err)
		}
	}
}

// A text that is longer than was thought is asked for again, with the room that it needs.
func TestALongTextHasAllItsBytes(t *testing.T) {
	b := various(t)
	for _, name := range Views {
		whole, err := b.table(views[name])
		if err != nil {
			t.Fatal(name, err)
		}
		for _, room := range []int{0, 1, len(whole) - 1, len(whole), len(whole) + 1} {
			if text, err := b.table(view{views[name].number, false, false, room}); err != nil || string(text) != string(whole) {
				t.Errorf("%s with room for %d: %q, %v", name, room, text, err)
			}
		}
	}
}
