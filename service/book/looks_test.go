package book

import (
	"errors"
	"fmt"
	"math/rand"
	"reflect"
	"sort"
	"testing"
)

// rank is the rank of a stripe that is not whole, as docs/RULES.md has it.
func rank(l Level) int {
	if l.Kind == AtRisk {
		return int(l.Margin)
	}
	return 4
}

// checkStripes compares looks at single stripes with their rows, and returns those at risk, in the order of repair, and the homes of
// each node.
func checkStripes(t *testing.T, b *Book, met map[string]bool) (atRisk []RiskRow, on map[uint16][]FragmentID) {
	t.Helper()
	stripes, err := b.StripeRows()
	if err != nil {
		t.Fatal(err)
	}
	on = map[uint16][]FragmentID{}
	for _, row := range stripes {
		level, err1 := b.Level(row.Stripe)
		missing, err2 := b.Missing(row.Stripe)
		code, err3 := b.Code(row.Stripe)
		homes, err4 := b.Homes(row.Stripe)
		found := StripeRow{Stripe: row.Stripe, Missing: missing, Code: code, Level: level}
		if err1 != nil || err2 != nil || err3 != nil || err4 != nil || found != row {
			t.Fatalf("%+v, and not %+v: %v %v %v %v", found, row, err1, err2, err3, err4)
		}
		if met[level.Kind.String()] = true; level.Kind != Whole {
			atRisk = append(atRisk, RiskRow{Stripe: row.Stripe, Level: level})
		}
		for f, home := range homes {
			if home.IsThere == 1 {
				on[home.Seat.Node] = append(on[home.Seat.Node], FragmentID{Stripe: row.Stripe, Number: uint8(f)})
			}
		}
	}
	sort.SliceStable(atRisk, func(i, j int) bool { return rank(atRisk[i].Level) < rank(atRisk[j].Level) })
	return atRisk, on
}

// checkNodes compares looks at single nodes with their rows, and with these homes.
func checkNodes(t *testing.T, b *Book, on map[uint16][]FragmentID, met map[string]bool) {
	t.Helper()
	nodes, err := b.NodeRows()
	if err != nil {
		t.Fatal(err)
	}
	for _, row := range nodes {
		load, err1 := b.Load(row.Number)
		mode, isOnline, err2 := b.Mode(row.Number)
		isDown, err3 := b.IsDown(row.Number)
		homes, err4 := b.HomesOn(row.Number)
		if err1 != nil || err2 != nil || err3 != nil || err4 != nil || load != row.Load || mode != row.Mode ||
			isOnline != (row.IsOnline == 1) || isDown != (row.IsDown == 1) {
			t.Fatalf("%+v: %d %v %v %v, %v %v %v %v", row, load, mode, isOnline, isDown, err1, err2, err3, err4)
		}
		if want := on[row.Number]; len(homes) != len(want) || len(want) > 0 && !reflect.DeepEqual(homes, want) {
			t.Fatalf("on %d are %v, and not %v", row.Number, homes, want)
		}
		met[fmt.Sprint(mode, isOnline, isDown)] = true
	}
}

// Looks at one stripe or node tell what its row in a walk tells, and those that leave some out have just the others.
func TestLooksAreRowsOfTheWalks(t *testing.T) {
	met, isTurned := map[string]bool{}, false
	for seed := int64(1); seed <= 6; seed++ {
		r, b := rand.New(rand.NewSource(seed)), open(t, "place 1", "place6 2", "place 4", "place6 9")
		for i := 0; i < 150; i++ {
			command := drawn(r)
			if command.Kind == Drop {
				continue
			}
			if _, err := b.Call(1, command); err != nil {
				t.Fatal(err)
			}
			want, on := checkStripes(t, b, met)
			checkNodes(t, b, on, met)
			found, err := b.Risk()
			if err != nil || len(found) != len(want) || len(found) > 0 && !reflect.DeepEqual(found, want) {
				t.Fatalf("%+v, and not %+v, %v", found, want, err)
			}
			if first, err := b.FirstRisk(); len(want) == 0 && !errors.Is(err, ErrNotFound) || len(want) > 0 && (err != nil || first != want[0]) {
				t.Fatalf("%+v of %+v, %v", first, want, err)
			}
			isTurned = isTurned || !sort.SliceIsSorted(found, func(i, j int) bool { return found[i].Stripe < found[j].Stripe })
		}
	}
	for _, kind := range []string{Whole.String(), AtRisk.String(), Unavailable.String(), Lost.String(), "active true false", "active false false",
		"active false true", "draining true false", "draining false false", "draining false true", "gone false false"} {
		if !met[kind] {
			t.Errorf("none is %s", kind)
		}
	}
	if !isTurned {
		t.Error("the stripes at risk are always in the order of their numbers")
	}
}

// As docs/RULES.md tells of examples/repairs_before_moves.bundle.
func TestRiskIsThatOfTheExample(t *testing.T) {
	b := open(t, "place 1", "place 2", "drain 5")
	if rows, err := b.Risk(); err != nil || len(rows) != 0 {
		t.Error(rows, err)
	}
	if _, err := b.Call(1, Command{Kind: Fail, Node: 19}); err != nil {
		t.Fatal(err)
	}
	if rows, err := b.Risk(); err != nil || !reflect.DeepEqual(rows, []RiskRow{{Stripe: 2, Level: Level{Kind: AtRisk, Margin: 2}}}) {
		t.Error(rows, err)
	}
	if missing, err := b.Missing(2); err != nil || missing != 1<<3 {
		t.Error(missing, err)
	}
}

func TestLooksNameWhatThereIsNot(t *testing.T) {
	b := open(t, "place 1")
	_, level := b.Level(2)
	_, missing := b.Missing(2)
	_, code := b.Code(2)
	_, risk := b.FirstRisk()
	_, load := b.Load(20)
	_, _, mode := b.Mode(20)
	_, isDown := b.IsDown(20)
	_, homes := b.HomesOn(20)
	for name, err := range map[string]error{"level": level, "missing": missing, "code": code, "risk": risk, "load": load, "mode": mode,
		"down": isDown, "homes": homes} {
		if !errors.Is(err, ErrNotFound) {
			t.Errorf("%s: %v", name, err)
		}
	}
	if _, err := b.Level(4096); !IsOutOfRange(err) {
		t.Error(err)
	}
}
