package book

import (
	"encoding/json"
	"errors"
	"fmt"
	"math/rand"
	"os"
	"reflect"
	"regexp"
	"strings"
	"testing"
)

// The causes of bad lines, as docs/FORMATS.md has them.
func TestCommandsAreReadAsLinesOfAScript(t *testing.T) {
	const none = "this is a comment, or empty"
	const word, count, noNumber, outOfRange = "the first word is not a command", "the command takes another number of words",
		"an argument is not a number", "a number is out of its range"
	for line, want := range map[string]string{
		"": none, "# place 1": none, "#": none, strings.Repeat("x", 1025): "the line has more than 1024 bytes",
		"place " + strings.Repeat("9", 1018): outOfRange, "place 1\x00": noNumber, "\xff": word,
		" place 1": word, "\r": word, "Place 1": word, "place06 1": word,
		"place12 1": word, "place": count, "up 0 1": count, "next 1": count,
		"tick 3": count, "place 6 1": count, "done 1 3": count,
		"lease 1 3 1": count, "place  1": count, "place 1 ": count,
		"next ": count, "place ": noNumber, "place +1": noNumber,
		"place 01": noNumber, "place 0x1": noNumber, "place 1.0": noNumber,
		"place 1\r": noNumber, "lease x 16": noNumber, "place 4096": outOfRange,
		"place6 4096": outOfRange, "place 99999999999999999999999": outOfRange,
		"lease 1 16": outOfRange, "lease 4096 x": outOfRange,
		"done 1 3 4294967296": outOfRange, "drain 65536": outOfRange,
		"upgraded 256": outOfRange, "tick\n": word, "place 1\nplace 2": count,
	} {
		if _, err := Parse(line); err == nil || !strings.Contains(err.Error(), want) {
			t.Errorf("%q: %v, and not %q", line, err, want)
		}
	}
}

func TestCommandsAreWrittenAsTheyWereRead(t *testing.T) {
	for line, want := range map[string]Command{
		"place 4095":          {Kind: Place, Stripe: 4095},
		"place6 0":            {Kind: Place6},
		"drop 1":              {Kind: Drop, Stripe: 1},
		"lease 1 15":          {Kind: Lease, Stripe: 1, Fragment: 15},
		"revoke 2 0":          {Kind: Revoke, Stripe: 2},
		"done 1 3 4294967295": {Kind: Done, Stripe: 1, Fragment: 3, Epoch: 4294967295},
		"abandon 1 3 0":       {Kind: Abandon, Stripe: 1, Fragment: 3},
		"next":                {Kind: Next},
		"tick":                {Kind: Tick},
		"fail 65535":          {Kind: Fail, Node: 65535},
		"down 1":              {Kind: Down, Node: 1},
		"up 1":                {Kind: Up, Node: 1},
		"drain 1":             {Kind: Drain, Node: 1},
		"undrain 1":           {Kind: Undrain, Node: 1},
		"retire 1":            {Kind: Retire, Node: 1},
		"join 1":              {Kind: Join, Node: 1},
		"upgrade 255":         {Kind: Upgrade, Domain: 255},
		"upgraded 0":          {Kind: Upgraded},
	} {
		command, err := Parse(line)
		if err != nil || command != want || command.String() != line {
			t.Errorf("%q: %+v %v %v", line, command, &command, err)
		}
	}
	for kind, want := range map[Kind]string{Upgraded: "upgraded", Place6: "place6", 0: "command", 19: "command", 255: "command"} {
		if word := (Command{Kind: kind}).Word(); word != want {
			t.Errorf("the word of kind %d is %q", kind, word)
		}
	}
}

func TestRepliesAreWrittenAsRunPrintsThem(t *testing.T) {
	lease, far := LeaseRow{Stripe: 1, Fragment: 3, Holder: 8, Target: Seat{17, 2}, Epoch: 5}, [Fragments]Seat{}
	for i := range far {
		far[i] = Seat{65535, 65535}
	}
	for want, reply := range map[string]Reply{
		"placed 0:0 0:0 0:0 0:0 0:0 0:0 0:0 0:0 0:0 7:3": {Kind: Placed6, Seats: [Fragments]Seat{9: {7, 3}}},
		"placed" + strings.Repeat(" 65535:65535", 16):    {Kind: Placed, Seats: far}, // (none is longer)
		"dropped": {Kind: Dropped}, "idle": {Kind: Idle}, "ended": {Kind: Ended}, "changed": {Kind: Changed},
		"granted 1 3 17:2 epoch 5 local 0 1 2 4 5 12": {Kind: Granted, Repair: Local, Sources: [6]uint8{0, 1, 2, 4, 5, 12}, Lease: lease},
		"granted 1 3 17:2 epoch 5 local 0 1 2":        {Kind: Granted, Repair: Local3, Sources: [6]uint8{0, 1, 2}, Lease: lease},
		"granted 1 3 17:2 epoch 5 global":             {Kind: Granted, Repair: Global, Lease: lease},
		"granted 1 3 17:2 epoch 5 move":               {Kind: Granted, Repair: Move, Lease: lease},
		"ticked 7 2":                                  {Kind: Ticked, Clock: 7, Ended: 2},
		"refused 103 12":                              {Kind: Refused, Refusal: 103, Detail: 12},
		"refused 107 0":                               {Kind: Refused, Refusal: 107},
		"refused 109 1":                               {Kind: Refused, Refusal: 109, Detail: 1},
		"refused 110 1":                               {Kind: Refused, Refusal: 110, Detail: 1},
		"refused 111":                                 {Kind: Refused, Refusal: 111},
		"refused 114 2":                               OfNotHolder(2),
		"refused 115 3":                               {Kind: Refused, Refusal: 115, Detail: 3},
		"refused 117 4":                               {Kind: Refused, Refusal: 117, Detail: 4},
	} {
		have, err := reply.Text()
		if err != nil || have != want || reply.String() != want {
			t.Errorf("%q, and not %q: %v", have, want, err)
		}
		checkReplyJSON(t, reply, want)
	}
}

// checkReplyJSON finds the line of a reply in its JSON, its first word as the kind, and the detail if the line has one.
func checkReplyJSON(t *testing.T, reply Reply, line string) {
	t.Helper()
	said, err := reply.JSON()
	if err != nil {
		t.Error(line, err)
	}
	text, err := json.Marshal(said)
	words := strings.Fields(line)
	if err != nil || !strings.HasPrefix(string(text), fmt.Sprintf(`{"reply":%q,"kind":%q`, line, words[0])) {
		t.Errorf("%s %v", text, err)
	}
	detail := ""
	if words[0] == "refused" && len(words) == 3 {
		detail = fmt.Sprintf(`,"detail":%s}`, words[2])
	}
	if has := strings.Contains(string(text), `"detail"`); has != (detail != "") || !strings.HasSuffix(string(text), detail) {
		t.Errorf("%s: the detail is not %q", text, detail)
	}
}

// What the library never replies has no text, and no JSON.
func TestWhatIsNoReplyHasNoText(t *testing.T) {
	for _, reply := range []Reply{
		{}, {Kind: 10}, {Kind: Idle, Clock: 1}, {Kind: Refused, Refusal: 118}, {Kind: Refused, Refusal: 111, Detail: 1}, OfNotHolder(9),
		{Kind: Granted, Repair: Move}, // (session 0 holds nothing)
		{Kind: Placed6, Seats: [Fragments]Seat{10: {9, 9}}},
		{Kind: Ended, Lease: LeaseRow{Expiry: 1}},
	} {
		if text, err := reply.Text(); !IsOutOfRange(err) || text != "" {
			t.Errorf("%+v: %q %v", reply, text, err)
		}
		if _, err := reply.JSON(); !IsOutOfRange(err) {
			t.Errorf("%+v: %v", reply, err)
		}
		if have, want := reply.String(), fmt.Sprintf("reply %d", reply.Kind); have != want {
			t.Errorf("%q, and not %q", have, want)
		}
	}
}

// twenty are the nodes of the examples of docs/RULES.md.
func twenty() []byte {
	var text strings.Builder
	for i := 0; i < 20; i++ {
		fmt.Fprintf(&text, "[[node]]\nnumber = %d\nfault = %d\nupgrade = %d\nslots = 4\n", i, i, i%10)
	}
	return []byte(text.String())
}

func open(t *testing.T, lines ...string) *Book {
	t.Helper()
	b, err := Open(twenty())
	if err != nil {
		t.Fatal(err)
	}
	t.Cleanup(b.Close)
	for _, line := range lines {
		command, err := Parse(line)
		if err == nil {
			_, err = b.Call(1, command)
		}
		if err != nil {
			t.Fatal(line, err)
		}
	}
	return b
}

func TestTheLibraryIsThatOfTheHeader(t *testing.T) {
	if err := Check(); err != nil {
		t.Fatal(err)
	}
	for refusal, want := range map[uint8]string{103: "no lawful node", 114: "not holder", 99: ""} {
		if have := RefusalName(refusal); have != want {
			t.Errorf("%d: %q", refusal, have)
		}
	}
}

func TestAnEntryIsTheCallWithItsReply(t *testing.T) {
	b := open(t, "place 1", "fail 3")
	entry, err := b.Call(7, Command{Kind: Lease, Stripe: 1, Fragment: 3, Node: 9, Domain: 9}) // (what it does not use is left out)
	want := Entry{Session: 7, Command: Command{Kind: Lease, Stripe: 1, Fragment: 3}, Reply: Reply{Kind: Granted, Repair: Local,
		Sources: [6]uint8{0, 1, 2, 4, 5, 12}, Lease: LeaseRow{Stripe: 1, Fragment: 3, Holder: 7, Target: Seat{17, 0}, Epoch: 1}}}
	if err != nil || entry != want {
		t.Errorf("%+v %v", entry, err)
	}
	rows := make([]Entry, 5)
	if count, err := b.Entries(2, rows); err != nil || count != 1 || rows[0] != want {
		t.Error(count, err, rows[0])
	}
	lease, err := b.Lease(1, 3)
	if err != nil || lease.Holder != 7 || lease.Expiry != 3 {
		t.Errorf("%+v %v", lease, err)
	}
	if _, err := b.Lease(1, 4); !errors.Is(err, ErrNotFound) {
		t.Error(err)
	}
	if _, err := b.Call(9, Command{Kind: Tick}); !IsOutOfRange(err) {
		t.Error(err)
	}
	reply, err := b.Peek(1, Command{Kind: Tick})
	if err != nil || reply.String() != "ticked 1 0" || b.Made() != 3 || b.Clock() != 0 {
		t.Error(&reply, err)
	}
}

func TestABookForgetsItsEntriesAndNothingElse(t *testing.T) {
	b := open(t, "place 1", "fail 3", "next")
	before, err := b.Image()
	if err != nil {
		t.Fatal(err)
	}
	if err := b.Forget(); err != nil || b.Before() != 3 || b.Made() != 3 {
		t.Error(err)
	}
	if _, err := b.Entries(2, make([]Entry, 1)); !IsForgotten(err) {
		t.Error(err)
	}
	other, err := OpenImage(twenty(), before)
	if err != nil {
		t.Fatal(err)
	}
	defer other.Close()
	for name, it := range map[string]*Book{"after it forgot": b, "begun in its image": other} {
		if after, err := it.Image(); err != nil || string(after) != string(before) {
			t.Errorf("%s: %s %v", name, after, err)
		}
	}
}

func TestFaultsAreWordsOfThePages(t *testing.T) {
	image := func(line string) error {
		_, err := OpenImage(twenty(), []byte("image 1\nbefore 0\nclock 0\n"+line+"\nend\n"))
		return err
	}
	nodes := func(text string) error {
		_, err := Open([]byte(text))
		return err
	}
	for want, err := range map[string]error{
		"the topology is not TOML in UTF-8: topology 1":                                         nodes("\xff"),
		"the topology has no nodes: topology 2":                                                 nodes("node = 3"),
		"a number of the node at this position is missing, or not a whole number: topology 3 0": nodes("node = [1]"),
		"a number of the node at this position is out of its range: topology 4 0":               nodes("[[node]]\nnumber = 1\nfault = -1\nupgrade = 0\nslots = 1\n"),
		"the node of this number is there twice: topology 5 19":                                 nodes(string(twenty()) + "[[node]]\nnumber = 19\nfault = 1\nupgrade = 0\nslots = 1\n"),
		"this line can't stand here in an image: image 4":                                       image("nodes"),
		"the topology has no such node: image 4 cause 6":                                        image("node 20 down"),
		"the image has no such stripe: image 4 cause 14":                                        image("lease 1 3 1 17:0 3"),
		"no node is in the upgrading domain: image 4 cause 1":                                   image("upgrading 10"),
		"each count of the row is 0: image 4 cause 5":                                           image("granted 1" + strings.Repeat(" 0", 16)),
	} {
		if err == nil || err.Error() != want || !IsOfText(err) || !isOnThePage(t, want) {
			t.Errorf("%v, and not %q, or not as the page has it", err, want)
		}
	}
}

// isOnThePage tells whether docs/FORMATS.md has the words of a fault beside its line: "there is no such node: node 20".
func isOnThePage(t *testing.T, fault string) bool {
	t.Helper()
	page, err := os.ReadFile("../../docs/FORMATS.md")
	if err != nil {
		t.Fatal(err)
	}
	words, line, _ := strings.Cut(fault, ": ")
	line = regexp.MustCompile(`\b\d+\b`).ReplaceAllString(line, "#")
	for _, row := range regexp.MustCompile("(?m)^\\| `(.*)` \\| (.*) \\|$").FindAllStringSubmatch(string(page), -1) {
		if regexp.MustCompile(`\b([A-Z]|\d+)\b`).ReplaceAllString(row[1], "#") == line && row[2] == words {
			return true
		}
	}
	return false
}

// drawn is a command whose numbers are often there.
func drawn(r *rand.Rand) Command {
	kinds := []Kind{Place, Place6, Drop, Lease, Next, Next, Done, Abandon, Revoke, Fail, Down, Up, Drain, Undrain, Retire, Join, Upgrade,
		Upgraded, Tick, Lease, Place}
	return Command{Kind: kinds[r.Intn(len(kinds))], Stripe: uint16(r.Intn(5)), Fragment: uint8(r.Intn(16)), Epoch: uint32(1 + r.Intn(3)),
		Node: uint16(r.Intn(21)), Domain: uint8(r.Intn(11))}
}

// A reply has the text that its line has while its entry is in the history. Drawn calls reach every kind of reply and of repair, and
// each refusal.
func TestTheTextOfAReplyIsThatOfItsLine(t *testing.T) {
	met := map[string]bool{}
	for seed := int64(1); seed <= 20; seed++ {
		r, b := rand.New(rand.NewSource(seed)), open(t, "place 1", "fail 3", "lease 1 3", "down 17", "done 1 3 1")
		for i := 0; i < 300; i++ {
			if _, err := b.Call(uint8(1+r.Intn(3)), drawn(r)); err != nil {
				t.Fatal(err)
			}
		}
		entries := make([]Entry, b.Made())
		if _, err := b.Entries(0, entries); err != nil {
			t.Fatal(err)
		}
		for i, entry := range entries {
			line, err := b.ReplyLine(i)
			text, fault := entry.Reply.Text()
			if have := fmt.Sprintf("%d %s\n", i+1, text); err != nil || fault != nil || line != have {
				t.Errorf("%q and not %q, %v %v", have, line, err, fault)
			}
			met[fmt.Sprint(entry.Reply.Kind, entry.Reply.Repair, entry.Reply.Refusal, len(entry.Reply.sources()))] = true
		}
	}
	if want := 7 + 4 + 17; len(met) != want { // kinds of replies, of repairs of what is granted, and of refusals
		t.Errorf("%d kinds came, and there are %d: %v", len(met), want, met)
	}
	if _, err := open(t).ReplyLine(0); !errors.Is(err, ErrNotFound) {
		t.Error(err)
	}
}

func TestForecastsNameNodesAndDomains(t *testing.T) {
	b := open(t, "place6 1")
	for _, it := range []struct {
		nodes  Selection
		rows   int
		isSafe bool
		err    string
	}{
		{Selection{Nodes: []uint16{0, 1}}, 1, true, ""},
		{Selection{Nodes: []uint16{0, 1}, Faults: []uint8{2}, Upgrades: []uint8{6}}, 1, false, ""},
		{Selection{Upgrades: []uint8{0}}, 1, true, ""},
		{Selection{Nodes: []uint16{19}}, 0, true, ""},
		{Selection{Nodes: []uint16{20}}, 0, false, "there is no such node: node 20"},
		{Selection{Faults: []uint8{20}}, 0, false, "no node is in this fault domain: fault 20"},
		{Selection{Upgrades: []uint8{10}}, 0, false, "no node is in this upgrade domain: upgrade 10"},
	} {
		found, isSafe, err := b.ShowForecast(Stop, it.nodes)
		if err != nil || it.err != "" {
			if err == nil || err.Error() != it.err || !isOnThePage(t, it.err) {
				t.Errorf("%+v: %v", it.nodes, err)
			}
			continue
		}
		if len(found.rows()) != it.rows || isSafe != it.isSafe {
			t.Errorf("%+v: %s %v", it.nodes, found.CSV(), isSafe)
		}
	}
}

func TestNumbersAreAList(t *testing.T) {
	text, err := json.Marshal([]Numbers{{}, {1}, {0, 255}})
	if err != nil || string(text) != "[[],[1],[0,255]]" {
		t.Error(string(text), err)
	}
	if !reflect.DeepEqual([]uint8(membersOf(0x8005)), []uint8{0, 2, 15}) || listOf(0x8005) != "0 2 15" || listOf(0) != "" {
		t.Error(membersOf(0x8005), listOf(0x8005))
	}
}

// One tick, lease or entry more than the greatest number, and a book has no image and forgets nothing.
func TestABookWhoseNumbersAreAtTheirEndHasNoImage(t *testing.T) {
	var nodes strings.Builder
	for i := 0; i < 20; i++ {
		fmt.Fprintf(&nodes, "[[node]]\nnumber = %d\nfault = %d\nupgrade = %d\nslots = 4\n", i, i, i%10)
	}
	const image = "image 1\nbefore %d\nclock %d\nnode 3 gone\n" +
		"stripe 1 0:0 1:0 2:0 - 4:0 5:0 6:0 7:0 8:0 9:0 10:0 11:0 16:0 12:0 13:0 14:0\ngranted 1 0 0 0 %d 0 0 0 0 0 0 0 0 0 0 0 0\nend\n"
	for text, line := range map[string]string{
		fmt.Sprintf(image, 7, uint64(MostTicks), 5):   "tick",
		fmt.Sprintf(image, 7, 4, uint64(MostGrants)):  "lease 1 3",
		fmt.Sprintf(image, uint64(MostEntries), 4, 5): "place 1",
	} {
		b, err := OpenImage([]byte(nodes.String()), []byte(text))
		if err != nil {
			t.Fatal(err)
		}
		defer b.Close()
		if whole, err := b.Image(); err != nil || string(whole) != text {
			t.Errorf("%s: %q, %v", line, whole, err)
		}
		command, err := Parse(line)
		if err != nil {
			t.Fatal(err)
		}
		if _, err := b.Call(1, command); err != nil {
			t.Errorf("%s: %v", line, err)
		}
		if _, err := b.Image(); !IsFull(err) {
			t.Errorf("%s: the image: %v", line, err)
		}
		if err := b.Forget(); !IsFull(err) {
			t.Errorf("%s: to forget: %v", line, err)
		}
	}
}
