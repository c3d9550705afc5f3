// Package recorded has books as the plain model of the rules has them, for tests of what looks at books. `record` writes them.
package recorded

import (
	"embed"
	"encoding/json"
	"fmt"
	"sort"
	"strconv"
	"strings"
	"sync"

	"lrcman/service/book"
	"lrcman/service/internal/state"
	"lrcman/service/internal/survey"
)

//go:embed states
var states embed.FS

// A Book is a recorded state. Its fields but for Shown and First stay as they are.
type Book struct {
	mu    sync.Mutex
	Shown int    // so many entries are made
	First uint64 // the first place from which entries are in memory

	Status  map[string]string `json:"status"`
	Nodes   []Node            `json:"nodes"`
	Stripes []Stripe          `json:"stripes"`
	Leases  []Lease           `json:"leases"`
	Tasks   []Task            `json:"work"`
	Reasons []book.Reason     `json:"health"`
	Room    string            `json:"capacity"` // as CSV
	Counts  map[string]uint64 `json:"counts"`   // by command and reply
	Lines   []Line            `json:"entries"`
}

// A Node is a row of `show nodes`.
type Node struct {
	Node    uint16 `json:"node"`
	Fault   uint8  `json:"fault"`
	Upgrade uint8  `json:"upgrade"`
	Mode    string `json:"mode"`
	Down    bool   `json:"down"`
	Online  bool   `json:"online"`
	Load    uint32 `json:"load"`
	Slots   uint16 `json:"slots"`
}

// A Stripe is a row of `show stripes`.
type Stripe struct {
	Stripe  uint16   `json:"stripe"`
	Code    string   `json:"code"`
	Level   string   `json:"level"`
	Margin  string   `json:"margin"`
	Missing uint16   `json:"missing"`
	Homes   []string `json:"homes"`
}

// A Lease is a row of `show leases`, with the name of the worker.
type Lease struct {
	Stripe   uint16 `json:"stripe"`
	Fragment uint8  `json:"fragment"`
	Session  uint8  `json:"session"`
	Target   string `json:"target"`
	Epoch    uint32 `json:"epoch"`
	Expiry   uint32 `json:"expiry"`
	Worker   string `json:"worker"`
}

// A Task is a row of `show work`.
type Task struct {
	Stripe   uint16 `json:"stripe"`
	Fragment uint8  `json:"fragment"`
	Kind     string `json:"kind"`
	Standing string `json:"standing"`
}

// A Line is an entry.
type Line struct {
	Session uint8  `json:"session"`
	Command string `json:"command"`
	Reply   string `json:"reply"`
	Worker  string `json:"worker"`
}

// Load reads a recorded state.
func Load(name string) (*Book, error) {
	text, err := states.ReadFile("states/" + name + ".json")
	if err != nil {
		return nil, err
	}
	b := &Book{}
	if err := json.Unmarshal(text, b); err != nil {
		return nil, err
	}
	b.Shown = len(b.Lines)
	return b, nil
}

// Value is a number of `show status`.
func (b *Book) Value(name string) int {
	value, err := strconv.Atoi(b.Status[name])
	if err != nil {
		panic(fmt.Sprintf("%s is no number: %q", name, b.Status[name]))
	}
	return value
}

// TOML is the text of the nodes.
func (b *Book) TOML() []byte {
	text := []byte{}
	for _, n := range b.Nodes {
		text = append(text, fmt.Sprintf("[[node]]\nnumber = %d\nfault = %d\nupgrade = %d\nslots = %d\n", n.Node, n.Fault, n.Upgrade, n.Slots)...)
	}
	return text
}

// Replay makes the book in a state, by the calls that were made.
func (b *Book) Replay(name string, s *state.State) error {
	items := []*state.Item{{Action: state.Create, Book: name, Nodes: b.TOML()}}
	for _, line := range b.Lines {
		command, err := book.Parse(line.Command)
		if err != nil {
			return err
		}
		items = append(items, &state.Item{Action: state.Call, Book: name, Worker: line.Worker, Session: line.Session, Command: command})
	}
	answers, err := apply(s, 1, items)
	if err != nil {
		return err
	}
	for i, answer := range answers {
		if answer.Rejected != 0 {
			return fmt.Errorf("item %d: %s", i, answer.Words)
		}
		if i > 0 && answer.Reply.String() != b.Lines[i-1].Reply {
			return fmt.Errorf("%s was answered %s, and the model answers %s", b.Lines[i-1].Command, answer.Reply.String(), b.Lines[i-1].Reply)
		}
	}
	return nil
}

// apply brings items into a state by entries from an index on.
func apply(s *state.State, index uint64, items []*state.Item) (answers []state.Answer, err error) {
	for ; len(items) > 0; index++ {
		count := state.MostItems
		if len(items) < count {
			count = len(items)
		}
		told, err := s.Apply(index, s.Encode(items[:count]))
		if err != nil {
			return nil, err
		}
		answers, items = append(answers, told.([]state.Answer)...), items[count:]
	}
	return answers, nil
}

// Largest makes a book of 512 nodes and as many stripes as there may be, after a rack was lost and while a node drains.
func Largest(s *state.State, index uint64, name string) error {
	b, err := Load("most")
	if err != nil {
		return err
	}
	for i := range b.Nodes {
		b.Nodes[i].Slots = 256
	}
	items := []*state.Item{{Action: state.Create, Book: name, Nodes: b.TOML()}}
	call := func(command book.Command) {
		items = append(items, &state.Item{Action: state.Call, Book: name, Session: 1, Command: command})
	}
	for stripe := uint16(0); stripe < book.Stripes; stripe++ {
		call(book.Command{Kind: book.Place, Stripe: stripe})
	}
	for node := uint16(70); node < 78; node++ {
		call(book.Command{Kind: book.Fail, Node: node})
	}
	call(book.Command{Kind: book.Drain, Node: 80})
	_, err = apply(s, 10*index, items) // (they are five entries)
	return err
}

// HasRules tells whether the library knows the rules, or is a stand-in that only counts.
func HasRules() bool {
	b, err := book.Open([]byte("[[node]]\nnumber = 1\nfault = 1\nupgrade = 1\nslots = 1\n"))
	if err != nil {
		return false
	}
	defer b.Close()
	entry, err := b.Call(1, book.Command{Kind: book.Place, Stripe: 1})
	return err == nil && entry.Reply.Refusal == book.NoLawfulNode
}

// Standing is how many fragments stand so.
func (b *Book) Standing(standing string) int {
	count := 0
	for _, task := range b.Tasks {
		if task.Standing == standing {
			count++
		}
	}
	return count
}

// Show says how many entries are made.
func (b *Book) Show(entries int) {
	b.mu.Lock()
	defer b.mu.Unlock()
	b.Shown = entries
}

// Books are recorded states by name.
type Books map[string]*Book

// Names are the books, in order.
func (b Books) Names() []string {
	names := []string{}
	for name := range b {
		names = append(names, name)
	}
	sort.Strings(names)
	return names
}

// Look calls a function with a book.
func (b Books) Look(name string, look func(survey.View) error) error {
	one := b[name]
	if one == nil {
		return state.ErrNoBook
	}
	one.mu.Lock()
	defer one.mu.Unlock()
	return look(view{one})
}

type view struct{ *Book }

func (v view) Position() state.Position {
	return state.Position{Made: uint64(v.Shown), Opens: state.Stamp{Index: 1}.Number()}
}
func (v view) Clock() uint32 { return uint32(v.Value("clock")) }

func (v view) Upgrading() (uint8, bool) {
	domain, err := strconv.ParseUint(v.Status["upgrading"], 10, 8)
	return uint8(domain), err == nil
}

func (v view) Health() (func() ([]book.Reason, error), error) {
	return func() ([]book.Reason, error) { return v.Reasons, nil }, nil
}

func (v view) Show(table string) (book.TableSnapshot, error) {
	if table != "capacity" {
		return nil, fmt.Errorf("the table %s is not recorded", table)
	}
	return func() (*book.Table, error) { return book.TableOf([]byte(v.Room)), nil }, nil
}

var (
	codes  = map[string]book.Code{"wide": book.Wide, "narrow": book.Narrow}
	levels = map[string]book.LevelKind{"whole": book.Whole, "risk": book.AtRisk, "unavailable": book.Unavailable, "lost": book.Lost}
	modes  = map[string]book.NodeMode{"active": book.Active, "draining": book.Draining, "gone": book.Gone}
)

func (v view) StripeRows() ([]book.StripeRow, error) {
	rows := []book.StripeRow{}
	for _, s := range v.Stripes {
		level := book.Level{Kind: levels[s.Level]}
		if s.Level == "risk" {
			level.Margin = s.Margin[0] - '0'
		}
		rows = append(rows, book.StripeRow{Stripe: s.Stripe, Missing: s.Missing, Code: codes[s.Code], Level: level})
	}
	return rows, nil
}

func bit(is bool) uint8 {
	if is {
		return 1
	}
	return 0
}

func (v view) NodeRows() ([]book.NodeRow, error) {
	rows := []book.NodeRow{}
	for _, n := range v.Nodes {
		rows = append(rows, book.NodeRow{Number: n.Node, Slots: n.Slots, Load: n.Load, Fault: n.Fault, Upgrade: n.Upgrade,
			Mode: modes[n.Mode], IsOnline: bit(n.Online), IsDown: bit(n.Down)})
	}
	return rows, nil
}

func seatOf(text string) book.Seat {
	node, slot, _ := strings.Cut(text, ":")
	return book.Seat{Node: uint16(numberOf(node)), Slot: uint16(numberOf(slot))}
}

func numberOf(text string) uint64 {
	number, err := strconv.ParseUint(text, 10, 32)
	if err != nil {
		panic(err)
	}
	return number
}

func (v view) LeaseRows() ([]book.LeaseRow, error) {
	rows := []book.LeaseRow{}
	for _, l := range v.Leases {
		rows = append(rows, book.LeaseRow{Stripe: l.Stripe, Fragment: l.Fragment, Holder: l.Session, Target: seatOf(l.Target),
			Epoch: l.Epoch, Expiry: l.Expiry})
	}
	return rows, nil
}

func (v view) Holders() ([]state.Holder, error) {
	holders := []state.Holder{}
	for _, l := range v.Leases {
		if l.Worker != "" {
			holders = append(holders, state.Holder{Stripe: l.Stripe, Fragment: l.Fragment, Epoch: l.Epoch, Worker: l.Worker})
		}
	}
	return holders, nil
}

func (v view) Homes(stripe uint16) ([book.Fragments]book.Home, error) {
	homes := [book.Fragments]book.Home{}
	for _, s := range v.Stripes {
		if s.Stripe != stripe {
			continue
		}
		for f, home := range s.Homes {
			if home != "" && home != "-" {
				homes[f] = book.Home{Seat: seatOf(home), IsThere: 1}
			}
		}
	}
	return homes, nil
}

func (v view) task(stripe uint16, fragment uint8) (Task, error) {
	for _, task := range v.Tasks {
		if task.Stripe == stripe && task.Fragment == fragment {
			return task, nil
		}
	}
	return Task{}, fmt.Errorf("fragment %d of stripe %d needs no lease", fragment, stripe)
}

func (v view) Repair(stripe uint16, fragment uint8) (book.Plan, error) {
	task, err := v.task(stripe, fragment)
	return book.Plan{Repair: map[string]book.Repair{"local": book.Local, "global": book.Global, "move": book.Move}[task.Kind]}, err
}

func (v view) Peek(session uint8, command book.Command) (book.Reply, error) {
	task, err := v.task(command.Stripe, command.Fragment)
	switch task.Standing {
	case "open":
		return book.Reply{Kind: book.Granted}, err
	case "no_node":
		return book.Reply{Kind: book.Refused, Refusal: book.NoLawfulNode}, err
	case "unrecoverable":
		return book.Reply{Kind: book.Refused, Refusal: book.Unrecoverable}, err
	}
	return book.Reply{Kind: book.Refused, Refusal: book.AlreadyLeased}, err
}

func (v view) Entries(place uint64, most int) ([]book.Entry, error) {
	if place < v.First {
		return nil, &state.Forgotten{First: v.First}
	}
	entries := []book.Entry{}
	for ; place < uint64(v.Shown) && len(entries) < most; place++ {
		line := v.Lines[place]
		command, err := book.Parse(line.Command)
		if err != nil {
			return nil, err
		}
		entries = append(entries, book.Entry{Session: line.Session, Command: command, Reply: replyOf(line.Session, command, line.Reply)})
	}
	return entries, nil
}

var replies = map[string]book.ReplyKind{"placed": book.Placed, "dropped": book.Dropped, "granted": book.Granted, "idle": book.Idle,
	"ended": book.Ended, "changed": book.Changed, "refused": book.Refused, "ticked": book.Ticked}

// replyOf reads a session's reply as `run` prints it.
func replyOf(session uint8, command book.Command, text string) book.Reply {
	words := strings.Split(text, " ")
	reply := book.Reply{Kind: replies[words[0]]}
	switch words[0] {
	case "placed":
		if command.Kind == book.Place6 {
			reply.Kind = book.Placed6
		}
		for f, seat := range words[1:] {
			reply.Seats[f] = seatOf(seat)
		}
	case "granted":
		reply.Lease = book.LeaseRow{Stripe: uint16(numberOf(words[1])), Fragment: uint8(numberOf(words[2])), Holder: session,
			Target: seatOf(words[3]), Epoch: uint32(numberOf(words[5]))}
		reply.Repair = map[string]book.Repair{"local": book.Local, "global": book.Global, "move": book.Move}[words[6]]
		if len(words) == 10 {
			reply.Repair = book.Local3
		}
		for i, source := range words[7:] {
			reply.Sources[i] = uint8(numberOf(source))
		}
	case "ticked":
		reply.Clock, reply.Ended = uint32(numberOf(words[1])), uint32(numberOf(words[2]))
	case "refused":
		reply.Refusal = uint8(numberOf(words[1]))
		if len(words) > 2 {
			reply.Detail = uint32(numberOf(words[2]))
		}
	}
	return reply
}
