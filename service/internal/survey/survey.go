// Package survey looks at whole books, for metrics and for the page that people watch: how many stripes are at which level,
// what work is left, who holds which lease, and what was called lately. It changes nothing.
package survey

import (
	"math/bits"
	"sort"
	"time"

	"lrcman/service/book"
	"lrcman/service/internal/state"
)

// A View is what a look at a book sees. Nobody else uses the book meanwhile.
type View interface {
	Position() state.Position
	StripeRows() ([]book.StripeRow, error)
	NodeRows() ([]book.NodeRow, error)
	LeaseRows() ([]book.LeaseRow, error)
	Homes(stripe uint16) ([book.Fragments]book.Home, error)
	Repair(stripe uint16, fragment uint8) (book.Plan, error)
	Peek(session uint8, command book.Command) (book.Reply, error)
	Holders() ([]state.Holder, error)
	Entries(place uint64, most int) ([]book.Entry, error)
	Upgrading() (uint8, bool)
	Clock() uint32
	// Health takes what the table of health is made of; the rows are made later, beside calls.
	Health() (func() ([]book.Reason, error), error)
	// Show does so for any table.
	Show(table string) (book.TableSnapshot, error)
}

// Books are the books of one member, by name.
type Books interface {
	Names() []string
	Look(name string, look func(View) error) error
}

type books struct{ *state.State }

type view struct{ *state.View }

// OfState are the books of a state.
func OfState(s *state.State) Books { return books{s} }

func (b books) Look(name string, look func(View) error) error {
	return b.State.Look(name, func(v *state.View) error { return look(view{v}) })
}

func (v view) Position() state.Position { return v.View.Position }

// A Report is how one book stands.
type Report struct {
	Book      string  `json:"book"`
	N         uint64  `json:"n"`
	Opens     uint64  `json:"opens"`
	Clock     uint32  `json:"clock"`
	Stripes   Stripes `json:"stripes"`
	Work      Work    `json:"work"`
	Nodes     []Node  `json:"nodes"`
	Risks     []Risk  `json:"risks"`
	Leases    []Lease `json:"leases"`
	Upgrading *uint8  `json:"upgrading"` // the upgrade domain; nil: none
}

// Stripes are numbers of stripes by level, and of fragments that are missing.
type Stripes struct {
	All         int    `json:"all"`
	Whole       int    `json:"whole"`
	AtRisk      [3]int `json:"at_risk"` // by margin
	Unavailable int    `json:"unavailable"`
	Lost        int    `json:"lost"`
	Missing     int    `json:"missing_fragments"`
	Homeless    int    `json:"homeless_fragments"`
}

// Work is numbers of fragments that need a lease: by standing, and by the kind of their repair.
type Work struct {
	Leased        int `json:"leased"`
	Open          int `json:"open"`
	NoNode        int `json:"no_node"`
	Unrecoverable int `json:"unrecoverable"`
	Local         int `json:"local"`
	Global        int `json:"global"`
	Move          int `json:"move"`
}

// All is the number of fragments that need a lease.
func (w Work) All() int { return w.Leased + w.Open + w.NoNode + w.Unrecoverable }

// A Node is a row of the table of nodes. Leaving counts the homes on it that live leases move away.
type Node struct {
	Node    uint16 `json:"node"`
	Fault   uint8  `json:"fault"`
	Upgrade uint8  `json:"upgrade"`
	Mode    string `json:"mode"`
	Online  bool   `json:"online"`
	Down    bool   `json:"down"`
	Load    uint32 `json:"load"`
	Targets uint32 `json:"targets"`
	Leaving uint32 `json:"leaving"`
	Slots   uint16 `json:"slots"`
}

// A Risk is a stripe that is not whole. Its margin is nil where too many fragments are missing.
type Risk struct {
	Stripe  uint16 `json:"stripe"`
	Code    string `json:"code"`
	Level   string `json:"level"`
	Margin  *uint8 `json:"margin"`
	Missing uint16 `json:"missing"` // fragment f is bit f
}

// A Lease is a live lease. Ticks is its age; Since is when it was granted, or first seen if it is older than the watch.
type Lease struct {
	Stripe   uint16    `json:"stripe"`
	Fragment uint8     `json:"fragment"`
	Session  uint8     `json:"session"`
	Worker   string    `json:"worker"`
	Target   string    `json:"target"`
	Epoch    uint32    `json:"epoch"`
	Ticks    uint32    `json:"ticks"`
	Since    time.Time `json:"since"`
	AtLeast  bool      `json:"at_least"`
}

// take looks at a whole book.
func take(name string, v View) (*Report, error) {
	at := v.Position()
	report := &Report{Book: name, N: at.Made, Opens: at.Opens, Clock: v.Clock(), Nodes: []Node{}, Risks: []Risk{}, Leases: []Lease{}}
	if domain, ok := v.Upgrading(); ok {
		report.Upgrading = &domain
	}
	nodes, err := v.NodeRows()
	if err != nil {
		return nil, err
	}
	draining := &nodeSet{}
	for _, row := range nodes {
		if row.Mode == book.Draining {
			draining.add(row.Number)
		}
		report.Nodes = append(report.Nodes, Node{Node: row.Number, Fault: row.Fault, Upgrade: row.Upgrade, Mode: row.Mode.String(),
			Online: row.IsOnline == 1, Down: row.IsDown == 1, Load: row.Load, Slots: row.Slots})
	}
	if err := report.leases(v); err != nil {
		return nil, err
	}
	if err := report.stripes(v, draining); err != nil {
		return nil, err
	}
	return report, nil
}

// A nodeSet is a set of nodes; each stripe's homes are looked up in it.
type nodeSet struct {
	bits  [1 << 16 / 64]uint64
	count int
}

func (s *nodeSet) add(node uint16) {
	s.bits[node/64] |= 1 << (node % 64)
	s.count++
}

func (s *nodeSet) has(node uint16) bool { return s.bits[node/64]>>(node%64)&1 == 1 }

func (r *Report) leases(v View) error {
	rows, err := v.LeaseRows()
	if err != nil {
		return err
	}
	holders, err := v.Holders()
	if err != nil {
		return err
	}
	targets, leaving := map[uint16]uint32{}, map[uint16]uint32{}
	workers := map[book.FragmentID]string{}
	for _, holder := range holders {
		workers[book.FragmentID{Stripe: holder.Stripe, Number: holder.Fragment}] = holder.Worker
	}
	for _, row := range rows {
		lease := Lease{Stripe: row.Stripe, Fragment: row.Fragment, Session: row.Holder, Target: row.Target.String(), Epoch: row.Epoch,
			Worker: workers[book.FragmentID{Stripe: row.Stripe, Number: row.Fragment}]}
		if left := row.Expiry - r.Clock; left <= book.LeaseTicks {
			lease.Ticks = book.LeaseTicks - left
		}
		r.Leases = append(r.Leases, lease)
		homes, err := v.Homes(row.Stripe)
		if err != nil {
			return err
		}
		targets[row.Target.Node]++
		if home := homes[row.Fragment]; home.IsThere == 1 {
			leaving[home.Seat.Node]++
		}
	}
	for i, node := range r.Nodes {
		r.Nodes[i].Targets, r.Nodes[i].Leaving = targets[node.Node], leaving[node.Node]
	}
	return nil
}

// stripes counts levels and work. Only stripes that miss a fragment are walked, and all while a node is draining.
func (r *Report) stripes(v View, draining *nodeSet) error {
	rows, err := v.StripeRows()
	if err != nil {
		return err
	}
	leased := map[book.FragmentID]bool{}
	for _, lease := range r.Leases {
		leased[book.FragmentID{Stripe: lease.Stripe, Number: lease.Fragment}] = true
	}
	var atRisk []book.StripeRow
	for _, row := range rows {
		r.Stripes.add(row)
		if row.Level.Kind != book.Whole {
			atRisk = append(atRisk, row)
		}
		if row.Missing == 0 && draining.count == 0 {
			continue
		}
		if err := r.workOf(v, row, draining, leased); err != nil {
			return err
		}
	}
	sort.SliceStable(atRisk, func(i, j int) bool { return atRisk[i].Level.RankForPeople() < atRisk[j].Level.RankForPeople() })
	for _, row := range atRisk {
		r.Risks = append(r.Risks, riskOf(row))
	}
	return nil
}

func (s *Stripes) add(row book.StripeRow) {
	s.All++
	s.Missing += bits.OnesCount16(row.Missing)
	switch row.Level.Kind {
	case book.Whole:
		s.Whole++
	case book.AtRisk:
		s.AtRisk[row.Level.Margin]++
	case book.Unavailable:
		s.Unavailable++
	case book.Lost:
		s.Lost++
	}
}

func riskOf(row book.StripeRow) Risk {
	risk := Risk{Stripe: row.Stripe, Code: row.Code.String(), Level: row.Level.Kind.String(), Missing: row.Missing}
	if row.Level.Kind == book.AtRisk {
		margin := row.Level.Margin
		risk.Margin = &margin
	}
	return risk
}

func (r *Report) workOf(v View, row book.StripeRow, draining *nodeSet, leased map[book.FragmentID]bool) error {
	homes, err := v.Homes(row.Stripe)
	if err != nil {
		return err
	}
	for f := uint8(0); int(f) < row.Code.Fragments(); f++ {
		home := homes[f]
		if home.IsThere == 0 {
			r.Stripes.Homeless++
		} else if !draining.has(home.Seat.Node) {
			continue
		}
		if err := r.Work.add(v, book.FragmentID{Stripe: row.Stripe, Number: f}, leased); err != nil {
			return err
		}
	}
	return nil
}

func (w *Work) add(v View, key book.FragmentID, leased map[book.FragmentID]bool) error {
	plan, err := v.Repair(key.Stripe, key.Number)
	if err != nil {
		return err
	}
	switch plan.Repair {
	case book.Local, book.Local3:
		w.Local++
	case book.Global:
		w.Global++
	case book.Move:
		w.Move++
	}
	if leased[key] {
		w.Leased++
		return nil
	}
	reply, err := v.Peek(1, book.Command{Kind: book.Lease, Stripe: key.Stripe, Fragment: key.Number})
	if err != nil {
		return err
	}
	switch {
	case reply.Kind == book.Granted:
		w.Open++
	case reply.Refusal == book.NoLawfulNode:
		w.NoNode++
	default:
		w.Unrecoverable++
	}
	return nil
}
