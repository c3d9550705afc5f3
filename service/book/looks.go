package book

/*
#include "lrc_embed.h"
*/
import "C"

import "unsafe"

// A Code has the numbers of lrc_code.
type Code uint8

// The codes of stripes.
const (
	Wide   Code = C.LRC_WIDE
	Narrow Code = C.LRC_NARROW
)

// String is the word for the code.
func (c Code) String() string { return codeWords.of(uint32(c)) }

// parities is the number of parities of a stripe of either code; its other fragments are data.
const parities = 4

// Fragments is the number of fragments of a stripe of the code.
func (c Code) Fragments() int { return [...]int{0: 0, Wide: Fragments, Narrow: NarrowFragments}[c] }

// A Level has the layout of lrc_level.
type Level struct {
	Kind   LevelKind
	Margin uint8
	_      [2]uint8
}

// A LevelKind has the numbers of lrc_level_kind.
type LevelKind uint8

// The levels.
const (
	Whole       LevelKind = C.LRC_WHOLE
	AtRisk      LevelKind = C.LRC_AT_RISK
	Unavailable LevelKind = C.LRC_UNAVAILABLE
	Lost        LevelKind = C.LRC_LOST
)

// String is the word for the level in tables.
func (k LevelKind) String() string { return levelWords.of(uint32(k)) }

// A StripeRow has the layout of lrc_stripe.
type StripeRow struct {
	Stripe  uint16
	Missing uint16
	Code    Code
	_       [3]uint8
	Level   Level
}

// A RiskRow has the layout of lrc_risk.
type RiskRow struct {
	Stripe uint16
	_      [2]uint8
	Level  Level
}

// A NodeMode has the numbers of lrc_mode_kind.
type NodeMode uint8

// The modes of nodes.
const (
	Active   NodeMode = C.LRC_ACTIVE
	Draining NodeMode = C.LRC_DRAINING
	Gone     NodeMode = C.LRC_GONE
)

// String is the word for the mode.
func (m NodeMode) String() string { return modeWords.of(uint32(m)) }

// A NodeRow has the layout of lrc_node.
type NodeRow struct {
	Number   uint16
	Slots    uint16
	Load     uint32
	Fault    uint8
	Upgrade  uint8
	Mode     NodeMode
	IsOnline uint8
	IsDown   uint8
	_        [3]uint8
}

// An Outage has the numbers of lrc_outage.
type Outage uint8

// What happens to nodes.
const (
	Stop Outage = C.LRC_STOP
	Lose Outage = C.LRC_LOSE
)

// An Outlook has the layout of lrc_outlook.
type Outlook struct {
	Stripe       uint16
	Missing      uint16
	NewlyMissing uint16
	Code         Code
	IsHarmed     uint8
	LeasesEnded  uint8
	_            [3]uint8
	Before       Level
	After        Level
}

// A Home has the layout of lrc_home.
type Home struct {
	Seat    Seat
	IsThere uint8
	_       [3]uint8
}

// A Plan has the layout of lrc_repair_plan.
type Plan struct {
	Repair  Repair
	Sources [6]uint8
	_       uint8
}

// Homes are the homes of the fragments of a stripe.
func (b *Looks) Homes(stripe uint16) ([Fragments]Home, error) {
	var homes [Fragments]Home
	err := faultOf(C.lrc_embed_homes(b.handle, C.uint16_t(stripe), (*C.lrc_homes)(unsafe.Pointer(&homes))))
	return homes, err
}

// Lease is the live lease of a fragment.
func (b *Looks) Lease(stripe uint16, fragment uint8) (LeaseRow, error) {
	var lease LeaseRow
	status := C.lrc_embed_lease(b.handle, C.uint16_t(stripe), C.uint8_t(fragment), (*C.lrc_lease)(unsafe.Pointer(&lease)))
	return lease, faultOf(status)
}

// Repair is how a fragment is rebuilt, if it needs a lease.
func (b *Looks) Repair(stripe uint16, fragment uint8) (Plan, error) {
	var plan Plan
	status := C.lrc_embed_repair(b.handle, C.uint16_t(stripe), C.uint8_t(fragment), (*C.lrc_repair_plan)(unsafe.Pointer(&plan)))
	return plan, faultOf(status)
}

// Level is the level of a stripe.
func (b *Looks) Level(stripe uint16) (Level, error) {
	var level Level
	err := faultOf(C.lrc_embed_level(b.handle, C.uint16_t(stripe), (*C.lrc_level)(unsafe.Pointer(&level))))
	return level, err
}

// Missing are the fragments of a stripe without a home, or with one on a node that is not online: fragment f is bit f.
func (b *Looks) Missing(stripe uint16) (uint16, error) {
	missing := C.uint16_t(0)
	err := faultOf(C.lrc_embed_missing(b.handle, C.uint16_t(stripe), &missing))
	return uint16(missing), err
}

// Code is the code of a stripe.
func (b *Looks) Code(stripe uint16) (Code, error) {
	code := C.uint8_t(0)
	err := faultOf(C.lrc_embed_code(b.handle, C.uint16_t(stripe), &code))
	return Code(code), err
}

// Risk are the stripes that are not whole, in the order of repair.
func (b *Looks) Risk() ([]RiskRow, error) {
	rows, count := make([]RiskRow, Stripes), C.size_t(0)
	err := faultOf(C.lrc_embed_risk(b.handle, (*C.lrc_risk)(unsafe.Pointer(&rows[0])), Stripes, &count))
	return rows[:count], err
}

// FirstRisk is the first of these stripes; ErrNotFound if all are whole.
func (b *Looks) FirstRisk() (RiskRow, error) {
	var row RiskRow
	err := faultOf(C.lrc_embed_first_risk(b.handle, (*C.lrc_risk)(unsafe.Pointer(&row))))
	return row, err
}

// Load is the number of homes and of targets of leases on a node.
func (b *Looks) Load(node uint16) (uint32, error) {
	load := C.uint32_t(0)
	err := faultOf(C.lrc_embed_load(b.handle, C.uint16_t(node), &load))
	return uint32(load), err
}

// Mode is the mode of a node, and whether it is online.
func (b *Looks) Mode(node uint16) (mode NodeMode, isOnline bool, err error) {
	var found C.lrc_mode
	err = faultOf(C.lrc_embed_mode(b.handle, C.uint16_t(node), &found))
	return NodeMode(found.mode), found.is_online == 1, err
}

// IsDown tells whether a node is down. One that is not may be offline all the same.
func (b *Looks) IsDown(node uint16) (bool, error) {
	is := C.uint8_t(0)
	err := faultOf(C.lrc_embed_is_down(b.handle, C.uint16_t(node), &is))
	return is == 1, err
}

// HomesOn are the fragments with a home on a node, by stripe and fragment.
func (b *Looks) HomesOn(node uint16) ([]FragmentID, error) {
	rows, count := make([]FragmentID, C.LRC_SLOTS), C.size_t(0) // (a node has no more)
	err := faultOf(C.lrc_embed_homes_on(b.handle, C.uint16_t(node), 0, 0, (*C.lrc_fragment)(unsafe.Pointer(&rows[0])), C.LRC_SLOTS, &count))
	return rows[:count], err
}

// Upgrading is the domain that is upgrading, and whether there is one.
func (b *Looks) Upgrading() (uint8, bool) {
	domain := C.uint8_t(0)
	status := C.lrc_embed_upgrading(b.handle, &domain)
	return uint8(domain), status == C.LRC_DONE
}

// Clock is the number of ticks.
func (b *Looks) Clock() uint32 {
	clock := C.uint32_t(0)
	C.lrc_embed_clock(b.handle, &clock)
	return uint32(clock)
}

// Stripe is the row of one stripe.
func (b *Looks) Stripe(stripe uint16) (StripeRow, error) {
	var rows [1]StripeRow
	count := C.size_t(0)
	err := faultOf(C.lrc_embed_stripes(b.handle, C.uint16_t(stripe), (*C.lrc_stripe)(unsafe.Pointer(&rows[0])), 1, &count))
	if err == nil && (count == 0 || rows[0].Stripe != stripe) {
		err = &Fault{Status: C.LRC_UNKNOWN}
	}
	return rows[0], err
}

// StripeRows are all stripes, in rising order.
func (b *Looks) StripeRows() ([]StripeRow, error) {
	rows, count := make([]StripeRow, Stripes), C.size_t(0)
	err := faultOf(C.lrc_embed_stripes(b.handle, 0, (*C.lrc_stripe)(unsafe.Pointer(&rows[0])), Stripes, &count))
	return rows[:count], err
}

// NodeRows are all nodes, in the order of the text.
func (b *Looks) NodeRows() ([]NodeRow, error) {
	rows, count := make([]NodeRow, C.LRC_NODES), C.size_t(0)
	err := faultOf(C.lrc_embed_nodes(b.handle, 0, (*C.lrc_node)(unsafe.Pointer(&rows[0])), C.LRC_NODES, &count))
	return rows[:count], err
}

// LeaseRows are all live leases, by stripe and fragment.
func (b *Looks) LeaseRows() ([]LeaseRow, error) {
	var all []LeaseRow
	rows := make([]LeaseRow, 256)
	stripe, fragment := C.uint16_t(0), C.uint8_t(0)
	for {
		count := C.size_t(0)
		first := (*C.lrc_lease)(unsafe.Pointer(&rows[0]))
		status := C.lrc_embed_leases(b.handle, stripe, fragment, first, C.size_t(len(rows)), &count)
		if status != C.LRC_DONE {
			return nil, faultOf(status)
		}
		all = append(all, rows[:count]...)
		if int(count) < len(rows) {
			return all, nil
		}
		last := rows[count-1]
		stripe, fragment = C.uint16_t(last.Stripe), C.uint8_t(last.Fragment+1)
	}
}

// HasLease tells whether a lease lives.
func (b *Looks) HasLease() bool {
	var row LeaseRow
	count := C.size_t(0)
	C.lrc_embed_leases(b.handle, 0, 0, (*C.lrc_lease)(unsafe.Pointer(&row)), 1, &count)
	return count == 1
}

// Forecast tells what would become of the stripes if something happened to all these nodes at once, and whether it is safe.
func (b *Looks) Forecast(outage Outage, nodes []uint16) ([]Outlook, bool, error) {
	rows, count, isSafe := make([]Outlook, Stripes), C.size_t(0), C.uint8_t(0)
	first := (*C.uint16_t)(nil)
	if len(nodes) > 0 {
		first = (*C.uint16_t)(unsafe.Pointer(&nodes[0]))
	}
	status := C.lrc_embed_forecast(b.handle, C.uint8_t(outage), first, C.size_t(len(nodes)),
		(*C.lrc_outlook)(unsafe.Pointer(&rows[0])), Stripes, &count, &isSafe)
	return rows[:count], isSafe == 1, faultOf(status)
}
