package state

import "fmt"

// Rules is the version of the rules of this program's library.
func (s *State) Rules() uint32 { return s.ours.rules }

// firstForm is the form in which every group begins. It goes to another one only by ChangeRules.
const firstForm = 2

// A group says by which rules and in which form the members go on: no two versions mix in one book.
type group struct {
	now   version // that of the first entry; before it the rules are 0
	next  version // zeros, or that to which the group goes with the first entry of a member that has it
	asked uint64  // the index of the entry that asked for it, or 0
}

func newGroup() group { return group{now: version{form: firstForm}} }

func (v version) String() string {
	if v.form == firstForm {
		return fmt.Sprintf("rules %d", v.rules)
	}
	return fmt.Sprintf("rules %d in form %d", v.rules, v.form)
}

func (g *group) isChanging() bool { return g.next != version{} }

// agree tells why an item of a member with this version is refused, or "" if it is applied. It is so on all members, whatever
// their own version is.
func (g *group) agree(by version) string {
	switch {
	case by.rules == 0:
		return "there are no rules 0"
	case g.now.rules == 0 && by.form == g.now.form:
		g.now = by
	case g.isChanging() && by == g.next:
		*g = group{now: by}
	case g.isChanging():
		return fmt.Sprintf("the group goes from %v to %v, and this member has %v", g.now, g.next, by)
	case by != g.now:
		return fmt.Sprintf("the member has %v, and the group has %v", by, g.now)
	}
	return ""
}

// change makes another version the next one; what is 0 stays as it is. From then on no item is applied until a member comes that
// has it. Until then it can be taken back, by a change to the version of now.
func (g *group) change(index uint64, to version) Answer {
	if g.now.rules == 0 {
		return reject(NotChanged, "the group has no rules before its first book")
	}
	if to.rules == 0 {
		to.rules = g.now.rules
	}
	if to.form == 0 {
		to.form = g.now.form
	}
	switch {
	case to == g.next, to == g.now && !g.isChanging():
		return Answer{IsAgain: true}
	case to == g.now:
		*g = group{now: g.now}
	default:
		g.next, g.asked = to, index
	}
	return Answer{}
}

// begins returns why a program of a version can't begin in a snapshot of the group, or nil if it can.
func (g *group) begins(ours version) error {
	if g.now.rules == 0 || g.now == ours || g.next == ours {
		return nil
	}
	return otherRules("the snapshot", g.now, ours)
}

// otherRules is the error by which a member ends whose program lacks the version of its group.
func otherRules(what string, theirs, ours version) error {
	if theirs.form != ours.form {
		return fmt.Errorf("%s is of form %d, and this program reads form %d: nothing of it was taken", what, theirs.form, ours.form)
	}
	return fmt.Errorf("%s is of rules %d, and this library has rules %d: nothing of it was taken", what, theirs.rules, ours.rules)
}

// A Change tells of the rules and the form of the group, and to which others it goes.
type Change struct {
	Rules    uint32 // 0 before the first book
	Form     uint32
	Next     uint32 // 0: to none
	NextForm uint32
	Asked    uint64 // the index of the entry that asked for it
}

// Change tells of the rules of the group.
func (s *State) Change() Change {
	s.mu.RLock()
	defer s.mu.RUnlock()
	g := &s.group
	return Change{g.now.rules, g.now.form, g.next.rules, g.next.form, g.asked}
}
