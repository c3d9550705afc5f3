package raftlog

import (
	"crypto/sha256"
	"encoding/binary"
	"encoding/hex"
	"encoding/json"
	"errors"
	"fmt"
	"sort"
	"strings"
	"time"

	"go.etcd.io/etcd/wal"

	"lrcman/service/internal/engine"
)

const (
	meetPause = 100 * time.Millisecond // between two rounds of questions
	sayTime   = 3 * time.Second        // between two lines that say for whom this member waits
)

// openIdentity reads whose folder this is, counts this start, and makes a number for a folder that is empty.
func (n *Node) openIdentity() (err error) {
	if n.number, err = randomNumber(); err != nil {
		return err
	}
	n.identity, err = readIdentity(n.cfg.Dir)
	switch {
	case err == nil:
		if err := n.checkIdentity(); err != nil {
			return err
		}
	case !errors.Is(err, errNoIdentity) && !errors.Is(err, errChanged):
		return err
	case wal.Exist(n.logFolder()): // what it says is at the head of the log, too, but for the count of starts
		n.identity = identity{Member: n.cfg.Self.ID, Name: n.cfg.Name, Starts: 1}
		n.cfg.Log.Warnf("the file %s can't be read: what the head of the log says is taken", identityName)
		return nil
	case errors.Is(err, errChanged):
		return fmt.Errorf("the file %s can't be read, and there is no log. Remove this member, and add one with an empty folder",
			identityName)
	default:
		if err := n.checkMark(mark{}); err != nil {
			return err
		}
		if n.identity, err = newIdentity(n.cfg.Self.ID, n.cfg.Name); err != nil {
			return err
		}
	}
	n.identity.Starts++
	return n.identity.write(n.cfg.Dir, n.syncFolder)
}

func (n *Node) checkIdentity() error {
	it := &n.identity
	switch {
	case it.Member != n.cfg.Self.ID || it.Name != n.cfg.Name:
		return fmt.Errorf("%w: it is of member %d of the group %q", errNotMember, it.Member, it.Name)
	case it.Refused != "":
		return lost("this folder is not started again: " + it.Refused)
	}
	return nil
}

// beginGroup finds which group this member is of, where it has not begun in one.
func (n *Node) beginGroup() error {
	switch {
	case n.identity.Folder == 0:
		return nil // (the log will tell)
	case n.identity.Group != 0:
		if n.cfg.New {
			n.cfg.Log.Infof("--new is passed over: the folder %s has begun", n.cfg.Dir)
		}
		return nil
	case len(n.cfg.Members) == 0:
		return n.waitForGroup()
	case len(n.cfg.Members) == 1:
		return n.beginAlone()
	case !n.cfg.New:
		return fmt.Errorf("the folder %s is empty. With --new this member begins a new group with the others. "+
			"If it had a folder before, that is lost: remove the number and add another", n.cfg.Dir)
	}
	return n.meet()
}

func (n *Node) beginAlone() error {
	number, err := randomNumber()
	if err != nil {
		return err
	}
	first := n.cfg.Members[0]
	first.Folder = n.identity.Folder
	n.cfg.Log.Infof("this member begins a new group, alone, in the folder %s", n.cfg.Dir)
	return n.takeGroup(number, []engine.Member{first})
}

// takeGroup makes this member one of a group, for good.
func (n *Node) takeGroup(group uint64, first []engine.Member) error {
	it := n.identity
	it.Group, it.First = group, first
	if err := it.write(n.cfg.Dir, n.syncFolder); err != nil {
		return err
	}
	n.mu.Lock()
	defer n.mu.Unlock()
	n.identity = it
	return nil
}

// An introduction is what a first member tells the others of itself.
type introduction struct {
	start
	List  string          `json:"list"` // the sum of the group's name and the first members, as it was told
	Begun bool            `json:"begun,omitempty"`
	First []engine.Member `json:"first,omitempty"` // with their folders, once it has begun with them
}

func (n *Node) introduce() introduction {
	n.mu.Lock()
	defer n.mu.Unlock()
	it := introduction{start: n.ownStart(), List: sumOfList(n.cfg.Name, n.cfg.Members)}
	if n.identity.Group != 0 {
		it.Begun, it.First = true, n.identity.First
		it.List = sumOfList(n.identity.Name, n.identity.First)
	}
	return it
}

// sumOfList is alike for all who were told the same, in any order.
func sumOfList(name string, members []engine.Member) string {
	list := append([]engine.Member(nil), members...)
	sort.Slice(list, func(i, j int) bool { return list[i].ID < list[j].ID })
	for i := range list {
		list[i].Folder = 0
	}
	sum := sumOfFirst(name, list)
	return hex.EncodeToString(sum[:])
}

func sumOfFirst(name string, first []engine.Member) [sha256.Size]byte {
	text, _ := json.Marshal(struct {
		Name  string
		First []engine.Member
	}{name, first}) // (numbers and texts alone: never an error)
	return sha256.Sum256(text)
}

// meet asks the other first members, until all have told the numbers of their folders, or one that it has begun.
func (n *Node) meet() error {
	end, said := time.Now().Add(n.cfg.Patience), time.Now()
	for {
		first, missing, err := n.askFirst()
		if err != nil {
			return err
		}
		if first != nil {
			n.cfg.Log.Infof("this member begins a new group of %d, in the folder %s", len(first), n.cfg.Dir)
			sum := sumOfFirst(n.cfg.Name, first)
			return n.takeGroup(binary.LittleEndian.Uint64(sum[:])|1, first)
		}
		words := "waiting for the other first members: " + strings.Join(missing, ", ")
		if time.Now().After(end) {
			return errors.New(words + ": they did not answer in time")
		} else if time.Since(said) >= sayTime {
			said = time.Now()
			n.cfg.Log.Info(words)
		}
		time.Sleep(meetPause)
	}
}

// askFirst asks each of the other first members once. It returns the first members with their folders, or else who is missing.
func (n *Node) askFirst() (first []engine.Member, missing []string, err error) {
	self := n.cfg.Self
	self.Folder = n.identity.Folder
	first = []engine.Member{self}
	for _, member := range n.cfg.Members {
		if member.ID == self.ID {
			continue
		}
		var its introduction
		if err := n.ask(member.Peer, meetPath, "", 0, &its); err != nil {
			missing = append(missing, fmt.Sprintf("%d (%s: %v)", member.ID, member.Peer, err))
			continue
		}
		if err := n.checkIntroduction(member, &its); err != nil {
			return nil, nil, err
		} else if its.First != nil {
			return its.First, nil, nil
		}
		n.noteStart(its.start)
		member.Folder = its.Folder
		first = append(first, member)
	}
	if missing != nil {
		return nil, missing, nil
	}
	sort.Slice(first, func(i, j int) bool { return first[i].ID < first[j].ID })
	return first, nil, nil
}

// checkIntroduction refuses to begin with one that was told otherwise, or that has begun with another folder of this number.
func (n *Node) checkIntroduction(member engine.Member, its *introduction) error {
	if its.Member != member.ID {
		return fmt.Errorf("at %s answers member %d, and not %d", member.Peer, its.Member, member.ID)
	}
	for _, it := range its.First {
		if it.ID == n.cfg.Self.ID && it.Folder != n.identity.Folder {
			return lost(fmt.Sprintf("member %d has begun: %s", member.ID, lostWords))
		}
	}
	if its.Begun && its.First == nil {
		return lost(fmt.Sprintf("member %d has begun, and not with this one: %s", member.ID, lostWords))
	} else if its.List != sumOfList(n.cfg.Name, n.cfg.Members) {
		return fmt.Errorf("member %d at %s was started with another --members or --group than this one", member.ID, member.Peer)
	}
	return nil
}

// An invitation is what a member that was added hears from the group before it knows of it.
type invitation struct {
	group, from uint64
	address     string
}

// waitForGroup waits until a member of the group speaks to this one, and knows it when it is asked.
func (n *Node) waitForGroup() error {
	end := time.NewTimer(n.cfg.Patience)
	defer end.Stop()
	say := time.NewTicker(sayTime)
	defer say.Stop()
	last := "nobody of the group has spoken to it"
	for {
		select {
		case it := <-n.port.invitations:
			why, err := n.takeInvitation(it)
			if err != nil || why == "" {
				return err
			}
			last = why
		case <-say.C:
			n.cfg.Log.Infof("waiting for the group that this member was added to: %s", last)
		case <-end.C:
			return fmt.Errorf("this member was not taken into its group in time: %s", last)
		}
	}
}

// takeInvitation takes the group of one that knows this member; else it tells why not.
func (n *Node) takeInvitation(it invitation) (why string, err error) {
	var answer acquaintance
	if err := n.ask(it.address, knownPath, n.ownStart().query(0), it.group, &answer); err != nil {
		return fmt.Sprintf("member %d speaks to it, and does not answer: %v", it.from, err), nil
	}
	switch {
	case answer.Member != it.from:
		return fmt.Sprintf("at the address of member %d answers %d", it.from, answer.Member), nil
	case answer.Name != n.cfg.Name:
		return fmt.Sprintf("member %d is of the group %q", it.from, answer.Name), nil
	case answer.Verdict == isLost || answer.Verdict == isOld:
		return "", lost(wordsOf(answer.Verdict))
	case answer.Verdict == isRemoved:
		return "", engine.ErrRemoved
	case answer.Verdict != isKnown:
		return fmt.Sprintf("member %d does not know it", it.from), nil
	}
	return "", n.takeGroup(it.group, nil)
}

// A lost error tells that the group does not take a folder: to start it again changes nothing.
type lost string

func (l lost) Error() string { return string(l) }

// Is tells what it is.
func (lost) Is(other error) bool { return other == engine.ErrLost }

func wordsOf(found verdict) string {
	if found == isOld {
		return oldWords
	}
	return lostWords
}

// ownStart is this start, as the others hear of it.
func (n *Node) ownStart() start {
	return start{Member: n.cfg.Self.ID, Folder: n.identity.Folder, Starts: n.identity.Starts, Number: n.number, reach: n.began}
}
