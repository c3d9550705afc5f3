package raftlog

import (
	"encoding/json"
	"errors"
	"fmt"
	"io"
	"net/http"
	"strings"
	"sync/atomic"
	"time"

	"go.etcd.io/etcd/pkg/transport"
	"go.etcd.io/etcd/pkg/types"
	"go.etcd.io/etcd/raft"

	"lrcman/service/internal/engine"
)

const (
	askTime      = time.Second      // for an answer of another member
	doubtTime    = time.Second      // between two questions while the others may not take this member
	calmTime     = 10 * time.Second // between two questions else, and between two lines of one kind
	askPause     = 200 * time.Millisecond
	vouchingTime = time.Second // between two questions about a stranger
)

// newAsker is a client for questions to other members, over their TLS.
func (n *Node) newAsker() error {
	rounds, err := transport.NewTransport(n.cfg.TLS, askTime)
	if err != nil {
		return err
	}
	rounds.Proxy = nil
	n.asker = &http.Client{Transport: rounds, Timeout: askTime,
		CheckRedirect: func(*http.Request, []*http.Request) error { return http.ErrUseLastResponse }}
	return nil
}

// ask asks another member, and reads the object that it answers.
func (n *Node) ask(address, path, query string, group uint64, into interface{}) error {
	request, err := http.NewRequest(http.MethodGet, n.scheme()+"://"+address+path+"?"+query, nil)
	if err != nil {
		return err
	}
	request.Header.Set(senderHeader, types.ID(n.cfg.Self.ID).String())
	if group != 0 {
		request.Header.Set(groupHeader, types.ID(group).String())
	}
	answer, err := n.asker.Do(request)
	if err != nil {
		return errors.Unwrap(err) // (without the address, which stands in each line of the log)
	}
	defer answer.Body.Close()
	if answer.StatusCode != http.StatusOK {
		return fmt.Errorf("it answers %s", answer.Status)
	}
	return json.NewDecoder(io.LimitReader(answer.Body, mostAnswer)).Decode(into)
}

// watch ends this member once its group does not take it any more. That a single port says so is not enough: after a member any
// web server may listen there.
func (n *Node) watch() {
	if !n.waitForMembers() {
		return
	}
	said := map[string]time.Time{}
	say := func(words string) {
		if time.Since(said[words]) > calmTime {
			said[words] = time.Now()
			n.cfg.Log.Warn(words)
		}
	}
	for {
		others := n.others()
		known, against := n.inquire(others)
		if found, isSure := n.sum(against, len(others)); isSure {
			n.endRefused(found)
			return
		}
		if n.setDoubted(against[isLost]+against[isOld] > 0) {
			say("a member knows another folder, or a later start, under this number: this one takes no part until more answer")
		}
		if n.hasUnsavedStarts() {
			n.saveStarts()
		}
		pause := doubtTime
		if atomic.LoadUint64(&n.lead) != raft.None && 2*known >= len(others) {
			pause = calmTime
		}
		select {
		case <-n.peers.ErrorC: // it may be told ten times a second
			say("at the address of a member it is said that this one was removed; now the others are asked")
			time.Sleep(askPause)
		case <-time.After(pause):
		case <-n.stop:
			return
		}
	}
}

// waitForMembers waits until the members of the log are known.
func (n *Node) waitForMembers() bool {
	for begun := atomic.LoadUint64(&n.commit); atomic.LoadUint64(&n.applied) < begun; {
		select {
		case <-time.After(time.Millisecond):
		case <-n.stop:
			return false
		}
	}
	return true
}

// setDoubted returns whether this member takes no part from now on.
func (n *Node) setDoubted(is bool) bool {
	n.mu.Lock()
	defer n.mu.Unlock()
	n.isDoubted = is
	return is
}

// takesPart tells whether messages of this member count. At a start it asks first.
func (n *Node) takesPart() bool {
	n.mu.Lock()
	defer n.mu.Unlock()
	return !n.isDoubted
}

func (n *Node) hasUnsavedStarts() bool {
	n.mu.Lock()
	defer n.mu.Unlock()
	return n.areStartsUnsaved
}

func (n *Node) others() (others []engine.Member) {
	for _, member := range n.sorted() {
		if member.ID != n.cfg.Self.ID && member.Peer != "" {
			others = append(others, member)
		}
	}
	return others
}

// inquire asks others what they know of this member: how many know it, and how many say what against it.
func (n *Node) inquire(others []engine.Member) (known int, against map[verdict]int) {
	answers, query := make(chan verdict, len(others)), n.ownStart().query(0)
	for _, member := range others {
		go func(member engine.Member) {
			var it acquaintance
			if err := n.ask(member.Peer, knownPath, query, n.identity.Group, &it); err != nil || it.Member != member.ID {
				it.Verdict = isStrange
			} else {
				n.takeStarts(it.Starts)
			}
			answers <- it.Verdict
		}(member)
	}
	against = map[verdict]int{}
	for range others {
		switch it := <-answers; it {
		case isKnown:
			known++
		case isRemoved, isLost, isOld:
			against[it]++
		}
	}
	return known, against
}

// sum tells whether enough members are against this one. One is enough where it showed a certificate.
func (n *Node) sum(against map[verdict]int, others int) (verdict, bool) {
	least := others/2 + 1
	if !n.cfg.TLS.Empty() {
		least = 1
	}
	for _, found := range []verdict{isRemoved, isLost, isOld} {
		if against[found] >= least {
			return found, true
		}
	}
	return isKnown, false
}

// endRefused ends this member, and marks a folder that the group does not take: it is not started again.
func (n *Node) endRefused(found verdict) {
	if found == isRemoved {
		n.end(engine.ErrRemoved)
		return
	}
	it := n.identity
	it.Refused = wordsOf(found)
	err := n.keep(func() error { return it.write(n.cfg.Dir, n.syncFolder) })
	if err == engine.ErrEnded {
		return // (it may be the next start of this folder that is known instead)
	} else if err != nil {
		n.cfg.Log.Errorf("the folder can't be marked: %v", err)
	}
	n.end(lost(it.Refused))
}

// isVouchedFor asks the members that this one knows about one that it does not: it may be behind, and the other one was added
// meanwhile. Where none of these answers, all of them may have been replaced: then it is enough that the other one, which says that
// it is at an address, knows this one.
func (n *Node) isVouchedFor(s start, address string) bool {
	n.mu.Lock()
	isAsked := s.isSame(n.vouched[s.Member])
	isDue := time.Since(n.vouchedAt) >= vouchingTime
	if !isAsked && isDue {
		n.vouchedAt = time.Now()
	}
	n.mu.Unlock()
	if isAsked || !isDue {
		return isAsked
	}
	isMember, hasAnswer := n.askAbout(s)
	if !isMember && (hasAnswer || !n.knowsThis(s.Member, address)) {
		return false
	}
	n.mu.Lock()
	defer n.mu.Unlock()
	n.vouched[s.Member] = s
	return true
}

// askAbout asks the members that this one knows about a start, and tells whether one knows it, and whether one has answered.
func (n *Node) askAbout(s start) (is, hasAnswer bool) {
	for _, member := range n.others() {
		var it acquaintance
		if err := n.ask(member.Peer, knownPath, s.query(0), n.identity.Group, &it); err != nil || it.Member != member.ID {
			continue
		} else if hasAnswer = true; it.Verdict == isKnown {
			return true, true
		}
	}
	return false, hasAnswer
}

// knowsThis tells whether a member of the group answers at an address, and knows this one.
func (n *Node) knowsThis(id uint64, address string) bool {
	if !n.isAddressOf(address) {
		return false
	}
	var it acquaintance
	err := n.ask(strings.TrimPrefix(address, n.scheme()+"://"), knownPath, n.ownStart().query(0), n.identity.Group, &it)
	return err == nil && it.Member == id && it.Verdict == isKnown
}
