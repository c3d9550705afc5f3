package raftlog

import (
	"bytes"
	"context"
	"crypto/tls"
	"crypto/x509"
	"encoding/binary"
	"encoding/json"
	"errors"
	"fmt"
	"io"
	"net"
	"net/http"
	"net/http/httptest"
	"os"
	"strings"
	"testing"
	"time"

	"go.etcd.io/etcd/pkg/transport"
	"go.etcd.io/etcd/raft/raftpb"
	"go.etcd.io/etcd/version"

	"lrcman/service/internal/engine"
	"lrcman/service/internal/testcerts"
)

// A hand speaks to the port of a member.
type hand struct {
	t      *testing.T
	target *Node
	from   start
	group  uint64
	to     uint64
	client *http.Client
}

// handOf speaks as a member, with all that members know of each other: the worst that a network without TLS lets in.
func handOf(t *testing.T, as, target *Node) *hand {
	return &hand{t, target, as.ownStart(), target.identity.Group, target.number, &http.Client{Timeout: long}}
}

// strangerAt is no member, though it knows the number of the group.
func strangerAt(t *testing.T, target *Node) *hand {
	h := handOf(t, target, target)
	h.from = start{Member: 99, Folder: 1, Starts: 1, Number: 1}
	return h
}

func (h *hand) request(method, path string, body io.Reader) *http.Request {
	h.t.Helper()
	r, err := http.NewRequest(method, "http://"+h.target.cfg.Self.Peer+path+"?"+h.from.query(h.to), body)
	if err != nil {
		h.t.Fatal(err)
	}
	r.Header.Set(senderHeader, fmt.Sprintf("%x", h.from.Member))
	r.Header.Set(groupHeader, fmt.Sprintf("%x", h.group))
	r.Header.Set("X-Server-Version", version.Version)
	r.Header.Set("X-Min-Cluster-Version", version.MinClusterVersion)
	return r
}

// do sends a request, and returns the status and the words of the answer; 0 if there is none.
func (h *hand) do(r *http.Request) (int, string) {
	h.t.Helper()
	answer, err := h.client.Do(r)
	if err != nil {
		return 0, err.Error()
	}
	defer answer.Body.Close()
	text, _ := io.ReadAll(answer.Body)
	return answer.StatusCode, strings.TrimSpace(string(text))
}

func (h *hand) message(m raftpb.Message) (int, string) {
	h.t.Helper()
	text, err := m.Marshal()
	if err != nil {
		h.t.Fatal(err)
	}
	return h.do(h.request(http.MethodPost, "/raft", bytes.NewReader(text)))
}

func proposal(from, to uint64, entries ...raftpb.Entry) raftpb.Message {
	return raftpb.Message{Type: raftpb.MsgProp, From: from, To: to, Entries: entries}
}

func normal(text string) raftpb.Entry { return raftpb.Entry{Data: []byte("12345678" + text)} }

// farTerm is how far strangers tell their terms ahead: farther than the elections bring a group that a busy machine has meanwhile.
const farTerm = 1000

// goesOn expects that a group has all that was told, nothing else, and no term that a stranger told.
func (g *group) goesOn(all []string, term uint64) {
	g.t.Helper()
	g.alike(all)
	for id, n := range g.nodes {
		if now := n.Status().Term; now >= term+farTerm {
			g.t.Errorf("member %d is in term %d, and was in %d", id, now, term)
		}
	}
}

// Each of these ended members, or changed what they keep.
func TestStrangersHaveNoEffect(t *testing.T) {
	t.Parallel()
	g := groupOf(t, 3, func(c *Config) { c.Election = time.Second })
	all := texts(1, 5)
	proposeAll(t, g.nodes[1], all)
	leader := g.leader()
	other, term := g.other(leader), g.nodes[leader].Status().Term
	byNobody := strangerAt(t, g.nodes[leader])
	ofOthers := handOf(t, g.nodes[other], g.nodes[leader])
	ofOthers.group = 0x73c8e39ec8374cc8
	lost := handOf(t, g.nodes[other], g.nodes[leader])
	lost.from.Folder++
	old := handOf(t, g.nodes[other], g.nodes[leader])
	old.from.Starts, old.from.Number = 0, 5
	for name, h := range map[string]*hand{"a stranger": byNobody, "a member of another group": ofOthers, "a lost folder": lost,
		"an older copy": old} {
		from := h.from.Member
		for kind, m := range map[string]raftpb.Message{
			"a proposal":        proposal(from, leader, normal("planted")),
			"what nobody reads": proposal(from, leader, normal("\x07x")),
			"a vote":            {Type: raftpb.MsgVote, From: from, To: leader, Term: term + farTerm, Context: []byte("CampaignTransfer")},
			"entries": {Type: raftpb.MsgApp, From: from, To: leader, Term: term + farTerm, Index: 1, LogTerm: 1, Commit: 2,
				Entries: []raftpb.Entry{{Index: 2, Term: 2, Data: []byte("12345678planted")}}},
			"a question":  {Type: raftpb.MsgReadIndex, From: from, To: leader},
			"a heartbeat": {Type: raftpb.MsgHeartbeat, From: from, To: leader, Term: term + farTerm, Commit: 1 << 40},
			"a snapshot": {Type: raftpb.MsgSnap, From: from, To: leader, Term: term + farTerm,
				Snapshot: raftpb.Snapshot{Metadata: raftpb.SnapshotMetadata{Index: 1e6, Term: 1e6}}},
		} {
			if status, words := h.message(m); status != http.StatusConflict {
				t.Errorf("%s of %s: %d %s", kind, name, status, words)
			}
			text, _ := m.Marshal()
			head := make([]byte, 8)
			binary.BigEndian.PutUint64(head, uint64(len(text)))
			body := io.MultiReader(bytes.NewReader(head), bytes.NewReader(text), strings.NewReader(strings.Repeat("garbage", 6)))
			if status, words := h.do(h.request(http.MethodPost, "/raft/snapshot", body)); status != http.StatusConflict {
				t.Errorf("%s of %s as a snapshot: %d %s", kind, name, status, words)
			}
		}
		r := h.request(http.MethodGet, fmt.Sprintf("/raft/stream/msgapp/%x", from), nil)
		r.Header.Set("X-Raft-To", fmt.Sprintf("%x", leader))
		if status, words := h.do(r); status != http.StatusConflict {
			t.Errorf("a stream of %s: %d %s", name, status, words)
		}
	}
	g.goesOn(all, term)
	proposeAll(t, g.nodes[other], texts(6, 7))
	g.goesOn(texts(1, 7), term)
}

// Even what comes in the name of a member, with all that members know, does not end one.
func TestWhatNoMemberSendsIsNotTakenFromOne(t *testing.T) {
	t.Parallel()
	g := groupOf(t, 3, func(c *Config) { c.Election = time.Second })
	all := texts(1, 5)
	proposeAll(t, g.nodes[1], all)
	leader := g.leader()
	other, term := g.other(leader), g.nodes[leader].Status().Term
	h := handOf(t, g.nodes[other], g.nodes[leader])
	change := func(change raftpb.ConfChange) raftpb.Entry {
		text, err := change.Marshal()
		if err != nil {
			t.Fatal(err)
		}
		return raftpb.Entry{Type: raftpb.EntryConfChange, Data: text}
	}
	for kind, m := range map[string]raftpb.Message{
		"no entries":            proposal(other, leader),
		"an empty entry":        proposal(other, leader, raftpb.Entry{}),
		"what can't be read":    proposal(other, leader, normal("unreadable")),
		"and among others":      proposal(other, leader, normal("planted"), normal("unreadable")),
		"another kind":          proposal(other, leader, raftpb.Entry{Type: raftpb.EntryConfChangeV2, Data: []byte("123456789")}),
		"no change of members":  proposal(other, leader, raftpb.Entry{Type: raftpb.EntryConfChange, Data: []byte("\xff")}),
		"one without a member":  proposal(other, leader, change(raftpb.ConfChange{NodeID: 4, Context: []byte("x")})),
		"one of two":            proposal(other, leader, change(raftpb.ConfChange{NodeID: 4, Context: []byte(`{"id":5}`)})),
		"one of nobody":         proposal(other, leader, change(raftpb.ConfChange{Context: []byte(`{"id":0}`)})),
		"one of another kind":   proposal(other, leader, change(raftpb.ConfChange{Type: 9, NodeID: 4, Context: []byte(`{"id":4}`)})),
		"no question":           {Type: raftpb.MsgReadIndex, From: other, To: leader},
		"a short question":      {Type: raftpb.MsgReadIndex, From: other, To: leader, Entries: []raftpb.Entry{{Data: []byte("1")}}},
		"an answer to none":     {Type: raftpb.MsgReadIndexResp, From: other, To: leader, Entries: []raftpb.Entry{{Data: []byte("1")}}},
		"for another member":    proposal(other, other, normal("planted")),
		"of another member":     proposal(leader, leader, normal("planted")),
		"of nobody":             proposal(0, leader, normal("planted")),
		"a far term":            {Type: raftpb.MsgVote, From: other, To: leader, Term: term + mostTerms + farTerm},
		"the last term":         {Type: raftpb.MsgVote, From: other, To: leader, Term: 1<<64 - 1, Context: []byte("CampaignTransfer")},
		"the last index":        {Type: raftpb.MsgAppResp, From: other, To: leader, Term: term, Index: 1<<64 - 1},
		"a snapshot alone":      {Type: raftpb.MsgSnap, From: other, To: leader, Term: term},
		"a proposal of nothing": proposal(other, leader, raftpb.Entry{Data: []byte("12345678")}),
	} {
		if status, words := h.message(m); status != http.StatusBadRequest {
			t.Errorf("%s: %d %s", kind, status, words)
		}
	}
	for kind, body := range map[string]string{"garbage": "garbage", "nothing": "",
		"a huge length": "\x7f\xff\xff\xff\xff\xff\xff\xffx", "no message": "\x00\x00\x00\x00\x00\x00\x00\x01\xff", "a cut one": "\x00\x00\x00\x00\x00\x00\x00\x09x"} {
		if status, words := h.do(h.request(http.MethodPost, "/raft/snapshot", strings.NewReader(body))); status/100 != 4 {
			t.Errorf("a snapshot of %s: %d %s", kind, status, words)
		}
		if kind == "nothing" {
			continue
		}
		if status, words := h.do(h.request(http.MethodPost, "/raft", strings.NewReader(body))); status/100 != 4 {
			t.Errorf("a message of %s: %d %s", kind, status, words)
		}
	}
	if status, words := h.message(proposal(other, leader, normal("entry 6"))); status != http.StatusNoContent {
		t.Fatalf("the hand is not that of a member: %d %s", status, words)
	}
	eventually(t, "what a member sends is taken", func() bool { return len(g.machines[leader].all()) == 6 })
	g.goesOn(texts(1, 6), term)
}

// A group does not tell its number to those who don't know it.
func TestThePortDoesNotTellTheNumberOfTheGroup(t *testing.T) {
	t.Parallel()
	g := groupOf(t, 2)
	h := strangerAt(t, g.nodes[1])
	h.group = 5
	for _, path := range []string{"/raft", "/raft/stream/msgapp/63", "/raft/snapshot", "/raft/probing", knownPath, "/"} {
		for _, method := range []string{http.MethodGet, http.MethodPost, http.MethodPut} {
			answer, err := h.client.Do(h.request(method, path, nil))
			if err != nil {
				t.Fatal(err)
			}
			text, _ := io.ReadAll(answer.Body)
			answer.Body.Close()
			number := fmt.Sprintf("%x", g.nodes[1].identity.Group)
			if answer.Header.Get(groupHeader) != "" || strings.Contains(string(text), number) {
				t.Errorf("%s %s: %v %s", method, path, answer.Header, text)
			}
		}
	}
}

// What is too long is refused before it is read, and what does not come is not waited for.
func TestBodiesAreLimited(t *testing.T) {
	t.Parallel()
	g := groupOf(t, 2)
	propose(t, g.nodes[1], "entry 1")
	for name, h := range map[string]*hand{"a member": handOf(t, g.nodes[2], g.nodes[1]), "a stranger": strangerAt(t, g.nodes[1])} {
		for _, length := range []int{mostBody + 1, 1 << 30, 1000} {
			if name == "a member" && length == 1000 {
				continue // (that is waited for)
			}
			r := h.request(http.MethodPost, "/raft", nil)
			c, err := net.Dial("tcp", r.URL.Host)
			if err != nil {
				t.Fatal(err)
			}
			c.SetDeadline(time.Now().Add(10 * time.Second)) // (bodyTime is longer)
			fmt.Fprintf(c, "POST %s HTTP/1.1\r\nHost: h\r\n%s: %s\r\n%s: %s\r\nContent-Length: %d\r\n\r\n", r.URL.RequestURI(),
				senderHeader, r.Header.Get(senderHeader), groupHeader, r.Header.Get(groupHeader), length)
			text, err := io.ReadAll(c)
			if err != nil || !strings.HasPrefix(string(text), "HTTP/1.1 4") {
				t.Errorf("%d bytes of %s: %v %.60q", length, name, err, text)
			}
			c.Close()
		}
	}
	propose(t, g.nodes[2], "entry 2")
}

func TestConnectionsOverTheLimitAreClosedAtOnce(t *testing.T) {
	inner, err := net.Listen("tcp", "127.0.0.1:0")
	if err != nil {
		t.Fatal(err)
	}
	listener := &limited{inner, make(chan struct{}, 3)}
	defer listener.Close()
	accepted := make(chan net.Conn, 10)
	go func() {
		for {
			c, err := listener.Accept()
			if err != nil {
				return
			}
			accepted <- c
		}
	}()
	dial := func() net.Conn {
		c, err := net.Dial("tcp", inner.Addr().String())
		if err != nil {
			t.Fatal(err)
		}
		t.Cleanup(func() { c.Close() })
		c.SetReadDeadline(time.Now().Add(long))
		return c
	}
	var within []net.Conn
	for i := 0; i < 3; i++ {
		dial()
		within = append(within, <-accepted)
	}
	for i := 0; i < 5; i++ {
		if _, err := dial().Read(make([]byte, 1)); err == nil || errors.Is(err, os.ErrDeadlineExceeded) {
			t.Errorf("one more than the limit: %v", err)
		}
	}
	within[0].Close()
	within[0].Close() // (it counts once)
	dial()
	<-accepted
	if _, err := dial().Read(make([]byte, 1)); err == nil || errors.Is(err, os.ErrDeadlineExceeded) {
		t.Errorf("one more than the limit again: %v", err)
	}
}

// After a member is down, another server may have its address, and answer whatever it likes.
func TestAServerAtTheAddressOfAMemberEndsNobody(t *testing.T) {
	t.Parallel()
	for name, status := range map[string]int{"gone": http.StatusGone, "forbidden": http.StatusForbidden, "fine": http.StatusOK} {
		status := status
		t.Run(name, func(t *testing.T) {
			t.Parallel()
			g := groupOf(t, 3)
			propose(t, g.nodes[1], "entry 1")
			down := g.other(g.leader())
			g.close(down)
			listener, err := net.Listen("tcp", g.configs[down].Self.Peer)
			if err != nil {
				t.Fatal(err)
			}
			asked := make(chan bool, 1000)
			server := &httptest.Server{Listener: listener, Config: &http.Server{Handler: http.HandlerFunc(
				func(w http.ResponseWriter, r *http.Request) {
					w.WriteHeader(status)
					answer(w, acquaintance{Member: down, Verdict: "nonsense"})
					select {
					case asked <- r.URL.Path == knownPath:
					default:
					}
				})}}
			server.Start()
			defer server.Close()
			for count, isConfirmed := 0, false; count < 20 || !isConfirmed; count++ {
				select {
				case is := <-asked:
					isConfirmed = isConfirmed || is
				case <-time.After(long):
					t.Fatal("nobody asks there")
				}
			}
			proposeAll(t, g.nodes[g.leader()], texts(2, 9))
			g.alike(texts(1, 9))
			server.Close()
			g.start(down)
			g.alike(texts(1, 9))
		})
	}
}

// One that was removed while it was away hears it from the others.
func TestAMemberThatWasRemovedWhileItWasAwayEnds(t *testing.T) {
	t.Parallel()
	g := groupOf(t, 3)
	propose(t, g.nodes[1], "entry 1")
	away := g.other(g.leader())
	g.close(away)
	g.must(removing(away))
	eventually(t, "all know it", func() bool {
		for _, n := range g.nodes {
			if !n.IsIDRemoved(away) {
				return false
			}
		}
		return true
	})
	n, err := Start(g.configs[away], &list{})
	if err != nil {
		t.Fatal(err)
	}
	defer n.Close()
	select {
	case <-n.Done():
	case <-time.After(long):
		t.Fatal("it goes on")
	}
	if err := n.Err(); err != engine.ErrRemoved {
		t.Error(err)
	}
}

// certified is a group whose members show certificates with their names.
func certified(t *testing.T, ours *testcerts.Authority, change func(*Config)) *group {
	return groupOf(t, 3, func(cfg *Config) {
		certificate, key := ours.Sign(fmt.Sprint("member-", cfg.Self.ID))
		cfg.TLS = transport.TLSInfo{CertFile: certificate, KeyFile: key, TrustedCAFile: ours.File, ClientCertAuth: true}
		change(cfg)
	})
}

// overTLS asks with a certificate of an authority, or with none.
func overTLS(t *testing.T, trusts, signs *testcerts.Authority, name string) *http.Client {
	t.Helper()
	text, err := os.ReadFile(trusts.File)
	if err != nil {
		t.Fatal(err)
	}
	config := &tls.Config{RootCAs: x509.NewCertPool()}
	config.RootCAs.AppendCertsFromPEM(text)
	if signs != nil {
		pair, err := tls.LoadX509KeyPair(signs.Sign(name))
		if err != nil {
			t.Fatal(err)
		}
		config.Certificates = []tls.Certificate{pair}
	}
	return &http.Client{Timeout: 10 * time.Second, Transport: &http.Transport{TLSClientConfig: config, DisableKeepAlives: true}}
}

// Members ask for certificates, and of their authority for those of members alone.
func TestOneWithoutTheCertificateOfAMemberIsNotHeard(t *testing.T) {
	t.Parallel()
	any := map[string]bool{"client": true, "member-9": true, "member-1": true}
	for name, it := range map[string]struct {
		names  []string
		change func(*Config)
		heard  map[string]bool
	}{
		"any of the authority": {nil, func(*Config) {}, any},
		"some names":           {[]string{"member-1", "member-2", "member-3"}, func(*Config) {}, map[string]bool{"member-1": true}},
		"asked by the program": {nil, func(c *Config) { c.TLS.ClientCertAuth = false }, any},
	} {
		it := it
		t.Run(name, func(t *testing.T) {
			t.Parallel()
			ours, others := testcerts.New(t, "ours"), testcerts.New(t, "others")
			g := certified(t, ours, func(c *Config) { c.PeerNames = it.names; it.change(c) })
			proposeAll(t, g.nodes[1], texts(1, 3))
			leader := g.leader()
			h := handOf(t, g.nodes[g.other(leader)], g.nodes[leader])
			for _, client := range []string{"client", "member-9", "member-1", "of others", "none", "over TLS 1.1"} {
				switch client {
				case "none":
					h.client = overTLS(t, ours, nil, "")
				case "over TLS 1.1":
					h.client = overTLS(t, ours, ours, "member-1")
					config := h.client.Transport.(*http.Transport).TLSClientConfig
					config.MinVersion, config.MaxVersion = tls.VersionTLS10, tls.VersionTLS11
				case "of others":
					h.client = overTLS(t, ours, others, "member-1")
				default:
					h.client = overTLS(t, ours, ours, client)
				}
				r := h.request(http.MethodPost, "/raft", strings.NewReader("garbage"))
				r.URL.Scheme = "https"
				status, words := h.do(r)
				wanted := 0
				if it.heard[client] {
					wanted = http.StatusBadRequest
				}
				if status != wanted {
					t.Errorf("certificate of %s: %d %s", client, status, words)
				}
			}
			r := h.request(http.MethodPost, "/raft", strings.NewReader("garbage"))
			h.client = &http.Client{Timeout: 10 * time.Second}
			if status, words := h.do(r); status != 0 && status != http.StatusBadRequest || strings.Contains(words, "message") {
				t.Errorf("without TLS: %d %s", status, words)
			}
			g.alike(texts(1, 3))
		})
	}
}

func TestNamesOfCertificatesAreOfAnyKind(t *testing.T) {
	n := &Node{cfg: Config{PeerNames: []string{"h1", "127.0.0.1"}}}
	for name, it := range map[string]struct {
		certificate x509.Certificate
		is          bool
	}{
		"none":   {x509.Certificate{}, false},
		"dns":    {x509.Certificate{DNSNames: []string{"h0", "h1"}}, true},
		"mail":   {x509.Certificate{EmailAddresses: []string{"h1"}}, true},
		"ip":     {x509.Certificate{IPAddresses: []net.IP{net.IPv4(127, 0, 0, 1)}}, true},
		"others": {x509.Certificate{DNSNames: []string{"h2"}, IPAddresses: []net.IP{net.IPv4(127, 0, 0, 2)}}, false},
	} {
		if n.isPeerName(&it.certificate) != it.is {
			t.Errorf("%s: %v", name, !it.is)
		}
	}
}

// A member that is behind does not know who was added meanwhile: the others that it knows vouch for that one.
func TestALeaderThatAMemberDoesNotKnowIsHeard(t *testing.T) {
	t.Parallel()
	g := groupOf(t, 3)
	propose(t, g.nodes[1], "entry 1")
	g.alike(texts(1, 1))
	away := g.other(g.leader())
	g.close(away)
	g.add(4)
	proposeAll(t, g.nodes[g.leader()], texts(2, 5))
	eventually(t, "the new member votes", func() bool {
		for _, member := range g.nodes[4].Status().Members {
			if member.ID == 4 && !member.Learner {
				return true
			}
		}
		return false
	})
	for g.leader() != 4 {
		g.heard(func(ctx context.Context, n *Node) (bool, error) { return false, n.Lead(ctx, 4) })
	}
	g.start(away)
	g.alike(texts(1, 5))
}

// A member that was away while all others were replaced knows nobody who could vouch for the new ones. These know the member.
func TestAMemberFindsAGroupWhoseOthersWereReplaced(t *testing.T) {
	t.Parallel()
	g := groupOf(t, 3)
	propose(t, g.nodes[1], "entry 1")
	g.alike(texts(1, 1))
	away := g.other(g.leader())
	g.close(away)
	before := g.up()
	g.add(4)
	g.add(5)
	for g.leader() != 4 {
		g.heard(func(ctx context.Context, n *Node) (bool, error) { return false, n.Lead(ctx, 4) })
	}
	for _, id := range before {
		g.must(removing(id))
		g.close(id)
	}
	proposeAll(t, g.nodes[g.leader()], texts(2, 5))
	g.start(away)
	g.alike(texts(1, 5))
}

// Where one of those answers that a member knows, a stranger can't speak for itself.
func TestAStrangerDoesNotVouchForItself(t *testing.T) {
	t.Parallel()
	g := groupOf(t, 3)
	propose(t, g.nodes[1], "entry 1")
	stranger := httptest.NewServer(http.HandlerFunc(func(w http.ResponseWriter, r *http.Request) {
		answer(w, acquaintance{Member: 7, Name: "seven", Verdict: isKnown})
	}))
	defer stranger.Close()
	n := g.nodes[1]
	it := start{Member: 7, Folder: 77, Starts: 1, Number: 777}
	g.close(g.other(1))
	if n.isVouchedFor(it, stranger.URL) {
		t.Error("it does, beside a member that answers")
	}
	g.close(g.other(1))
	for _, address := range []string{"", "http://127.0.0.1:1", stranger.URL + "/raft", "https" + strings.TrimPrefix(stranger.URL, "http")} {
		time.Sleep(vouchingTime)
		if n.isVouchedFor(it, address) {
			t.Errorf("it does at %q", address)
		}
	}
	time.Sleep(vouchingTime)
	if other := (start{Member: 8, Folder: 77, Starts: 1, Number: 777}); n.isVouchedFor(other, stranger.URL) {
		t.Error("it does for another number")
	}
	time.Sleep(vouchingTime)
	if !n.isVouchedFor(it, stranger.URL) {
		t.Error("nobody else answers, and it is not asked")
	}
}

func TestTheWordsOfARequestAreReadAsTheyAreWritten(t *testing.T) {
	s := start{Member: 3, Folder: 1<<64 - 1, Starts: 7, Number: 9, reach: reach{Term: 4, Last: 5}}
	r, err := http.NewRequest(http.MethodGet, "http://h:1?"+s.query(11)+"/raft/probing", nil)
	if err != nil {
		t.Fatal(err)
	}
	found, to, err := startOf(r.URL.Query())
	if err != nil || found != s || to != 11 || r.URL.Path != "" {
		t.Errorf("%+v, %d, %v, %q", found, to, err, r.URL.Path)
	}
	for _, words := range []string{"", "member=1", strings.Replace(s.query(1), "folder=f", "folder=g", 1)} {
		r.URL.RawQuery = words
		if found, _, err := startOf(r.URL.Query()); err == nil {
			t.Errorf("%q: %+v", words, found)
		}
	}
	var back start
	text, err := json.Marshal(s)
	if err == nil {
		err = json.Unmarshal(text, &back)
	}
	if err != nil || back != s {
		t.Errorf("%s: %+v, %v", text, back, err)
	}
}

func TestReachesAreOrdered(t *testing.T) {
	for _, it := range []struct {
		one, other reach
		is         bool
	}{
		{reach{2, 5}, reach{2, 5}, false},
		{reach{2, 4}, reach{2, 5}, true},
		{reach{2, 6}, reach{2, 5}, false},
		{reach{1, 9}, reach{2, 5}, true},
		{reach{3, 1}, reach{2, 5}, false},
	} {
		if it.one.isBefore(it.other) != it.is {
			t.Errorf("%+v", it)
		}
	}
}

// An answer to a start before this one may tell of what this folder does not have.
func TestWhatIsForAnotherStartIsNotTaken(t *testing.T) {
	t.Parallel()
	g := groupOf(t, 2)
	propose(t, g.nodes[1], "entry 1")
	leader := g.leader()
	other := g.other(leader)
	h := handOf(t, g.nodes[other], g.nodes[leader])
	m := raftpb.Message{Type: raftpb.MsgHeartbeatResp, From: other, To: leader, Term: g.nodes[leader].Status().Term}
	if status, words := h.message(m); status != http.StatusNoContent {
		t.Errorf("for this start: %d %s", status, words)
	}
	h.to++
	if status, words := h.message(m); status != http.StatusConflict || !strings.Contains(words, "for another start of this member") {
		t.Errorf("for another start: %d %s", status, words)
	}
}

// What a member does not have must not count as acknowledged: its folder would be taken for an older copy.
func TestWhatAMemberRefusesIsNotAcknowledged(t *testing.T) {
	for _, it := range []struct {
		m    raftpb.Message
		want reach
	}{
		{raftpb.Message{Type: raftpb.MsgAppResp, Term: 3, Index: 9, Reject: true}, reach{}},
		{raftpb.Message{Type: raftpb.MsgAppResp, Term: 3, Index: 9}, reach{3, 9}},
		{raftpb.Message{Type: raftpb.MsgApp, Term: 3, Index: 9, Commit: 7}, reach{3, 7}},
		{raftpb.Message{Type: raftpb.MsgHeartbeat, Term: 3, Commit: 7}, reach{3, 7}},
		{raftpb.Message{Type: raftpb.MsgHeartbeatResp, Term: 3, Index: 9, Commit: 7}, reach{}},
		{raftpb.Message{Type: raftpb.MsgVote, Term: 3, Index: 9}, reach{}},
	} {
		if found := reachOf(&it.m); found != it.want {
			t.Errorf("%v: %+v, and not %+v", it.m, found, it.want)
		}
	}
}

// Whoever speaks to a member that waits for its group has to know it.
func TestAMemberJoinsNoGroupThatDoesNotKnowIt(t *testing.T) {
	t.Parallel()
	other := httptest.NewServer(http.HandlerFunc(func(w http.ResponseWriter, r *http.Request) {
		answer(w, acquaintance{Member: 7, Name: "seven", Verdict: isStrange})
	}))
	defer other.Close()
	cfg, _ := configOf(t, t.TempDir(), memberAt(t, 4))
	cfg.Patience = 3 * time.Second
	over := make(chan struct{})
	go func() { // (until it is over, since its port is not open at once)
		for {
			select {
			case <-over:
				return
			case <-time.After(50 * time.Millisecond):
			}
			r, _ := http.NewRequest(http.MethodPost, "http://"+cfg.Self.Peer+"/raft", nil)
			r.Header.Set(senderHeader, "7")
			r.Header.Set(groupHeader, "77")
			r.Header.Set(urlsHeader, other.URL)
			if answer, err := http.DefaultClient.Do(r); err == nil {
				answer.Body.Close()
			}
		}
	}()
	n, err := Start(cfg, &list{})
	close(over)
	if err == nil {
		n.Close()
		t.Fatal("it joins")
	}
	if !strings.Contains(err.Error(), "member 7 does not know it") {
		t.Errorf("%v", err)
	}
}
