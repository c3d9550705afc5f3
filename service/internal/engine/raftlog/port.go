package raftlog

import (
	"bytes"
	"context"
	"encoding/binary"
	"encoding/json"
	"errors"
	"fmt"
	"io"
	"net"
	"net/http"
	"strconv"
	"strings"
	"sync"
	"time"

	"go.etcd.io/etcd/etcdserver/api/rafthttp"
	"go.etcd.io/etcd/pkg/types"
	"go.etcd.io/etcd/raft/raftpb"

	"lrcman/service/internal/logging"
)

const (
	meetPath  = "/lrcmand/meet"
	knownPath = "/lrcmand/known"

	mostConnections = 1024             // more are closed at once
	headTime        = 10 * time.Second // for the head of a request, and the handshake before it
	bodyTime        = 30 * time.Second // for a body, and between two parts of a snapshot
	idleTime        = time.Minute
	mostBody        = 64 << 20 // of /raft
	mostSnapshot    = 8 << 30
	mostMessage     = 1 << 20 // the message before a snapshot
	mostAnswer      = 1 << 20 // of another member to a question
	mostIndex       = 1 << 56 // nobody gets there: raft would stand still behind such an index or term

	senderHeader = "X-Server-From"
	groupHeader  = "X-Etcd-Cluster-ID"
	urlsHeader   = "X-PeerURLs"
)

// A port is where the other members speak to this one. It stands before rafthttp, which believes whoever reaches it.
type port struct {
	node        *Node
	server      *http.Server
	listener    net.Listener
	invitations chan invitation // of groups, as long as this member is of none
	receiving   chan struct{}   // one snapshot at a time

	mu    sync.Mutex
	inner http.Handler // of rafthttp; nil as long as raft does not run
}

type connectionKey struct{}

// openPort listens before this member has begun: the first members meet there.
func (n *Node) openPort() error {
	n.port = &port{node: n, invitations: make(chan invitation, 1), receiving: make(chan struct{}, 1)}
	if n.cfg.Listen == "" {
		return nil
	}
	var err error
	if n.port.listener, err = n.listen(); err != nil {
		return err
	}
	n.port.server = &http.Server{Handler: n.port, ReadHeaderTimeout: headTime, IdleTimeout: idleTime, MaxHeaderBytes: 16 << 10,
		ErrorLog: n.cfg.Log.Std(logging.Warn, "the port for members"), ConnContext: func(ctx context.Context, c net.Conn) context.Context {
			return context.WithValue(ctx, connectionKey{}, c)
		}}
	go n.port.server.Serve(n.port.listener)
	return nil
}

// open lets raft's messages in.
func (p *port) open(inner http.Handler) {
	p.mu.Lock()
	defer p.mu.Unlock()
	p.inner = inner
}

func (p *port) close() {
	if p.server != nil {
		p.server.Close()
		p.listener.Close() // (the server may not have it yet)
	}
}

func (p *port) handler() http.Handler {
	p.mu.Lock()
	defer p.mu.Unlock()
	return p.inner
}

// A refusal is an answer to a request that this member does not take.
type refusal struct {
	status int
	words  string
}

func (r *refusal) Error() string { return r.words }

// ServeHTTP lets members pass, and nobody else. A body that does not come ends: net/http waits for it before it answers.
func (p *port) ServeHTTP(w http.ResponseWriter, r *http.Request) {
	if r.ContentLength != 0 {
		deadline(r, bodyTime)
	}
	var why *refusal
	switch path := r.URL.Path; {
	case r.Method == http.MethodGet && r.ContentLength != 0:
		why = &refusal{http.StatusBadRequest, "such a request has no body"}
	case path == meetPath && r.Method == http.MethodGet:
		if it := p.node.introduce(); it.Folder != 0 {
			answer(w, it)
		} else {
			why = &refusal{http.StatusServiceUnavailable, "this member does not know yet who it is"}
		}
	case path == knownPath && r.Method == http.MethodGet:
		why = p.known(w, r)
	case path == roomPath && r.Method == http.MethodGet:
		why = p.room(w, r)
	case path == "" || path == "/": // (where rafthttp's probes arrive, since the addresses have words behind them)
		answer(w, map[string]bool{"OK": true})
	case path == rafthttp.RaftPrefix || strings.HasPrefix(path, rafthttp.RaftPrefix+"/"):
		why = p.raft(w, r)
	default:
		why = &refusal{http.StatusNotFound, "there is no such path"}
	}
	if why != nil {
		w.Header().Set("Connection", "close") // (the rest of a body is not waited for)
		deadline(r, time.Second)
		http.Error(w, why.words, why.status)
	}
}

// deadline limits how long the rest of a request is waited for.
func deadline(r *http.Request, limit time.Duration) {
	if c, ok := r.Context().Value(connectionKey{}).(net.Conn); ok {
		c.SetReadDeadline(time.Now().Add(limit))
	}
}

func answer(w http.ResponseWriter, value interface{}) {
	w.Header().Set("Content-Type", "application/json")
	json.NewEncoder(w).Encode(value)
}

// An acquaintance is what a member of the group answers who asks about a start.
type acquaintance struct {
	Member  uint64       `json:"member"`
	Name    string       `json:"name"` // of the group
	Verdict verdict      `json:"verdict"`
	Starts  []heardStart `json:"starts"` // of all members that it has heard of
}

// known answers what this member knows of the start that stands in the address.
func (p *port) known(w http.ResponseWriter, r *http.Request) *refusal {
	n := p.node
	if p.handler() == nil {
		return &refusal{http.StatusServiceUnavailable, "this member has not begun"}
	}
	if why := p.checkGroup(r); why != nil {
		return why
	}
	asked, _, err := startOf(r.URL.Query())
	if err != nil {
		return &refusal{http.StatusBadRequest, err.Error()}
	}
	answer(w, acquaintance{n.cfg.Self.ID, n.cfg.Name, n.judgeStart(asked), n.heardStarts()})
	return nil
}

// checkGroup does not tell the number of this group to one of another: rafthttp would.
func (p *port) checkGroup(r *http.Request) *refusal {
	if r.Header.Get(groupHeader) != types.ID(p.node.identity.Group).String() {
		return &refusal{http.StatusConflict, "this member is of another group"}
	}
	return nil
}

// raft passes a request of a member on to rafthttp.
func (p *port) raft(w http.ResponseWriter, r *http.Request) *refusal {
	inner := p.handler()
	if inner == nil {
		p.invite(r)
		return &refusal{http.StatusServiceUnavailable, "this member has not begun"}
	}
	if why := p.checkGroup(r); why != nil {
		return why
	}
	from, why := p.checkSender(r)
	if why != nil {
		return why
	}
	isPost := r.Method == http.MethodPost
	switch path := r.URL.Path; {
	case isPost && path == rafthttp.RaftPrefix:
		why = p.readMessage(w, r, from)
	case isPost && path == rafthttp.RaftSnapshotPrefix:
		select {
		case p.receiving <- struct{}{}:
			defer func() { <-p.receiving }()
		default:
			return &refusal{http.StatusServiceUnavailable, "a snapshot is being received"}
		}
		why = p.readSnapshot(w, r, from)
	case r.Method == http.MethodGet && strings.HasPrefix(path, rafthttp.RaftStreamPrefix+"/"):
		if !strings.HasSuffix(path, "/"+types.ID(from).String()) {
			why = &refusal{http.StatusBadRequest, "it is not the sender's own stream"}
		} else if p.node.knowsNobody() {
			why = &refusal{http.StatusServiceUnavailable, "this member has heard nothing yet"}
		}
	default:
		why = &refusal{http.StatusNotFound, "there is no such path"}
	}
	if why == nil {
		inner.ServeHTTP(w, r)
	}
	return why
}

// checkSender tells who sends, and lets no one else pass than a member, from the folder that the group knows and from its last
// start. Nor does it take what is for another start of this member.
func (p *port) checkSender(r *http.Request) (uint64, *refusal) {
	n := p.node
	s, to, err := startOf(r.URL.Query())
	if err != nil {
		return 0, &refusal{http.StatusBadRequest, err.Error()}
	}
	if r.Header.Get(senderHeader) != types.ID(s.Member).String() {
		return 0, &refusal{http.StatusBadRequest, "two senders"}
	}
	if n.knowsNobody() {
		n.noteStart(s)
		p.takeAddress(r, s.Number)
		return s.Member, nil
	}
	found, err := n.hear(r.Context(), s)
	switch {
	case err != nil:
		return 0, &refusal{http.StatusServiceUnavailable, err.Error()}
	case found == isRemoved:
		return 0, &refusal{http.StatusGone, "this member was removed"} // (rafthttp takes this for a removal)
	case found == isStrange && n.isVouchedFor(s, r.Header.Get(urlsHeader)):
		p.takeAddress(r, s.Number)
		return s.Member, nil
	case found == isStrange:
		return 0, &refusal{http.StatusConflict, fmt.Sprintf("there is no member %d", s.Member)}
	case found != isKnown:
		return 0, &refusal{http.StatusConflict, wordsOf(found)}
	case to != 0 && to != n.number:
		return 0, &refusal{http.StatusConflict, "this is for another start of this member"}
	}
	r.Header.Del(urlsHeader)
	return s.Member, nil
}

// takeAddress lets rafthttp answer a start of a member that this one does not know yet, at the address that it names.
func (p *port) takeAddress(r *http.Request, number uint64) {
	address := r.Header.Get(urlsHeader)
	if !p.node.isAddressOf(address) {
		r.Header.Del(urlsHeader)
		return
	}
	r.Header.Set(urlsHeader, address+"?"+p.node.ownStart().query(number))
}

// isAddressOf tells whether rafthttp, which panics at others, can speak to it.
func (n *Node) isAddressOf(address string) bool {
	urls, err := types.NewURLs([]string{address})
	return err == nil && urls[0].Scheme == n.scheme() && urls[0].RawQuery+urls[0].Fragment == "" && !strings.Contains(address, ",")
}

// invite notes who speaks to a member that waits for its group.
func (p *port) invite(r *http.Request) {
	group, err := strconv.ParseUint(r.Header.Get(groupHeader), 16, 64)
	from, err2 := strconv.ParseUint(r.Header.Get(senderHeader), 16, 64)
	address := r.Header.Get(urlsHeader)
	if err != nil || err2 != nil || group == 0 || !p.node.isAddressOf(address) {
		return
	}
	select {
	case p.invitations <- invitation{group, from, strings.TrimPrefix(address, p.node.scheme()+"://")}:
	default: // (one is looked at)
	}
}

// readMessage reads a message of a member, and gives it back to be read by rafthttp.
func (p *port) readMessage(w http.ResponseWriter, r *http.Request, from uint64) *refusal {
	if r.ContentLength > mostBody {
		return &refusal{http.StatusRequestEntityTooLarge, "the message is too long"}
	}
	text, err := io.ReadAll(http.MaxBytesReader(w, r.Body, mostBody))
	if err != nil {
		return &refusal{http.StatusBadRequest, err.Error()}
	}
	m, err := messageOf(text)
	if err != nil {
		return &refusal{http.StatusBadRequest, err.Error()}
	}
	if m.Type == raftpb.MsgSnap {
		return &refusal{http.StatusBadRequest, "a snapshot comes with its file"}
	}
	if err := p.checkMessage(m, from); err != nil {
		return &refusal{http.StatusBadRequest, err.Error()}
	}
	r.Body = io.NopCloser(bytes.NewReader(text))
	return nil
}

// readSnapshot reads the message before a snapshot, and gives it back. The snapshot itself may take as long as it comes.
func (p *port) readSnapshot(w http.ResponseWriter, r *http.Request, from uint64) *refusal {
	body := &slowBody{r, http.MaxBytesReader(w, r.Body, mostSnapshot)}
	text := make([]byte, 8)
	if _, err := io.ReadFull(body, text); err != nil {
		return &refusal{http.StatusBadRequest, err.Error()}
	}
	length := binary.BigEndian.Uint64(text)
	if length > mostMessage {
		return &refusal{http.StatusRequestEntityTooLarge, "the message is too long"}
	}
	text = append(text, make([]byte, length)...)
	if _, err := io.ReadFull(body, text[8:]); err != nil {
		return &refusal{http.StatusBadRequest, err.Error()}
	}
	m, err := messageOf(text[8:])
	if err != nil {
		return &refusal{http.StatusBadRequest, err.Error()}
	}
	if m.Type != raftpb.MsgSnap {
		return &refusal{http.StatusBadRequest, "it is no snapshot"}
	}
	if err := p.checkMessage(m, from); err != nil {
		return &refusal{http.StatusBadRequest, err.Error()}
	}
	r.Body = io.NopCloser(io.MultiReader(bytes.NewReader(text), body))
	return nil
}

// A slowBody may take any time in all, while something comes.
type slowBody struct {
	request *http.Request
	io.Reader
}

func (b *slowBody) Read(into []byte) (int, error) {
	deadline(b.request, bodyTime)
	return b.Reader.Read(into)
}

func (p *port) checkMessage(m *raftpb.Message, from uint64) error {
	if m.From != from {
		return errors.New("the sender is another one than that of the request")
	}
	return p.node.checkMessage(m)
}

// messageOf reads a message. (etcd's reader panics at some that nobody writes)
func messageOf(text []byte) (m *raftpb.Message, err error) {
	defer func() {
		if why := recover(); why != nil {
			err = fmt.Errorf("the message can't be read: %v", why)
		}
	}()
	m = &raftpb.Message{}
	return m, m.Unmarshal(text)
}
