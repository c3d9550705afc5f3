package httpapi

import (
	"container/list"
	"crypto/tls"
	"fmt"
	"io"
	"net"
	"net/http"
	"sync"
	"time"
)

// A stage is what an open connection is at.
type stage int

// The stages.
const (
	waiting   stage = iota // for its client: no request is under way, or its head or its body has not come whole, or nobody reads it
	answering              // a request is answered: a connection at this stage is never closed for a new one
	stages
)

// Connections are those that are open at one port. Each new one is accepted: where there are as many as there may be, the one that
// has waited longest is closed for it.
type Connections struct {
	most     int
	ofOne    int // that one address may have; the others are kept for others
	mu       sync.Mutex
	at       [stages]*list.List // of *conn, those first that came to the stage first
	from     map[string]int     // how many there are of each address
	greedy   string             // the address that has more than half of what there may be, or ""
	counts   ConnectionCounts
	refusing chan struct{} // has a place for each connection that is being refused with words
}

// ConnectionCounts tell how many connections are open at the port for clients, and what became of those that were too many.
type ConnectionCounts struct {
	Waiting   int    // between requests, or with one that has not come whole
	Answering int    // with a request that is being answered
	Closed    uint64 // were closed for new ones
	Refused   uint64 // were refused, since all others had requests that were being answered
}

// keptForOthers is the part of all connections that no single address gets: one in so many.
const keptForOthers = 16

// mostToldRefusals is how many connections are told at once that they are too many. Others are closed without a word.
const mostToldRefusals = 64

// NewConnections lets so many be open.
func NewConnections(most int) *Connections {
	s := &Connections{most: most, ofOne: most - most/keptForOthers, from: map[string]int{}, refusing: make(chan struct{}, mostToldRefusals)}
	for i := range s.at {
		s.at[i] = list.New()
	}
	return s
}

// A conn is a connection that is counted while it is open.
type conn struct {
	net.Conn
	of      *Connections
	address string
	stage   stage
	place   *list.Element // among those at its stage; nil: it is not counted any more
}

// Close closes it, and counts it no more.
func (c *conn) Close() error {
	c.of.mu.Lock()
	c.of.drop(c)
	c.of.mu.Unlock()
	return c.Conn.Close()
}

// Limit lets in the connections of a port, of which so many may be open.
func (s *Connections) Limit(listener net.Listener, isTLS bool) net.Listener {
	return &port{listener, s, isTLS}
}

// A port accepts connections of which so many may be open.
type port struct {
	net.Listener
	of    *Connections
	isTLS bool
}

// Accept returns the next connection that is let in.
func (p *port) Accept() (net.Conn, error) {
	for {
		c, err := p.Listener.Accept()
		if err != nil {
			return nil, err
		}
		if it := p.of.admit(c); it != nil {
			return it, nil
		}
		p.of.refuse(c, p.isTLS)
	}
}

// admit lets a connection in, and closes another one for it if there are too many. It returns nil where none may be closed.
func (s *Connections) admit(c net.Conn) *conn {
	it := &conn{Conn: c, of: s, address: networkOf(c.RemoteAddr().String())}
	closed, isIn := s.add(it)
	if closed != nil {
		closed.Conn.Close()
	}
	if !isIn {
		return nil
	}
	return it
}

// add counts a new connection, and returns the one that has to be closed for it.
func (s *Connections) add(it *conn) (closed *conn, isIn bool) {
	s.mu.Lock()
	defer s.mu.Unlock()
	if s.open() >= s.most || s.from[it.address] >= s.ofOne {
		if closed = s.longest(it.address); closed == nil {
			s.counts.Refused++
			return nil, false
		}
		s.drop(closed)
		s.counts.Closed++
	}
	it.place = s.at[waiting].PushBack(it)
	if s.from[it.address]++; s.from[it.address] > s.most/2 {
		s.greedy = it.address
	}
	return closed, true
}

func (s *Connections) open() (count int) {
	for _, list := range s.at {
		count += list.Len()
	}
	return count
}

// longest is the connection that is closed for one of an address: the one that waits for longest, of the address that has more than
// half of them if there is one. An address with half of them closes its own alone.
func (s *Connections) longest(address string) *conn {
	if s.from[address] >= s.most/2 {
		return s.first(address)
	}
	if s.greedy != "" {
		if found := s.first(s.greedy); found != nil {
			return found
		}
	}
	return s.first("")
}

// first is the one that has waited longest, of an address or of any.
func (s *Connections) first(address string) *conn {
	for place := s.at[waiting].Front(); place != nil; place = place.Next() {
		if it := place.Value.(*conn); address == "" || it.address == address {
			return it
		}
	}
	return nil
}

func (s *Connections) drop(c *conn) {
	if c.place == nil {
		return
	}
	s.at[c.stage].Remove(c.place)
	c.place = nil
	if s.from[c.address]--; s.from[c.address] == 0 {
		delete(s.from, c.address)
	}
	if c.address == s.greedy && s.from[c.address] <= s.most/2 {
		s.greedy = ""
	}
}

// refuse tells a connection that there are too many, where that can be told in the clear, and closes it.
func (s *Connections) refuse(c net.Conn, isTLS bool) {
	select {
	case s.refusing <- struct{}{}:
	default:
		c.Close()
		return
	}
	go func() {
		defer func() { c.Close(); <-s.refusing }()
		c.SetDeadline(time.Now().Add(time.Second))
		if isTLS {
			return
		}
		io.WriteString(c, tooManyConnections)
		if half, ok := c.(interface{ CloseWrite() error }); ok && half.CloseWrite() == nil {
			io.Copy(io.Discard, io.LimitReader(c, mostHead)) // (to close what was not read would take the words away again)
		}
	}()
}

var tooManyConnections = func() string {
	text := `{"status":503,"code":"busy","error":"too many connections have requests that are being answered"}` + "\n"
	return fmt.Sprintf("HTTP/1.1 503 Service Unavailable\r\nContent-Type: application/json\r\nContent-Length: %d\r\nRetry-After: 1\r\n"+
		"Connection: close\r\n\r\n%s", len(text), text)
}()

// enter notes that a connection has come to a stage. One that waits for something else from now on waits anew.
func (s *Connections) enter(c net.Conn, now stage) {
	if secret, ok := c.(*tls.Conn); ok {
		c = secret.NetConn()
	}
	it, isCounted := c.(*conn)
	if !isCounted {
		return
	}
	s.mu.Lock()
	defer s.mu.Unlock()
	if it.place != nil {
		s.at[it.stage].Remove(it.place)
		it.stage, it.place = now, s.at[now].PushBack(it)
	}
}

// Note notes what an HTTP server says of a connection. (When a request is answered the API notes itself: not before its body has come)
func (s *Connections) Note(c net.Conn, state http.ConnState) {
	if state == http.StateIdle {
		s.enter(c, waiting)
	}
}

// Counts counts them.
func (s *Connections) Counts() ConnectionCounts {
	s.mu.Lock()
	defer s.mu.Unlock()
	counts := s.counts
	counts.Answering = s.at[answering].Len()
	counts.Waiting = s.open() - counts.Answering
	return counts
}

// networkOf is the address without its port; of IPv6 the network of it, since who has one such address has many.
func networkOf(address string) string {
	host := hostOf(address)
	if ip := net.ParseIP(host); ip != nil && ip.To4() == nil {
		return ip.Mask(net.CIDRMask(64, 128)).String()
	}
	return host
}

// hostOf is an address without its port, if it has one.
func hostOf(address string) string {
	host, _, err := net.SplitHostPort(address)
	if err != nil {
		return address
	}
	return host
}
