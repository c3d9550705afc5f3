package main

import (
	"net"
	"sync"
)

// A relay gives the connections of one port to one server after another: so no client is turned away between them.
type relay struct {
	net.Listener
	taken  chan accepted
	closed chan struct{}
	once   sync.Once
}

// An accepted is what the port returned.
type accepted struct {
	conn net.Conn
	err  error
}

func newRelay(port net.Listener) *relay {
	r := &relay{Listener: port, taken: make(chan accepted), closed: make(chan struct{})}
	go r.run()
	return r
}

func (r *relay) run() {
	for {
		conn, err := r.Listener.Accept()
		select {
		case r.taken <- accepted{conn, err}:
		case <-r.closed:
			if err == nil {
				conn.Close()
			}
			return
		}
	}
}

// close closes the port.
func (r *relay) close() error {
	r.once.Do(func() { close(r.closed) })
	return r.Listener.Close()
}

// turn is a listener for one server, which the port outlives.
func (r *relay) turn() net.Listener { return &turn{relay: r, ended: make(chan struct{})} }

// last is a listener with which the port ends.
func (r *relay) last() net.Listener { return &turn{relay: r, ended: make(chan struct{}), isLast: true} }

type turn struct {
	*relay
	ended  chan struct{}
	once   sync.Once
	isLast bool
}

func (t *turn) Accept() (net.Conn, error) {
	select {
	case <-t.ended:
		return nil, net.ErrClosed
	case it := <-t.taken:
		return it.conn, it.err
	}
}

func (t *turn) Close() error {
	t.once.Do(func() { close(t.ended) })
	if t.isLast {
		return t.relay.close()
	}
	return nil
}
