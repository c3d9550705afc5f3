package main

import (
	"bufio"
	"bytes"
	"fmt"
	"io"
	"net"
	"net/http"
	"strconv"
	"time"
)

// A kind is what the requests of a run are.
type kind int

// The kinds.
const (
	tick  kind = 1 + iota // ticks, in all books in turn
	turns                 // a stripe is placed and dropped in turn
	fill                  // client i fills book i with stripes
	put                   // puts of 100 bytes into etcd
)

var kinds = map[string]kind{"tick": tick, "turns": turns, "fill": fill, "put": put}

// A caller is a client of lrcmand with one connection.
type caller struct {
	kind          kind
	client, books uint64
	run           string
	limit         time.Duration
	address       string
	connection    net.Conn
	reader        *bufio.Reader
	heard         uint64 // the highest index of the log that was told
	step, since   uint64 // of the request that is being made: its since is from before its first try
}

// A refusal is an answer that another try would not change.
type refusal struct {
	status int
	text   []byte
}

func (r *refusal) Error() string { return fmt.Sprintf("status %d: %s", r.status, r.text) }

// call is the book and the command of a request.
func (c *caller) call(step uint64) (book uint64, command string) {
	const stride = 7 // clients that keep in step ask other books
	switch c.kind {
	case turns:
		word := [...]string{"place", "drop"}[step%2]
		return (c.client + step/2*stride) % c.books, fmt.Sprintf("%s %d", word, c.client)
	case fill:
		return c.client % c.books, fmt.Sprintf("place %d", step)
	}
	return (c.client + step*stride) % c.books, "tick"
}

func (c *caller) ask(address string, step uint64) (bool, error) {
	if step != c.step || c.since == 0 {
		c.step, c.since = step, c.heard
	}
	isRefused, err := c.tryAsk(address, step)
	if err != nil {
		c.close()
	}
	return isRefused, err
}

func (c *caller) tryAsk(address string, step uint64) (bool, error) {
	if err := c.connect(address); err != nil {
		return false, err
	}
	if err := c.connection.SetDeadline(time.Now().Add(c.limit)); err != nil {
		return false, err
	}
	if _, err := c.connection.Write(c.request(step)); err != nil {
		return false, err
	}
	answer, err := http.ReadResponse(c.reader, nil)
	if err != nil {
		return false, err
	}
	defer answer.Body.Close()
	text, err := io.ReadAll(answer.Body)
	switch status := answer.StatusCode; {
	case err != nil:
	case status >= 400 && status < 500 && status != http.StatusTooManyRequests:
		err = &refusal{status, text}
	case status != http.StatusOK:
		err = fmt.Errorf("status %d: %s", status, text)
	}
	if index, wrong := strconv.ParseUint(answer.Header.Get("Lrcmand-Index"), 10, 64); err == nil && wrong == nil && index > c.heard {
		c.heard = index
	}
	return bytes.Contains(text, []byte(`"kind":"refused"`)), err
}

func (c *caller) connect(address string) (err error) {
	if c.connection != nil && c.address == address {
		return nil
	}
	c.close()
	if c.connection, err = net.DialTimeout("tcp", address, c.limit); err != nil {
		c.connection = nil
		return err
	}
	c.address, c.reader = address, bufio.NewReader(c.connection)
	return nil
}

// request is a whole request. (Package http would take as much time for it as the server)
func (c *caller) request(step uint64) []byte {
	book, command := c.call(step)
	body := fmt.Sprintf(`{"command":"%s","key":"%s-%d-%d","since":%d}`, command, c.run, c.client, step, c.since)
	head := fmt.Sprintf("POST /books/p%d/call HTTP/1.1\r\nHost: %s\r\n", book, c.address)
	fields := fmt.Sprintf("Content-Type: application/json\r\nContent-Length: %d\r\n\r\n", len(body))
	return []byte(head + fields + body)
}

func (c *caller) close() {
	if c.connection != nil {
		c.connection.Close()
	}
	c.connection = nil
}
