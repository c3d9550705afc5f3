package client

import (
	"bufio"
	"bytes"
	"context"
	"encoding/json"
	"errors"
	"fmt"
	"io"
	"net/http"
	"net/url"
	"time"
)

// Follow gives each entry of a book behind number from to a function, in order and once each, and goes on with those to come.
// Where a member breaks off, it goes on at another one. It returns the error of the function, that of the context when it is over,
// a Forgotten if no member has those entries any more, an Error if the book is gone, or what went wrong once no member has
// answered for Config.Timeout.
func (c *Client) Follow(ctx context.Context, book string, from uint64, give func(Entry) error) error {
	return c.read(ctx, book, from, url.Values{"follow": {"1"}}, give)
}

// Log is Follow, and returns once it has given the entries that are there.
func (c *Client) Log(ctx context.Context, book string, from uint64, give func(Entry) error) error {
	return c.read(ctx, book, from, url.Values{}, give)
}

// errBrokeOff says that a stream is over which another member may go on with.
var errBrokeOff = errors.New("the log breaks off")

func (c *Client) read(ctx context.Context, book string, from uint64, values url.Values, give func(Entry) error) error {
	s := &stream{client: c, last: from, give: give, isFollowed: values.Get("follow") != ""}
	for {
		values.Set("from", fmt.Sprint(s.last))
		part, cancel := context.WithCancel(ctx)
		q := &query{method: "GET", path: bookPath(book, "/log"), values: values, isStream: true}
		q.take = func(answer *http.Response) error { s.err = s.read(answer, cancel); return nil }
		err := c.send(part, q)
		cancel()
		switch {
		case ctx.Err() != nil:
			return ctx.Err()
		case err != nil:
			return err
		case s.err != errBrokeOff:
			return s.err
		}
		c.passOver(c.order()[0])
		if err := sleep(ctx, c.cfg.Pause); err != nil {
			return err
		}
	}
}

// A stream is a log that is read.
type stream struct {
	client     *Client
	last       uint64 // the number of the last entry that was given
	give       func(Entry) error
	isFollowed bool
	err        error
}

// read gives entries until the answer ends.
func (s *stream) read(answer *http.Response, cancel func()) error {
	lines := bufio.NewReader(answer.Body)
	silent := time.AfterFunc(s.client.cfg.Silence, cancel)
	defer silent.Stop()
	for {
		line, err := lines.ReadBytes('\n')
		silent.Reset(s.client.cfg.Silence)
		if err == io.EOF && len(line) == 0 && !s.isFollowed {
			return nil
		} else if err != nil {
			return errBrokeOff
		}
		if line = bytes.TrimSpace(line); len(line) == 0 {
			continue
		}
		if err := s.take(line, answer); err != nil {
			return err
		}
	}
}

// take gives one entry. The last line of a stream may be an error.
func (s *stream) take(line []byte, answer *http.Response) error {
	var told struct {
		Status int    `json:"status"`
		Words  string `json:"error"`
		Code   string `json:"code"`
	}
	var entry Entry
	err := json.Unmarshal(line, &told)
	if err == nil && told.Status == http.StatusNotFound {
		return &Error{told.Status, told.Code, told.Words, answer.Request.URL.Scheme + "://" + answer.Request.URL.Host, ""}
	} else if err == nil && told.Status != 0 {
		return errBrokeOff
	} else if err == nil {
		err = json.Unmarshal(line, &entry)
	}
	switch {
	case err != nil:
		return fmt.Errorf("a line of the log is not what lrcmand writes: %w", err)
	case entry.N <= s.last:
		return nil
	case entry.N != s.last+1:
		return fmt.Errorf("entry %d of the log comes after entry %d", entry.N, s.last)
	}
	s.last = entry.N
	return s.give(entry)
}
