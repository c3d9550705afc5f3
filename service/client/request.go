package client

import (
	"bytes"
	"context"
	"encoding/json"
	"errors"
	"fmt"
	"io"
	"net/http"
	"net/http/httptrace"
	"net/url"
	"strconv"
	"strings"
	"time"
)

// The most bytes of an answer of 200, and of another one.
const (
	mostAnswer = 1 << 28
	mostWords  = 1 << 16
)

// A query is one request: what it asks for, and what came of the tries so far.
type query struct {
	method, path string
	values       url.Values
	body         []byte
	bodyType     string
	isChange     bool // to send it may change something
	isStream     bool // its answer takes as long as it likes
	keyed        *keyed
	take         func(*http.Response) error // is given each answer of 200; after an error it is asked again

	maybe     bool // a try may have taken effect, and nobody told
	last      error
	rests     map[string]time.Time // until when servers are left alone
	leader    string               // the server that was told to lead
	forgotten map[string]uint64    // the servers that have forgotten what is asked for, and their first places
}

// A failure is why a try came to nothing.
type failure struct {
	err     error
	told    *Error // err, if it is an answer of a member
	isFinal bool   // another member would say the same
	maybe   bool   // it may have been made
	rest    time.Duration
	first   *uint64
}

var errTimeIsUp = errors.New("time is up")

// send tries one member after the other until one answers, time is up, or the context is over.
func (c *Client) send(ctx context.Context, q *query) error {
	if c.isTimeToFind() {
		go c.find()
	}
	q.rests, q.forgotten = map[string]time.Time{}, map[string]uint64{}
	end := time.Now().Add(c.cfg.Timeout)
	for {
		server, err := c.next(ctx, q, end)
		if err != nil {
			return q.give(err)
		}
		fail := c.try(ctx, server, q, time.Until(end))
		if fail == nil {
			c.prefer(server)
			return nil
		}
		if err := c.judge(ctx, server, q, fail); err != nil {
			return err
		}
	}
}

// judge returns an error if a request is not to be tried again.
func (c *Client) judge(ctx context.Context, server string, q *query, fail *failure) error {
	q.last, q.maybe = fail.err, q.maybe || fail.maybe
	isKeyForgotten := fail.told != nil && fail.told.Status == http.StatusConflict && fail.told.Code == CodeKeyForgotten
	switch {
	case ctx.Err() != nil:
		return q.give(ctx.Err())
	case isKeyForgotten && q.keyed != nil && !q.maybe && !q.keyed.isOld:
		return c.renew(ctx, q.keyed)
	case isKeyForgotten && q.keyed != nil:
		return &KeyForgotten{q.keyed.key, q.keyed.since, fail.err}
	case fail.first != nil:
		return c.passForgotten(server, q, *fail.first)
	case fail.isFinal:
		return q.refuse(fail)
	}
	c.passOver(server)
	rest := c.cfg.Pause + time.Duration(time.Now().UnixNano()%int64(c.cfg.Pause/4+1)) // (so that clients do not keep in step)
	if fail.rest > rest {
		rest = fail.rest
	}
	q.rests[server] = time.Now().Add(rest)
	if fail.told != nil && fail.told.Leader != "" {
		scheme, _, _ := strings.Cut(server, "://")
		q.leader = scheme + "://" + fail.told.Leader
	}
	return nil
}

// passForgotten goes on to members that may have more of a log, unless there are none.
func (c *Client) passForgotten(server string, q *query, first uint64) error {
	q.forgotten[server] = first
	for _, it := range c.order() {
		if _, isForgotten := q.forgotten[it]; !isForgotten {
			return nil
		}
	}
	return q.forgottenByAll()
}

func (q *query) forgottenByAll() error {
	least := ^uint64(0)
	for _, first := range q.forgotten {
		if first < least {
			least = first
		}
	}
	return &Forgotten{least}
}

// refuse is what a caller is told of an answer that another member would give too. Where an earlier try may have been made, or
// may still be, only some answers rule that out.
func (q *query) refuse(fail *failure) error {
	if !q.mayBeMade() || rulesOut(fail.told) {
		return fail.err
	}
	return q.unknown(fail.err)
}

// rulesOut tells whether an answer to a request with a key says that no earlier try of it was made or will be: else the key would
// have been known, and what is refused now is refused later too.
func rulesOut(told *Error) bool {
	return told != nil && (told.Status == http.StatusBadRequest || told.Status == http.StatusRequestEntityTooLarge ||
		told.Code == CodeMoved || told.Code == CodeBadText)
}

func (q *query) mayBeMade() bool { return q.maybe || q.keyed != nil && q.keyed.isOld }

func (q *query) unknown(err error) error {
	if q.keyed == nil {
		return &OutcomeUnknown{Err: err}
	}
	return &OutcomeUnknown{q.keyed.key, q.keyed.since, err}
}

// give is what a caller is told of a request that is given up.
func (q *query) give(why error) error {
	if len(q.forgotten) > 0 && why == errTimeIsUp {
		return q.forgottenByAll()
	}
	switch {
	case q.last == nil:
		q.last = why
	case why != errTimeIsUp && !errors.Is(q.last, why):
		q.last = fmt.Errorf("%w (%v)", why, q.last)
	}
	if q.mayBeMade() {
		return q.unknown(q.last)
	}
	return q.last
}

// next is the server that is asked next. It waits for one that is not to be left alone.
func (c *Client) next(ctx context.Context, q *query, end time.Time) (string, error) {
	for {
		if err := ctx.Err(); err != nil {
			return "", err
		}
		now, soonest := time.Now(), time.Time{}
		servers := c.order()
		if q.leader != "" {
			servers = append([]string{q.leader}, servers...)
		}
		for _, it := range servers {
			if _, isForgotten := q.forgotten[it]; isForgotten {
				continue
			}
			until := q.rests[it]
			if !until.After(now) && now.Before(end) {
				return it, nil
			}
			if soonest.IsZero() || until.Before(soonest) {
				soonest = until
			}
		}
		if !soonest.Before(end) || !now.Before(end) {
			return "", errTimeIsUp
		}
		if err := sleep(ctx, time.Until(soonest)); err != nil {
			return "", err
		}
	}
}

func sleep(ctx context.Context, pause time.Duration) error {
	timer := time.NewTimer(pause)
	defer timer.Stop()
	select {
	case <-ctx.Done():
		return ctx.Err()
	case <-timer.C:
		return nil
	}
}

// try asks one server. It returns nil once the answer of 200 was taken.
func (c *Client) try(ctx context.Context, server string, q *query, left time.Duration) *failure {
	if left < leastAttempt { // (else the last try would often be sent and not be waited for)
		left = leastAttempt
	}
	if left > c.cfg.Attempt {
		left = c.cfg.Attempt
	}
	if !q.isStream {
		var cancel context.CancelFunc
		ctx, cancel = context.WithTimeout(ctx, left)
		defer cancel()
	}
	isSent := false
	ctx = httptrace.WithClientTrace(ctx, &httptrace.ClientTrace{GotConn: func(httptrace.GotConnInfo) { isSent = true }})
	r, err := c.request(ctx, server, q)
	if err != nil {
		return &failure{err: err, isFinal: true}
	}
	answer, err := c.http.Do(r)
	if err != nil {
		var ofURL *url.Error
		if errors.As(err, &ofURL) {
			err = ofURL.Err
		}
		return &failure{err: fmt.Errorf("%s does not answer: %w", server, err), maybe: q.isChange && isSent}
	}
	defer answer.Body.Close()
	if answer.StatusCode != http.StatusOK {
		return c.failureOf(server, q, answer)
	}
	if err := q.take(answer); err != nil {
		return &failure{err: fmt.Errorf("the answer of %s breaks off: %w", server, err), maybe: q.isChange}
	}
	c.hear(answer.Header)
	return nil
}

func (c *Client) request(ctx context.Context, server string, q *query) (*http.Request, error) {
	address := server + q.path
	values, body := q.values, q.body
	if q.keyed != nil {
		values, body = q.keyed.into(values, body)
	}
	if len(values) > 0 {
		address += "?" + values.Encode()
	}
	var reader io.Reader
	if body != nil {
		reader = bytes.NewReader(body)
	}
	r, err := http.NewRequestWithContext(ctx, q.method, address, reader)
	if err != nil {
		return nil, err
	}
	if q.bodyType != "" {
		r.Header.Set("Content-Type", q.bodyType)
	}
	if c.cfg.Token != "" {
		r.Header.Set("Authorization", "Bearer "+c.cfg.Token)
	}
	return r, nil
}

// isPassing are the statuses of a member that say that nothing was made, and that it may be made elsewhere or later.
var isPassing = map[int]bool{http.StatusServiceUnavailable: true, http.StatusTooManyRequests: true, http.StatusRequestTimeout: true,
	http.StatusInsufficientStorage: true}

// failureOf reads an answer other than 200. What is not an object as lrcmand writes it comes from somebody between, who may have
// passed the request on.
func (c *Client) failureOf(server string, q *query, answer *http.Response) *failure {
	var told struct {
		Status int     `json:"status"`
		Words  string  `json:"error"`
		Code   string  `json:"code"`
		Leader string  `json:"leader"`
		Before *uint64 `json:"before"`
	}
	status := answer.StatusCode
	text, err := io.ReadAll(io.LimitReader(answer.Body, mostWords))
	isOwn := err == nil && json.Unmarshal(text, &told) == nil && told.Status == status && told.Words != ""
	if isOwn {
		c.hear(answer.Header)
	}
	fail := &failure{told: &Error{status, told.Code, told.Words, server, told.Leader}}
	fail.err, fail.rest = fail.told, restOf(answer.Header)
	switch {
	case isOwn && isPassing[status]:
	case status >= 500 || isPassing[status]:
		fail.maybe = q.isChange
	case status == http.StatusGone && told.Before != nil:
		fail.first = told.Before
	default:
		fail.isFinal = true
	}
	return fail
}

// restOf is how long a member wants to be left alone.
func restOf(header http.Header) time.Duration {
	seconds, err := strconv.ParseUint(header.Get("Retry-After"), 10, 16)
	if err != nil {
		return 0
	}
	return time.Duration(seconds) * time.Second
}

// ask takes the whole of an answer.
func (c *Client) ask(ctx context.Context, q *query) (*Answer, error) {
	found := &Answer{}
	q.take = func(answer *http.Response) error {
		text, err := io.ReadAll(io.LimitReader(answer.Body, mostAnswer))
		*found = Answer{text, answer.Request.URL.Scheme + "://" + answer.Request.URL.Host, lookOf(answer.Header)}
		return err
	}
	return found, c.send(ctx, q)
}

// askFor reads the object of an answer, too.
func (c *Client) askFor(ctx context.Context, q *query, to interface{}) (*Answer, error) {
	found, err := c.ask(ctx, q)
	if err == nil && to != nil {
		if err = json.Unmarshal(found.Text, to); err != nil {
			err = fmt.Errorf("the answer to %s %s is not what lrcmand answers: %w", q.method, q.path, err)
			if q.isChange { // (it may have been made: who answers is not known)
				err = q.unknown(err)
			}
		}
	}
	return found, err
}
