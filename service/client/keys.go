package client

import (
	"context"
	"crypto/rand"
	"encoding/hex"
	"encoding/json"
	"net/http"
	"net/url"
	"strconv"
	"time"
)

// freshTime is how long an index that was heard serves as the since of new requests. An older one is right too, but a busy book
// may have forgotten keys behind it by now.
const freshTime = 2 * time.Second

// keyed is the key of a request and its since: what makes it once, however often it is sent.
type keyed struct {
	key   string
	since uint64
	isOld bool // it may have been sent before this call
	// inBody says that both are fields of the body; else they are parameters.
	inBody bool
}

// NewKey is a random key.
func NewKey() (string, error) {
	random := make([]byte, 16)
	if _, err := rand.Read(random); err != nil {
		return "", err
	}
	return hex.EncodeToString(random), nil
}

// key makes the key of a new request, or takes the one that its caller gave.
func (c *Client) key(ctx context.Context, o *options, inBody bool) (*keyed, error) {
	k := &keyed{key: o.key, since: o.since, isOld: o.since > 0, inBody: inBody}
	var err error
	if k.key == "" {
		if k.key, err = NewKey(); err != nil {
			return nil, err
		}
	}
	if k.since == 0 {
		k.since, err = c.Index(ctx)
	}
	return k, err
}

// Index is an index of the log that the group has reached: the since of a request that is made from now on. It is the highest
// that was heard lately, or what a member tells.
func (c *Client) Index(ctx context.Context) (uint64, error) {
	c.mu.Lock()
	heard, at := c.heard, c.heardAt
	c.mu.Unlock()
	if heard > 0 && time.Since(at) < freshTime {
		return heard, nil
	}
	if _, err := c.Status(ctx); err != nil {
		return 0, err
	}
	c.mu.Lock()
	defer c.mu.Unlock()
	if c.heard == 0 { // (a member that has applied nothing yet; no request is proposed before index 1)
		return 1, nil
	}
	return c.heard, nil
}

// hear notes the index of an answer.
func (c *Client) hear(header http.Header) {
	if index, err := strconv.ParseUint(header.Get("Lrcmand-Index"), 10, 64); err == nil {
		c.hearIndex(index)
	}
}

func (c *Client) hearIndex(index uint64) {
	c.mu.Lock()
	defer c.mu.Unlock()
	if index >= c.heard {
		c.heard, c.heardAt = index, time.Now()
	}
}

// renew gives a request another since. Nothing was made of it so far.
func (c *Client) renew(ctx context.Context, k *keyed) error {
	c.mu.Lock()
	heard := c.heard
	c.mu.Unlock()
	if heard <= k.since {
		if _, err := c.Status(ctx); err != nil {
			return err
		}
		c.mu.Lock()
		heard = c.heard
		c.mu.Unlock()
	}
	if heard > k.since {
		k.since = heard
		return nil
	}
	return sleep(ctx, c.cfg.Pause) // (the member that is asked is behind)
}

// into puts key and since into the parameters or the body of a request.
func (k *keyed) into(values url.Values, body []byte) (url.Values, []byte) {
	if k.inBody {
		key, _ := json.Marshal(k.key) // (a text has no fault)
		end := ",\"key\":" + string(key) + ",\"since\":" + strconv.FormatUint(k.since, 10) + "}"
		return values, append(append([]byte(nil), body[:len(body)-1]...), end...)
	}
	with := url.Values{"key": {k.key}, "since": {strconv.FormatUint(k.since, 10)}}
	for name, value := range values {
		with[name] = value
	}
	return with, body
}
