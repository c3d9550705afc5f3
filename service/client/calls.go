package client

import (
	"context"
	"encoding/json"
	"fmt"
	"net/url"
)

// A Position is where a book stands: the number of its entries, and in which opening. A look tells both.
type Position struct{ N, Opens uint64 }

// An Option changes a request. One that a request has no use for is passed over.
type Option func(*options)

type options struct {
	key      string
	since    uint64
	session  int
	worker   string
	at       *Position
	isNow    bool
	isStale  bool
	isForced bool
}

// WithKey gives a request a key of the caller's own. If it was sent before, since is that of its first try, as an OutcomeUnknown
// has it, or as Index told before; 0 says that this is its first try.
func WithKey(key string, since uint64) Option {
	return func(o *options) { o.key, o.since = key, since }
}

// WithSession calls as a session, 1 to 8; without it it is 1.
func WithSession(session int) Option { return func(o *options) { o.session = session } }

// WithWorker calls as a worker of this name.
func WithWorker(name string) Option { return func(o *options) { o.worker = name } }

// WithPosition makes a request only if the book stands there; else it is an Error with CodeMoved.
func WithPosition(at Position) Option { return func(o *options) { o.at = &at } }

// WithNow makes a look that has all that was told before it was asked for.
func WithNow() Option { return func(o *options) { o.isNow = true } }

// WithForce changes members also where too few of those after the change are heard of.
func WithForce() Option { return func(o *options) { o.isForced = true } }

// WithStale makes a backup of what the member that answers has.
func WithStale() Option { return func(o *options) { o.isStale = true } }

func optionsOf(given []Option) *options {
	o := &options{}
	for _, option := range given {
		option(o)
	}
	return o
}

// bookPath is a path below a book.
func bookPath(book, rest string) string { return "/books/" + url.PathEscape(book) + rest }

const ofJSON = "application/json"

// Call makes a command. The options are WithKey, WithSession, WithWorker and WithPosition.
func (c *Client) Call(ctx context.Context, book string, command Command, given ...Option) (*Reply, error) {
	o := optionsOf(given)
	fields := map[string]interface{}{"command": command}
	if o.session != 0 {
		fields["session"] = o.session
	}
	if o.worker != "" {
		fields["worker"] = o.worker
	}
	if o.at != nil {
		fields["at"], fields["opens"] = o.at.N, o.at.Opens
	}
	body, err := json.Marshal(fields)
	if err != nil {
		return nil, err
	}
	reply := &Reply{}
	q := &query{method: "POST", path: bookPath(book, "/call"), body: body, bodyType: ofJSON}
	if err := c.change(ctx, q, o, true, reply); err != nil {
		return nil, err
	}
	return reply, nil
}

// change makes a request that has a key.
func (c *Client) change(ctx context.Context, q *query, o *options, inBody bool, to interface{}) (err error) {
	q.isChange = true
	if q.keyed, err = c.key(ctx, o, inBody); err != nil {
		return q.beforeSent(o, err)
	}
	_, err = c.askFor(ctx, q, to)
	return err
}

// beforeSent is an error of a request that was not sent now. One that was sent before is unknown still.
func (q *query) beforeSent(o *options, err error) error {
	if o.since == 0 {
		return err
	}
	return &OutcomeUnknown{o.key, o.since, err}
}

// An Opening is what was told of a book that was made, or begun over other nodes.
type Opening struct {
	N     uint64 `json:"n"` // its entries
	Opens uint64 `json:"opens"`
	Again bool   `json:"again"` // it was so before
}

// Position is where the book stands.
func (o Opening) Position() Position { return Position{o.N, o.Opens} }

const ofTOML = "application/toml"

// CreateBook makes a book over nodes, in TOML.
func (c *Client) CreateBook(ctx context.Context, book, nodes string, given ...Option) (opening Opening, err error) {
	q := &query{method: "PUT", path: bookPath(book, ""), body: []byte(nodes), bodyType: ofTOML}
	return opening, c.change(ctx, q, optionsOf(given), false, &opening)
}

// CreateBookIn makes a book over nodes that begins in an image.
func (c *Client) CreateBookIn(ctx context.Context, book, nodes, image string, given ...Option) (opening Opening, err error) {
	body, err := json.Marshal(map[string]string{"nodes": nodes, "image": image})
	if err != nil {
		return opening, err
	}
	q := &query{method: "PUT", path: bookPath(book, ""), body: body, bodyType: ofJSON}
	return opening, c.change(ctx, q, optionsOf(given), false, &opening)
}

// ReopenBook has a book go on over other nodes. With WithPosition it does so only if the book stands there.
func (c *Client) ReopenBook(ctx context.Context, book, nodes string, given ...Option) (opening Opening, err error) {
	o := optionsOf(given)
	q := &query{method: "PUT", path: bookPath(book, "/nodes"), body: []byte(nodes), bodyType: ofTOML, values: url.Values{}}
	if o.at != nil {
		q.values.Set("at", fmt.Sprint(o.at.N))
		q.values.Set("opens", fmt.Sprint(o.at.Opens))
	}
	return opening, c.change(ctx, q, o, false, &opening)
}

// RemoveBook removes a book that stands there.
func (c *Client) RemoveBook(ctx context.Context, book string, at Position, given ...Option) error {
	body, err := json.Marshal(map[string]uint64{"at": at.N, "opens": at.Opens})
	if err != nil {
		return err
	}
	q := &query{method: "DELETE", path: bookPath(book, ""), body: body, bodyType: ofJSON}
	return c.change(ctx, q, optionsOf(given), false, nil)
}
