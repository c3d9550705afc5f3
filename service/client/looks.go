package client

import (
	"context"
	"encoding/json"
	"fmt"
	"net/http"
	"net/url"
	"strconv"
	"time"
)

// A Look says where a book stood when it was looked at, and how new that is.
type Look struct {
	N     uint64        // entries
	Opens uint64        // which opening it is
	Index uint64        // the last entry of the log that the member had applied
	Age   time.Duration // all that was told so long before is in it; negative if the member has not heard of a leader yet
}

// Position is where the book stood.
func (l Look) Position() Position { return Position{l.N, l.Opens} }

func lookOf(header http.Header) Look {
	number := func(name string) uint64 {
		value, _ := strconv.ParseUint(header.Get("Lrcmand-"+name), 10, 64)
		return value
	}
	age, err := strconv.ParseInt(header.Get("Lrcmand-Age-Ms"), 10, 64)
	if err != nil {
		age = -1
	}
	return Look{number("Entries"), number("Opens"), number("Index"), time.Duration(age) * time.Millisecond}
}

// An Answer is the body of a look as it came, and who gave it.
type Answer struct {
	Text   []byte
	Server string
	Look
}

// Get returns what is at a path, as it is.
func (c *Client) Get(ctx context.Context, path string, values url.Values) (*Answer, error) {
	return c.ask(ctx, &query{method: "GET", path: path, values: values})
}

// look reads the object at a path.
func (c *Client) look(ctx context.Context, path string, values url.Values, given []Option, to interface{}) (Look, error) {
	if values == nil {
		values = url.Values{}
	}
	if optionsOf(given).isNow {
		values.Set("now", "1")
	}
	q := &query{method: "GET", path: path, values: values}
	found, err := c.askFor(ctx, q, to)
	return found.Look, err
}

func (c *Client) text(ctx context.Context, path string, given []Option) (string, Look, error) {
	values := url.Values{}
	if optionsOf(given).isNow {
		values.Set("now", "1")
	}
	found, err := c.Get(ctx, path, values)
	return string(found.Text), found.Look, err
}

// Nodes is the text of a book's nodes.
func (c *Client) Nodes(ctx context.Context, book string, given ...Option) (string, Look, error) {
	return c.text(ctx, bookPath(book, "/nodes"), given)
}

// Image is the image of a book.
func (c *Client) Image(ctx context.Context, book string, given ...Option) (string, Look, error) {
	return c.text(ctx, bookPath(book, "/image"), given)
}

// A Book is a row of the list of books.
type Book struct {
	Name  string `json:"name"`
	N     uint64 `json:"n"`
	Opens uint64 `json:"opens"`
}

// Books are the books.
func (c *Client) Books(ctx context.Context, given ...Option) ([]Book, Look, error) {
	var told struct {
		Books []Book `json:"books"`
	}
	look, err := c.look(ctx, "/books", nil, given, &told)
	return told.Books, look, err
}

// A Row is a row of a table: its columns, as JSON has them.
type Row map[string]interface{}

// Table is a table of `show`: status, stripes, nodes, leases, work, fragments, domains-fault, domains-upgrade, health or capacity.
// ShowStatus and so on have some of them in types.
func (c *Client) Table(ctx context.Context, book, view string, given ...Option) ([]Row, Look, error) {
	var told struct {
		Rows []Row `json:"rows"`
	}
	look, err := c.show(ctx, book, view, given, &told)
	return told.Rows, look, err
}

func (c *Client) show(ctx context.Context, book, view string, given []Option, to interface{}) (Look, error) {
	return c.look(ctx, bookPath(book, "/show/"+url.PathEscape(view)), nil, given, to)
}

// A Summary is the table `status` of a book.
type Summary struct {
	Stripes           int  `json:"stripes"`
	Whole             int  `json:"whole"`
	AtRiskMargin2     int  `json:"at_risk_margin_2"`
	AtRiskMargin1     int  `json:"at_risk_margin_1"`
	AtRiskMargin0     int  `json:"at_risk_margin_0"`
	Unavailable       int  `json:"unavailable"`
	Lost              int  `json:"lost"`
	MissingFragments  int  `json:"missing_fragments"`
	HomelessFragments int  `json:"homeless_fragments"`
	Leases            int  `json:"leases"`
	HeldSeats         int  `json:"held_seats"`
	Slots             int  `json:"slots"`
	NodesActive       int  `json:"nodes_active"`
	NodesDraining     int  `json:"nodes_draining"`
	NodesGone         int  `json:"nodes_gone"`
	NodesDown         int  `json:"nodes_down"`
	NodesOnline       int  `json:"nodes_online"`
	Upgrading         *int `json:"upgrading"` // the domain that is; nil: none
	Clock             int  `json:"clock"`
	Entries           int  `json:"entries"`
}

// ShowStatus is the table `status` of a book.
func (c *Client) ShowStatus(ctx context.Context, book string, given ...Option) (found Summary, look Look, err error) {
	rows, look, err := c.Table(ctx, book, "status", given...)
	if err != nil {
		return found, look, err
	}
	values := Row{}
	for _, row := range rows {
		if row["value"] != "none" {
			values[fmt.Sprint(row["name"])] = row["value"]
		}
	}
	text, err := json.Marshal(values)
	if err == nil {
		err = json.Unmarshal(text, &found)
	}
	return found, look, err
}

// A Stripe is a row of the table of stripes.
type Stripe struct {
	Number   uint16
	Code     string // wide or narrow
	Level    string // whole, risk, unavailable or lost
	Margin   *int   // further losses that it survives; nil if it is unavailable or lost
	Missing  []uint8
	Homeless []uint8 // those of the missing fragments that have no home
	Homes    []*Seat // by fragment; nil: none
}

// UnmarshalJSON reads a row of the table.
func (s *Stripe) UnmarshalJSON(text []byte) error {
	var said struct {
		Number   uint16  `json:"stripe"`
		Code     string  `json:"code"`
		Level    string  `json:"level"`
		Margin   *int    `json:"margin"`
		Missing  []uint8 `json:"missing_fragments"`
		Homeless []uint8 `json:"homeless_fragments"`
	}
	var columns map[string]json.RawMessage
	if err := json.Unmarshal(text, &said); err != nil {
		return err
	}
	if err := json.Unmarshal(text, &columns); err != nil {
		return err
	}
	*s = Stripe{Number: said.Number, Code: said.Code, Level: said.Level, Margin: said.Margin, Missing: said.Missing,
		Homeless: said.Homeless}
	for fragment := 0; fragment < fragmentsOf[said.Code]; fragment++ {
		var home *Seat
		if column := columns[fmt.Sprintf("home_%d", fragment)]; column != nil {
			if err := json.Unmarshal(column, &home); err != nil {
				return err
			}
		}
		s.Homes = append(s.Homes, home)
	}
	return nil
}

// fragmentsOf is how many fragments a stripe of a code has.
var fragmentsOf = map[string]int{"wide": 16, "narrow": 10}

// ShowStripes are the stripes of a book.
func (c *Client) ShowStripes(ctx context.Context, book string, given ...Option) ([]Stripe, Look, error) {
	var told struct {
		Rows []Stripe `json:"rows"`
	}
	look, err := c.show(ctx, book, "stripes", given, &told)
	return told.Rows, look, err
}

// ShowStripe is one stripe of a book.
func (c *Client) ShowStripe(ctx context.Context, book string, stripe uint16, given ...Option) (Stripe, Look, error) {
	var told struct {
		Rows []Stripe `json:"rows"`
	}
	found := Stripe{}
	look, err := c.look(ctx, bookPath(book, fmt.Sprintf("/stripes/%d", stripe)), nil, given, &told)
	if err == nil && len(told.Rows) != 1 {
		err = fmt.Errorf("the answer of a stripe has %d rows", len(told.Rows))
	} else if err == nil {
		found = told.Rows[0]
	}
	return found, look, err
}

// A Node is a row of the table of nodes.
type Node struct {
	Number    uint16 `json:"node"`
	Fault     uint8  `json:"fault"`
	Upgrade   uint8  `json:"upgrade"`
	Mode      string `json:"mode"` // active, draining or gone
	Down      bool   `json:"down"`
	Upgrading bool   `json:"upgrading"`
	Online    bool   `json:"online"`
	Homes     int    `json:"homes"`
	Targets   int    `json:"targets"`
	Load      int    `json:"load"`
	Slots     int    `json:"slots"`
}

// ShowNodes are the nodes of a book.
func (c *Client) ShowNodes(ctx context.Context, book string, given ...Option) ([]Node, Look, error) {
	var told struct {
		Rows []Node `json:"rows"`
	}
	look, err := c.show(ctx, book, "nodes", given, &told)
	return told.Rows, look, err
}

// A LeaseRow is a row of the table of live leases.
type LeaseRow struct {
	Stripe   uint16 `json:"stripe"`
	Fragment uint8  `json:"fragment"`
	Holder   int    `json:"holder"` // a session
	Target   Seat   `json:"target"`
	Epoch    uint32 `json:"epoch"`
	Expiry   uint32 `json:"expiry"`
}

// ShowLeases are the live leases of a book.
func (c *Client) ShowLeases(ctx context.Context, book string, given ...Option) ([]LeaseRow, Look, error) {
	var told struct {
		Rows []LeaseRow `json:"rows"`
	}
	look, err := c.show(ctx, book, "leases", given, &told)
	return told.Rows, look, err
}

// A Job is a row of the table of work: a fragment that needs a lease.
type Job struct {
	Stripe   uint16  `json:"stripe"`
	Fragment uint8   `json:"fragment"`
	Repair   string  `json:"kind"` // local, global or move
	Sources  []uint8 `json:"sources"`
	Reads    *int    `json:"reads"`    // how many fragments the repair reads; nil: it can't be rebuilt
	Standing string  `json:"standing"` // leased, open, no_node or unrecoverable
	Holder   *int    `json:"holder"`   // of its lease: a session
	Epoch    *uint32 `json:"epoch"`
}

// ShowWork are the fragments that need a lease, in the order of repair.
func (c *Client) ShowWork(ctx context.Context, book string, given ...Option) ([]Job, Look, error) {
	var told struct {
		Rows []Job `json:"rows"`
	}
	look, err := c.show(ctx, book, "work", given, &told)
	return told.Rows, look, err
}

// A Reason is a row of the table of health: why not all is well. Where all is well there is one row, with "ok".
type Reason struct {
	Reason string `json:"reason"`
	Count  int    `json:"count"`
	First  []int  `json:"first"` // the numbers of the first of it: a stripe, a stripe and a fragment, a domain, or none
}

// ShowHealth are the reasons why not all is well in a book, the gravest first.
func (c *Client) ShowHealth(ctx context.Context, book string, given ...Option) ([]Reason, Look, error) {
	var told struct {
		Rows []Reason `json:"rows"`
	}
	look, err := c.show(ctx, book, "health", given, &told)
	return told.Rows, look, err
}

// A Capacity is a row of the table of capacity: how many more stripes of a code would be placed, and why no more.
type Capacity struct {
	Code      string `json:"code"` // wide or narrow
	Stripes   int    `json:"stripes"`
	Fragment  *uint8 `json:"fragment"`   // that finds no node then; nil, as the next five, where the numbers of stripes run out
	NotActive *int   `json:"not_active"` // nodes that can't take it, each counted by the first reason
	Offline   *int   `json:"offline"`
	Full      *int   `json:"full"`
	Fault     *int   `json:"fault_domain"`
	Upgrade   *int   `json:"upgrade_domain"`
	FreeSlots int    `json:"free_slots"` // that stay free then, on nodes that take fragments
}

// ShowCapacity is how much more fits into a book, for each code by itself.
func (c *Client) ShowCapacity(ctx context.Context, book string, given ...Option) ([]Capacity, Look, error) {
	var told struct {
		Rows []Capacity `json:"rows"`
	}
	look, err := c.show(ctx, book, "capacity", given, &told)
	return told.Rows, look, err
}

// A Worker has a lease that was granted by name.
type Worker struct {
	Stripe   uint16 `json:"stripe"`
	Fragment uint8  `json:"fragment"`
	Epoch    uint32 `json:"epoch"`
	Name     string `json:"worker"`
}

// Workers are the live leases that were granted to workers by name.
func (c *Client) Workers(ctx context.Context, book string, given ...Option) ([]Worker, Look, error) {
	var told struct {
		Rows []Worker `json:"rows"`
	}
	look, err := c.look(ctx, bookPath(book, "/workers"), nil, given, &told)
	return told.Rows, look, err
}

// Peek is the reply that a command would get. The options are WithSession and WithNow.
func (c *Client) Peek(ctx context.Context, book string, command Command, given ...Option) (*Reply, Look, error) {
	values := url.Values{"command": {string(command)}}
	if session := optionsOf(given).session; session != 0 {
		values.Set("session", fmt.Sprint(session))
	}
	reply := &Reply{}
	look, err := c.look(ctx, bookPath(book, "/peek"), values, given, reply)
	return reply, look, err
}
