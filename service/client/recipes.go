package client

import (
	"context"
	"fmt"
	"net/url"
)

// A Source is a fragment that a recipe reads.
type Source struct {
	Fragment    uint8 `json:"fragment"`
	Coefficient uint8 `json:"coefficient"`
	Home        Seat  `json:"home"`
}

// A Recipe tells how a fragment is rebuilt: the sum of its sources, each times its coefficient.
type Recipe struct {
	Code    string   `json:"code"`
	Missing []uint8  `json:"missing_fragments"` // what it does without
	Sources []Source `json:"rows"`
}

// Recipe tells how a fragment with a live lease is rebuilt; or, with some that are missing too, how any is. Where what is left
// does not determine it, the error is an Error with CodeUndetermined.
func (c *Client) Recipe(ctx context.Context, book string, stripe uint16, fragment uint8, missing []uint8, given ...Option) (
	found Recipe, look Look, err error) {
	values := url.Values{"stripe": {fmt.Sprint(stripe)}, "fragment": {fmt.Sprint(fragment)}}
	for _, it := range missing {
		values.Add("missing", fmt.Sprint(it))
	}
	look, err = c.look(ctx, bookPath(book, "/recipe"), values, given, &found)
	return found, look, err
}

// Matrix is the generator matrix of a code, "wide" or "narrow": a row for each fragment, with a column for each data fragment.
func (c *Client) Matrix(ctx context.Context, code string) ([][]uint8, error) {
	var told struct {
		Rows [][]uint8 `json:"rows"`
	}
	_, err := c.look(ctx, "/matrix", url.Values{"code": {code}}, nil, &told)
	return told.Rows, err
}

// An Outage is nodes, by number and by whole domains.
type Outage struct {
	Nodes    []uint16
	Faults   []uint8
	Upgrades []uint8
}

func (o Outage) values() url.Values {
	values := url.Values{}
	for _, node := range o.Nodes {
		values.Add("node", fmt.Sprint(node))
	}
	for _, domain := range o.Faults {
		values.Add("fault", fmt.Sprint(domain))
	}
	for _, domain := range o.Upgrades {
		values.Add("upgrade", fmt.Sprint(domain))
	}
	return values
}

// An Outlook is what would become of a stripe.
type Outlook struct {
	Stripe       uint16  `json:"stripe"`
	Code         string  `json:"code"`
	LevelBefore  string  `json:"level_before"`
	MarginBefore *int    `json:"margin_before"`
	LevelAfter   string  `json:"level_after"`
	MarginAfter  *int    `json:"margin_after"`
	Missing      []uint8 `json:"missing_fragments_after"`
	LeasesEnded  int     `json:"leases_ended"`
	Harmed       bool    `json:"harmed"`
}

// A Forecast is what would become of the stripes that would not be whole.
type Forecast struct {
	Safe bool      `json:"safe"` // no stripe is harmed
	Rows []Outlook `json:"rows"`
}

// MayStop tells what would become of the stripes if these nodes stopped.
func (c *Client) MayStop(ctx context.Context, book string, outage Outage, given ...Option) (Forecast, Look, error) {
	return c.forecast(ctx, bookPath(book, "/may-stop"), outage, given)
}

// MayLose tells what would become of the stripes if these nodes were lost.
func (c *Client) MayLose(ctx context.Context, book string, outage Outage, given ...Option) (Forecast, Look, error) {
	return c.forecast(ctx, bookPath(book, "/may-lose"), outage, given)
}

func (c *Client) forecast(ctx context.Context, path string, outage Outage, given []Option) (found Forecast, look Look, err error) {
	told := struct {
		Safe *bool     `json:"safe"`
		Rows []Outlook `json:"rows"`
	}{}
	if look, err = c.look(ctx, path, outage.values(), given, &told); err != nil {
		return found, look, err
	}
	if told.Safe == nil {
		return found, look, fmt.Errorf("the answer to %s does not tell whether it is safe", path)
	}
	return Forecast{*told.Safe, told.Rows}, look, nil
}
