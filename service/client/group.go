package client

import (
	"context"
	"encoding/json"
	"fmt"
	"io"
	"net/http"
	"net/url"
	"strings"
)

// A Member is one of the group.
type Member struct {
	ID      uint64 `json:"id"`
	Peer    string `json:"peer"`    // HOST:PORT for members
	Client  string `json:"client"`  // HOST:PORT for clients
	Learner bool   `json:"learner"` // it neither votes nor leads
	Promote bool   `json:"promote"` // it votes once it has what the leader has
	Leader  bool   `json:"leader"`
}

// A Status is how one member sees the group.
type Status struct {
	ID       uint64   `json:"id"`
	Leader   uint64   `json:"leader"` // 0: none
	Term     uint64   `json:"term"`
	Commit   uint64   `json:"commit"`
	Applied  uint64   `json:"applied"`
	Snapshot uint64   `json:"snapshot"`
	Age      int64    `json:"age_ms"`
	Rules    uint32   `json:"rules"`
	Members  []Member `json:"members"`
	Server   string   `json:"-"` // who answers
	Raw      []byte   `json:"-"` // the object as it came
}

// Status is how the member that answers sees the group.
func (c *Client) Status(ctx context.Context) (*Status, error) {
	found := &Status{}
	answer, err := c.askFor(ctx, &query{method: "GET", path: "/status"}, found)
	if err != nil {
		return nil, err
	}
	found.Server, found.Raw = answer.Server, answer.Text
	c.hearIndex(found.Applied)
	return found, nil
}

type memberList struct {
	Members []Member `json:"members"`
}

// Members are the members of the group, of which one leads.
func (c *Client) Members(ctx context.Context) ([]Member, error) {
	var list memberList
	_, err := c.askFor(ctx, &query{method: "GET", path: "/members"}, &list)
	return list.Members, err
}

// Sync looks for members, as FindMembers does now and then: those that GET /members names are asked too from now on, the leader
// first.
func (c *Client) Sync(ctx context.Context) error {
	var list memberList
	answer, err := c.askFor(ctx, &query{method: "GET", path: "/members"}, &list)
	if err != nil {
		return err
	}
	scheme, _, _ := strings.Cut(answer.Server, "://")
	var found []string
	leader := ""
	for _, member := range list.Members {
		server := scheme + "://" + member.Client
		if found = append(found, server); member.Leader {
			leader = server
		}
	}
	c.replaceFound(found)
	c.prefer(leader)
	return nil
}

// find is Sync, whose failure changes nothing.
func (c *Client) find() {
	ctx, cancel := context.WithTimeout(context.Background(), c.cfg.Attempt)
	defer cancel()
	_ = c.Sync(ctx)
}

// AddMember adds a member, or makes one vote that only learned. To do so again changes nothing.
func (c *Client) AddMember(ctx context.Context, member Member, given ...Option) ([]Member, error) {
	fields := map[string]interface{}{"peer": member.Peer, "client": member.Client}
	if member.Learner {
		fields["learner"] = true
	}
	body, err := json.Marshal(fields)
	if err != nil {
		return nil, err
	}
	return c.changeMembers(ctx, "PUT", fmt.Sprintf("/members/%d", member.ID), body, given)
}

// RemoveMember removes a member. To do so again changes nothing.
func (c *Client) RemoveMember(ctx context.Context, id uint64, given ...Option) ([]Member, error) {
	return c.changeMembers(ctx, "DELETE", fmt.Sprintf("/members/%d", id), nil, given)
}

// Lead makes a member the leader, and returns once it leads.
func (c *Client) Lead(ctx context.Context, id uint64) ([]Member, error) {
	return c.changeMembers(ctx, "POST", fmt.Sprintf("/leader/%d", id), nil, nil)
}

func (c *Client) changeMembers(ctx context.Context, method, path string, body []byte, given []Option) ([]Member, error) {
	var list memberList
	q := &query{method: method, path: path, body: body, bodyType: ofJSON, isChange: true}
	if optionsOf(given).isForced {
		q.values = url.Values{"force": {"1"}}
	}
	_, err := c.askFor(ctx, q, &list)
	return list.Members, err
}

// Snapshot has the member that answers write a snapshot.
func (c *Client) Snapshot(ctx context.Context) error {
	_, err := c.ask(ctx, &query{method: "POST", path: "/snapshot", bodyType: ofJSON, isChange: true})
	return err
}

// Rules are those of the member that answers, and of the group.
type Rules struct {
	Program uint32 `json:"program"`
	Group   uint32 `json:"group"`
	Next    uint32 `json:"next"` // to which others the group goes; 0: none
	Saved   bool   `json:"saved"`
}

// Rules are those of the member that answers, and of the group.
func (c *Client) Rules(ctx context.Context) (found Rules, err error) {
	_, err = c.askFor(ctx, &query{method: "GET", path: "/rules"}, &found)
	return found, err
}

// ChangeRules makes the group go to other rules, and to another form of entries unless form is 0.
func (c *Client) ChangeRules(ctx context.Context, rules, form uint32, given ...Option) (found Rules, err error) {
	fields := map[string]uint32{"rules": rules}
	if form != 0 {
		fields["form"] = form
	}
	body, err := json.Marshal(fields)
	if err != nil {
		return found, err
	}
	q := &query{method: "PUT", path: "/rules", body: body, bodyType: ofJSON, values: url.Values{}}
	return found, c.change(ctx, q, optionsOf(given), false, &found)
}

// Health is nil if the member that is asked first has a leader and keeps up with it. No other member is asked.
func (c *Client) Health(ctx context.Context) error {
	q := &query{method: "GET", path: "/health", take: func(*http.Response) error { return nil }}
	if fail := c.try(ctx, c.order()[0], q, c.cfg.Attempt); fail != nil {
		return fail.err
	}
	return nil
}

// Backup is all that the group has at one place of its log, to be kept in a file for `lrcmand restore`. All that was told before
// is in it; with WithStale it is what the member that answers has, which may have lost its majority. A reader that ends with an
// error has given a part of it alone. It has to be closed.
func (c *Client) Backup(ctx context.Context, given ...Option) (io.ReadCloser, error) {
	values := url.Values{}
	if optionsOf(given).isStale {
		values.Set("now", "0")
	}
	ctx, cancel := context.WithCancel(ctx)
	from, to := io.Pipe()
	begun := make(chan error, 1)
	go func() {
		q := &query{method: "GET", path: "/backup", values: values, isStream: true}
		q.take = func(answer *http.Response) error {
			begun <- nil
			_, err := io.Copy(to, answer.Body)
			to.CloseWithError(err)
			return nil
		}
		if err := c.send(ctx, q); err != nil {
			begun <- err
		}
	}()
	if err := <-begun; err != nil {
		cancel()
		return nil, err
	}
	return &backup{from, cancel}, nil
}

type backup struct {
	*io.PipeReader
	cancel func()
}

// Close ends the request.
func (b *backup) Close() error {
	b.cancel()
	return b.PipeReader.Close()
}
