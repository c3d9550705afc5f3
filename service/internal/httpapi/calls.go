package httpapi

import (
	"math"
	"net/http"
	"strconv"

	"lrcman/service/book"
	"lrcman/service/internal/replica"
	"lrcman/service/internal/state"
)

// calls are the requests that change books.
type calls struct {
	replica *replica.Replica
	judging chan struct{} // has one for each text that is being judged
}

// mostJudged is how many texts of nodes are judged at once: each takes the memory of a book, and a core.
const mostJudged = 2

func newCalls(r *replica.Replica) *calls { return &calls{r, make(chan struct{}, mostJudged)} }

// A change is an item that a client asks for, and since when it has asked for it; nil: it does not tell.
type change struct {
	item  *state.Item
	since *uint64
}

// changeOf is an item with the key that the parameters of a request give it.
func changeOf(q *request, item *state.Item) (change, error) {
	asked := change{item: item}
	item.Key = q.query.Get("key")
	if text := q.query.Get("since"); text != "" {
		since, err := book.ParseNumber(text, math.MaxUint64)
		if err != nil {
			return asked, bad("the parameter \"since\" %v", err)
		}
		asked.since = &since
	}
	return asked, asked.check("parameter")
}

// check judges the key, which comes as a field or as a parameter.
func (c *change) check(what string) error {
	if !isWord(c.item.Key) {
		return notWord(what, "key")
	} else if c.since != nil && c.item.Key == "" {
		return bad("the %s \"since\" takes a \"key\"", what)
	}
	return nil
}

// answerOf gives a client what an item was answered.
func (c *calls) answerOf(q *request, asked change) (state.Answer, error) {
	item, do := asked.item, c.replica.Do
	if item.Key != "" {
		item.Owner = q.owner()
	}
	if asked.since != nil {
		item.Since, do = *asked.since, c.replica.DoSince
	}
	answer, err := do(q.ctx, item)
	if err != nil {
		return answer, err
	}
	q.setIndex(answer.At.Index)
	if answer.Rejected == 0 {
		return answer, nil
	}
	how := rejections[answer.Rejected]
	if answer.Rejected == state.Moved && q.r.Header.Get("If-Match") != "" {
		how.status = http.StatusPreconditionFailed
	}
	return answer, &failure{Status: how.status, Code: how.code, Words: answer.Words}
}

// setIndex tells up to which entry of the log an answer is: a later request was first asked for behind it.
func (q *request) setIndex(index uint64) {
	q.w.Header().Set("Lrcmand-Index", strconv.FormatUint(index, 10))
}

// judge refuses nodes, and an image, that the library refuses: else they would stand in the log of all members first.
func (c *calls) judge(q *request, nodes, image []byte) error {
	select {
	case c.judging <- struct{}{}:
		defer func() { <-c.judging }()
	case <-q.ctx.Done():
		return replica.ErrLate
	}
	b, err := book.Begin(nodes, image)
	if book.IsOfText(err) {
		return &failure{Status: http.StatusUnprocessableEntity, Words: err.Error()}
	} else if err != nil {
		return err
	}
	b.Close()
	return nil
}

// rejections are told with these statuses and codes.
var rejections = map[state.Rejection]struct {
	status int
	code   string
}{
	state.NoBook:       {http.StatusNotFound, "no_book"},
	state.BookExists:   {http.StatusConflict, "book_exists"},
	state.TooManyBooks: {http.StatusConflict, "too_many_books"},
	state.BadText:      {http.StatusUnprocessableEntity, "bad_text"},
	state.KeyReused:    {http.StatusConflict, "key_reused"},
	state.KeyForgotten: {http.StatusConflict, "key_forgotten"},
	state.Moved:        {http.StatusConflict, "moved"},
	state.OutOfRange:   {http.StatusBadRequest, "out_of_range"},
	state.OtherRules:   {http.StatusServiceUnavailable, "other_rules"},
	state.NotChanged:   {http.StatusConflict, "not_changed"},
	state.Spent:        {http.StatusConflict, "spent"},
	state.Unreadable:   {http.StatusBadRequest, "unreadable"},
}

// A bookResponse is the answer to one who made a book, or began it over other nodes.
type bookResponse struct {
	Made    uint64 `json:"n"`
	Opens   uint64 `json:"opens"`
	IsAgain bool   `json:"again,omitempty"`
}

func (c *calls) create(q *request) error {
	asJSON, err := isJSON(q.r, true)
	if err != nil {
		return err
	}
	most := q.most
	if !asJSON {
		most = mostNodes
	}
	text, err := q.bodyUpTo(most)
	if err != nil {
		return err
	}
	item, err := createOf(text, q.names["book"], asJSON)
	if err != nil {
		return err
	}
	asked, err := changeOf(q, item)
	if err != nil {
		return err
	}
	if err := c.judge(q, item.Nodes, item.Image); err != nil {
		return err
	}
	answer, err := c.answerOf(q, asked)
	if err != nil {
		return err
	}
	return q.say(http.StatusOK, bookResponse{answer.Made, answer.Opens, answer.IsAgain})
}

func (c *calls) reopen(q *request) error {
	if asJSON, err := isJSON(q.r, true); err != nil {
		return err
	} else if asJSON {
		return &failure{Status: http.StatusUnsupportedMediaType, Words: "the body has to be TOML"}
	}
	text, err := q.body()
	if err != nil {
		return err
	}
	at, err := positionOf(q)
	if err != nil {
		return err
	}
	if at, err = q.condition(at); err != nil {
		return err
	}
	asked, err := changeOf(q, &state.Item{Action: state.Reopen, Book: q.names["book"], Nodes: text, At: at})
	if err != nil {
		return err
	}
	if err := c.judge(q, text, nil); err != nil {
		return err
	}
	answer, err := c.answerOf(q, asked)
	if err != nil {
		return err
	}
	return q.say(http.StatusOK, bookResponse{answer.Made, answer.Opens, answer.IsAgain})
}

// remove ends a book that stands where the caller saw it.
func (c *calls) remove(q *request) error {
	if _, err := isJSON(q.r, false); err != nil {
		return err
	}
	text, err := q.body()
	if err != nil {
		return err
	}
	at, err := q.match()
	if err == nil && (at == nil || len(text) > 0) {
		at, err = q.removal(text)
	}
	if err != nil {
		return err
	}
	asked, err := changeOf(q, &state.Item{Action: state.Remove, Book: q.names["book"], At: at})
	if err != nil {
		return err
	}
	answer, err := c.answerOf(q, asked)
	if err != nil {
		return err
	}
	return q.say(http.StatusOK, bookResponse{answer.Made, answer.Opens, answer.IsAgain})
}

// A callResponse is the answer to a call, and an entry of a log.
type callResponse struct {
	Made    uint64 `json:"n,omitempty"`
	Opens   uint64 `json:"opens,omitempty"`
	Session uint8  `json:"session,omitempty"`
	Command string `json:"command,omitempty"`
	book.ReplyJSON
	Holder  string `json:"holder,omitempty"`
	IsAgain bool   `json:"again,omitempty"`
}

func (c *calls) call(q *request) error {
	if _, err := isJSON(q.r, false); err != nil {
		return err
	}
	text, err := q.body()
	if err != nil {
		return err
	}
	asked, err := callOf(text, q.names["book"])
	if err != nil {
		return err
	}
	item := asked.item
	if item.At, err = q.condition(item.At); err != nil {
		return err
	}
	if err := q.require(commandRole(item.Command.Kind)); err != nil {
		return err
	}
	if err := q.requireWorker(item.Worker); err != nil {
		return err
	}
	answer, err := c.answerOf(q, asked)
	if err != nil {
		return err
	}
	reply, err := answer.Reply.JSON()
	if err != nil {
		return err
	}
	return q.say(http.StatusOK, callResponse{Made: answer.Made, Opens: answer.Opens, ReplyJSON: reply, Holder: answer.Holder,
		IsAgain: answer.IsAgain})
}
