package httpapi

import (
	"net/http"

	"lrcman/service/internal/engine"
	"lrcman/service/internal/state"
)

// A rulesBody is the body that makes the group go to other rules, or to another form of entries. What it lacks stays as it is.
type rulesBody struct {
	Rules *uint32 `json:"rules"`
	Form  *uint32 `json:"form"`
}

// rulesOf is the item that such a body asks for.
func rulesOf(text []byte) (*state.Item, error) {
	var body rulesBody
	if err := decode(text, &body); err != nil {
		return nil, err
	}
	item := &state.Item{Action: state.ChangeRules}
	for _, it := range []struct {
		field string
		from  *uint32
		to    *uint32
	}{{"rules", body.Rules, &item.Rules}, {"form", body.Form, &item.Form}} {
		if it.from == nil {
			continue
		} else if *it.from == 0 {
			return nil, bad("the field %q has to be the version to which the group is to go, 1 or more", it.field)
		}
		*it.to = *it.from
	}
	if item.Rules == 0 && item.Form == 0 {
		return nil, bad("the field \"rules\" or \"form\" has to be the version to which the group is to go, 1 or more")
	}
	return item, nil
}

// rules are the requests about the rules of the group.
type rules struct {
	calls  *calls
	state  *state.State
	engine engine.Engine
}

// show tells by which rules the group goes on, and whether a program with the next ones may begin in this member's folder.
func (u *rules) show(q *request) error {
	change := u.state.Change()
	isSaved := change.Next != 0 && u.engine.Status().Snapshot >= change.Asked
	return q.say(http.StatusOK, struct {
		Program  uint32 `json:"program"`
		Group    uint32 `json:"group"`
		Form     uint32 `json:"form"`
		Next     uint32 `json:"next,omitempty"`
		NextForm uint32 `json:"next_form,omitempty"`
		IsSaved  bool   `json:"saved"`
	}{u.state.Rules(), change.Rules, change.Form, change.Next, change.NextForm, isSaved})
}

func (u *rules) change(q *request) error {
	if _, err := isJSON(q.r, false); err != nil {
		return err
	}
	text, err := q.body()
	if err != nil {
		return err
	}
	item, err := rulesOf(text)
	if err != nil {
		return err
	}
	asked, err := changeOf(q, item)
	if err != nil {
		return err
	}
	if _, err := u.calls.answerOf(q, asked); err != nil {
		return err
	}
	u.calls.replica.SaveChange(q.ctx)
	return u.show(q)
}
