package httpapi

import (
	"context"
	"encoding/json"
	"fmt"
	"net/http"
	"strconv"
	"strings"
	"sync/atomic"
	"testing"
	"time"

	"lrcman/service/internal/engine"
	"lrcman/service/internal/state"
	"lrcman/service/internal/testengine"
)

// wrong makes the next proposals go wrong, and counts all.
func (s *service) wrong(times int, isMade bool, err error) (asked *int32) {
	asked = new(int32)
	s.engine.Change(func(e *testengine.Local) {
		e.Wrong = func([]byte) (bool, error) {
			if atomic.AddInt32(asked, 1) <= int32(times) {
				return isMade, err
			}
			return true, nil
		}
	})
	return asked
}

// changes are requests that change something, each with room for parameters. At the beginning the book p0 is there.
var changes = []struct{ method, path, body, again string }{
	{"PUT", "/books/p1?", nodes(4), `{"n":0,"opens":3072,"again":true}`},
	{"PUT", "/books/p0/nodes?", nodes(5), `{"n":0,"opens":3072,"again":true}`},
	{"DELETE", "/books/p0?", `{"at":0,"opens":1024}`, `{"n":0,"opens":1024,"again":true}`},
}

// Each request that changes books may have a key: then it is made once however often it comes, also after the word of it is lost.
func TestEachChangeMayHaveAKey(t *testing.T) {
	for _, it := range changes {
		s := newService(t, nil)
		s.call("tick")
		if strings.Contains(it.body, `"at":0`) {
			it.body, it.again = strings.Replace(it.body, `"at":0`, `"at":1`, 1), strings.Replace(it.again, `"n":0`, `"n":1`, 1)
		} else if strings.HasSuffix(it.path, "/nodes?") {
			it.again = strings.Replace(it.again, `"n":0`, `"n":1`, 1)
		}
		asked := s.wrong(1, true, engine.ErrOutcomeUnknown)
		s.expect(it.method, it.path+"key=k&since=2", it.body, 200, it.again)
		if count := atomic.LoadInt32(asked); count != 2 {
			t.Errorf("%s %s: proposed %d times", it.method, it.path, count)
		}
		answer := s.expect(it.method, it.path+"key=k&since=2", it.body, 200, it.again)
		if index := answer.Header.Get("Lrcmand-Index"); index != "5" {
			t.Errorf("%s %s: index %q", it.method, it.path, index)
		}
		if it.method == "PUT" {
			s.refused(it.method, it.path+"key=k", nodes(3), 409, "the key was used for another request")
		}
		asked = s.wrong(1, false, engine.ErrOutcomeUnknown)
		_, fail := s.failed(it.method, it.path, it.body)
		if fail.Status != 504 || !fail.Maybe || fail.Since != nil || atomic.LoadInt32(asked) != 1 {
			t.Errorf("%s %s without a key: %+v, proposed %d times", it.method, it.path, fail, atomic.LoadInt32(asked))
		}
	}
}

// 504 tells since when the request was asked for, and with that it can be asked again.
func TestNobodyKnowsIsToldWithSince(t *testing.T) {
	s := newService(t, func(with *setup) { with.Timeout = 200 * time.Millisecond })
	s.call("tick")
	s.wrong(1<<30, false, engine.ErrOutcomeUnknown)
	_, text := s.ask("POST", "/books/p0/call", `{"command":"tick","key":"a"}`)
	if text != `{"status":504,"code":"outcome_unknown","error":"the outcome is unknown","maybe":true,"since":2}`+"\n" {
		t.Error(text)
	}
	_, fail := s.failed("POST", "/books/p0/call", `{"command":"tick","key":"b","since":1}`)
	if fail.Since == nil || *fail.Since != 1 {
		t.Errorf("%+v", fail)
	}
	s.wrong(0, true, nil)
	answer := s.expect("POST", "/books/p0/call", `{"command":"tick","key":"a","since":2}`, 200,
		`{"n":2,"opens":1024,"reply":"ticked 2 0","kind":"ticked","clock":2,"ended":0}`)
	if index := answer.Header.Get("Lrcmand-Index"); index != "3" {
		t.Errorf("index %q", index)
	}
}

// fillKeys makes so many keyed calls that all of before are forgotten.
func (s *service) fillKeys() {
	s.t.Helper()
	next := make(chan int)
	go func() {
		for i := 0; i <= state.MostKeys; i++ {
			next <- i
		}
		close(next)
	}()
	done := make(chan bool)
	for c := 0; c < 32; c++ {
		go func() {
			for i := range next {
				body := fmt.Sprintf(`{"command":"tick","key":"fill%d"}`, i)
				answer, text := s.ask("POST", "/books/p0/call", body)
				// (on a busy machine some are not proposed in time, so they are not made)
				for answer.StatusCode == 503 && strings.Contains(text, `"code":"busy"`) {
					answer, text = s.ask("POST", "/books/p0/call", body)
				}
				if answer.StatusCode != 200 {
					s.t.Error(text)
				}
			}
			done <- true
		}()
	}
	for c := 0; c < 32; c++ {
		<-done
	}
}

// A request whose key may be forgotten is refused by name. One whose client tells no since is asked for now.
func TestAKeyThatMayBeForgottenIsRefused(t *testing.T) {
	s := newService(t, nil)
	first := s.expect("POST", "/books/p0/call", `{"command":"tick","key":"first","since":1}`, 200,
		`{"n":1,"opens":1024,"reply":"ticked 1 0","kind":"ticked","clock":1,"ended":0}`)
	s.fillKeys()
	answer, fail := s.failed("POST", "/books/p0/call", `{"command":"tick","key":"first","since":1}`)
	if fail.Status != 409 || fail.Code != "key_forgotten" || !strings.HasPrefix(fail.Words, "the key may be forgotten") || fail.Maybe {
		t.Errorf("%+v", fail)
	}
	before, _ := strconv.Atoi(first.Header.Get("Lrcmand-Index"))
	if after, err := strconv.Atoi(answer.Header.Get("Lrcmand-Index")); err != nil || after <= before {
		t.Errorf("index %d after %d", after, before)
	}
	_, text := s.ask("GET", "/books/p0", "")
	if !strings.Contains(text, fmt.Sprintf(`"n":%d,`, state.MostKeys+2)) {
		t.Errorf("it was made: %.200s", text)
	}
	s.refused("POST", "/books/p0/call", `{"command":"place 1","key":"new","at":0,"opens":1024}`, 409, "the book stands at")
	if answer, text := s.ask("POST", "/books/p0/call", `{"command":"place 1","key":"new"}`); answer.StatusCode != 200 {
		t.Error(text)
	}
}

// What the service refuses is not kept under a key: the same request may be made later.
func TestARefusalIsNotKept(t *testing.T) {
	s := newService(t, nil)
	tick := `{"command":"tick","key":"k"}`
	s.refused("POST", "/books/p1/call", tick, 404, "there is no book p1")
	s.expect("PUT", "/books/p1", nodes(4), 200, `{"n":0,"opens":3072}`)
	s.expect("POST", "/books/p1/call", tick, 200, `{"n":1,"opens":3072,"reply":"ticked 1 0","kind":"ticked","clock":1,"ended":0}`)
	later := `{"command":"tick","key":"l","at":1,"opens":1024}`
	s.refused("POST", "/books/p0/call", later, 409, "the book stands at 0")
	s.call("tick")
	s.expect("POST", "/books/p0/call", later, 200, `{"n":2,"opens":1024,"reply":"ticked 2 0","kind":"ticked","clock":2,"ended":0}`)
}

func TestKeysAreRefusedByName(t *testing.T) {
	s := newService(t, nil)
	long := strings.Repeat("x", 65)
	for _, it := range changes {
		s.refused(it.method, it.path+"since=1", it.body, 400, `the parameter "since" takes a "key"`)
		s.refused(it.method, it.path+"key=k&since=x", it.body, 400, `the parameter "since" is not a number`)
		s.refused(it.method, it.path+"key="+long, it.body, 400, `the parameter "key" has to be at most 64 printable letters`)
		s.refused(it.method, it.path+"key=a%20b", it.body, 400, `the parameter "key"`)
		s.refused(it.method, it.path+"key=k&since=1000000", it.body, 400, "nothing was proposed since entry 1000000")
	}
	s.refused("PUT", "/rules?since=1", `{"rules":2}`, 400, `the parameter "since" takes a "key"`)
	s.refused("PUT", "/rules", `{}`, 400, `the field "rules" or "form"`)
	s.refused("PUT", "/rules", `{"rules":2,"form":0}`, 400, `the field "form"`)
	s.refused("POST", "/books/p0/call", `{"command":"tick","since":1}`, 400, `the field "since" takes a "key"`)
	s.refused("POST", "/books/p0/call", `{"command":"tick","key":"k","since":-1}`, 400, `the field "since" has to be a whole number`)
	s.refused("PUT", "/books/p0/nodes?at=0", nodes(5), 400, `the parameters "at" and "opens" come together`)
	s.refused("PUT", "/books/p0/nodes?at=0&opens=x", nodes(5), 400, `the parameter "opens" is not a number`)
}

// Of two faults in one body always the same is named.
func TestTheFirstOfTwoFaultsIsNamed(t *testing.T) {
	s := newService(t, nil)
	for i := 0; i < 20; i++ {
		s.refused("POST", "/books/p0/call", `{"command":"tick","worker":"a b","key":"a b"}`, 400, `the field "key"`)
		s.refused("PUT", "/members/2", `{"client":"x","peer":"y"}`, 400, `the field "peer"`)
		s.refused("GET", "/books/p0/may-stop?upgrade=x&fault=x&node=x", "", 400, `the parameter "node"`)
	}
}

// A book goes on over other nodes only where it stands as its caller saw it, if that one says so.
func TestNodesAreChangedWhereTheBookStands(t *testing.T) {
	s := newService(t, nil)
	s.call("tick")
	s.refused("PUT", "/books/p0/nodes?at=0&opens=1024", nodes(5), 409, "the book stands at 1")
	s.expect("PUT", "/books/p0/nodes?at=1&opens=1024", nodes(5), 200, `{"n":1,"opens":4096}`)
	s.refused("PUT", "/books/p0/nodes?at=1&opens=1024", nodes(6), 409, "its opening is 4096")
}

// A text that the library refuses is no entry: it would cost all members as much as a book.
func TestATextIsJudgedBeforeItIsProposed(t *testing.T) {
	s := newService(t, nil)
	asked := s.wrong(0, true, nil)
	body, err := json.Marshal(map[string]string{"nodes": nodes(4), "image": "no image"})
	if err != nil {
		t.Fatal(err)
	}
	s.refused("PUT", "/books/p1", nodes(0), 422, "out of its range: topology 4 0")
	s.refused("PUT", "/books/p1", string(body), 422, "image")
	s.refused("PUT", "/books/p0/nodes", "node = 3", 422, "topology 2")
	if count := atomic.LoadInt32(asked); count != 0 {
		t.Errorf("%d proposals", count)
	}
}

func TestTwoTextsAreJudgedAtOnce(t *testing.T) {
	s := newService(t, func(with *setup) { with.Timeout = 300 * time.Millisecond })
	c := newCalls(nil)
	for i := 0; i < mostJudged; i++ {
		c.judging <- struct{}{}
	}
	late := &calls{s.api.cfg.Replica, c.judging}
	route := Route{"PUT", "/judged/{book}", Operate, mostImage, "key since", Timed, late.create}
	s.api.routes = append(s.api.routes, route)
	if _, fail := s.failed("PUT", "/judged/p1", nodes(4)); fail.Status != 503 || fail.Code != "busy" {
		t.Errorf("%+v", fail)
	}
	<-c.judging
	s.expect("PUT", "/judged/p1", nodes(4), 200, `{"n":0,"opens":2048}`)
	if len(c.judging) != mostJudged-1 {
		t.Errorf("%d are judged", len(c.judging))
	}
}

// Each look as of now asks first: without an answer there is no look.
func TestEachLookAsOfNowAsksFirst(t *testing.T) {
	s := newService(t, nil)
	s.call("place 1")
	s.engine.Change(func(e *testengine.Local) { e.Silent = engine.ErrNoLeader })
	for _, route := range s.api.Routes() {
		if !strings.Contains(" "+route.Query+" ", " now ") {
			continue
		}
		path := strings.NewReplacer("{book}", "p0", "{stripe}", "1", "{view}", "status").Replace(route.Pattern)
		query := map[string]string{"peek": "&command=tick", "recipe": "&stripe=1&fragment=0&missing=0", "may-stop": "&node=1",
			"may-lose": "&node=1"}
		more := query[path[strings.LastIndex(path, "/")+1:]]
		if path != "/backup" { // (which the engine of this test breaks off while it is silent)
			if answer, text := s.ask(route.Method, path+"?now=0"+more, ""); answer.StatusCode != http.StatusOK {
				t.Errorf("%s: %s", path, text)
			}
		}
		s.refused(route.Method, path+"?now=1"+more, "", 503, "there is no leader")
	}
}

// A member whose book is not that of the others shows it to nobody, and is not ready.
func TestABookThatDiffersIsShownToNobody(t *testing.T) {
	s := newService(t, nil)
	propose := func(items ...*state.Item) {
		if _, err := s.engine.Propose(context.Background(), s.state.Encode(items)); err != nil {
			t.Fatal(err)
		}
	}
	s.expect("PUT", "/books/p1", nodes(4), 200, `{"n":0,"opens":2048}`)
	propose(&state.Item{Action: state.Digest, Book: "p0"})
	s.expect("GET", "/health", "", 200, `{"ok":true}`)
	at := s.state.Digests()[0].At
	for id := uint64(2); id <= 3; id++ {
		propose(&state.Item{Action: state.Report, Book: "p0", Digest: at, Member: id})
	}
	for _, path := range []string{"/health", "/books/p0", "/books/p0/image", "/books/p0/log"} {
		if _, fail := s.failed("GET", path, ""); fail.Status != 503 || fail.Code != "differs" {
			t.Errorf("%s: %+v", path, fail)
		}
	}
	for _, path := range []string{"/books/p1", "/status"} {
		if answer, text := s.ask("GET", path, ""); answer.StatusCode != 200 {
			t.Errorf("%s: %s", path, text)
		}
	}
}

// Each answer to a change tells an index of the log, with which a client may ask for the next one.
func TestChangesOfMembersTellAnIndex(t *testing.T) {
	s := newService(t, nil)
	if answer, text := s.ask("PUT", "/members/2", `{"peer":"h:1","client":"h:2"}`); answer.Header.Get("Lrcmand-Index") != "1" {
		t.Error(answer.Header, text)
	}
}
