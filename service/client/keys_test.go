package client

import (
	"context"
	"errors"
	"math/rand"
	"net"
	"net/http"
	"net/http/httptest"
	"strings"
	"testing"
	"time"
)

var background = context.Background()

// Each call is made at most once, and what its caller is told is so: by faults in each order, beside calls of others of which the
// group forgets all but the last few.
func TestEachCallIsMadeAtMostOnceAndToldRightly(t *testing.T) {
	dice := rand.New(rand.NewSource(71))
	told := map[string]int{}
	for turn := 0; turn < 300; turn++ {
		g := newGroup(8)
		members, c := serve(t, g, 1+dice.Intn(3), Config{Timeout: 250 * time.Millisecond, Attempt: 30 * time.Millisecond})
		for _, m := range members {
			m.plan(dice.Intn(8), someFaults(dice, dice.Intn(4))...)
		}
		for _, worker := range []string{"first", "second"} {
			told[checkOne(t, g, c, worker)]++
		}
	}
	for _, it := range []string{"told", "KeyForgotten"} {
		if told[it] == 0 {
			t.Errorf("it never came to %s: %v", it, told)
		}
	}
	t.Log(told)
}

// checkOne makes one call for a worker of its own and returns what came of it. (On a busy machine a try of the call before may come
// to its member late)
func checkOne(t *testing.T, g *group, c *Client, worker string) string {
	t.Helper()
	reply, err := c.Call(background, "p0", "tick", WithWorker(worker))
	g.mu.Lock()
	g.makeLate()
	var tries []call
	ahead, made := append([]call(nil), g.ahead...), map[string]int{}
	for _, it := range g.calls {
		if it.Worker == worker {
			tries, made[it.Key] = append(tries, it), g.made[it.Key]
		}
	}
	g.mu.Unlock()
	if len(made) > 1 || len(ahead) > 0 {
		t.Errorf("a call has %d keys, and these are ahead: %+v", len(made), ahead)
	}
	count, key := 0, ""
	for key, count = range made {
	}
	var unknown *OutcomeUnknown
	var forgotten *KeyForgotten
	switch {
	case err == nil && (count != 1 || reply.N == 0):
		t.Errorf("it was told and made %d times, tries %+v", count, tries)
	case err == nil:
		return "told"
	case errors.As(err, &forgotten):
		if count > 1 || forgotten.Key != key {
			t.Errorf("a forgotten key was made %d times: %v", count, err)
		}
		return "KeyForgotten"
	case errors.As(err, &unknown):
		if count > 1 || unknown.Key != key || unknown.Since != tries[len(tries)-1].Since {
			t.Errorf("what is unknown was made %d times: %+v, tries %+v", count, unknown, tries)
		}
		return "OutcomeUnknown"
	case count != 0:
		t.Errorf("%v, and it was made %d times, tries %+v", err, count, tries)
	}
	return "nothing made"
}

func TestEachFaultIsToldAsWhatItIs(t *testing.T) {
	for _, it := range []struct {
		name  string
		fault fault
		maybe bool // where nobody ever tells more
	}{
		{"503", busy, false}, {"429", tooMany, false}, {"507", full, false}, {"504", unknown, true}, {"504 that is made later", notYet, true},
		{"504 that is never made", never, true}, {"cut before", cutBefore, true}, {"cut after", cutAfter, true},
		{"cut within the answer", cutWithin, true}, {"a member that hangs", hang, true}, {"502 of another", strange, true},
		{"503 of another", strange503, true}, {"500", broken, true},
	} {
		attempt := 2 * time.Second
		if it.fault == hang {
			attempt = 50 * time.Millisecond
		}
		g := newGroup(100)
		members, c := serve(t, g, 2, Config{Attempt: attempt})
		members[0].plan(0, it.fault)
		reply, err := c.Call(background, "p0", "tick")
		if _, keys := g.times(""); err != nil || keys != 1 || reply.Clock != 1 {
			t.Errorf("%s, and then another member: %+v %v, %d keys", it.name, reply, err, keys)
		}
		checkAlone(t, it.name, it.fault, it.maybe, attempt)
	}
}

// checkAlone has a fault always, and then none.
func checkAlone(t *testing.T, name string, fault fault, maybe bool, attempt time.Duration) {
	t.Helper()
	g := newGroup(100)
	members, c := serve(t, g, 1, Config{Timeout: 80 * time.Millisecond, Attempt: attempt})
	c.hearIndex(8)
	members[0].plan(0, repeat(fault, 1000)...)
	_, err := c.Call(background, "p0", "tick")
	var unknown *OutcomeUnknown
	if err == nil || errors.As(err, &unknown) != maybe {
		t.Errorf("%s alone: %v", name, err)
		return
	}
	if !maybe {
		return
	}
	members[0].plan(0)
	c.cfg.Timeout, c.cfg.Attempt = 10*time.Second, 10*time.Second
	again, err := c.Call(background, "p0", "tick", WithKey(unknown.Key, unknown.Since))
	if made, keys := g.times(unknown.Key); err != nil || made != 1 || again.N != 1 || keys != 1 {
		t.Errorf("%s, and later again: %+v %v, made %d times", name, again, err, made)
	}
}

func repeat(it fault, count int) (found []fault) {
	for i := 0; i < count; i++ {
		found = append(found, it)
	}
	return found
}

func TestAllTriesHaveOneKeyAndTheSinceFromBeforeTheFirst(t *testing.T) {
	g := newGroup(100)
	members, c := serve(t, g, 1, Config{})
	members[0].plan(3, never, busy, cutBefore, unknown)
	if _, err := c.Call(background, "p0", "tick"); err != nil {
		t.Fatal(err)
	}
	tries := g.tries()
	for _, it := range tries {
		if it.Key != tries[0].Key || it.Since != 10 || len(it.Key) != 32 {
			t.Errorf("tries %+v", tries)
		}
	}
	if len(tries) != 5 {
		t.Errorf("%d tries", len(tries))
	}
	heard := g.index
	_, err := c.Call(background, "p0", "tick")
	if last := g.tries()[5]; err != nil || last.Since != heard || last.Key == tries[0].Key {
		t.Errorf("%v, the next call %+v, and index %d", err, last, heard)
	}
}

// A since that is too old is renewed where no try may have been made, and else nobody can know.
func TestAKeyThatMayBeForgotten(t *testing.T) {
	for _, it := range []struct {
		name    string
		faults  []fault
		options []Option
		isTold  bool
	}{
		{"at once", nil, nil, true},
		{"behind 503", []fault{busy, tooMany, busy}, nil, true},
		{"behind 504", []fault{never}, nil, false},
		{"behind a broken connection", []fault{cutBefore}, nil, false},
		{"with a key of its own", nil, []Option{WithKey("mine", 0)}, true},
		{"with a key that was sent before", nil, []Option{WithKey("mine", 6)}, false},
	} {
		g := newGroup(4)
		members, c := serve(t, g, 1, Config{})
		if _, err := c.Index(background); err != nil {
			t.Fatal(err)
		}
		members[0].plan(0, it.faults...)
		g.others(20)
		reply, err := c.Call(background, "p0", "tick", it.options...)
		var forgotten *KeyForgotten
		first := g.tries()[0]
		made, _ := g.times(first.Key)
		isForgotten := errors.As(err, &forgotten) && forgotten.Key == first.Key && forgotten.Since == first.Since
		if it.isTold && (err != nil || made != 1 || reply.Again) || !it.isTold && (!isForgotten || made != 0) {
			t.Errorf("%s: %+v %v, made %d times", it.name, reply, err, made)
		}
	}
}

func TestWhatWasSentBeforeIsUnknownUntilItIsTold(t *testing.T) {
	c := newClient(t, Config{Servers: []string{"127.0.0.1:9"}, Timeout: 20 * time.Millisecond})
	var unknown *OutcomeUnknown
	_, err := c.Call(background, "p0", "tick", WithKey("mine", 6))
	if !errors.As(err, &unknown) || unknown.Key != "mine" || unknown.Since != 6 {
		t.Errorf("sent before: %v", err)
	}
	if _, err := c.Call(background, "p0", "tick", WithKey("mine", 0)); err == nil || errors.As(err, &unknown) {
		t.Errorf("never sent: %v", err)
	}
}

// A refusal is the last word only where no earlier try may be made besides.
func TestARefusalAfterATryThatNobodyToldOf(t *testing.T) {
	for _, it := range []struct {
		status int
		code   string
		maybe  bool
	}{
		{404, CodeNoBook, true}, {409, CodeBookExists, true}, {403, "forbidden", true}, {409, CodeMoved, false},
		{400, "bad_request", false}, {422, CodeBadText, false},
	} {
		for _, isFirst := range []bool{true, false} {
			turn := 0
			if isFirst {
				turn = 1
			}
			server := httptest.NewServer(http.HandlerFunc(func(w http.ResponseWriter, r *http.Request) {
				m := &member{g: newGroup(1)}
				if turn++; turn == 1 {
					m.fail(w, 504, CodeOutcomeUnknown)
					return
				}
				m.fail(w, it.status, it.code)
			}))
			c := newClient(t, Config{Servers: []string{server.URL}})
			c.hearIndex(7)
			_, err := c.CreateBook(background, "p0", "")
			server.Close()
			var unknown *OutcomeUnknown
			var told *Error
			isUnknown := errors.As(err, &unknown)
			if isUnknown != (it.maybe && !isFirst) || !errors.As(err, &told) || told.Code != it.code || told.Status != it.status {
				t.Errorf("%+v, at first %v: %v", it, isFirst, err)
			}
		}
	}
}

func TestAContextEndsACall(t *testing.T) {
	g := newGroup(100)
	members, c := serve(t, g, 1, Config{})
	members[0].plan(0, hang)
	if _, err := c.Index(background); err != nil {
		t.Fatal(err)
	}
	ctx, cancel := context.WithTimeout(background, 50*time.Millisecond)
	defer cancel()
	var unknown *OutcomeUnknown
	_, err := c.Call(ctx, "p0", "tick")
	if !errors.Is(err, context.DeadlineExceeded) || !errors.As(err, &unknown) {
		t.Errorf("sent: %v", err)
	}
	_, err = c.Call(ctx, "p0", "tick")
	if unknown = nil; !errors.Is(err, context.DeadlineExceeded) || errors.As(err, &unknown) {
		t.Errorf("not sent: %v", err)
	}
}

func TestAMemberIsLeftAloneAsLongAsItWants(t *testing.T) {
	g := newGroup(100)
	members, c := serve(t, g, 1, Config{})
	members[0].rest = "1"
	members[0].plan(0, tooMany)
	begun := time.Now()
	if _, err := c.Call(background, "p0", "tick"); err != nil || time.Since(begun) < time.Second {
		t.Errorf("after %v: %v", time.Since(begun), err)
	}
	members, c = serve(t, g, 2, Config{})
	members[0].rest = "5"
	members[0].plan(0, busy)
	begun = time.Now()
	if _, err := c.Call(background, "p0", "tick"); err != nil || time.Since(begun) > 4*time.Second {
		t.Errorf("another member is asked after %v: %v", time.Since(begun), err)
	}
	members[1].rest = "5"
	members[0].plan(0, busy)
	members[1].plan(0, busy)
	c.cfg.Timeout = 300 * time.Millisecond
	begun = time.Now()
	if _, err := c.Call(background, "p0", "tick"); err == nil || time.Since(begun) > 3*time.Second {
		t.Errorf("a rest beyond the timeout was waited for: %v, %v", time.Since(begun), err)
	}
}

func TestNobodyWhoListensHasMadeNothing(t *testing.T) {
	nobody, err := net.Listen("tcp", "127.0.0.1:0")
	if err != nil {
		t.Fatal(err)
	}
	nobody.Close()
	g := newGroup(100)
	_, other := serve(t, g, 1, Config{})
	c := newClient(t, Config{Servers: append([]string{nobody.Addr().String()}, other.order()...)})
	if reply, err := c.Call(background, "p0", "tick"); err != nil || reply.N != 1 {
		t.Errorf("%+v %v", reply, err)
	}
	c = newClient(t, Config{Servers: []string{nobody.Addr().String()}, Timeout: 50 * time.Millisecond})
	c.hearIndex(7)
	var unknown *OutcomeUnknown
	_, err = c.Call(background, "p0", "tick")
	if err == nil || errors.As(err, &unknown) || !strings.Contains(err.Error(), "does not answer") {
		t.Error(err)
	}
}

func TestManyCallersShareAClient(t *testing.T) {
	g := newGroup(1000)
	members, c := serve(t, g, 3, Config{})
	dice := rand.New(rand.NewSource(7))
	for _, m := range members {
		m.plan(0, someFaults(dice, 40)...)
		m.faults = without(m.faults, hang)
	}
	const callers, each = 16, 20
	failed := make(chan error)
	for i := 0; i < callers; i++ {
		go func() {
			var err error
			for turn := 0; turn < each && err == nil; turn++ {
				_, err = c.Call(background, "p0", "tick")
			}
			failed <- err
		}()
	}
	for i := 0; i < callers; i++ {
		if err := <-failed; err != nil {
			t.Error(err)
		}
	}
	g.mu.Lock()
	defer g.mu.Unlock()
	g.makeLate()
	for key, count := range g.made {
		if count != 1 {
			t.Errorf("%s was made %d times", key, count)
		}
	}
	if len(g.made) != callers*each || g.entries != callers*each {
		t.Errorf("%d calls and %d entries", len(g.made), g.entries)
	}
}

func without(list []fault, one fault) (rest []fault) {
	for _, it := range list {
		if it != one {
			rest = append(rest, it)
		}
	}
	return rest
}
