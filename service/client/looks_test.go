package client

import (
	"errors"
	"fmt"
	"io"
	"net/http"
	"net/http/httptest"
	"reflect"
	"strings"
	"sync"
	"testing"
	"time"
)

// A recorder answers each request with a text, and notes what it was asked.
type recorder struct {
	mu      sync.Mutex
	answers map[string]string // by method and path
	asked   []string          // method, path and parameters
	bodies  []string
	token   string
}

func (s *recorder) ServeHTTP(w http.ResponseWriter, r *http.Request) {
	s.mu.Lock()
	defer s.mu.Unlock()
	text, _ := io.ReadAll(r.Body)
	s.asked, s.bodies = append(s.asked, r.Method+" "+r.URL.RequestURI()), append(s.bodies, r.Header.Get("Content-Type")+" "+string(text))
	s.token = r.Header.Get("Authorization")
	for name, value := range map[string]string{"Index": "89", "Age-Ms": "12", "Entries": "17", "Opens": "3072"} {
		w.Header().Set("Lrcmand-"+name, value)
	}
	answer, isThere := s.answers[r.Method+" "+r.URL.Path]
	if !isThere {
		w.WriteHeader(404)
		answer = `{"status":404,"error":"there is no book","code":"no_book"}`
	}
	io.WriteString(w, answer+"\n")
}

// answer gives other answers from now on.
func (s *recorder) answer(answers map[string]string) {
	s.mu.Lock()
	defer s.mu.Unlock()
	s.answers = answers
}

// last are the request that came last, its body and its token.
func (s *recorder) last() (asked, body, token string) {
	s.mu.Lock()
	defer s.mu.Unlock()
	return s.asked[len(s.asked)-1], s.bodies[len(s.bodies)-1], s.token
}

func (s *recorder) requests() int {
	s.mu.Lock()
	defer s.mu.Unlock()
	return len(s.asked)
}

func record(t *testing.T, answers map[string]string) (*recorder, *Client) {
	t.Helper()
	s := &recorder{answers: answers}
	server := httptest.NewServer(s)
	t.Cleanup(server.Close)
	c := newClient(t, Config{Servers: []string{server.URL}, Token: "letters"})
	c.hearIndex(80)
	return s, c
}

func pointer(value int) *int { return &value }

var sample = map[string]string{
	"GET /books":          `{"index":89,"age_ms":12,"books":[{"name":"p0","n":17,"opens":3072}]}`,
	"GET /books/p0/nodes": "[[node]]", "GET /books/p0/image": "image 1",
	"GET /books/p0/show/status": `{"rows":[{"name":"stripes","value":60},{"name":"at_risk_margin_2","value":1},` +
		`{"name":"upgrading","value":"none"},{"name":"entries","value":17}]}`,
	"GET /books/p0/show/stripes": `{"rows":[` + stripe + `]}`, "GET /books/p0/stripes/5": `{"rows":[` + stripe + `]}`,
	"GET /books/p0/show/nodes": `{"rows":[{"node":300,"fault":1,"upgrade":2,"mode":"draining","down":true,"upgrading":false,` +
		`"online":false,"homes":3,"targets":1,"load":4,"slots":64}]}`,
	"GET /books/p0/show/leases": `{"rows":[{"stripe":1,"fragment":3,"holder":2,"target":"17:0","epoch":1,"expiry":3}]}`,
	"GET /books/p0/show/work": `{"rows":[{"stripe":1,"fragment":3,"kind":"local","sources":[0,1,2],"reads":6,"standing":"leased",` +
		`"holder":2,"epoch":1},{"stripe":2,"fragment":0,"kind":"global","sources":[],"reads":null,"standing":"open","holder":null,"epoch":null}]}`,
	"GET /books/p0/show/health": `{"rows":[{"reason":"margin_2","count":3,"first":[7]},{"reason":"waiting","count":1,"first":[7,3]},` +
		`{"reason":"slots","count":5,"first":[]}]}`,
	"GET /books/p0/show/capacity": `{"rows":[{"code":"wide","stripes":3,"fragment":12,"not_active":2,"offline":1,"full":17,"fault_domain":4,` +
		`"upgrade_domain":5,"free_slots":60},{"code":"narrow","stripes":4000,"fragment":null,"not_active":null,"offline":null,"full":null,` +
		`"fault_domain":null,"upgrade_domain":null,"free_slots":7}]}`,
	"GET /books/p0/workers": `{"rows":[{"stripe":1,"fragment":3,"epoch":2,"worker":"w7"}]}`,
	"GET /books/p0/recipe":  `{"code":"wide","missing_fragments":[3],"rows":[{"fragment":0,"coefficient":200,"home":"7:1"}]}`,
	"GET /matrix":           `{"code":"narrow","rows":[[1,0],[0,255]]}`,
	"GET /books/p0/may-stop": `{"safe":false,"rows":[{"stripe":1,"code":"wide","level_before":"risk","margin_before":2,` +
		`"level_after":"lost","margin_after":null,"missing_fragments_after":[0,1],"leases_ended":1,"harmed":true}]}`,
	"GET /books/p0/may-lose": `{"safe":true,"rows":[]}`,
	"GET /books/p0/peek":     `{"n":17,"opens":3072,"reply":"idle","kind":"idle"}`,
	"GET /status":            `{"id":2,"leader":1,"term":7,"commit":90,"applied":95,"age_ms":12,"rules":1,"members":[{"id":1}]}`,
	"GET /members":           members, "PUT /members/4": members, "DELETE /members/4": members, "POST /leader/1": members,
	"POST /snapshot": `{"id":2}`, "GET /health": `{"ok":true}`,
	"GET /rules": `{"program":2,"group":1,"next":2,"saved":true}`, "PUT /rules": `{"program":2,"group":1,"next":2,"saved":false}`,
	"PUT /books/p0": `{"n":0,"opens":3072}`, "PUT /books/p0/nodes": `{"n":17,"opens":4096,"again":true}`, "DELETE /books/p0": `{"n":17,"opens":3072}`,
	"POST /books/p0/call": `{"n":18,"opens":3072,"reply":"granted 1 3 17:0 epoch 4 local 0 1 2","kind":"granted","stripe":1,"fragment":3,` +
		`"target":{"node":17,"slot":2},"epoch":4,"repair":"local","sources":[0,1,2]}`,
}

const stripe = `{"stripe":5,"code":"narrow","level":"risk","margin":2,"missing":"0x0002","missing_fragments":[1],"homeless":"0x0002",` +
	`"homeless_fragments":[1],"home_0":"7:1","home_1":null,"home_2":"8:0","home_3":"9:0","home_4":"1:0","home_5":"2:0","home_6":"3:0",` +
	`"home_7":"4:0","home_8":"5:0","home_9":"300:65535","home_10":null}`

const members = `{"members":[{"id":1,"peer":"h1:2","client":"h1:1","leader":true},{"id":2,"peer":"","client":"h2:1","learner":true}]}`

// seats are those of the stripe above.
var seats = []*Seat{{7, 1}, nil, {8, 0}, {9, 0}, {1, 0}, {2, 0}, {3, 0}, {4, 0}, {5, 0}, {300, 65535}}

var (
	epochOne = uint32(1)
	twelve   = uint8(12)
)

// Each look asks for its path, and has what the answer says in types.
func TestEachLookIsReadIntoTypes(t *testing.T) {
	s, c := record(t, sample)
	want := Look{17, 3072, 89, 12 * time.Millisecond}
	theStripe := Stripe{5, "narrow", "risk", pointer(2), []uint8{1}, []uint8{1}, seats}
	for _, it := range []struct {
		asked string
		look  func() (any, Look, error)
		want  interface{}
	}{
		{"GET /books", func() (any, Look, error) { return three(c.Books(background)) }, []Book{{"p0", 17, 3072}}},
		{"GET /books/p0/nodes?now=1", func() (any, Look, error) { return three(c.Nodes(background, "p0", WithNow())) }, "[[node]]\n"},
		{"GET /books/p0/image", func() (any, Look, error) { return three(c.Image(background, "p0")) }, "image 1\n"},
		{"GET /books/p0/show/status?now=1", func() (any, Look, error) { return three(c.ShowStatus(background, "p0", WithNow())) },
			Summary{Stripes: 60, AtRiskMargin2: 1, Entries: 17}},
		{"GET /books/p0/show/stripes", func() (any, Look, error) { return three(c.ShowStripes(background, "p0")) }, []Stripe{theStripe}},
		{"GET /books/p0/show/health", func() (any, Look, error) { return three(c.ShowHealth(background, "p0")) },
			[]Reason{{"margin_2", 3, []int{7}}, {"waiting", 1, []int{7, 3}}, {"slots", 5, []int{}}}},
		{"GET /books/p0/show/capacity?now=1", func() (any, Look, error) { return three(c.ShowCapacity(background, "p0", WithNow())) },
			[]Capacity{{"wide", 3, &twelve, pointer(2), pointer(1), pointer(17), pointer(4), pointer(5), 60},
				{"narrow", 4000, nil, nil, nil, nil, nil, nil, 7}}},
		{"GET /books/p0/stripes/5", func() (any, Look, error) { return three(c.ShowStripe(background, "p0", 5)) }, theStripe},
		{"GET /books/p0/show/nodes", func() (any, Look, error) { return three(c.ShowNodes(background, "p0")) },
			[]Node{{300, 1, 2, "draining", true, false, false, 3, 1, 4, 64}}},
		{"GET /books/p0/show/leases", func() (any, Look, error) { return three(c.ShowLeases(background, "p0")) },
			[]LeaseRow{{1, 3, 2, Seat{17, 0}, 1, 3}}},
		{"GET /books/p0/show/work", func() (any, Look, error) { return three(c.ShowWork(background, "p0")) },
			[]Job{{1, 3, "local", []uint8{0, 1, 2}, pointer(6), "leased", pointer(2), &epochOne}, {2, 0, "global", []uint8{}, nil, "open", nil, nil}}},
		{"GET /books/p0/workers", func() (any, Look, error) { return three(c.Workers(background, "p0")) }, []Worker{{1, 3, 2, "w7"}}},
		{"GET /books/p0/recipe?fragment=3&missing=3&missing=4&now=1&stripe=1", func() (any, Look, error) {
			return three(c.Recipe(background, "p0", 1, 3, []uint8{3, 4}, WithNow()))
		}, Recipe{"wide", []uint8{3}, []Source{{0, 200, Seat{7, 1}}}}},
		{"GET /books/p0/may-stop?fault=5&node=3&node=7&upgrade=0", func() (any, Look, error) {
			return three(c.MayStop(background, "p0", Outage{[]uint16{3, 7}, []uint8{5}, []uint8{0}}))
		}, Forecast{false, []Outlook{{1, "wide", "risk", pointer(2), "lost", nil, []uint8{0, 1}, 1, true}}}},
		{"GET /books/p0/may-lose?node=3", func() (any, Look, error) {
			return three(c.MayLose(background, "p0", Outage{Nodes: []uint16{3}}))
		}, Forecast{true, []Outlook{}}},
		{"GET /books/p0/show/work", func() (any, Look, error) {
			rows, look, err := c.Table(background, "p0", "work")
			return rows[0]["kind"], look, err
		}, "local"},
		{"GET /books/p0/peek?command=next&session=3", func() (any, Look, error) {
			reply, look, err := c.Peek(background, "p0", "next", WithSession(3))
			return reply.Kind, look, err
		}, Idle},
	} {
		got, look, err := it.look()
		if err != nil || look != want || !reflect.DeepEqual(got, it.want) {
			t.Errorf("%s: %+v %+v %v, and not %+v", it.asked, got, look, err, it.want)
		}
		if asked, _, token := s.last(); asked != it.asked || token != "Bearer letters" {
			t.Errorf("asked %s with %q, and not %s", asked, token, it.asked)
		}
	}
	if rows, err := c.Matrix(background, "narrow"); err != nil || !reflect.DeepEqual(rows, [][]uint8{{1, 0}, {0, 255}}) {
		t.Errorf("matrix %v %v", rows, err)
	}
}

func three[T any](value T, look Look, err error) (any, Look, error) { return value, look, err }

// Each request that changes something has its method, its parameters and its body; those that could be made twice have a key.
func TestEachChangeIsAskedFor(t *testing.T) {
	s, c := record(t, sample)
	own := WithKey("mine", 5)
	for _, it := range []struct {
		make  func() error
		asked string
		body  string
	}{
		{func() error { _, err := c.CreateBook(background, "p0", "[[node]]", own); return err }, "PUT /books/p0?key=mine&since=5",
			"application/toml [[node]]"},
		{func() error { _, err := c.CreateBookIn(background, "p0", "n", "i", own); return err }, "PUT /books/p0?key=mine&since=5",
			`application/json {"image":"i","nodes":"n"}`},
		{func() error {
			_, err := c.ReopenBook(background, "p0", "n", own, WithPosition(Position{17, 3072}))
			return err
		},
			"PUT /books/p0/nodes?at=17&key=mine&opens=3072&since=5", "application/toml n"},
		{func() error { return c.RemoveBook(background, "p0", Position{17, 3072}, own) }, "DELETE /books/p0?key=mine&since=5",
			`application/json {"at":17,"opens":3072}`},
		{func() error { _, err := c.ChangeRules(background, 2, 3, own); return err }, "PUT /rules?key=mine&since=5",
			`application/json {"form":3,"rules":2}`},
		{func() error { _, err := c.ChangeRules(background, 2, 0, own); return err }, "PUT /rules?key=mine&since=5",
			`application/json {"rules":2}`},
		{func() error {
			_, err := c.Call(background, "p0", "done 1 3 4", own, WithSession(2), WithWorker("w7"), WithPosition(Position{17, 3072}))
			return err
		}, "POST /books/p0/call",
			`application/json {"at":17,"command":"done 1 3 4","opens":3072,"session":2,"worker":"w7","key":"mine","since":5}`},
		{func() error {
			_, err := c.AddMember(background, Member{ID: 4, Peer: "h4:2", Client: "h4:1", Learner: true})
			return err
		},
			"PUT /members/4", `application/json {"client":"h4:1","learner":true,"peer":"h4:2"}`},
		{func() error { _, err := c.RemoveMember(background, 4); return err }, "DELETE /members/4", "application/json "},
		{func() error { _, err := c.RemoveMember(background, 4, WithForce()); return err }, "DELETE /members/4?force=1",
			"application/json "},
		{func() error { _, err := c.Lead(background, 1); return err }, "POST /leader/1", "application/json "},
		{func() error { return c.Snapshot(background) }, "POST /snapshot", "application/json "},
	} {
		if err := it.make(); err != nil {
			t.Errorf("%s: %v", it.asked, err)
		}
		if asked, body, _ := s.last(); asked != it.asked || body != it.body {
			t.Errorf("asked %s with %s, and not %s with %s", asked, body, it.asked, it.body)
		}
	}
}

func TestWhatIsToldOfChangesIsRead(t *testing.T) {
	_, c := record(t, sample)
	reply, err := c.Call(background, "p0", "next")
	lease := &Grant{1, 3, Seat{17, 2}, 4, "local", []uint8{0, 1, 2}}
	if err != nil || reply.N != 18 || reply.Kind != Granted || !reflect.DeepEqual(reply.Lease, lease) || !strings.HasPrefix(string(reply.Raw), `{"n":18`) {
		t.Errorf("%+v %+v %v", reply, reply.Lease, err)
	}
	if lease.Done() != "done 1 3 4" || lease.Abandon() != "abandon 1 3 4" {
		t.Error(lease.Done(), lease.Abandon())
	}
	if opening, err := c.ReopenBook(background, "p0", ""); err != nil || opening != (Opening{17, 4096, true}) || opening.Position() != (Position{17, 4096}) {
		t.Errorf("%+v %v", opening, err)
	}
	if status, err := c.Status(background); err != nil || status.Leader != 1 || status.Applied != 95 || status.Server != c.order()[0] {
		t.Errorf("%+v %v", status, err)
	}
	if index, err := c.Index(background); err != nil || index != 95 {
		t.Errorf("%d %v", index, err)
	}
	if rules, err := c.Rules(background); err != nil || rules != (Rules{2, 1, 2, true}) {
		t.Errorf("%+v %v", rules, err)
	}
	if list, err := c.Members(background); err != nil || len(list) != 2 || list[0] != (Member{ID: 1, Peer: "h1:2", Client: "h1:1", Leader: true}) || !list[1].Learner {
		t.Errorf("%+v %v", list, err)
	}
	var told *Error
	if _, err := c.Call(background, "p9", "tick"); !errors.As(err, &told) || told.Code != CodeNoBook || told.Status != 404 {
		t.Error(err)
	}
	if want := "there is no book (404 from " + c.order()[0] + ")"; told.Error() != want {
		t.Errorf("%v, and not %s", told, want)
	}
}

func TestRepliesAreReadInEachKind(t *testing.T) {
	for text, want := range map[string]Reply{
		`{"n":1,"reply":"placed 0:0","kind":"placed","seats":[{"node":1,"slot":2}]}`: {N: 1, Line: "placed 0:0", Kind: Placed, Seats: []Seat{{1, 2}}},
		`{"n":1,"reply":"refused 110 2","kind":"refused","refusal":110,"name":"already leased","detail":2}`: {N: 1, Line: "refused 110 2", Kind: Refused,
			Refusal: 110, Name: "already leased", Detail: 2},
		`{"reply":"refused 114 2","kind":"refused","refusal":114,"holder":"w7","again":true}`: {Line: "refused 114 2", Kind: Refused,
			Refusal: 114, Holder: "w7", Again: true},
		`{"n":1,"reply":"ticked 5 2","kind":"ticked","clock":5,"ended":2}`: {N: 1, Line: "ticked 5 2", Kind: Ticked, Clock: 5, Ended: 2},
	} {
		var got Reply
		if err := got.UnmarshalJSON([]byte(text)); err != nil {
			t.Error(err)
		}
		if want.Raw = []byte(text); !reflect.DeepEqual(got, want) {
			t.Errorf("%+v, and not %+v", got, want)
		}
	}
	var none Reply
	if err := none.UnmarshalJSON([]byte(`{"ok":true}`)); err == nil {
		t.Error("what is no reply is read")
	}
}

func TestCommandsAreLinesOfAScript(t *testing.T) {
	for got, want := range map[Command]string{
		Commandf("tick"): "tick", Commandf("done %d %d %d", uint16(4095), uint8(15), uint32(4294967295)): "done 4095 15 4294967295",
	} {
		if string(got) != want {
			t.Errorf("%q, and not %q", got, want)
		}
	}
}

func TestSeatsAreReadFromBothForms(t *testing.T) {
	for text, want := range map[string]Seat{`"17:2"`: {17, 2}, `{"node":17,"slot":2}`: {17, 2}, `"5:5"`: {5, 5}} {
		var got Seat
		if err := got.UnmarshalJSON([]byte(text)); err != nil || got != want {
			t.Errorf("%s: %v %v", text, got, err)
		}
	}
	if word := (Seat{17, 2}).String(); word != "17:2" {
		t.Error(word)
	}
	for _, text := range []string{`"17"`, `"a:2"`, `"1:70000"`, `"1:2:3"`, `[]`} {
		var got Seat
		if err := got.UnmarshalJSON([]byte(text)); err == nil {
			t.Errorf("%s is %v", text, got)
		}
	}
}

func TestServersAreRead(t *testing.T) {
	for text, want := range map[string]string{"h1:7421": "http://h1:7421", "http://h1:7421/": "http://h1:7421", " https://h1:7421": "https://h1:7421"} {
		if c := newClient(t, Config{Servers: []string{text}}); c.order()[0] != want {
			t.Errorf("%q: %v", text, c.order())
		}
	}
	for _, text := range []string{"", "ftp://h1", "http://h1/books", "http://u@h1", "http://h1?a=b", "http://"} {
		if _, err := New(Config{Servers: []string{text}}); err == nil {
			t.Errorf("%q is taken", text)
		}
	}
	if _, err := New(Config{}); err == nil {
		t.Error("no server is taken")
	}
}

func TestMembersAreFoundAndTheLeaderIsAskedFirst(t *testing.T) {
	s, c := record(t, sample)
	given := c.order()[0]
	if err := c.Sync(background); err != nil || !reflect.DeepEqual(c.order(), []string{"http://h1:1", "http://h2:1", given}) {
		t.Errorf("%v %v", c.order(), err)
	}
	c.prefer(given)
	s.answer(map[string]string{"GET /members": `{"members":[{"id":2,"client":"h2:1"}]}`})
	if err := c.Sync(background); err != nil || !reflect.DeepEqual(c.order(), []string{given, "http://h2:1"}) {
		t.Errorf("%v %v", c.order(), err)
	}
}

func TestMembersAreLookedForByThemselves(t *testing.T) {
	s, _ := record(t, map[string]string{"GET /members": members, "GET /books": `{"books":[]}`})
	server := httptest.NewServer(s)
	defer server.Close()
	c := newClient(t, Config{Servers: []string{server.URL}, FindMembers: true})
	end := time.Now().Add(10 * time.Second)
	if _, _, err := c.Books(background); err != nil {
		t.Fatal(err)
	}
	for len(c.order()) < 3 && time.Now().Before(end) {
		time.Sleep(time.Millisecond)
	}
	if len(c.order()) != 3 {
		t.Error(c.order())
	}
}

// A change of members goes to the leader, whose address a member tells that is not.
func TestTheLeaderIsAskedWhereItIsTold(t *testing.T) {
	leader, _ := record(t, sample)
	server := httptest.NewServer(leader)
	defer server.Close()
	turns := 0
	other := httptest.NewServer(http.HandlerFunc(func(w http.ResponseWriter, r *http.Request) {
		turns++
		w.Header().Set("Retry-After", "1")
		w.WriteHeader(503)
		fmt.Fprintf(w, `{"status":503,"error":"not here","code":"not_leader","leader":"%s"}`, strings.TrimPrefix(server.URL, "http://"))
	}))
	defer other.Close()
	c := newClient(t, Config{Servers: []string{other.URL}})
	if _, err := c.AddMember(background, Member{ID: 4, Peer: "h4:2", Client: "h4:1"}); err != nil || turns != 1 || leader.requests() != 1 {
		t.Errorf("%v after %d turns, the leader was asked %d times", err, turns, leader.requests())
	}
	if len(c.order()) != 1 {
		t.Errorf("the leader stays: %v", c.order())
	}
}

func TestALookGoesOnWhereAMemberBreaksOffOrHangs(t *testing.T) {
	s, _ := record(t, sample)
	good := httptest.NewServer(s)
	defer good.Close()
	end := make(chan struct{})
	for _, handler := range []http.HandlerFunc{
		func(w http.ResponseWriter, r *http.Request) { cut(w, "") },
		func(w http.ResponseWriter, r *http.Request) {
			cut(w, "HTTP/1.1 200 OK\r\nContent-Length: 300\r\n\r\n{\"books\":[")
		},
		func(w http.ResponseWriter, r *http.Request) { <-end },
		func(w http.ResponseWriter, r *http.Request) { w.WriteHeader(500) },
	} {
		bad := httptest.NewServer(handler)
		c := newClient(t, Config{Servers: []string{bad.URL, good.URL}, Attempt: 500 * time.Millisecond})
		if books, _, err := c.Books(background); err != nil || len(books) != 1 {
			t.Errorf("%v %v", books, err)
		}
		if c.order()[0] != good.URL {
			t.Error("the member that answered is not asked first")
		}
		defer bad.Close()
	}
	close(end)
}

func TestABackupIsReadToItsEnd(t *testing.T) {
	s, c := record(t, map[string]string{"GET /backup": "all of it"})
	for _, it := range []struct {
		options []Option
		asked   string
	}{{nil, "GET /backup"}, {[]Option{WithStale()}, "GET /backup?now=0"}} {
		from, err := c.Backup(background, it.options...)
		if err != nil {
			t.Fatal(err)
		}
		text, err := io.ReadAll(from)
		if asked, _, _ := s.last(); from.Close() != nil || err != nil || string(text) != "all of it\n" || asked != it.asked {
			t.Errorf("%q %v, asked %s", text, err, asked)
		}
	}
	broken := httptest.NewServer(http.HandlerFunc(func(w http.ResponseWriter, r *http.Request) {
		cut(w, "HTTP/1.1 200 OK\r\nTransfer-Encoding: chunked\r\n\r\n4\r\npart\r\n")
	}))
	defer broken.Close()
	from, err := newClient(t, Config{Servers: []string{broken.URL}}).Backup(background)
	if err != nil {
		t.Fatal(err)
	}
	if text, err := io.ReadAll(from); err == nil || string(text) != "part" {
		t.Errorf("a part: %q %v", text, err)
	}
	from.Close()
	s.answer(nil)
	if _, err := c.Backup(background); err == nil {
		t.Error("there is no backup, and it is read")
	}
}
