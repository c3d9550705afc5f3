package httpapi

import (
	"bufio"
	"bytes"
	"context"
	"encoding/json"
	"errors"
	"fmt"
	"io"
	"net"
	"net/http"
	"net/http/httptest"
	"reflect"
	"strings"
	"sync/atomic"
	"testing"
	"time"

	"lrcman/service/book"
	"lrcman/service/internal/engine"
	"lrcman/service/internal/logging"
	"lrcman/service/internal/openapi"
	"lrcman/service/internal/replica"
	"lrcman/service/internal/state"
	"lrcman/service/internal/testengine"
)

// A service under test.
type service struct {
	t      testing.TB
	engine *testengine.Local
	state  *state.State
	api    *API
	url    string
}

func nodes(slots int) string {
	var text strings.Builder
	for i := 0; i < 20; i++ {
		fmt.Fprintf(&text, "[[node]]\nnumber = %d\nfault = %d\nupgrade = %d\nslots = %d\n", i, i, i%10, slots)
	}
	return text.String()
}

// A setup is what a service under test is made of.
type setup struct {
	engine  *testengine.Local
	replica replica.Config
	Config
}

func newService(t testing.TB, change func(*setup)) *service {
	t.Helper()
	books := state.New()
	e := testengine.New(books)
	with := &setup{e, replica.Config{Engine: e, State: books, Timeout: 2 * time.Second, Log: logging.Nowhere()},
		Config{Engine: e, State: books, Timeout: 2 * time.Second}}
	if change != nil {
		change(with)
	}
	with.Replica = replica.New(with.replica)
	ctx, stop := context.WithCancel(context.Background())
	go with.Replica.Run(ctx)
	a := New(with.Config)
	server := httptest.NewUnstartedServer(nil)
	server.Config = a.Server()
	server.Start()
	t.Cleanup(func() { stop(); a.Close(); server.CloseClientConnections(); server.Close() })
	s := &service{t, e, books, a, server.URL}
	s.expect("PUT", "/books/p0", nodes(4), 200, `{"n":0,"opens":1024}`)
	if e.Silent == nil {
		wait(t, "it keeps up with its leader", with.Replica.KeepsUp)
	}
	return s
}

// An option changes a request.
type option func(*http.Request)

func header(name, value string) option {
	return func(r *http.Request) {
		r.Header.Del(name)
		if value != "" {
			r.Header.Set(name, value)
		}
	}
}

func (s *service) ask(method, path, body string, options ...option) (*http.Response, string) {
	s.t.Helper()
	r, err := http.NewRequest(method, s.url+path, strings.NewReader(body))
	if err != nil {
		s.t.Fatal(err)
	}
	if strings.HasPrefix(body, "{") || body == "" && (method == "POST" || method == "DELETE") {
		r.Header.Set("Content-Type", "application/json")
	}
	for _, option := range options {
		option(r)
	}
	answer, err := http.DefaultClient.Do(r)
	if err != nil {
		s.t.Fatal(err)
	}
	defer answer.Body.Close()
	text, err := io.ReadAll(answer.Body)
	if err != nil {
		s.t.Fatal(err)
	}
	if s.isDescribed(r) {
		if err := described.Check(method, r.URL.Path, answer.StatusCode, answer.Header.Get("Content-Type"), text); err != nil {
			s.t.Errorf("%s %s is not as service/openapi.json has it: %v", method, path, err)
		}
	}
	return answer, string(text)
}

// isDescribed tells whether the answer to a request is one of this package's own routes.
func (s *service) isDescribed(r *http.Request) bool {
	route := s.api.find(r, false).route
	for _, it := range s.api.table() {
		if route != nil && it.Method == route.Method && it.Pattern == route.Pattern {
			return r.Method == it.Method
		}
	}
	return route == nil && r.Method != http.MethodHead // (which has no body)
}

// described is the interface as it is described: each answer of these tests is held against it.
var described = func() *openapi.Description {
	d, err := openapi.Load("../../openapi.json")
	if err != nil {
		panic(err)
	}
	return d
}()

func (s *service) expect(method, path, body string, status int, want string, options ...option) *http.Response {
	s.t.Helper()
	answer, text := s.ask(method, path, body, options...)
	if answer.StatusCode != status || strings.TrimSuffix(text, "\n") != want {
		s.t.Errorf("%s %s %.200s: %d %s, and not %d %s", method, path, body, answer.StatusCode, text, status, want)
	}
	return answer
}

func (s *service) refused(method, path, body string, status int, words string, options ...option) {
	s.t.Helper()
	answer, text := s.ask(method, path, body, options...)
	var fail failure
	err := json.Unmarshal([]byte(text), &fail)
	if err != nil || answer.StatusCode != status || fail.Status != status || !strings.Contains(fail.Words, words) {
		s.t.Errorf("%s %s %.200s: %d %s, and not %d with %q", method, path, body, answer.StatusCode, text, status, words)
	}
}

func (s *service) call(line string) {
	s.t.Helper()
	if answer, text := s.ask("POST", "/books/p0/call", fmt.Sprintf(`{"command":%q}`, line)); answer.StatusCode != 200 {
		s.t.Fatal(line, text)
	}
}

func TestACallIsAnsweredInWordsAndNumbers(t *testing.T) {
	s := newService(t, nil)
	for _, it := range []struct{ body, want string }{
		{`{"command":"place6 1"}`, `{"n":1,"opens":1024,"reply":"placed 0:0 1:0 2:0 3:0 4:0 5:0 6:0 7:0 8:0 9:0","kind":"placed","seats":[{"node":0,"slot":0},` +
			`{"node":1,"slot":0},{"node":2,"slot":0},{"node":3,"slot":0},{"node":4,"slot":0},{"node":5,"slot":0},{"node":6,"slot":0},` +
			`{"node":7,"slot":0},{"node":8,"slot":0},{"node":9,"slot":0}]}`},
		{`{"command":"fail 1"}`, `{"n":2,"opens":1024,"reply":"changed","kind":"changed"}`},
		{`{"session":3,"command":"lease 1 1","key":"k","worker":"w"}`, `{"n":3,"opens":1024,"reply":"granted 1 1 11:0 epoch 1 local 0 2 6","kind":"granted",` +
			`"stripe":1,"fragment":1,"target":{"node":11,"slot":0},"epoch":1,"repair":"local","sources":[0,2,6]}`},
		{`{"session":3,"command":"lease 1 1","key":"k","worker":"w"}`, `{"n":3,"opens":1024,"reply":"granted 1 1 11:0 epoch 1 local 0 2 6","kind":"granted",` +
			`"stripe":1,"fragment":1,"target":{"node":11,"slot":0},"epoch":1,"repair":"local","sources":[0,2,6],"again":true}`},
		{`{"command":"lease 1 1"}`, `{"n":4,"opens":1024,"reply":"refused 110 1","kind":"refused","refusal":110,"name":"already leased","detail":1}`},
		{`{"session":3,"command":"done 1 1 1"}`, `{"opens":1024,"reply":"refused 114 3","kind":"refused","refusal":114,"name":"not holder","detail":3,"holder":"w"}`},
		{`{"command":"tick"}`, `{"n":5,"opens":1024,"reply":"ticked 1 0","kind":"ticked","clock":1,"ended":0}`},
		{`{"session":3,"command":"done 1 1 1","worker":"w"}`, `{"n":6,"opens":1024,"reply":"ended","kind":"ended"}`},
		{`{"command":"next"}`, `{"n":7,"opens":1024,"reply":"idle","kind":"idle"}`},
		{`{"command":"lease 1 0"}`, `{"n":8,"opens":1024,"reply":"refused 111","kind":"refused","refusal":111,"name":"not needed"}`},
		{`{"command":"drop 1","at":8,"opens":1024}`, `{"n":9,"opens":1024,"reply":"dropped","kind":"dropped"}`},
	} {
		s.expect("POST", "/books/p0/call", it.body, 200, it.want)
	}
}

func TestBadRequestsAreRefusedByName(t *testing.T) {
	s := newService(t, nil)
	long := strings.Repeat("x", 65)
	for _, it := range []struct {
		method, path, body string
		status             int
		words              string
	}{
		{"GET", "/", "", 404, "nothing at this path"},
		{"GET", "/books/p0/", "", 404, "nothing at this path"},
		{"GET", "/books//show/status", "", 400, "the name of a book"},
		{"GET", "/books/-a", "", 400, "the name of a book"},
		{"GET", "/books/a%2fb", "", 404, "nothing at this path"},
		{"GET", "/books/a%20b", "", 400, "the name of a book"},
		{"GET", "/books/" + long, "", 400, "the name of a book"},
		{"GET", "/books/p9", "", 404, "there is no such book"},
		{"POST", "/books/p9/call", `{"command":"tick"}`, 404, "there is no book p9"},
		{"POST", "/books", "", 405, "this takes GET"},
		{"POST", "/books/p0", "", 405, "this takes PUT, DELETE, GET"},
		{"DELETE", "/books/p0", "", 400, "the JSON object has no end"},
		{"DELETE", "/books/p0", `{}`, 400, `the fields "at" and "opens" are needed`},
		{"DELETE", "/books/p0", `{"at":0}`, 400, `the fields "at" and "opens" are needed`},
		{"DELETE", "/books/p0", `{"at":0,"opens":1024,"force":true}`, 400, `there is no field "force"`},
		{"DELETE", "/books/p0", `{"at":1,"opens":1024}`, 409, "the book stands at 0, and its opening is 1024"},
		{"DELETE", "/books/p0", `{"at":0,"opens":2}`, 409, "the book stands at 0, and its opening is 1024"},
		{"DELETE", "/books/p9", `{"at":0,"opens":1024}`, 404, "there is no book p9"},
		{"POST", "/leader/0", "", 400, "the number of a member"},
		{"POST", "/leader/2", "", 503, "the member does not lead yet"},
		{"GET", "/leader/1", "", 405, "this takes POST"},
		{"POST", "/books/p0/call", `{"command":"tick","sesion":1}`, 400, `there is no field "sesion"`},
		{"POST", "/books/p0/call", `{"COMMAND":"tick"}`, 400, `there is no field "COMMAND"`},
		{"POST", "/books/p0/call", `{"command":"tick","key":"a","key":"b"}`, 400, `the field "key" comes twice`},
		{"POST", "/books/p0/call", `{"command":"tick"} {}`, 400, "goes on behind the JSON object"},
		{"POST", "/books/p0/call", `{"command":"tick"`, 400, "has no end"},
		{"POST", "/books/p0/call", `{"command":tick}`, 400, "the body is not JSON"},
		{"POST", "/books/p0/call", "{\"command\":\"\xff\"}", 400, "not UTF-8"},
		{"POST", "/books/p0/call", `{"command":1}`, 400, `the field "command" has to be a string and not a number`},
		{"POST", "/books/p0/call", `{"command":"tick","session":"1"}`, 400, `the field "session" has to be a whole number within its range and not a string`},
		{"POST", "/books/p0/call", `{"command":"tick","session":-1}`, 400, `the field "session" has to be a whole number within its range`},
		{"POST", "/books/p0/call", `{"command":"tick","session":1.5}`, 400, `the field "session" has to be a whole number within its range`},
		{"POST", "/books/p0/call", `{"command":"tick","session":1e99}`, 400, `the field "session"`},
		{"POST", "/books/p0/call", `{"command":"tick","session":0}`, 400, "the session is out of its range, 1 to 8: 0"},
		{"POST", "/books/p0/call", `{"command":"tick","session":9}`, 400, "the session is out of its range, 1 to 8: 9"},
		{"POST", "/books/p0/call", `{"command":"tick","key":"` + long + `"}`, 400, `the field "key"`},
		{"POST", "/books/p0/call", `{"command":"tick","key":"a b"}`, 400, `the field "key"`},
		{"POST", "/books/p0/call", `{"command":"tick","worker":"é"}`, 400, `the field "worker"`},
		{"POST", "/books/p0/call", `{"command":"tick","at":1}`, 400, "come together"},
		{"POST", "/books/p0/call", `{}`, 400, "this is a comment, or empty"},
		{"POST", "/books/p0/call", `{"command":"place"}`, 400, `the command takes another number of words: "place"`},
		{"POST", "/books/p0/call", `{"command":"place 4096"}`, 400, `a number is out of its range: "place 4096"`},
		{"POST", "/books/p0/call", `{"command":"place 01"}`, 400, "an argument is not a number"},
		{"POST", "/books/p0/call", `{"command":"tick","at":1,"opens":1024}`, 409, "the book stands at 0, and its opening is 1024"},
		{"POST", "/books/p0/call?now=1", `{"command":"tick"}`, 400, `there is no parameter "now" here`},
		{"POST", "/books/p0/call", `{"command":"` + strings.Repeat("x", 4096) + `"}`, 413, "more than 4096 bytes"},
		{"PUT", "/books/p0", nodes(5), 409, "made with other nodes"},
		{"PUT", "/books/p1", "", 422, "the topology has no nodes: topology 2"},
		{"PUT", "/books/p1", nodes(0), 422, "out of its range: topology 4 0"},
		{"PUT", "/books/p1", `{"nodes":"x"}`, 400, `the field "image" is missing`},
		{"PUT", "/books/p1", `{"nodes":"x","image":"y","more":1}`, 400, `there is no field "more"`},
		{"PUT", "/books/p0/nodes", `{"nodes":"x"}`, 415, "has to be TOML"},
		{"PUT", "/books/p0/nodes", "node = 3", 422, "topology 2"},
		{"GET", "/books/p0?now=2", "", 400, `the parameter "now" has to be 0 or 1`},
		{"GET", "/books/p0?now=1&now=1", "", 400, `the parameter "now" comes twice`},
		{"GET", "/books/p0?%zz", "", 400, "the parameters can't be read"},
		{"GET", "/books/p0/show/all", "", 404, "it has to be status, stripes, nodes, leases, work, fragments, domains-fault, domains-upgrade, health, capacity"},
		{"GET", "/books/p0/show/domains", "", 404, "there is no such table"},
		{"GET", "/books/p0/show/domains%20fault", "", 404, "there is no such table"},
		{"GET", "/books/p0/show/Health", "", 404, "there is no such table"},
		{"GET", "/books/p0/show/domains-fault/1", "", 404, "there is nothing at this path"},
		{"GET", "/books/p0/show/health%00", "", 404, "there is no such table"},
		{"GET", "/books/p0/show/", "", 404, "there is no such table"},
		{"POST", "/books/p0/show/health", "", 405, "this takes GET"},
		{"GET", "/books/p0/show/health?now=2", "", 400, `the parameter "now" has to be 0 or 1`},
		{"GET", "/books/p0/show/fragments?stripe=1", "", 400, `there is no parameter "stripe" here`},
		{"GET", "/books/p0/show/status?format=xml", "", 400, "has to be csv or json"},
		{"GET", "/books/p0/stripes/17", "", 404, "there is no stripe 17"},
		{"GET", "/books/p0/stripes/4096", "", 400, "the stripe is out of its range"},
		{"GET", "/books/p0/stripes/x", "", 400, "the stripe is not a number"},
		{"GET", "/books/p0/peek?command=plac+1", "", 400, "the first word is not a command"},
		{"GET", "/books/p0/peek?command=tick&session=0", "", 400, "the session is out of its range"},
		{"GET", "/books/p0/may-stop", "", 400, "name a node, a fault or an upgrade"},
		{"GET", "/books/p0/may-stop?node=20", "", 404, "there is no such node: node 20"},
		{"GET", "/books/p0/may-lose?fault=20", "", 404, "no node is in this fault domain: fault 20"},
		{"GET", "/books/p0/may-lose?upgrade=10", "", 404, "no node is in this upgrade domain: upgrade 10"},
		{"GET", "/books/p0/may-lose?upgrade=256", "", 400, `the parameter "upgrade" is out of its range`},
		{"GET", "/books/p0/log?from=x", "", 400, `the parameter "from" is not a number`},
		{"PUT", "/members/0", `{"peer":"h:1","client":"h:2"}`, 400, "the number of a member"},
		{"PUT", "/members/65536", `{"peer":"h:1","client":"h:2"}`, 400, "the number of a member"},
		{"PUT", "/members/2", `{"peer":"h","client":"h:2"}`, 400, `the field "peer" has to be HOST:PORT`},
		{"PUT", "/members/2", `{"peer":"h:1","client":"h:0"}`, 400, `the field "client" has no port`},
		{"PUT", "/members/2", `{"peer":"h:1","client":"h:2","id":2}`, 400, `there is no field "id"`},
		{"PUT", "/members/2", `{"peer":"h:1","client":"h:2","learner":1}`, 400, `the field "learner" has to be a bool and not a number`},
		{"PUT", "/members/9", `{"peer":"h:1","client":"h:2"}`, 409, "there is a member 9 already"},
		{"DELETE", "/members/2", "", 504, "the outcome is unknown"},
		{"PUT", "/members/8", `{"peer":"h:1","client":"h:2"}`, 409, "there is a member 8 already"},
		{"DELETE", "/members/8", "", 409, "the group would stand still"},
		{"DELETE", "/members/8?force=0", "", 409, "the group would stand still"},
		{"DELETE", "/members/8?force=yes", "", 400, `the parameter "force" has to be 0 or 1`},
		{"POST", "/snapshot", "", 503, "a snapshot is being written"},
	} {
		s.refused(it.method, it.path, it.body, it.status, it.words)
	}
	s.expect("GET", "/books/p0/log", "", 200, "") // none of them was an entry
	counts := s.api.refused.counts()
	if counts[404] != 17 || counts[413] != 1 || counts[405] != 4 {
		t.Errorf("counted: %v", counts)
	}
}

func TestBodiesHaveATypeAndALength(t *testing.T) {
	s := newService(t, nil)
	tick := `{"command":"tick"}`
	s.refused("POST", "/books/p0/call", tick, 415, "has to be application/json", header("Content-Type", ""))
	s.refused("POST", "/books/p0/call", tick, 415, "has to be application/json", header("Content-Type", "application/x-www-form-urlencoded"))
	s.refused("POST", "/books/p0/call", tick, 415, "in UTF-8", header("Content-Type", "application/json; charset=latin1"))
	s.refused("POST", "/books/p0/call", tick, 415, "no Content-Encoding", header("Content-Encoding", "gzip"))
	s.refused("PUT", "/books/p1", nodes(4), 415, "application/toml", header("Content-Type", "application/xml"))
	s.refused("POST", "/books/p0/call", tick, 411, "no length", func(r *http.Request) { r.ContentLength = -1; r.Body = io.NopCloser(strings.NewReader(tick)) })
	s.expect("POST", "/books/p0/call", tick, 200, `{"n":1,"opens":1024,"reply":"ticked 1 0","kind":"ticked","clock":1,"ended":0}`,
		header("Content-Type", "application/json; charset=UTF-8"))
	answer, text := s.ask("POST", "/books", "")
	if answer.Header.Get("Allow") != "GET, HEAD" {
		t.Error(answer.Header, text)
	}
}

func TestATooLargeBodyIsRefusedBeforeItComes(t *testing.T) {
	s := newService(t, nil)
	c := s.dial()
	fmt.Fprintf(c, "PUT /books/p1 HTTP/1.1\r\nHost: x\r\nContent-Length: 999999999999\r\n\r\n")
	s.status(c, 413)
}

func (s *service) dial() net.Conn {
	s.t.Helper()
	c, err := net.Dial("tcp", strings.TrimPrefix(s.url, "http://"))
	if err != nil {
		s.t.Fatal(err)
	}
	s.t.Cleanup(func() { c.Close() })
	c.SetDeadline(time.Now().Add(20 * time.Second))
	return c
}

func (s *service) status(c net.Conn, want int) {
	s.t.Helper()
	answer, err := http.ReadResponse(bufio.NewReader(c), nil)
	if err != nil || answer.StatusCode != want {
		s.t.Errorf("%v %v, and not %d", answer, err, want)
	}
}

func TestASlowBodyIsRefused(t *testing.T) {
	s := newService(t, func(with *setup) { with.Knobs.BodyTime = time.Second })
	c := s.dial()
	fmt.Fprintf(c, "POST /books/p0/call HTTP/1.1\r\nHost: x\r\nContent-Type: application/json\r\nContent-Length: 100\r\n\r\n{")
	s.status(c, 408)
	c = s.dial() // a head that does not end is cut off without an answer
	fmt.Fprintf(c, "GET /health HTTP/1.1\r\nHost:")
	if text, err := io.ReadAll(c); err != nil || len(text) > 0 && !bytes.Contains(text, []byte("40")) {
		t.Errorf("%q %v", text, err)
	}
	c = s.dial() // a connection on which a request came in time is kept, however long the next one takes to begin
	body := `{"command":"tick"}`
	for i := 0; i < 2; i++ {
		fmt.Fprintf(c, "POST /books/p0/call HTTP/1.1\r\nHost: x\r\nContent-Type: application/json\r\nContent-Length: %d\r\n\r\n%s", len(body), body)
		s.status(c, 200)
		time.Sleep(2 * time.Second)
	}
}

func TestALookTellsHowNewItIs(t *testing.T) {
	s := newService(t, nil)
	s.call("place 1")
	answer, text := s.ask("GET", "/books/p0/stripes/1?now=1", "")
	var look struct {
		N, Opens, Index uint64
		Age             int64 `json:"age_ms"`
		Rows            []map[string]interface{}
	}
	if err := json.Unmarshal([]byte(text), &look); err != nil {
		t.Fatal(err)
	}
	if look.N != 1 || look.Opens != 1024 || look.Index != 2 || look.Age < 0 || look.Age > 60000 || len(look.Rows) != 1 {
		t.Error(text)
	}
	for name, want := range map[string]string{"Lrcmand-Entries": "1", "Lrcmand-Opens": "1024", "Lrcmand-Index": "2", "Lrcmand-Age-Ms": fmt.Sprint(look.Age)} {
		if have := answer.Header.Get(name); have != want {
			t.Errorf("%s: %s and not %s", name, have, want)
		}
	}
	row := look.Rows[0]
	if row["level"] != "whole" || row["margin"] != 3.0 || row["home_12"] != "16:0" || row["missing"] != "0x0000" || fmt.Sprint(row["missing_fragments"]) != "[]" {
		t.Error(row)
	}
}

func TestALookTellsItsAge(t *testing.T) {
	age := int64(3000)
	s := newService(t, func(with *setup) { with.replica.Knobs.Age = func(int64) int64 { return atomic.LoadInt64(&age) } })
	if answer, text := s.ask("GET", "/books/p0", ""); answer.Header.Get("Lrcmand-Age-Ms") != "3000" || !strings.Contains(text, `"age_ms":3000,`) {
		t.Error(answer.Header, text)
	}
	s.expect("GET", "/health", "", 200, `{"ok":true}`)
	atomic.StoreInt64(&age, 6000)
	s.refused("GET", "/health", "", 503, "there is no leader")
}

func TestALookIsOfUnknownAgeWhereNobodyAnswers(t *testing.T) {
	s := newService(t, func(with *setup) { with.engine.Silent = engine.ErrNoLeader })
	if answer, _ := s.ask("GET", "/books/p0", ""); answer.Header.Get("Lrcmand-Age-Ms") != "-1" {
		t.Error(answer.Header)
	}
	s.refused("GET", "/books/p0?now=1", "", 503, "there is no leader")
	s.refused("GET", "/health", "", 503, "there is no leader")
}

func TestTablesOfFragmentsAndDomainsAreThoseOfShow(t *testing.T) {
	s := newService(t, nil)
	for _, line := range []string{"place6 1", "fail 1", "lease 1 1", "drain 2", "down 3"} {
		s.call(line)
	}
	fragments := "stripe,fragment,node,slot,fault,upgrade,state,mode,why,target,holder,epoch,expiry\n1,0,0,0,0,0,present,active,,,,,\n" +
		"1,1,,,,,homeless,,,11:0,1,1,3\n1,2,2,0,2,2,present,draining,,,,,\n1,3,3,0,3,3,offline,active,down,,,,"
	for f := 4; f < 10; f++ {
		fragments += fmt.Sprintf("\n1,%d,%d,0,%d,%d,present,active,,,,,", f, f, f, f)
	}
	s.expect("GET", "/books/p0/show/fragments?format=csv", "", 200, fragments)
	for path, row := range map[string]string{"show/domains-upgrade": "\n1,2,1,0,1,1,8,0,0,1,0,0,0,0\n", "show/domains-fault": "\n0,1,1,1,0,1,4,1,0,0,1,0,0,0\n"} {
		if _, text := s.ask("GET", "/books/p0/"+path+"?format=csv", ""); !strings.Contains(text, row) {
			t.Errorf("%s lacks %q: %s", path, row, text)
		}
	}
	_, text := s.ask("GET", "/books/p0/show/health?now=1", "")
	if !strings.Contains(text, `"rows":[{"reason":"margin_2","count":1,"first":[1]},{"reason":"waiting","count":1,"first":[1,2]}]}`) {
		t.Error(text)
	}
}

func TestTablesAreThoseOfShow(t *testing.T) {
	s := newService(t, nil)
	for _, line := range []string{"place6 1", "fail 1", "lease 1 1", "drain 2", "down 3"} {
		s.call(line)
	}
	homes := "home_0,home_1,home_2,home_3,home_4,home_5,home_6,home_7,home_8,home_9,home_10,home_11,home_12,home_13,home_14,home_15"
	for path, want := range map[string]string{
		"show/stripes": "stripe,code,level,margin,missing,missing_fragments,homeless,homeless_fragments," + homes +
			"\n1,narrow,risk,2,0x000a,1 3,0x0002,1,0:0,-,2:0,3:0,4:0,5:0,6:0,7:0,8:0,9:0,,,,,,",
		"stripes/1": "stripe,code,level,margin,missing,missing_fragments,homeless,homeless_fragments," + homes +
			"\n1,narrow,risk,2,0x000a,1 3,0x0002,1,0:0,-,2:0,3:0,4:0,5:0,6:0,7:0,8:0,9:0,,,,,,",
		"show/health": "reason,count,first\nmargin_2,1,1\nwaiting,1,1 2",
		// (60 slots are free on the 17 nodes: three wide stripes and twelve fragments, or six narrow ones)
		"show/capacity": "code,stripes,fragment,not_active,offline,full,fault_domain,upgrade_domain,free_slots" +
			"\nwide,3,12,2,1,17,0,0,12\nnarrow,6,0,2,1,17,0,0,0",
		"show/leases": "stripe,fragment,holder,target,epoch,expiry\n1,1,1,11:0,1,3",
		"show/work":   "stripe,fragment,kind,sources,reads,standing,holder,epoch\n1,1,local,0 2 6,3,leased,1,1\n1,2,move,,1,open,,",
		"may-stop?node=0&node=6": "stripe,code,level_before,margin_before,level_after,margin_after,missing_after,missing_fragments_after,leases_ended,harmed" +
			"\n1,narrow,risk,2,risk,0,0x004b,0 1 3 6,0,no",
		"may-lose?node=0&fault=6&upgrade=2": "stripe,code,level_before,margin_before,level_after,margin_after,missing_after,missing_fragments_after,leases_ended,harmed" +
			"\n1,narrow,risk,2,lost,-,0x004f,0 1 2 3 6,0,yes",
	} {
		separator := "?"
		if strings.Contains(path, "?") {
			separator = "&"
		}
		answer := s.expect("GET", "/books/p0/"+path+separator+"format=csv", "", 200, want)
		if kind := answer.Header.Get("Content-Type"); kind != "text/csv; charset=utf-8" {
			t.Error(kind)
		}
	}
	_, text := s.ask("GET", "/books/p0/may-lose?node=0&node=6&upgrade=2", "")
	if !strings.Contains(text, `"safe":false,"rows":[{"stripe":1,"code":"narrow","level_before":"risk","margin_before":2,"level_after":"lost","margin_after":null,`) {
		t.Error(text)
	}
	_, text = s.ask("GET", "/books/p0/peek?command=lease+1+2&session=2", "")
	if !strings.Contains(text, `"n":5,`) || !strings.Contains(text, `"reply":"granted 1 2 12:0 epoch 1 move"`) {
		t.Error(text)
	}
	_, text = s.ask("GET", "/books/p0/show/capacity", "")
	if !strings.Contains(text, `"rows":[{"code":"wide","stripes":3,"fragment":12,"not_active":2,"offline":1,"full":17,"fault_domain":0,"upgrade_domain":0,"free_slots":12},`) {
		t.Error(text)
	}
	s.expect("GET", "/books/p0/nodes", "", 200, strings.TrimSuffix(nodes(4), "\n"))
	_, text = s.ask("GET", "/books/p0/image", "")
	if !strings.HasPrefix(text, "image 1\nbefore 5\nclock 0\n") || !strings.HasSuffix(text, "\nend\n") {
		t.Error(text)
	}
}

func TestABookBeginsInAnImage(t *testing.T) {
	s := newService(t, nil)
	s.call("place 1")
	_, image := s.ask("GET", "/books/p0/image", "")
	body, err := json.Marshal(map[string]string{"nodes": nodes(4), "image": image})
	if err != nil {
		t.Fatal(err)
	}
	s.expect("PUT", "/books/p1", string(body), 200, `{"n":1,"opens":3072}`)
	s.expect("PUT", "/books/p1", string(body), 200, `{"n":1,"opens":3072,"again":true}`)
	_, again := s.ask("GET", "/books/p1/image", "")
	if again != image {
		t.Error(again)
	}
	s.expect("PUT", "/books/p1/nodes", nodes(5), 200, `{"n":1,"opens":5120}`)
	s.refused("GET", "/books/p1/log?from=0", "", 410, "the entries up to number 1 are forgotten")
	_, text := s.ask("GET", "/books", "")
	if !strings.Contains(text, `"books":[{"name":"p0","n":1,"opens":1024},{"name":"p1","n":1,"opens":5120}]`) {
		t.Error(text)
	}
}

// lines reads a stream.
func (s *service) lines(path string) (next func() callResponse, end func()) {
	s.t.Helper()
	ctx, cancel := context.WithTimeout(context.Background(), 20*time.Second)
	r, err := http.NewRequestWithContext(ctx, "GET", s.url+path, nil)
	if err != nil {
		s.t.Fatal(err)
	}
	answer, err := http.DefaultClient.Do(r)
	if err != nil || answer.StatusCode != 200 {
		s.t.Fatal(answer, err)
	}
	reader := bufio.NewReader(answer.Body)
	return func() (entry callResponse) {
		line, err := reader.ReadBytes('\n')
		if err == nil {
			err = json.Unmarshal(line, &entry)
		}
		if err != nil {
			s.t.Fatal(string(line), err)
		}
		return entry
	}, func() { cancel(); answer.Body.Close() }
}

func TestALogIsAStream(t *testing.T) {
	s := newService(t, nil)
	for i := 0; i < ofStream+10; i++ {
		s.call("tick")
	}
	next, end := s.lines("/books/p0/log?from=5&follow=1")
	defer end()
	for n := uint64(6); n <= ofStream+10; n++ {
		if entry := next(); entry.Made != n || entry.Command != "tick" || entry.Session != 1 || entry.Reply != fmt.Sprintf("ticked %d 0", n) {
			t.Fatalf("%+v", entry)
		}
	}
	s.call("place 1")
	if entry := next(); entry.Made != ofStream+11 || entry.Command != "place 1" || len(entry.Seats) != book.Fragments {
		t.Fatalf("%+v", entry)
	}
	_, text := s.ask("GET", fmt.Sprintf("/books/p0/log?from=%d", ofStream+9), "")
	if strings.Count(text, "\n") != 2 {
		t.Error(text)
	}
}

// An entry whose reply has no text ends a stream with a line that says so; those before it are there.
func TestAStreamTellsWhatHasNoText(t *testing.T) {
	written := httptest.NewRecorder()
	tick := book.Entry{Session: 1, Command: book.Command{Kind: book.Tick}, Reply: book.Reply{Kind: book.Ticked, Clock: 1}}
	wrong := tick
	wrong.Reply.Detail = 1
	(&logs{}).stream(&request{w: written}, 7, part{rows: []book.Entry{tick, wrong, tick}})
	lines := strings.Split(written.Body.String(), "\n")
	if len(lines) != 3 || !strings.HasPrefix(lines[0], `{"n":8,"session":1,"command":"tick","reply":"ticked 1 0",`) ||
		!strings.HasPrefix(lines[1], `{"status":500,"code":"fault",`) {
		t.Errorf("%q", lines)
	}
}

func TestOpenStreamsAreLimited(t *testing.T) {
	s := newService(t, nil)
	for i := 0; i < mostStreams; i++ {
		_, end := s.lines("/books/p0/log?follow=1")
		defer end()
	}
	s.refused("GET", "/books/p0/log?follow=1", "", 429, "64 streams are open already")
}

func TestNobodyKnowsIsToldOrTriedAgain(t *testing.T) {
	s := newService(t, nil)
	lost := func(times int, isMade bool, err error) {
		s.engine.Change(func(e *testengine.Local) {
			e.Wrong = func([]byte) (bool, error) {
				if times--; times >= 0 {
					return isMade, err
				}
				return true, nil
			}
		})
	}
	lost(2, true, engine.ErrOutcomeUnknown) // it was made, and the word of it is lost: with a key it is asked for again
	s.expect("POST", "/books/p0/call", `{"command":"tick","key":"a"}`, 200, `{"n":1,"opens":1024,"reply":"ticked 1 0","kind":"ticked","clock":1,"ended":0,"again":true}`)
	lost(2, false, engine.ErrOutcomeUnknown)
	s.expect("POST", "/books/p0/call", `{"command":"tick","key":"b"}`, 200, `{"n":2,"opens":1024,"reply":"ticked 2 0","kind":"ticked","clock":2,"ended":0}`)
	lost(1, true, engine.ErrOutcomeUnknown) // without a key its caller gets 504
	s.expect("POST", "/books/p0/call", `{"command":"tick"}`, 504, `{"status":504,"code":"outcome_unknown","error":"the outcome is unknown","maybe":true}`)
	s.expect("POST", "/books/p0/call", `{"command":"tick"}`, 200, `{"n":4,"opens":1024,"reply":"ticked 4 0","kind":"ticked","clock":4,"ended":0}`)
	lost(2, false, engine.ErrNoLeader) // nothing was made: it is tried again in any case
	s.expect("POST", "/books/p0/call", `{"command":"tick"}`, 200, `{"n":5,"opens":1024,"reply":"ticked 5 0","kind":"ticked","clock":5,"ended":0}`)
	lost(1000000, false, engine.ErrNoLeader)
	answer, text := s.ask("POST", "/books/p0/call", `{"command":"tick"}`)
	for tries := 0; answer.StatusCode == 504 && tries < 20; tries++ { // (it was just being proposed when its time was over)
		answer, text = s.ask("POST", "/books/p0/call", `{"command":"tick"}`)
	}
	if answer.StatusCode != 503 || !strings.Contains(text, "there is no leader") {
		t.Error(answer.StatusCode, text)
	}

	proposals := 0
	s.engine.Change(func(e *testengine.Local) {
		e.Wrong = func([]byte) (bool, error) {
			if proposals++; proposals == 1 {
				return true, engine.ErrOutcomeUnknown
			}
			return false, engine.ErrNoLeader
		}
	}) // the first proposal was made, so to find no leader later on does not mean that nothing was changed
	s.refused("POST", "/books/p0/call", `{"command":"tick","key":"c"}`, 504, "the outcome is unknown")
}

func TestABookIsRemoved(t *testing.T) {
	s := newService(t, nil)
	s.call("tick")
	s.expect("POST", "/books/p0/call", `{"command":"tick","key":"k"}`, 200,
		`{"n":2,"opens":1024,"reply":"ticked 2 0","kind":"ticked","clock":2,"ended":0}`)
	next, end := s.lines("/books/p0/log?follow=1&from=1")
	defer end()
	if entry := next(); entry.Made != 2 {
		t.Errorf("%+v", entry)
	}
	s.refused("DELETE", "/books/p0", `{"at":1,"opens":1024}`, 409, "the book stands at 2")
	s.expect("DELETE", "/books/p0", `{"at":2,"opens":1024}`, 200, `{"n":2,"opens":1024}`)
	if entry := next(); entry.Made != 0 || entry.Command != "" {
		t.Errorf("the stream goes on: %+v", entry)
	}
	s.refused("GET", "/books/p0", "", 404, "there is no such book")
	s.refused("DELETE", "/books/p0", `{"at":2,"opens":1024}`, 404, "there is no book p0")
	s.expect("PUT", "/books/p0", nodes(5), 200, `{"n":0,"opens":7168}`) // other nodes: nothing of the old one is left
	s.expect("POST", "/books/p0/call", `{"command":"tick","key":"k"}`, 200,
		`{"n":1,"opens":7168,"reply":"ticked 1 0","kind":"ticked","clock":1,"ended":0}`)
}

func TestNoStreamGoesOnInABookOfTheSameName(t *testing.T) {
	s := newService(t, nil)
	s.call("tick")
	l := &logs{state: s.state}
	before, err := l.entries("p0", 0)
	if err != nil || len(before.rows) != 1 {
		t.Fatalf("%+v, %v", before, err)
	}
	if _, err := l.follow("p0", before, 1); err != nil {
		t.Error(err)
	}
	s.expect("DELETE", "/books/p0", `{"at":1,"opens":1024}`, 200, `{"n":1,"opens":1024}`)
	s.expect("PUT", "/books/p0", nodes(5), 200, `{"n":0,"opens":4096}`)
	if _, err := l.follow("p0", before, 1); err != state.ErrNoBook {
		t.Error(err)
	}
}

func TestTheGroupGoesToOtherRulesAndAnotherForm(t *testing.T) {
	s := newService(t, nil)
	now := fmt.Sprintf(`{"program":%[1]d,"group":%[1]d,"form":2,"saved":false}`, book.Rules())
	s.expect("GET", "/rules", "", 200, now)
	s.refused("PUT", "/rules", `{}`, 400, `the field "rules" or "form" has to be`)
	s.refused("PUT", "/rules", `{"rules":2,"form":300}`, 400, "there is no form 300")
	s.expect("PUT", "/rules", `{"rules":2,"form":3}`, 200,
		fmt.Sprintf(`{"program":%[1]d,"group":%[1]d,"form":2,"next":2,"next_form":3,"saved":false}`, book.Rules()))
	s.refused("POST", "/books/p0/call", `{"command":"tick"}`, 503, "the group goes from rules 1 to rules 2 in form 3")
	s.expect("PUT", "/rules", fmt.Sprintf(`{"rules":%d}`, book.Rules()), 200, now)
	s.refused("POST", "/books/p0/call", `{"command":"nothing"}`, 400, "not a command")
}

func TestVersionAndMembers(t *testing.T) {
	s := newService(t, nil)
	s.engine.Change(func(e *testengine.Local) { e.Members = []engine.Member{{ID: 1, Peer: "h:1", Client: "h:2"}} })
	s.expect("GET", "/members", "", 200, `{"members":[{"id":1,"peer":"h:1","client":"h:2","leader":true}]}`)
	s.expect("PUT", "/members/2", `{"peer":"i:1","client":"i:2"}`, 200,
		`{"members":[{"id":1,"peer":"h:1","client":"h:2","leader":true},{"id":2,"peer":"i:1","client":"i:2","leader":false}]}`)
	s.expect("PUT", "/members/3", `{"peer":"j:1","client":"j:2","learner":true}`, 200,
		`{"members":[{"id":1,"peer":"h:1","client":"h:2","leader":true},{"id":2,"peer":"i:1","client":"i:2","leader":false},`+
			`{"id":3,"peer":"j:1","client":"j:2","learner":true,"leader":false}]}`)
	again := `{"id":2,"peer":"i:1","client":"i:2","leader":false},{"id":3,"peer":"j:1","client":"j:2","learner":true,"leader":false}],"again":true}`
	for _, it := range [][]string{{"PUT", "/members/2", `{"peer":"i:1","client":"i:2"}`}, {"DELETE", "/members/7", ""}, {"DELETE", "/members/8?force=1", ""}} {
		s.expect(it[0], it[1], it[2], 200, `{"members":[{"id":1,"peer":"h:1","client":"h:2","leader":true},`+again)
	}
	s.engine.Change(func(e *testengine.Local) { e.Leader = 3 })
	s.expect("PUT", "/members/4", `{"peer":"k:1","client":"k:2"}`, 503,
		`{"status":503,"code":"not_leader","error":"member 3 leads, and is to be asked for this: j:2","leader":"j:2"}`)
	s.engine.Change(func(e *testengine.Local) { e.Leader = 1 })
	s.expect("PUT", "/members/8?force=1", `{"peer":"k:1","client":"k:2"}`, 200, `{"members":[{"id":1,"peer":"h:1","client":"h:2","leader":true},`+
		strings.Replace(again, `],"again":true}`, `,{"id":8,"peer":"k:1","client":"k:2","leader":false}]}`, 1))
	_, text := s.ask("GET", "/version", "")
	if !strings.HasPrefix(text, fmt.Sprintf(`{"service":1,"version":"","commit":"","form":2,"interface":%d,"rules":%d,"go":"go1`, book.Interface(), book.Rules())) {
		t.Error(text)
	}
	_, text = s.ask("GET", "/status", "")
	if !strings.Contains(text, `"id":1,"leader":1,`) || !strings.Contains(text, `"refused":{"503":1}`) {
		t.Error(text)
	}
}

func TestABackupIsSentWholeOrBreaksOff(t *testing.T) {
	s := newService(t, nil)
	s.call("tick")
	if answer := s.expect("GET", "/backup", "", 200, "books"); answer.Header.Get("Lrcmand-Index") != "2" {
		t.Errorf("%v", answer.Header)
	}
	s.engine.Change(func(e *testengine.Local) { e.Silent = engine.ErrNoLeader })
	s.refused("GET", "/backup", "", 503, "there is no leader")
	answer, err := http.Get(s.url + "/backup?now=0") // (it can't be written whole)
	if err == nil {
		defer answer.Body.Close()
		_, err = io.ReadAll(answer.Body)
	}
	if err == nil {
		t.Error("a backup that is not whole looks as if it were")
	}
	var fail *failure
	if err := (&group{backups: make(chan struct{})}).backup(nil); !errors.As(err, &fail) || fail.Status != http.StatusTooManyRequests {
		t.Errorf("%v", err)
	}
}

func TestWhatIsNotTakenIsToldAsTooMany(t *testing.T) {
	if fail := failureOf(replica.ErrFull); fail.Status != http.StatusTooManyRequests || fail.Words != "too many requests wait" {
		t.Errorf("%+v", fail)
	}
}

func FuzzCall(f *testing.F) {
	for _, text := range []string{`{"command":"tick"}`, `{"session":8,"command":"done 4095 15 4294967295","key":"k","since":7,"worker":"w","at":1,"opens":2}`,
		`{"command":"place 4096"}`, `{"session":256,"command":"next"}`, `{"command":"next","key":null}`, `[]`, `{"a":{"b":[1e999]}}`, "{\"command\":\"\x00\"}",
		`{"COMMAND":"tick"}`, `{"command":"tick","command":"next"}`} {
		f.Add([]byte(text))
	}
	f.Fuzz(func(t *testing.T, text []byte) {
		asked, err := callOf(text, "p0")
		item := asked.item
		if err != nil {
			if fail := failureOf(err); fail.Status != http.StatusBadRequest || fail.Words == "" {
				t.Errorf("%q: %+v", text, fail)
			}
			return
		}
		if item.Session < 1 || item.Session > book.Sessions || len(item.Key) > mostName || len(item.Worker) > mostName {
			t.Errorf("%q: %+v", text, item)
		}
		again, err := book.Parse(item.Command.String())
		if err != nil || !reflect.DeepEqual(again, item.Command) {
			t.Errorf("%q: %v %v", text, item.Command, err)
		}
	})
}
