package main

import (
	"bytes"
	"encoding/json"
	"errors"
	"fmt"
	"net/http"
	"net/http/httptest"
	"path/filepath"
	"reflect"
	"strings"
	"testing"
	"time"

	"lrcman/service/client"
)

// A fakeBook replies as it is told, and notes what it is asked.
type fakeBook struct {
	replies map[string][]string // by the first word of a command; the last one again and again
	recipes map[string]string   // by the missing fragments of the question; one that is not there is undetermined
	isSafe  bool
	work    string            // rows of the table
	peeks   map[string]string // by command; one that is not there is refused
	targets []int             // of node 8, of each question; the last one again and again
	asked   []string
	faults  []string // of calls, each before it is replied to: a status and a code
	keys    []string // key and since of each call as it came

	positions []string // at and opens of each call
}

func (f *fakeBook) ServeHTTP(w http.ResponseWriter, r *http.Request) {
	switch path := r.URL.Path; {
	case strings.HasSuffix(path, "/call"):
		f.call(w, r)
	case strings.HasSuffix(path, "/recipe"):
		missing := strings.Join(r.URL.Query()["missing"], " ")
		f.asked = append(f.asked, "recipe "+missing)
		if rows := f.recipes[missing]; rows != "" {
			fmt.Fprintf(w, `{"rows":[%s]}`, rows)
			return
		}
		w.WriteHeader(http.StatusConflict)
		fmt.Fprint(w, `{"status":409,"error":"no recipe","code":"undetermined"}`)
	case strings.HasSuffix(path, "/may-lose"):
		fmt.Fprintf(w, `{"safe":%v}`, f.isSafe)
	case strings.HasSuffix(path, "/show/work"):
		fmt.Fprintf(w, `{"rows":[%s]}`, f.work)
	case strings.HasSuffix(path, "/show/nodes"):
		fmt.Fprintf(w, `{"rows":[{"node":7,"targets":0},{"node":8,"targets":%d}]}`, f.targets[0])
		if len(f.targets) > 1 {
			f.targets = f.targets[1:]
		}
	case strings.HasSuffix(path, "/peek"):
		command := r.URL.Query().Get("command")
		f.asked = append(f.asked, "peek "+command)
		if f.peeks[command] == "" {
			fmt.Fprint(w, refused(noLawfulNode))
			return
		}
		fmt.Fprint(w, f.peeks[command])
	case path == "/status":
		fmt.Fprint(w, `{"applied":7}`)
	case path == "/matrix":
		fmt.Fprint(w, `{"rows":[]}`)
	default:
		fmt.Fprint(w, `{"rows":[{"stripe":1,"code":"wide","home_0":"7:0","home_1":"7:1","home_2":"7:2","home_3":"7:3"}]}`)
	}
}

func (f *fakeBook) call(w http.ResponseWriter, r *http.Request) {
	var body struct {
		Command, Worker, Key string
		Since, At, Opens     uint64
	}
	if json.NewDecoder(r.Body).Decode(&body) != nil {
		w.WriteHeader(http.StatusBadRequest)
	}
	f.keys = append(f.keys, fmt.Sprint(body.Key, " ", body.Since))
	f.positions = append(f.positions, fmt.Sprint(body.At, " ", body.Opens))
	fault := ""
	if len(f.faults) > 0 {
		fault, f.faults = f.faults[0], f.faults[1:]
	}
	if fault != "" {
		status, code := 0, ""
		fmt.Sscan(fault, &status, &code)
		w.WriteHeader(status)
		fmt.Fprintf(w, `{"status":%d,"error":"words","code":"%s"}`, status, code)
		return
	}
	f.asked = append(f.asked, body.Command)
	replies := f.replies[strings.Fields(body.Command)[0]]
	if len(replies) > 1 {
		f.replies[strings.Fields(body.Command)[0]] = replies[1:]
	}
	fmt.Fprint(w, strings.Replace(replies[0], "{", fmt.Sprintf(`{"n":%d,`, body.At+1), 1))
}

const (
	ended   = `{"reply":"ended","kind":"ended"}`
	changed = `{"reply":"changed","kind":"changed"}`
)

func refused(number int) string {
	return fmt.Sprintf(`{"reply":"refused %d","kind":"refused","refusal":%d}`, number, number)
}

// newTest has node 7 with the fragments 0, 1 and 2 of stripe 1, node 8 as a target, and node 9, which does not answer.
func newTest(t *testing.T, book *fakeBook) (*Book, *Nodes) {
	t.Helper()
	cluster := &Cluster{Book: "p0", Nodes: []Node{{9, "127.0.0.1:1"}}}
	for _, number := range []int{7, 8} {
		server := httptest.NewServer(open(t, t.TempDir()))
		t.Cleanup(server.Close)
		cluster.Nodes = append(cluster.Nodes, Node{number, strings.TrimPrefix(server.URL, "http://")})
	}
	server := httptest.NewServer(book)
	t.Cleanup(server.Close)
	cluster.Servers = []string{strings.TrimPrefix(server.URL, "http://")}
	nodes := newNodes(cluster, limitOfNodes)
	for fragment := 0; fragment < 3; fragment++ {
		if err := nodes.Write(7, Name{1, fragment, 0}, full(1<<fragment)); err != nil {
			t.Fatal(err)
		}
	}
	asked, err := newBook(cluster)
	if err != nil {
		t.Fatal(err)
	}
	return asked, nodes
}

// lease is one of fragment 3 of stripe 1.
func lease(target uint16, epoch uint32) *client.Grant {
	return &client.Grant{Stripe: 1, Fragment: 3, Target: client.Seat{Node: target}, Epoch: epoch}
}

func source(fragment, coefficient int) string {
	return fmt.Sprintf(`{"fragment":%d,"coefficient":%d,"home":"7:%d"}`, fragment, coefficient, fragment)
}

func TestAWorkerReportsWhatItWrote(t *testing.T) {
	two := source(0, 1) + "," + source(1, 1) // the sum of 1 and 2
	for _, it := range []struct {
		name    string
		target  uint16
		done    []string
		recipes map[string]string
		asked   []string
		isDone  bool
		want    byte // what is on the target afterwards; 0: nothing
	}{
		{"well", 8, []string{ended}, map[string]string{"": two}, []string{"recipe ", "done 1 3 2"}, true, 3},
		{"a source is not there", 8, []string{ended}, map[string]string{"": two + "," + source(5, 1), "5": two},
			[]string{"recipe ", "recipe 5", "done 1 3 2"}, true, 3},
		{"two times 2", 8, []string{ended}, map[string]string{"": source(1, 2)}, []string{"recipe ", "done 1 3 2"}, true, 4},
		{"the lease has ended", 8, []string{refused(113)}, map[string]string{"": two}, []string{"recipe ", "done 1 3 2"}, false, 0},
		{"another worker has it", 8, []string{refused(notHolder)}, map[string]string{"": two}, []string{"recipe ", "done 1 3 2"}, false,
			3},
		{"the target is offline for a while", 8, []string{refused(targetOffline), ended}, map[string]string{"": two},
			[]string{"recipe ", "done 1 3 2", "done 1 3 2"}, true, 3},
		{"undetermined", 8, nil, nil, []string{"recipe "}, false, 0},
		{"the target does not answer", 9, nil, map[string]string{"": two}, []string{"recipe ", "abandon 1 3 2"}, false, 0},
	} {
		fake := &fakeBook{replies: map[string][]string{"done": it.done, "abandon": {ended}}, recipes: it.recipes}
		book, nodes := newTest(t, fake)
		w := worker{"w", book, nodes, choice{}}
		done, err := w.repair(lease(it.target, 2), nil)
		text, _ := nodes.Read(8, 1, 3)
		isRight := it.want == 0 && text == nil || it.want != 0 && bytes.Equal(text, full(it.want))
		if !isRight || err != nil || done.isDone != it.isDone || !reflect.DeepEqual(fake.asked, it.asked) {
			t.Errorf("%s: %.3v is there, %+v %v, asked %q", it.name, text, done, err, fake.asked)
		}
	}
}

func TestALateWorkerLeavesWhatIsNewer(t *testing.T) {
	fake := &fakeBook{recipes: map[string]string{"": source(0, 1)}}
	book, nodes := newTest(t, fake)
	if err := nodes.Write(8, Name{1, 3, 5}, full(9)); err != nil {
		t.Fatal(err)
	}
	done, err := (&worker{"w", book, nodes, choice{}}).repair(lease(8, 4), nil)
	if text, _ := nodes.Read(8, 1, 3); !bytes.Equal(text, full(9)) || done.isDone || err != nil || len(fake.asked) != 1 {
		t.Errorf("%.3v %+v %v %q", text, done, err, fake.asked)
	}
}

// A report that nobody tells of is asked again by its key. Where the key is forgotten, it may have been made: then the bytes are at
// home there, and have to stay. A second report would be refused as if the lease had ended.
func TestAReportThatNobodyTellsOf(t *testing.T) {
	for _, it := range []struct {
		name   string
		faults []string
		isDone bool
		isKept bool
	}{
		{"is asked again by its key", []string{"504 outcome_unknown", "503 no_leader", "504 outcome_unknown"}, true, true},
		{"may be made, and its key is forgotten", []string{"504 outcome_unknown", "409 key_forgotten"}, false, true},
		{"is not made, and its key may be forgotten", []string{"503 no_leader", "409 key_forgotten"}, true, true},
		{"is refused before it is made", []string{"404 no_book"}, false, true},
	} {
		fake := &fakeBook{replies: map[string][]string{"done": {ended}}, recipes: map[string]string{"": source(0, 1)}, faults: it.faults}
		book, nodes := newTest(t, fake)
		done, err := (&worker{"w", book, nodes, choice{}}).repair(lease(8, 4), nil)
		var forgotten *client.KeyForgotten
		if errors.As(err, &forgotten) != strings.HasPrefix(it.name, "may be made") || done.isDone != it.isDone {
			t.Errorf("%s: %+v %v", it.name, done, err)
		}
		for _, key := range fake.keys {
			isRenewed := strings.HasPrefix(it.name, "is not made")
			if key != fake.keys[0] && !isRenewed || len(key) < 34 {
				t.Errorf("%s: keys %q", it.name, fake.keys)
			}
		}
		if _, err := nodes.Read(8, 1, 3); (err == nil) != it.isKept {
			t.Errorf("%s: what was written: %v", it.name, err)
		}
	}
}

// Also where its client gives up, a command goes on by its key.
func TestACommandGoesOnByItsKey(t *testing.T) {
	fake := &fakeBook{replies: map[string][]string{"next": {`{"reply":"idle","kind":"idle"}`}}}
	for try := 0; try < 60; try++ {
		fake.faults = append(fake.faults, "504 outcome_unknown")
	}
	server := httptest.NewServer(fake)
	defer server.Close()
	asked, err := client.New(client.Config{Servers: []string{server.URL}, Timeout: 20 * time.Millisecond, Pause: 5 * time.Millisecond})
	if err != nil {
		t.Fatal(err)
	}
	reply, err := (&Book{asked, "p0"}).Call("w", "next")
	if err != nil || reply.Kind != client.Idle || len(fake.keys) != 61 {
		t.Errorf("%+v %v, %d tries", reply, err, len(fake.keys))
	}
	for _, key := range fake.keys {
		if key != fake.keys[0] {
			t.Errorf("keys %q", fake.keys)
			break
		}
	}
}

// granted is the reply that leases a fragment of stripe 1.
func TestAMonitorWaitsBeforeItTells(t *testing.T) {
	for _, it := range []struct {
		row     client.Node
		answers int
		isSafe  bool
		want    []string
	}{
		{client.Node{Mode: "active"}, 1, true, nil},
		{client.Node{Mode: "active"}, 1 - missesToDown, true, nil},
		{client.Node{Mode: "active"}, -missesToDown, true, []string{"down 7"}},
		{client.Node{Mode: "draining"}, -missesToDown, true, []string{"down 7"}},
		{client.Node{Mode: "active", Upgrading: true}, -missesToFail, true, nil},
		{client.Node{Mode: "active", Down: true}, 1 - missesToFail, true, nil},
		{client.Node{Mode: "active", Down: true}, -missesToFail, true, []string{"fail 7"}},
		{client.Node{Mode: "active", Down: true}, -missesToFail, false, nil},
		{client.Node{Mode: "active", Down: true}, answersToUp - 1, true, nil},
		{client.Node{Mode: "active", Down: true}, answersToUp, true, []string{"up 7"}},
		{client.Node{Mode: "gone"}, -missesToFail, true, nil},
		{client.Node{Mode: "gone"}, answersToUp, true, []string{"join 7"}},
	} {
		fake := &fakeBook{replies: map[string][]string{"down": {changed}, "up": {changed}, "fail": {changed}, "join": {changed}}}
		fake.isSafe = it.isSafe
		book, nodes := newTest(t, fake)
		it.row.Number = 7
		m := monitor{book, nodes, map[int]int{}}
		if err := m.decide(it.row, it.answers); err != nil || !reflect.DeepEqual(fake.asked, it.want) {
			t.Errorf("%+v %d: %q %v", it.row, it.answers, fake.asked, err)
		}
		if _, err := nodes.Read(7, 1, 0); (err != nil) != (it.want != nil && it.want[0] == "join 7") {
			t.Errorf("%+v %d: what is on the node: %v", it.row, it.answers, err)
		}
	}
}

func TestAMonitorCountsInARow(t *testing.T) {
	m := monitor{answers: map[int]int{}}
	for i, want := range []int{1, 2, -1, -2, 1, -1} {
		if m.count(7, []bool{true, true, false, false, true, false}[i]); m.answers[7] != want {
			t.Errorf("after %d: %d", i+1, m.answers[7])
		}
	}
}

func TestAGatewayUsesNoNumberTwiceAndDropsWhatNobodyWasTold(t *testing.T) {
	folder := filepath.Join(t.TempDir(), "gateway")
	for _, want := range []struct {
		number int
		asked  []string
	}{
		{0, []string{"drop 1"}}, // the book has stripe 1, and no object has it
		{ofReserve, []string{"drop 1"}},
		{2 * ofReserve, nil}, // now an object has it
	} {
		fake := &fakeBook{replies: map[string][]string{"drop": {`{"reply":"dropped","kind":"dropped"}`}}}
		_, nodes := newTest(t, fake)
		g, err := openGateway(nodes.cluster, folder)
		if err != nil {
			t.Fatal(err)
		}
		if number, err := g.number(); number != want.number || err != nil || !reflect.DeepEqual(fake.asked, want.asked) {
			t.Errorf("%d %v %q, and not %+v", number, err, fake.asked, want)
		}
		g.index.Objects["x"] = Object{1, []int{1}}
		if want.number > 0 {
			err = g.save()
		}
		if err != nil {
			t.Fatal(err)
		}
	}
}
