package page

import (
	"bufio"
	"encoding/json"
	"fmt"
	"io"
	"net/http"
	"net/http/httptest"
	"regexp"
	"strings"
	"testing"
	"time"

	"lrcman/service/internal/engine"
	"lrcman/service/internal/httpapi"
	"lrcman/service/internal/state"
	"lrcman/service/internal/survey"
	"lrcman/service/internal/survey/recorded"
)

var states = []string{"quiet", "rack", "upgrade", "harm", "most"}

func load(t *testing.T, names ...string) recorded.Books {
	t.Helper()
	all := recorded.Books{}
	for _, name := range names {
		b, err := recorded.Load(name)
		if err != nil {
			t.Fatal(err)
		}
		all[name] = b
	}
	return all
}

func status() engine.Status {
	return engine.Status{ID: 2, Leader: 1, Term: 7, Commit: 900, Applied: 890, Snapshot: 800, First: 700,
		Members: []engine.Member{{ID: 1, Peer: "h1:7422", Client: "h1:7421"}, {ID: 2, Peer: "h2:7422", Client: "h2:7421"},
			{ID: 3, Peer: "h3:7422", Client: "h3:7421"}}}
}

func pageOf(books survey.Books) *Page {
	watcher := survey.NewWatcher(books, time.Now)
	watcher.Step()
	return New(Sources{Watcher: watcher, Status: status, Done: make(chan struct{})})
}

func serve(t *testing.T, p *Page) *httptest.Server {
	t.Helper()
	mux := http.NewServeMux()
	mux.HandleFunc("/", p.Page)
	mux.HandleFunc("/events", p.Events)
	server := httptest.NewServer(mux)
	t.Cleanup(server.Close)
	return server
}

// open begins a stream, and returns its events one by one.
func open(t *testing.T, url string) (next func() (map[string]interface{}, error), stop func()) {
	t.Helper()
	answer, err := http.Get(url)
	if err != nil {
		t.Fatal(err)
	}
	if answer.StatusCode != 200 || answer.Header.Get("Content-Type") != "text/event-stream" {
		t.Fatalf("%s: status %d, type %s", url, answer.StatusCode, answer.Header.Get("Content-Type"))
	}
	lines := bufio.NewReader(answer.Body)
	return func() (map[string]interface{}, error) {
		for {
			line, err := lines.ReadString('\n')
			if err != nil {
				return nil, err
			}
			if text := strings.TrimPrefix(line, "data: "); text != line {
				event := map[string]interface{}{}
				return event, json.Unmarshal([]byte(text), &event)
			}
		}
	}, func() { answer.Body.Close() }
}

func TestThePageAsksNobodyElse(t *testing.T) {
	recorder := httptest.NewRecorder()
	pageOf(load(t)).Page(recorder, httptest.NewRequest("GET", "/", nil))
	text, policy := recorder.Body.String(), recorder.Header().Get("Content-Security-Policy")
	for _, wanted := range []string{"default-src 'none'", "script-src 'sha256-", "style-src 'sha256-", "connect-src 'self'", "frame-ancestors 'none'"} {
		if !strings.Contains(policy, wanted) {
			t.Errorf("the policy lacks %s: %s", wanted, policy)
		}
	}
	if strings.Contains(policy, "unsafe") {
		t.Errorf("the policy allows too much: %s", policy)
	}
	for _, address := range regexp.MustCompile(`(?:https?:)?//[a-z][a-z0-9.]+\.[a-z]+[^\s'"]*`).FindAllString(text, -1) {
		if address != "http://www.w3.org/2000/svg" { // (a name, which nobody asks for)
			t.Errorf("the page names %s", address)
		}
	}
	if found := regexp.MustCompile(`innerHTML|outerHTML|insertAdjacentHTML|document\.write|eval\(|[^-]style=| on[a-z]+="`).FindString(text); found != "" {
		t.Errorf("the page has %q", found)
	}
	if strings.Count(text, "<script>") != 1 || strings.Count(text, "<style>") != 1 {
		t.Error("the policy knows one script and one style")
	}
}

// Each region has a name, and each field a label; a screen reader needs them.
func TestPartsOfThePageHaveNames(t *testing.T) {
	text := string(page)
	for _, match := range regexp.MustCompile(`aria-labelledby="([^"]+)"|<label for="([^"]+)"`).FindAllStringSubmatch(text, -1) {
		if name := match[1] + match[2]; strings.Count(text, `id="`+name+`"`) != 1 {
			t.Errorf("a name is that of no part: %s", name)
		}
	}
	for _, part := range regexp.MustCompile(`<section[^>]*>`).FindAllString(text, -1) {
		if !strings.Contains(part, "aria-labelledby") && part != `<section class="wide">` { // (which is there without JavaScript only)
			t.Errorf("a section without a name: %s", part)
		}
	}
	for _, field := range regexp.MustCompile(`<(?:input|select) id="([^"]+)"`).FindAllStringSubmatch(text, -1) {
		if !strings.Contains(text, `<label for="`+field[1]+`"`) {
			t.Errorf("a field without a label: %s", field[1])
		}
	}
	for _, wanted := range []string{`<html lang="en">`, "<main ", "<header>", "<h1>", `class="skip" href="#main"`, "prefers-color-scheme: dark", "<noscript>"} {
		if !strings.Contains(text, wanted) {
			t.Errorf("the page lacks %s", wanted)
		}
	}
}

func TestThePageCanOnlyBeRead(t *testing.T) {
	for method, status := range map[string]int{"GET": 200, "HEAD": 200, "POST": 405, "DELETE": 405} {
		recorder := httptest.NewRecorder()
		pageOf(load(t)).Page(recorder, httptest.NewRequest(method, "/", nil))
		if recorder.Code != status {
			t.Errorf("%s: status %d", method, recorder.Code)
		}
	}
}

func number(t *testing.T, event map[string]interface{}, path ...string) int {
	t.Helper()
	value := interface{}(event)
	for _, name := range path {
		object, ok := value.(map[string]interface{})
		if !ok {
			t.Fatalf("the event has no %v", path)
		}
		value = object[name]
	}
	found, ok := value.(float64)
	if !ok {
		t.Fatalf("the event's %v is %v", path, value)
	}
	return int(found)
}

func TestAnEventHasTheNumbersOfTheModel(t *testing.T) {
	books := load(t, states...)
	server := serve(t, pageOf(books))
	for name, b := range books {
		next, stop := open(t, server.URL+"/events?book="+name)
		event, err := next()
		if err != nil {
			t.Fatal(err)
		}
		stop()
		for row, path := range map[string][]string{"stripes": {"stripes", "all"}, "whole": {"stripes", "whole"}, "lost": {"stripes", "lost"},
			"unavailable": {"stripes", "unavailable"}, "entries": {"n"}, "clock": {"clock"}} {
			if got := number(t, event, path...); got != b.Value(row) {
				t.Errorf("%s: %s is %d, and the model has %d", name, row, got, b.Value(row))
			}
		}
		rows := event["capacity"].(map[string]interface{})["rows"].([]interface{})
		for i, line := range strings.Split(strings.TrimSpace(b.Room), "\n")[1:] {
			row, cells := rows[i].(map[string]interface{}), strings.Split(line, ",")
			if row["code"] != cells[0] || fmt.Sprint(row["stripes"]) != cells[1] || fmt.Sprint(row["free_slots"]) != cells[8] {
				t.Errorf("%s: the capacity is %v, and the model has %s", name, row, line)
			}
		}
		if at := number(t, event, "capacity", "n"); at != b.Value("entries") || len(rows) != 2 {
			t.Errorf("%s: the capacity is of entry %d, with %d rows", name, at, len(rows))
		}
		if nodes := event["nodes"].([]interface{}); len(nodes) != len(b.Nodes) {
			t.Errorf("%s: %d nodes, and the model has %d", name, len(nodes), len(b.Nodes))
		}
		if leases := event["leases"].([]interface{}); len(leases) != len(b.Leases) {
			t.Errorf("%s: %d leases, and the model has %d", name, len(leases), len(b.Leases))
		}
		if at := number(t, event, "member", "applied"); at != 890 || len(event["books"].([]interface{})) != len(states) {
			t.Errorf("%s: member %v, books %v", name, event["member"], event["books"])
		}
	}
}

func TestAnEventComesOnlyAfterAChange(t *testing.T) {
	books := load(t, "rack")
	books["rack"].Show(90)
	server := serve(t, pageOf(books))
	next, stop := open(t, server.URL+"/events?book=rack")
	defer stop()
	if first, err := next(); err != nil || number(t, first, "n") != 90 {
		t.Fatalf("the first event: %v, %v", first, err)
	}
	begin := time.Now()
	time.AfterFunc(2500*time.Millisecond, func() { books["rack"].Show(91) })
	second, err := next()
	if err != nil || number(t, second, "n") != 91 {
		t.Fatalf("the second event: %v", err)
	}
	if waited := time.Since(begin); waited < 2400*time.Millisecond || waited > time.Minute {
		t.Errorf("it came after %v", waited)
	}
}

// differing are books of which this member has none that it may show.
type differing struct{ recorded.Books }

func (differing) Look(string, func(survey.View) error) error { return state.ErrDiffers }

func TestABookThatDiffersIsNotShown(t *testing.T) {
	server := serve(t, pageOf(differing{load(t, "quiet")}))
	answer, err := http.Get(server.URL + "/events?book=quiet")
	if err != nil {
		t.Fatal(err)
	}
	defer answer.Body.Close()
	text, err := io.ReadAll(answer.Body)
	if err != nil || answer.StatusCode != 503 || !strings.Contains(string(text), `"code":"differs"`) {
		t.Errorf("%d %s, %v", answer.StatusCode, text, err)
	}
}

func TestBadRequestsAreRefused(t *testing.T) {
	server := serve(t, pageOf(load(t, "quiet")))
	for path, status := range map[string]int{"/events?book=p9": 404, "/events?bok=quiet": 400, "/events?book=quiet&book=quiet": 400,
		"/events?book=%3Cscript%3E": 404} {
		answer, err := http.Get(server.URL + path)
		if err != nil {
			t.Fatal(err)
		}
		text, _ := io.ReadAll(answer.Body)
		answer.Body.Close()
		var words struct {
			Status int
			Error  string
		}
		if err := json.Unmarshal(text, &words); err != nil || answer.StatusCode != status || words.Status != status || words.Error == "" {
			t.Errorf("%s: status %d, %s", path, answer.StatusCode, text)
		}
		if strings.Contains(string(text), "<script>") {
			t.Errorf("%s is answered with markup: %s", path, text)
		}
	}
}

func TestThereAreOnlySoManyStreams(t *testing.T) {
	p := pageOf(load(t, "quiet"))
	server := serve(t, p)
	stops := []func(){}
	for i := 0; i < mostStreams; i++ {
		next, stop := open(t, server.URL+"/events")
		if _, err := next(); err != nil {
			t.Fatal(err)
		}
		stops = append(stops, stop)
	}
	answer, err := http.Get(server.URL + "/events")
	if err != nil || answer.StatusCode != http.StatusTooManyRequests || !answer.Close || answer.Header.Get("Retry-After") != "1" {
		t.Fatalf("one stream too many: %v, %v", answer, err)
	}
	answer.Body.Close()
	for _, stop := range stops {
		stop()
	}
	for begin := time.Now(); len(p.streams) > 0; time.Sleep(10 * time.Millisecond) {
		if time.Since(begin) > time.Minute {
			t.Fatalf("%d streams are open though their clients have gone", len(p.streams))
		}
	}
}

func TestStreamsEndWithTheServer(t *testing.T) {
	done := make(chan struct{})
	p := pageOf(load(t, "quiet"))
	p.Done = done
	next, stop := open(t, serve(t, p).URL+"/events")
	defer stop()
	if _, err := next(); err != nil {
		t.Fatal(err)
	}
	close(done)
	if event, err := next(); err != io.EOF {
		t.Errorf("after the end came %v, %v", event, err)
	}
}

func TestWithoutABookAnEventTellsOfTheGroup(t *testing.T) {
	books := load(t)
	next, stop := open(t, serve(t, pageOf(books)).URL+"/events")
	defer stop()
	event, err := next()
	if err != nil || event["book"] != nil || number(t, event, "member", "id") != 2 {
		t.Errorf("%v, %v", event, err)
	}
}

func TestLongListsAreCut(t *testing.T) {
	report := &survey.Report{Book: "p0", Risks: make([]survey.Risk, 777), Leases: make([]survey.Lease, 201)}
	shown := pageOf(load(t)).bookEvent(report)
	if len(shown.Risks) != 200 || shown.RisksMore != 577 || len(shown.Leases) != 200 || shown.LeasesMore != 1 {
		t.Errorf("%d and %d, %d and %d", len(shown.Risks), shown.RisksMore, len(shown.Leases), shown.LeasesMore)
	}
}

func TestTheOldestLeaseStandsFirst(t *testing.T) {
	now := time.Now()
	sorted := oldest([]survey.Lease{{Stripe: 1, Ticks: 0, Since: now}, {Stripe: 2, Ticks: 1, Since: now}, {Stripe: 3, Ticks: 1, Since: now.Add(-time.Minute)}})
	if sorted[0].Stripe != 3 || sorted[1].Stripe != 2 || sorted[2].Stripe != 1 {
		t.Errorf("%v", sorted)
	}
}

// What is kept of a book that was looked at goes with the book.
func TestABookThatIsRemovedIsForgotten(t *testing.T) {
	all, scope := load(t, "quiet", "rack"), httpapi.ScopeOf(httptest.NewRequest("GET", "/events", nil))
	p := pageOf(all)
	for _, name := range []string{"quiet", "rack"} {
		if _, err := p.text(name, scope); err != nil {
			t.Fatal(err)
		}
	}
	delete(all, "rack")
	p.Watcher.Step()
	p.cached["quiet "+scope.String()].made = time.Time{}
	if _, err := p.text("quiet", scope); err != nil {
		t.Fatal(err)
	}
	if len(p.cached) != 1 {
		t.Errorf("%d events are kept", len(p.cached))
	}
}
