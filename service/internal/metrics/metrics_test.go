package metrics

import (
	"fmt"
	"math"
	"net/http/httptest"
	"os"
	"path/filepath"
	"strings"
	"testing"
	"time"

	"github.com/prometheus/client_golang/prometheus"
	"github.com/prometheus/client_golang/prometheus/testutil"
	dto "github.com/prometheus/client_model/go"

	"lrcman/service/book"
	"lrcman/service/internal/engine"
	"lrcman/service/internal/httpapi"
	"lrcman/service/internal/state"
	"lrcman/service/internal/survey"
	"lrcman/service/internal/survey/recorded"
)

var states = []string{"quiet", "rack", "upgrade", "harm", "most"}

func books(t testing.TB) recorded.Books {
	t.Helper()
	all := recorded.Books{}
	for _, name := range states {
		b, err := recorded.Load(name)
		if err != nil {
			t.Fatal(err)
		}
		all[name] = b
	}
	return all
}

func status() engine.Status {
	return engine.Status{ID: 2, Leader: 1, Term: 7, Commit: 900, Applied: 890, Snapshot: 800, First: 700,
		Members: []engine.Member{{ID: 1}, {ID: 2}, {ID: 3}}}
}

func metricsOf(from survey.Books, folder string) (*Metrics, *survey.Watcher) {
	watcher := survey.NewWatcher(from, time.Now)
	return New(Sources{Watcher: watcher, Status: status, Folder: folder, Version: "0.1", Commit: "abc",
		Refusal: func(refusal uint8) string { return fmt.Sprintf("refusal %d", refusal) }}), watcher
}

// values are the samples of the metrics, as text: NAME{LABEL="VALUE",..}.
func values(t testing.TB, m *Metrics) map[string]float64 {
	t.Helper()
	families, err := m.Registry().Gather()
	if err != nil {
		t.Fatal(err)
	}
	found := map[string]float64{}
	for _, family := range families {
		for _, metric := range family.Metric {
			found[family.GetName()+labelsOf(metric)] = valueOf(metric)
		}
	}
	return found
}

func labelsOf(metric *dto.Metric) string {
	words := []string{}
	for _, pair := range metric.Label {
		words = append(words, fmt.Sprintf("%s=%q", pair.GetName(), pair.GetValue()))
	}
	if len(words) == 0 {
		return ""
	}
	return "{" + strings.Join(words, ",") + "}"
}

func valueOf(metric *dto.Metric) float64 {
	switch {
	case metric.Gauge != nil:
		return metric.Gauge.GetValue()
	case metric.Counter != nil:
		return metric.Counter.GetValue()
	}
	return float64(metric.Histogram.GetSampleCount())
}

func withPrefix(samples map[string]float64, prefix string) (found []string) {
	for sample := range samples {
		if strings.HasPrefix(sample, prefix) {
			found = append(found, sample)
		}
	}
	return found
}

// Health is told once it was made: the reasons of the model that hold, and no others.
func TestHealthIsToldAsTheModelHasIt(t *testing.T) {
	all := books(t)
	m, watcher := metricsOf(all, "")
	if told := withPrefix(values(t, m), "lrcmand_health"); len(told) > 0 {
		t.Errorf("health is told before it was made: %v", told)
	}
	for name, b := range all {
		if _, err := watcher.Health(name); err != nil {
			t.Fatal(err)
		}
		got, want := values(t, m), map[string]int{fmt.Sprintf("lrcmand_health_entries{book=%q}", name): len(b.Lines)}
		for _, row := range b.Reasons {
			want[fmt.Sprintf("lrcmand_health{book=%q,reason=%q}", name, row.Reason)] = row.Count
		}
		for sample, value := range want {
			if have, isThere := got[sample]; !isThere || have != float64(value) {
				t.Errorf("%s is %v, and the model has %d", sample, have, value)
			}
		}
		if told := withPrefix(got, fmt.Sprintf("lrcmand_health{book=%q", name)); len(told) != len(b.Reasons) {
			t.Errorf("%v, and the model has the reasons %v", told, b.Reasons)
		}
	}
}

func TestBooksAreCountedAsTheModelCountsThem(t *testing.T) {
	all := books(t)
	none := recorded.Books{}
	m, watcher := metricsOf(none, "")
	watcher.Step()
	for name, b := range all {
		none[name] = b
	}
	watcher.Step()
	got := values(t, m)
	for name, b := range all {
		want := wantOf(name, b)
		for sample, value := range want {
			if got[sample] != float64(value) {
				t.Errorf("%s is %v, and the model has %d", sample, got[sample], value)
			}
		}
	}
}

// wantOf has what the model says of a book, by sample.
func wantOf(name string, b *recorded.Book) map[string]int {
	want := map[string]int{}
	for label, row := range map[string]string{`level="whole",margin="3"`: "whole", `level="risk",margin="2"`: "at_risk_margin_2",
		`level="risk",margin="1"`: "at_risk_margin_1", `level="risk",margin="0"`: "at_risk_margin_0",
		`level="unavailable",margin="-"`: "unavailable", `level="lost",margin="-"`: "lost"} {
		want[fmt.Sprintf(`lrcmand_stripes{book=%q,%s}`, name, label)] = b.Value(row)
	}
	for _, standing := range []string{"leased", "open", "no_node", "unrecoverable"} {
		want[fmt.Sprintf(`lrcmand_work_fragments{book=%q,standing=%q}`, name, standing)] = b.Standing(standing)
	}
	for _, mode := range []string{"active", "draining", "gone"} {
		want[fmt.Sprintf(`lrcmand_nodes{book=%q,mode=%q}`, name, mode)] = b.Value("nodes_" + mode)
	}
	for metric, row := range map[string]string{"nodes_down": "nodes_down", "nodes_online": "nodes_online", "ticks_total": "clock",
		"entries_total": "entries", "missing_fragments": "missing_fragments", "homeless_fragments": "homeless_fragments"} {
		want[fmt.Sprintf(`lrcmand_%s{book=%q}`, metric, name)] = b.Value(row)
	}
	for cause, count := range b.Counts {
		command, reply, _ := strings.Cut(cause, " ")
		want[fmt.Sprintf(`lrcmand_commands_total{book=%q,command=%q,reply=%q}`, name, command, reply)] = int(count)
	}
	countDomains(want, name, b)
	countLeases(want, name, b)
	countRefusals(want, name, b)
	return want
}

// countDomains has what the model says of each domain, and whether one is upgrading.
func countDomains(want map[string]int, name string, b *recorded.Book) {
	for _, node := range b.Nodes {
		for kind, domain := range map[string]uint8{"fault": node.Fault, "upgrade": node.Upgrade} {
			labels := fmt.Sprintf(`{book=%q,domain="%d",kind=%q}`, name, domain, kind)
			want["lrcmand_domain_held_seats"+labels] += int(node.Load)
			want["lrcmand_domain_slots"+labels] += int(node.Slots)
		}
	}
	want[fmt.Sprintf(`lrcmand_upgrading{book=%q}`, name)] = 0
	if b.Status["upgrading"] != "none" {
		want[fmt.Sprintf(`lrcmand_upgrading{book=%q}`, name)] = 1
	}
}

// countLeases has the leases of the model by their ages.
func countLeases(want map[string]int, name string, b *recorded.Book) {
	for age := uint32(0); age < book.LeaseTicks; age++ {
		want[fmt.Sprintf(`lrcmand_leases{age_ticks="%d",book=%q}`, age, name)] = 0
	}
	for _, lease := range b.Leases {
		want[fmt.Sprintf(`lrcmand_leases{age_ticks="%d",book=%q}`, book.LeaseTicks-(lease.Expiry-uint32(b.Value("clock"))), name)]++
	}
}

// countRefusals has the refusals of the model by their numbers.
func countRefusals(want map[string]int, name string, b *recorded.Book) {
	for _, line := range b.Lines {
		if words := strings.Fields(line.Reply); words[0] == "refused" {
			want[fmt.Sprintf(`lrcmand_refusals_total{book=%q,name="refusal %s",refusal=%q}`, name, words[1], words[1])]++
		}
	}
}

func TestTheAgeOfTheOldestLeaseIsTold(t *testing.T) {
	all, now := make(chan prometheus.Metric, 8), time.Now()
	leases(teller{all, []string{"p0"}}, []survey.Lease{{Since: now.Add(-time.Minute)}, {Since: now.Add(-time.Hour)}, {Since: now}})
	close(all)
	for metric := range all {
		if metric.Desc() != oldestDesc {
			continue
		}
		told := &dto.Metric{}
		if err := metric.Write(told); err != nil || math.Abs(told.Gauge.GetValue()-3600) > 60 {
			t.Errorf("the oldest lease is %v seconds old: %v", told.Gauge.GetValue(), err)
		}
		return
	}
	t.Error("the age of the oldest lease is not told")
}

func TestTheGroupIsTold(t *testing.T) {
	folder := t.TempDir()
	file := filepath.Join(folder, "one.snap")
	if err := os.WriteFile(file, nil, 0o600); err != nil {
		t.Fatal(err)
	}
	hour := time.Now().Add(-time.Hour)
	if err := os.Chtimes(file, hour, hour); err != nil {
		t.Fatal(err)
	}
	m, _ := metricsOf(books(t), folder)
	got := values(t, m)
	want := map[string]float64{"lrcmand_raft_leader": 1, "lrcmand_raft_is_leader": 0, "lrcmand_raft_term": 7, "lrcmand_raft_members": 3,
		"lrcmand_raft_committed_index": 900, "lrcmand_raft_applied_index": 890, "lrcmand_raft_snapshot_index": 800,
		"lrcmand_raft_first_index": 700, "lrcmand_books": float64(len(states))}
	for sample, value := range want {
		if found, ok := got[sample]; !ok || found != value {
			t.Errorf("%s is %v, and should be %v", sample, found, value)
		}
	}
	if written := got["lrcmand_snapshot_timestamp_seconds"]; math.Abs(written-float64(hour.UnixMilli())/1000) > 0.001 {
		t.Errorf("the snapshot was written at %v, and not at %v", written, hour)
	}
	m, _ = metricsOf(books(t), t.TempDir())
	if _, ok := values(t, m)["lrcmand_snapshot_timestamp_seconds"]; ok {
		t.Error("a time without a snapshot")
	}
}

func TestNamesAreThoseOfPrometheus(t *testing.T) {
	m, watcher := metricsOf(books(t), "")
	watcher.Step()
	m.Observe(httpapi.Served{Label: httpapi.Other, Status: 404})
	problems, err := testutil.GatherAndLint(m.Registry())
	if err != nil {
		t.Fatal(err)
	}
	for _, problem := range problems {
		t.Errorf("%s: %s", problem.Metric, problem.Text)
	}
}

// No label has a value of a stripe, a node or a worker.
func TestLabelsAreFew(t *testing.T) {
	all := books(t)
	m, watcher := metricsOf(all, "")
	watcher.Step()
	allowed := map[string]bool{"book": true, "level": true, "margin": true, "standing": true, "mode": true, "kind": true, "domain": true,
		"age_ticks": true, "command": true, "reply": true, "refusal": true, "name": true, "route": true, "status": true, "version": true,
		"interface": true, "rules": true, "commit": true, "file": true, "state": true}
	families, err := m.Registry().Gather()
	if err != nil {
		t.Fatal(err)
	}
	for _, family := range families {
		if !strings.HasPrefix(family.GetName(), "lrcmand_") {
			continue
		}
		for _, metric := range family.Metric {
			for _, pair := range metric.Label {
				if !allowed[pair.GetName()] || strings.Contains(pair.GetValue(), "script>") {
					t.Errorf("%s has label %s=%q", family.GetName(), pair.GetName(), pair.GetValue())
				}
			}
		}
	}
}

func TestRequestsAreCountedByRouteAndStatus(t *testing.T) {
	m, _ := metricsOf(recorded.Books{}, "")
	call, log := "/books/{book}/call", "/books/{book}/log"
	for _, it := range []httpapi.Served{
		{Label: call, Book: "p0", Timing: httpapi.TimedByBook, Status: 200},
		{Label: call, Book: "p1", Timing: httpapi.TimedByBook, Status: 404},
		{Label: log, Book: "p2", Status: 200},
		{Label: log, Book: "p0", Timing: httpapi.NotTimed, Status: 200},
		{Label: "/status", Status: 401},
		{Label: httpapi.Other, Status: 400},
	} {
		m.Observe(it)
	}
	got := values(t, m)
	want := map[string]float64{
		`lrcmand_http_requests_total{route="/books/{book}/call",status="200"}`: 1,
		`lrcmand_http_requests_total{route="/books/{book}/call",status="404"}`: 1,
		`lrcmand_http_requests_total{route="/books/{book}/log",status="200"}`:  2,
		`lrcmand_http_requests_total{route="/status",status="401"}`:            1,
		`lrcmand_http_requests_total{route="other",status="400"}`:              1,
		`lrcmand_call_duration_seconds{book="p0"}`:                             1,
		`lrcmand_http_request_duration_seconds{route="/books/{book}/call"}`:    2,
		`lrcmand_http_request_duration_seconds{route="/books/{book}/log"}`:     1, // (the stream is left out)
	}
	for sample, value := range want {
		if got[sample] != value {
			t.Errorf("%s is %v, and should be %v", sample, got[sample], value)
		}
	}
	for sample := range got {
		if strings.Contains(sample, "p1") || strings.Contains(sample, "p2") {
			t.Errorf("a name that is no book's became a label: %s", sample)
		}
	}
}

// SERVICE.md describes each metric and each alert, and no others.
func TestThePageOfTheServiceDescribesAll(t *testing.T) {
	text, err := os.ReadFile("../../../docs/SERVICE.md")
	if err != nil {
		t.Fatal(err)
	}
	_, part, _ := strings.Cut(string(text), "\n## Metrics\n")
	tables, part, _ := strings.Cut(part, "\n## Alerts\n")
	alertTable, _, _ := strings.Cut(part, "\n## ")
	listed := func(text, first string) map[string]bool {
		found := map[string]bool{}
		for _, line := range strings.Split(text, "\n") {
			if cells := strings.Split(line, "|"); len(cells) > 2 && !strings.HasPrefix(strings.TrimSpace(cells[1]), first) {
				for i, word := range strings.Split(cells[1], "`") {
					if i%2 == 1 {
						found[word] = true
					}
				}
			}
		}
		return found
	}
	told := map[string]bool{}
	for metric := range labelsByMetric(t) {
		if strings.HasPrefix(metric, "lrcmand_") {
			told[strings.TrimPrefix(metric, "lrcmand_")] = true
		}
	}
	same(t, "metric", told, listed(tables, "Metric"))
	named := map[string]bool{}
	for _, rule := range alerts(t) {
		named[strings.TrimPrefix(rule.Alert, "Lrcmand")] = true
	}
	same(t, "alert", named, listed(alertTable, "Alert"))
}

func same(t *testing.T, what string, told, listed map[string]bool) {
	for name := range told {
		if !listed[name] {
			t.Errorf("SERVICE.md does not describe the %s %s", what, name)
		}
	}
	for name := range listed {
		if !told[name] {
			t.Errorf("SERVICE.md describes the %s %s, which there is not", what, name)
		}
	}
}

func TestABookThatIsRemovedIsToldNoMore(t *testing.T) {
	all := recorded.Books{"rack": books(t)["rack"], "harm": books(t)["harm"]}
	m, _ := metricsOf(all, "")
	scraped := func() string {
		recorder := httptest.NewRecorder()
		m.Handler().ServeHTTP(recorder, httptest.NewRequest("GET", "/metrics", nil))
		return recorder.Body.String()
	}
	for name := range all {
		m.Observe(httpapi.Served{Label: "/books/{book}/call", Book: name, Timing: httpapi.TimedByBook, Status: 200})
	}
	count := func() int { return strings.Count(scraped(), "lrcmand_call_duration_seconds_count{") }
	if count() != 2 {
		t.Error("two books that were called")
	}
	delete(all, "rack")
	if text := scraped(); strings.Contains(text, `book="rack"`) || count() != 1 {
		t.Errorf("%.300s", text)
	}
}

func TestTheHandlerAnswersInTextForm(t *testing.T) {
	m, _ := metricsOf(books(t), "")
	recorder := httptest.NewRecorder()
	m.Handler().ServeHTTP(recorder, httptest.NewRequest("GET", "/metrics", nil))
	text := recorder.Body.String()
	if recorder.Code != 200 || !strings.Contains(text, "# TYPE lrcmand_stripes gauge\n") || !strings.Contains(text, `lrcmand_build_info{`) {
		t.Errorf("status %d, %.300s", recorder.Code, text)
	}
}

// scrape makes 64 of the largest books, and asks for metrics again and again.
func scrape(b *testing.B, between func(survey.Books) *Metrics) {
	if !recorded.HasRules() {
		b.Skip("the library is a stand-in without rules")
	}
	s := state.New()
	for i := uint64(1); i <= 64; i++ {
		if err := recorded.Largest(s, i, fmt.Sprintf("p%d", i)); err != nil {
			b.Fatal(err)
		}
	}
	all := survey.OfState(s)
	between(all)
	b.ResetTimer()
	for i := 0; i < b.N; i++ {
		recorder := httptest.NewRecorder()
		between(all).Handler().ServeHTTP(recorder, httptest.NewRequest("GET", "/metrics", nil))
		if recorder.Code != 200 {
			b.Fatal(recorder.Code)
		}
	}
}

// No book has changed since the last scrape.
func BenchmarkScrapeAtRest(b *testing.B) {
	var m *Metrics
	scrape(b, func(all survey.Books) *Metrics {
		if m == nil {
			m, _ = metricsOf(all, "")
			values(b, m)
		}
		return m
	})
}

// All books have changed since the last scrape.
func BenchmarkScrapeAfterChanges(b *testing.B) {
	scrape(b, func(all survey.Books) *Metrics {
		m, _ := metricsOf(all, "")
		return m
	})
}
