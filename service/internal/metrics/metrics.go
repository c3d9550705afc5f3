// Package metrics tells Prometheus how a member, its group and its books fare.
//
// What is told of books comes from a survey.Watcher, and is collected when it is asked for. What is told of requests is counted
// by Observe. Labels have few values: a book, a level, a node's mode, a domain, a command, a refusal, a route; never a stripe, a
// node or a worker.
package metrics

import (
	"fmt"
	"net/http"
	"sort"
	"strconv"
	"strings"
	"sync"
	"time"

	"github.com/prometheus/client_golang/prometheus"
	"github.com/prometheus/client_golang/prometheus/collectors"
	"github.com/prometheus/client_golang/prometheus/promhttp"

	"lrcman/service/book"
	"lrcman/service/internal/engine"
	"lrcman/service/internal/httpapi"
	"lrcman/service/internal/survey"
)

// Sources are what metrics are made of.
type Sources struct {
	Watcher *survey.Watcher
	Status  func() engine.Status
	Folder  string // of the snapshots; "": nothing is told of them
	Version string
	Commit  string
	Refusal func(uint8) string // the word for a refusal
	// What is nil is not told.
	Disk         func() Disk
	Certificates map[string]string // the files of certificates, by the options that name them
	Differs      func() []string   // the books in which this member is not what most others are
	Waiting      func() int        // requests that wait for an entry
}

// Metrics are those of one member.
type Metrics struct {
	from     Sources
	registry *prometheus.Registry // of all but the group and its books
	scrapes  chan struct{}
	requests *prometheus.CounterVec
	duration *prometheus.HistogramVec
	calls    *prometheus.HistogramVec
	names    func() []string
	mu       sync.Mutex
	called   map[string]bool // the books that have a histogram of calls
}

var seconds = []float64{.001, .002, .005, .01, .02, .05, .1, .2, .5, 1, 2, 5, 10}

// New makes metrics.
func New(from Sources) *Metrics {
	m := &Metrics{
		from: from, names: from.Watcher.Names, called: map[string]bool{}, registry: prometheus.NewRegistry(),
		scrapes: make(chan struct{}, mostScrapes),
		requests: prometheus.NewCounterVec(prometheus.CounterOpts{Name: "lrcmand_http_requests_total",
			Help: "Requests that were answered, by route and status."}, []string{"route", "status"}),
		duration: prometheus.NewHistogramVec(prometheus.HistogramOpts{Name: "lrcmand_http_request_duration_seconds",
			Help: "How long requests took, but for streams.", Buckets: seconds}, []string{"route"}),
		calls: prometheus.NewHistogramVec(prometheus.HistogramOpts{Name: "lrcmand_call_duration_seconds",
			Help: "How long calls took that were answered with 200, which is after a majority had them on disk.", Buckets: seconds},
			[]string{"book"}),
	}
	build := prometheus.NewGauge(prometheus.GaugeOpts{Name: "lrcmand_build_info", Help: "Versions of program, interface and rules.",
		ConstLabels: prometheus.Labels{"version": from.Version, "commit": from.Commit, "interface": number(book.Interface()),
			"rules": number(book.Rules())}})
	build.Set(1)
	m.registry.MustRegister(m.requests, m.duration, m.calls, build, collectors.NewGoCollector(),
		collectors.NewProcessCollector(collectors.ProcessCollectorOpts{}))
	return m
}

func number(n uint32) string { return strconv.FormatUint(uint64(n), 10) }

// mostScrapes is how many scrapes are answered at once.
const mostScrapes = 4

// Handler answers with the metrics as they are: those of all books, or of the ones that the parameter books names.
func (m *Metrics) Handler() http.Handler {
	return http.HandlerFunc(func(w http.ResponseWriter, r *http.Request) {
		select {
		case m.scrapes <- struct{}{}:
			defer func() { <-m.scrapes }()
		default:
			w.Header().Set("Content-Type", "application/json")
			w.Header().Set("Retry-After", "1")
			w.WriteHeader(http.StatusServiceUnavailable)
			fmt.Fprintf(w, `{"status":503,"code":"busy","error":"%d scrapes are under way already"}`+"\n", mostScrapes)
			return
		}
		m.forgetRemoved()
		var only []string
		if names := r.URL.Query().Get("books"); names != "" {
			only = strings.Split(names, ",")
		}
		promhttp.HandlerFor(m.of(only), promhttp.HandlerOpts{EnableOpenMetrics: true}).ServeHTTP(w, r)
	})
}

// of has the metrics with these books, or with all where there is no name.
func (m *Metrics) of(only []string) prometheus.Gatherer {
	books := prometheus.NewRegistry()
	books.MustRegister(&collector{m.from, only})
	return prometheus.Gatherers{m.registry, books}
}

// forgetRemoved drops the histograms of books that were removed: else they would be told for ever.
func (m *Metrics) forgetRemoved() {
	there := map[string]bool{}
	for _, name := range m.names() {
		there[name] = true
	}
	m.mu.Lock()
	defer m.mu.Unlock()
	for name := range m.called {
		if !there[name] {
			m.calls.DeleteLabelValues(name)
			delete(m.called, name)
		}
	}
}

// noteCall notes how long a call of a book took.
func (m *Metrics) noteCall(name string, took time.Duration) {
	m.calls.WithLabelValues(name).Observe(took.Seconds())
	m.mu.Lock()
	defer m.mu.Unlock()
	m.called[name] = true
}

// Registry has all metrics.
func (m *Metrics) Registry() prometheus.Gatherer { return m.of(nil) }

// ConnectionsOf adds metrics of the connections at the port for clients. It is called before the metrics are told.
func (m *Metrics) ConnectionsOf(counts func() httpapi.ConnectionCounts) {
	m.registry.MustRegister(&connections{counts})
}

// A collector makes the metrics of the group and of books when they are asked for.
type collector struct {
	Sources
	only []string // the books that are told; none: all are
}

func desc(name, help string, labels ...string) *prometheus.Desc {
	return prometheus.NewDesc("lrcmand_"+name, help, labels, nil)
}

// The metrics of this member and its group.
var (
	leaderDesc   = desc("raft_leader", "Number of the leader that this member knows; 0: none.")
	isLeaderDesc = desc("raft_is_leader", "1 if this member is the leader.")
	membersDesc  = desc("raft_members", "Members of the group.")
	termDesc     = desc("raft_term", "Term of Raft.")
	commitDesc   = desc("raft_committed_index", "Last entry of the log that this member knows a majority has.")
	appliedDesc  = desc("raft_applied_index", "Last entry of the log that this member has applied.")
	snapDesc     = desc("raft_snapshot_index", "Last entry of the log in the newest snapshot.")
	firstDesc    = desc("raft_first_index", "First entry of the log that this member still has.")
	writtenDesc  = desc("snapshot_timestamp_seconds", "When the newest snapshot was written; absent before the first.")
	brokenDesc   = desc("snapshots_broken", "Snapshots that could not be read and were set aside, with names that end with .broken.")
	booksDesc    = desc("books", "Books.")
	differDesc   = desc("books_that_differ", "Books in which this member is not what most other members are.")
	waitingDesc  = desc("requests_waiting", "Requests that wait to be taken into an entry.")
	freeDesc     = desc("disk_free_bytes", "Room on the disk of this member; absent where its file system does not tell.")
	reserveDesc  = desc("disk_reserve_bytes", "Room below which this member takes no changes.")
	readOnlyDesc = desc("disk_read_only", "1 if this member takes no changes for lack of room.")
	expiryDesc   = desc("certificate_expiry_timestamp_seconds", "When the first certificate of a file expires, by the option that names it.",
		"file")
)

// The metrics of a book.
var (
	entriesDesc  = desc("entries_total", "Entries of the book.", "book")
	clockDesc    = desc("ticks_total", "Ticks of the book's clock.", "book")
	commandsDesc = desc("commands_total", "Commands applied since this member began, by command and reply.", "book", "command", "reply")
	refusalsDesc = desc("refusals_total", "Commands that the rules refused since this member began.", "book", "refusal", "name")
	expiredDesc  = desc("leases_expired_total", "Leases that ended by a tick since this member began.", "book")
	missedDesc   = desc("commands_unseen_total", "Commands that the book forgot before they were counted.", "book")
	stripesDesc  = desc("stripes", "Stripes, by level and by how many further losses they survive.", "book", "level", "margin")
	missingDesc  = desc("missing_fragments", "Fragments without a home on an online node.", "book")
	homelessDesc = desc("homeless_fragments", "Fragments without any home.", "book")
	workDesc     = desc("work_fragments", "Fragments that need a lease, by standing.", "book", "standing")
	leasesDesc   = desc("leases", "Live leases, by age in ticks. A lease ends at the third.", "book", "age_ticks")
	oldestDesc   = desc("lease_oldest_seconds", "Time since the oldest live lease was granted, or first seen; 0: no lease.", "book")
	nodesDesc    = desc("nodes", "Nodes, by mode.", "book", "mode")
	downDesc     = desc("nodes_down", "Nodes that are reported down.", "book")
	onlineDesc   = desc("nodes_online", "Nodes that are online.", "book")
	seatsDesc    = desc("domain_held_seats", "Homes and targets in a fault or upgrade domain.", "book", "kind", "domain")
	slotsDesc    = desc("domain_slots", "Slots of the nodes in a fault or upgrade domain.", "book", "kind", "domain")
	healthDesc   = desc("health", "What the table of health counts, by reason; of a book in which all is well the reason ok, with 0.",
		"book", "reason")
	healthAtDesc  = desc("health_entries", "Entries of the book when its health was made.", "book")
	upgradingDesc = desc("upgrading", "1 if an upgrade domain is upgrading.", "book")
	costDesc      = desc("survey_duration_seconds", "How long the last survey of the book took.", "book")
)

var descs = []*prometheus.Desc{leaderDesc, isLeaderDesc, membersDesc, termDesc, commitDesc, appliedDesc, snapDesc, firstDesc,
	writtenDesc, brokenDesc, booksDesc, differDesc, waitingDesc, freeDesc, reserveDesc, readOnlyDesc, expiryDesc,
	entriesDesc, clockDesc, commandsDesc, refusalsDesc, expiredDesc, missedDesc, stripesDesc, missingDesc, homelessDesc,
	workDesc, leasesDesc, oldestDesc, nodesDesc, downDesc, onlineDesc, seatsDesc, slotsDesc, healthDesc, healthAtDesc, upgradingDesc,
	costDesc}

// Describe tells which metrics there are.
func (c *collector) Describe(to chan<- *prometheus.Desc) {
	for _, desc := range descs {
		to <- desc
	}
}

// A teller sends metrics; of a book, with its name as the first label.
type teller struct {
	to     chan<- prometheus.Metric
	labels []string
}

func (t teller) tell(desc *prometheus.Desc, kind prometheus.ValueType, value float64, labels ...string) {
	t.to <- prometheus.MustNewConstMetric(desc, kind, value, append(t.labels[:len(t.labels):len(t.labels)], labels...)...)
}

func (t teller) gauge(desc *prometheus.Desc, value float64, labels ...string) {
	t.tell(desc, prometheus.GaugeValue, value, labels...)
}

func (t teller) counter(desc *prometheus.Desc, value uint64, labels ...string) {
	t.tell(desc, prometheus.CounterValue, float64(value), labels...)
}

// Collect makes the metrics.
func (c *collector) Collect(to chan<- prometheus.Metric) {
	c.group(teller{to, nil})
	c.member(teller{to, nil})
	reports := c.survey(to)
	for _, report := range needy(reports, mostDomains) {
		domains(teller{to, []string{report.Book}}, report.Nodes)
	}
}

// What is done and told of books at once.
const (
	surveyors   = 4  // books that are surveyed
	mostDomains = 16 // books whose domains are told: there may be hundreds of them in each
)

// survey tells of each book, and returns the reports of those that are there.
func (c *collector) survey(to chan<- prometheus.Metric) (reports []*survey.Report) {
	names := make(chan string)
	var all sync.WaitGroup
	var mu sync.Mutex
	for i := 0; i < surveyors; i++ {
		all.Add(1)
		go func() {
			defer all.Done()
			for name := range names {
				if report := c.book(teller{to, []string{name}}, name); report != nil {
					mu.Lock()
					reports = append(reports, report)
					mu.Unlock()
				}
			}
		}()
	}
	for _, name := range c.toTell() {
		names <- name
	}
	close(names)
	all.Wait()
	return reports
}

// toTell are the books that are told of.
func (c *collector) toTell() []string {
	if len(c.only) == 0 {
		return c.Watcher.Names()
	}
	asked, found := map[string]bool{}, []string{}
	for _, name := range c.only {
		asked[name] = true
	}
	for _, name := range c.Watcher.Names() {
		if asked[name] {
			found = append(found, name)
		}
	}
	return found
}

// needy are the books that need attention most: by what is lost, then by what is unavailable, and so on.
func needy(reports []*survey.Report, most int) []*survey.Report {
	sort.Slice(reports, func(i, j int) bool {
		a, b := needs(reports[i]), needs(reports[j])
		for k := range a {
			if a[k] != b[k] {
				return a[k] > b[k]
			}
		}
		return reports[i].Book < reports[j].Book
	})
	if len(reports) > most {
		reports = reports[:most]
	}
	return reports
}

func needs(r *survey.Report) [7]int {
	s := r.Stripes
	return [7]int{s.Lost, s.Unavailable, s.AtRisk[0], s.AtRisk[1], s.AtRisk[2], s.Missing, r.Work.All()}
}

func (c *collector) book(t teller, name string) *survey.Report {
	report, err := c.Watcher.Report(name)
	if err != nil {
		return nil // (the other books are still told)
	}
	counts(t, c.Watcher.Counts(name), c.Refusal)
	health(t, c.Watcher.Known(name))
	stand(t, report)
	t.gauge(costDesc, c.Watcher.Cost(name).Seconds())
	return report
}

func (c *collector) group(t teller) {
	status := c.Status()
	t.gauge(leaderDesc, float64(status.Leader))
	t.gauge(isLeaderDesc, one(status.Leader != 0 && status.Leader == status.ID))
	t.gauge(membersDesc, float64(len(status.Members)))
	t.gauge(termDesc, float64(status.Term))
	t.gauge(commitDesc, float64(status.Commit))
	t.gauge(appliedDesc, float64(status.Applied))
	t.gauge(snapDesc, float64(status.Snapshot))
	t.gauge(firstDesc, float64(status.First))
	t.gauge(booksDesc, float64(len(c.Watcher.Names())))
}

func one(is bool) float64 {
	if is {
		return 1
	}
	return 0
}

func counts(t teller, counts survey.Counts, word func(uint8) string) {
	for cause, count := range counts.Commands {
		t.counter(commandsDesc, count, cause.Command, cause.Reply)
	}
	for refusal, count := range counts.Refusals {
		t.counter(refusalsDesc, count, number(uint32(refusal)), word(refusal))
	}
	t.counter(expiredDesc, counts.Expired)
	t.counter(missedDesc, counts.Missed)
}

// health is told once it was made: the reasons that hold.
func health(t teller, known *survey.Health) {
	if known == nil {
		return
	}
	t.gauge(healthAtDesc, float64(known.N))
	for _, row := range known.Reasons {
		t.gauge(healthDesc, float64(row.Count), row.Reason)
	}
}

func stand(t teller, r *survey.Report) {
	t.counter(entriesDesc, r.N)
	t.counter(clockDesc, uint64(r.Clock))
	t.gauge(stripesDesc, float64(r.Stripes.Whole), "whole", "3")
	for margin, count := range r.Stripes.AtRisk {
		t.gauge(stripesDesc, float64(count), "risk", strconv.Itoa(margin))
	}
	t.gauge(stripesDesc, float64(r.Stripes.Unavailable), "unavailable", "-")
	t.gauge(stripesDesc, float64(r.Stripes.Lost), "lost", "-")
	t.gauge(missingDesc, float64(r.Stripes.Missing))
	t.gauge(homelessDesc, float64(r.Stripes.Homeless))
	t.gauge(workDesc, float64(r.Work.Leased), "leased")
	t.gauge(workDesc, float64(r.Work.Open), "open")
	t.gauge(workDesc, float64(r.Work.NoNode), "no_node")
	t.gauge(workDesc, float64(r.Work.Unrecoverable), "unrecoverable")
	t.gauge(upgradingDesc, one(r.Upgrading != nil))
	leases(t, r.Leases)
	nodes(t, r.Nodes)
}

func leases(t teller, leases []survey.Lease) {
	ages, oldest := [book.LeaseTicks]int{}, 0.0
	for _, lease := range leases {
		if lease.Ticks < book.LeaseTicks {
			ages[lease.Ticks]++
		}
		if age := time.Since(lease.Since).Seconds(); age > oldest {
			oldest = age
		}
	}
	for ticks, count := range ages {
		t.gauge(leasesDesc, float64(count), strconv.Itoa(ticks))
	}
	t.gauge(oldestDesc, oldest)
}

func nodes(t teller, nodes []survey.Node) {
	modes := map[string]int{"active": 0, "draining": 0, "gone": 0}
	down, online := 0, 0
	for _, node := range nodes {
		modes[node.Mode]++
		if node.Down {
			down++
		}
		if node.Online {
			online++
		}
	}
	for mode, count := range modes {
		t.gauge(nodesDesc, float64(count), mode)
	}
	t.gauge(downDesc, float64(down))
	t.gauge(onlineDesc, float64(online))
}

type domain struct {
	kind   string
	number uint8
}

func domains(t teller, nodes []survey.Node) {
	seats, slots := map[domain]int{}, map[domain]int{}
	for _, node := range nodes {
		for _, in := range []domain{{"fault", node.Fault}, {"upgrade", node.Upgrade}} {
			seats[in] += int(node.Load)
			slots[in] += int(node.Slots)
		}
	}
	for in, count := range slots {
		t.gauge(seatsDesc, float64(seats[in]), in.kind, number(uint32(in.number)))
		t.gauge(slotsDesc, float64(count), in.kind, number(uint32(in.number)))
	}
}
