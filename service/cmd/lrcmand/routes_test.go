package main

import (
	"bytes"
	"context"
	"fmt"
	"net/http/httptest"
	"os"
	"reflect"
	"regexp"
	"sort"
	"strings"
	"testing"
	"time"

	"lrcman/service/book"
	"lrcman/service/internal/ctl"
	"lrcman/service/internal/httpapi"
	"lrcman/service/internal/logging"
	"lrcman/service/internal/metrics"
	"lrcman/service/internal/replica"
	"lrcman/service/internal/state"
	"lrcman/service/internal/testengine"
)

var (
	tokens = map[string]string{"look": "lookslookslookslooks", "work": "worksworksworksworks", "place": "placesplacesplaces",
		"operate": "operatesoperatesoperates"}
	rights = map[string]httpapi.Role{"none": httpapi.Nobody, "look": httpapi.Look, "work": httpapi.Work, "place": httpapi.Place,
		"operate": httpapi.Operate}
)

// newAPI is what a member answers, page and metrics too, over an engine without a disk.
func newAPI(t *testing.T) (*httpapi.API, *monitoring) {
	t.Helper()
	lines := ""
	for role, token := range tokens {
		lines += fmt.Sprintf("%s %s\n", role, token)
	}
	granted, err := httpapi.ReadRights(strings.NewReader(lines))
	if err != nil {
		t.Fatal(err)
	}
	books := state.New()
	e := testengine.New(books)
	ctx, stop := context.WithCancel(context.Background())
	r := replica.New(replica.Config{Engine: e, State: books, Timeout: time.Second, Log: logging.Nowhere()})
	go r.Run(ctx)
	monitoring := newMonitoring(e, books, metrics.Sources{})
	t.Cleanup(func() { stop(); monitoring.stop() })
	return httpapi.New(httpapi.Config{Engine: e, State: books, Replica: r, Rights: granted, Timeout: time.Second,
		Mounts: monitoring.mounts(), Observe: monitoring.metrics.Observe}), monitoring
}

// rightsOf are those of roles, as the page has them.
var rightsOf = map[string]httpapi.Role{"look": httpapi.Look, "work": httpapi.Look | httpapi.Work, "place": httpapi.Look | httpapi.Place,
	"operate": httpapi.Look | httpapi.Work | httpapi.Place | httpapi.Operate}

// A row is a request of the page: its path has the names of patterns.
type row struct {
	method, path string
	role         httpapi.Role
	parameters   string
}

var names = strings.NewReplacer("NAME", "{book}", "ID", "{id}", "TABLE", "{view}", "/S", "/{stripe}")

// rowsOf are the requests of the table of docs/SERVICE.md.
func rowsOf(t *testing.T) []row {
	t.Helper()
	text, err := os.ReadFile("../../../docs/SERVICE.md")
	if err != nil {
		t.Fatal(err)
	}
	_, part, _ := strings.Cut(string(text), "\n| Request | Does | Role |\n|---|---|---|\n")
	part, _, _ = strings.Cut(part, "\n\n")
	var rows []row
	for _, line := range strings.Split(part, "\n") {
		cells := strings.Split(line, " | ")
		role := httpapi.Nobody
		for _, word := range strings.Split(strings.TrimSuffix(cells[len(cells)-1], " |"), ", ") {
			right, isRight := rights[word]
			if len(cells) != 3 || !isRight {
				t.Fatalf("this row is not read: %s", line)
			}
			role |= right
		}
		for _, request := range regexp.MustCompile("`([A-Z]+) ([^?`]*)([^`]*)`").FindAllStringSubmatch(cells[0], -1) {
			var parameters []string
			for _, it := range regexp.MustCompile(`[?&](\w+)=`).FindAllStringSubmatch(request[3], -1) {
				parameters = append(parameters, it[1])
			}
			rows = append(rows, row{request[1], names.Replace(request[2]), role, strings.Join(parameters, " ")})
		}
	}
	return rows
}

// Each request of the page is a route with its role and its parameters, and each route is on the page.
func TestThePageHasEachRoute(t *testing.T) {
	api, _ := newAPI(t)
	routes, seen := map[string]httpapi.Route{}, map[string]bool{}
	for _, route := range api.Routes() {
		if routes[route.Method+" "+route.Pattern].Pattern != "" {
			t.Errorf("%s %s is there twice", route.Method, route.Pattern)
		}
		routes[route.Method+" "+route.Pattern] = route
	}
	for _, row := range rowsOf(t) {
		name := row.method + " " + row.path
		route, isThere := routes[name]
		if !isThere {
			t.Errorf("the page has %s, and there is no such route", name)
			continue
		}
		seen[name] = true
		if route.Role != row.role {
			t.Errorf("%s takes the role %v, and on the page %v", name, route.Role, row.role)
		}
		for _, parameter := range strings.Fields(row.parameters) {
			if !strings.Contains(" "+route.Query+" ", " "+parameter+" ") {
				t.Errorf("%s does not take the parameter %s of the page", name, parameter)
			}
		}
	}
	for name := range routes {
		if !seen[name] {
			t.Errorf("the page lacks %s", name)
		}
	}
}

// ask asks for a route with the token of a role, if it has one, and returns the status. Streams end at once.
func ask(api *httpapi.API, method, path, role string) int {
	ctx, cancel := context.WithTimeout(context.Background(), 100*time.Millisecond)
	defer cancel()
	r := httptest.NewRequest(method, path, nil).WithContext(ctx)
	if role != "none" {
		r.Header.Set("Authorization", "Bearer "+tokens[role])
	}
	recorder := httptest.NewRecorder()
	api.ServeHTTP(recorder, r)
	return recorder.Code
}

// Each request of the page has its path as its label in the metrics, with the names of tables filled in, and there is no other
// label but that of what is no route. The roles of the page are those that it takes.
func TestEachRouteIsALabelOfTheMetrics(t *testing.T) {
	api, monitoring := newAPI(t)
	want := map[string]bool{httpapi.Other: true}
	for _, row := range rowsOf(t) {
		for _, view := range append([]string{"none"}, book.Views...) {
			if label := strings.Replace(row.path, "{view}", view, 1); !strings.HasSuffix(label, "/none") {
				want[label] = true
			}
			path := strings.NewReplacer("{book}", "p0", "{id}", "7", "{stripe}", "1", "{view}", view).Replace(row.path)
			for _, role := range []string{"none", "look", "work", "place", "operate"} {
				may := row.role&rightsOf[role] != 0 || row.role == httpapi.Nobody
				if status := ask(api, row.method, path, role); may == (status == 401 || status == 403) || status == 405 {
					t.Errorf("%s %s as %s: %d", row.method, path, role, status)
				}
			}
			if !strings.Contains(row.path, "{view}") {
				break
			}
		}
	}
	got := map[string]bool{}
	families, err := monitoring.metrics.Registry().Gather()
	if err != nil {
		t.Fatal(err)
	}
	for _, family := range families {
		for _, metric := range family.Metric {
			for _, pair := range metric.Label {
				if pair.GetName() == "route" {
					got[pair.GetValue()] = true
				}
			}
		}
	}
	if !reflect.DeepEqual(got, want) {
		t.Errorf("labels %v, and routes %v", sorted(got), sorted(want))
	}
}

func sorted(set map[string]bool) (words []string) {
	for word := range set {
		words = append(words, word)
	}
	sort.Strings(words)
	return words
}

// The page and the help of ctl name each table.
func TestEachTableIsNamed(t *testing.T) {
	page, err := os.ReadFile("../../../docs/SERVICE.md")
	if err != nil {
		t.Fatal(err)
	}
	_, row, _ := strings.Cut(string(page), "\n| `GET /books/NAME/show/TABLE` |")
	row, _, _ = strings.Cut(row, "\n")
	var help bytes.Buffer
	ctl.Main([]string{"--help"}, &help, &help)
	_, what, _ := strings.Cut(help.String(), "WHAT: ")
	what, _, _ = strings.Cut(what, " or workers")
	words := map[string]bool{}
	for _, word := range strings.Split(what, ",") {
		words[strings.Join(strings.Fields(word), "-")] = true
	}
	for _, view := range book.Views {
		if !strings.Contains(row, "`"+view+"`") || !words[view] {
			t.Errorf("%s is not named in %s, or in %s", view, row, what)
		}
	}
	if len(words) != len(book.Views) {
		t.Errorf("other tables are named: %s", what)
	}
}
