package httpapi

import (
	"net/http"
	"strings"
)

// A Route is what a request of a method at a path does. Its pattern is its label in metrics, too.
type Route struct {
	Method  string
	Pattern string // the path; a word of it in braces is a name
	Role    Role   // what may ask: one right of it is enough
	Most    int64  // bytes of its body; what a route without one is sent is not read
	Query   string // the parameters that it takes
	Timing  Timing
	serve   func(*request) error
}

// A Timing tells in which histograms the requests of a route are.
type Timing int

// The timings.
const (
	Timed       Timing = iota // in that of its route
	TimedByBook               // also in that of the calls of its book, if they are answered with 200
	NotTimed                  // in none: they last as long as their clients like
)

// table is what the service answers, but for the mounts of other packages.
func (a *API) table() []Route {
	calls := newCalls(a.cfg.Replica)
	looks := &looks{a.cfg.State, a.cfg.Replica, a.flights}
	group := &group{a.cfg.Engine, a.cfg.State, a.cfg.Replica, a.refused, a.cfg.Checks, a.cfg.Build, make(chan struct{}, mostBackups)}
	rules := &rules{calls, a.cfg.State, a.cfg.Engine}
	logs := &logs{a.cfg.State, make(chan struct{}, mostStreams), a.stop}
	return []Route{
		{"GET", "/health", Nobody, 0, "", Timed, group.health},
		{"GET", "/livez", Nobody, 0, "", Timed, group.live},
		{"GET", "/readyz", Nobody, 0, "", Timed, group.ready},
		{"GET", "/version", Look, 0, "", Timed, group.version},
		{"GET", "/status", Look, 0, "", Timed, group.status},
		{"GET", "/members", Look, 0, "", Timed, group.members},
		{"PUT", "/members/{id}", Operate, mostMember, "force", Timed, group.addMember},
		{"DELETE", "/members/{id}", Operate, 0, "force", Timed, group.removeMember},
		{"POST", "/leader/{id}", Operate, 0, "", Timed, group.lead},
		{"POST", "/snapshot", Operate, 0, "", Timed, group.snapshot},
		{"GET", "/backup", Operate, 0, "now", NotTimed, group.backup},
		{"GET", "/rules", Look, 0, "", Timed, rules.show},
		{"PUT", "/rules", Operate, mostMember, "key since", Timed, rules.change},
		{"GET", "/matrix", Look, 0, "code", Timed, matrix},
		{"GET", "/books", Look, 0, "now from limit", Timed, looks.books},
		{"PUT", "/books/{book}", Operate, mostImage, "key since", Timed, calls.create},
		{"DELETE", "/books/{book}", Operate, mostCall, "key since", Timed, calls.remove},
		{"GET", "/books/{book}", Look, 0, "now", Timed, looks.bookStatus},
		{"GET", "/books/{book}/nodes", Look, 0, "now", Timed, looks.nodes},
		{"PUT", "/books/{book}/nodes", Operate, mostNodes, "key since at opens", Timed, calls.reopen},
		{"GET", "/books/{book}/image", Look, 0, "now", Timed, looks.image},
		{"POST", "/books/{book}/call", Work | Place | Operate, mostCall, "", TimedByBook, calls.call},
		{"GET", "/books/{book}/peek", Look, 0, "now command session", Timed, looks.peek},
		{"GET", "/books/{book}/stripes/{stripe}", Look, 0, "now format", Timed, looks.stripe},
		{"GET", "/books/{book}/show/{view}", Look, 0, "now format", Timed, looks.show},
		{"GET", "/books/{book}/workers", Look, 0, "now", Timed, looks.workers},
		{"GET", "/books/{book}/recipe", Look, 0, "now format stripe fragment missing", Timed, looks.recipe},
		{"GET", "/books/{book}/may-stop", Look, 0, "now format node fault upgrade", Timed, looks.mayStop},
		{"GET", "/books/{book}/may-lose", Look, 0, "now format node fault upgrade", Timed, looks.mayLose},
		{"GET", "/books/{book}/log", Look, 0, "from follow", Timed, logs.answer}, // (a stream if it is followed)
	}
}

// Routes are all that the API answers.
func (a *API) Routes() []Route { return append([]Route(nil), a.routes...) }

// Other is the label of requests at paths of no route.
const Other = "other"

// label is that of a request. Names are not in it, since there may be many, but for that of a table.
func (t *Route) label(names map[string]string) string {
	view, hasView := names["view"]
	switch {
	case !hasView:
		return t.Pattern
	case !isView[view]:
		return Other
	}
	return strings.Replace(t.Pattern, "{view}", view, 1)
}

// match tells whether a path is that of the route. (It asks for no memory: each request is held against many routes)
func (t *Route) match(path string) bool {
	wanted := t.Pattern[1:]
	for {
		word, rest, isLonger := strings.Cut(path, "/")
		want, wantRest, wantsLonger := strings.Cut(wanted, "/")
		if isLonger != wantsLonger || want != word && !strings.HasPrefix(want, "{") {
			return false
		}
		if !isLonger {
			return true
		}
		path, wanted = rest, wantRest
	}
}

// names are those of a path that matches.
func (t *Route) names(path string) map[string]string {
	names, wanted := map[string]string{}, t.Pattern[1:]
	for isLonger := true; isLonger; {
		var word, want string
		word, path, isLonger = strings.Cut(path, "/")
		want, wanted, _ = strings.Cut(wanted, "/")
		if strings.HasPrefix(want, "{") {
			names[want[1:len(want)-1]] = word
		}
	}
	return names
}

// lastWord is what stands behind the last slash. (It tells most routes apart, so few paths are looked at word by word)
func lastWord(path string) string { return path[strings.LastIndexByte(path, '/')+1:] }

// A target is what a request is for: its route, or why there is none.
type target struct {
	route  *Route
	label  string // in metrics
	timing Timing
	names  map[string]string // of the path
	err    error
}

// onWatch are the paths of the port for health and metrics.
var onWatch = map[string]bool{"/health": true, "/livez": true, "/readyz": true, "/metrics": true}

// find is what a request is for. One of another method than its path takes is counted as one of that path. HEAD is GET without a body.
func (a *API) find(r *http.Request, isWatch bool) target {
	path, method := strings.TrimPrefix(r.URL.Path, "/"), r.Method
	if method == http.MethodHead {
		method = http.MethodGet
	}
	found, last := target{label: Other}, lastWord(path)
	var methods []string
	for i := range a.routes {
		route := &a.routes[i]
		if want := lastWord(route.Pattern); want != last && !strings.HasPrefix(want, "{") {
			continue
		}
		if !route.match(path) || isWatch && !onWatch[route.Pattern] {
			continue
		}
		if methods == nil {
			found.names = route.names(path)
			found.label, found.timing = route.label(found.names), route.Timing
		}
		if route.Method == method {
			found.route = route
			return found
		}
		methods = append(methods, route.Method)
	}
	found.err = noRoute(methods)
	return found
}

// noRoute is why there is no route: its path takes other methods, or there is no such path.
func noRoute(methods []string) error {
	if methods == nil {
		return &failure{Status: http.StatusNotFound, Words: "there is nothing at this path"}
	}
	allow := strings.Join(methods, ", ")
	words := "this takes " + allow
	if strings.Contains(allow, http.MethodGet) {
		allow += ", " + http.MethodHead
	}
	return &failure{Status: http.StatusMethodNotAllowed, Words: words, allow: allow}
}
