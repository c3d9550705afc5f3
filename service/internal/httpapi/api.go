// Package httpapi is the service over HTTP/1.1 and JSON, as docs/SERVICE.md has it: its routes, what they take and answer, who may
// ask what and how often, and streams. What requests do is done by a replica.
package httpapi

import (
	"context"
	"encoding/json"
	"net"
	"net/http"
	"net/url"
	"strconv"
	"strings"
	"sync/atomic"
	"time"

	"lrcman/service/internal/engine"
	"lrcman/service/internal/logging"
	"lrcman/service/internal/replica"
	"lrcman/service/internal/state"
)

const (
	MostConnections = 1024 // at the port for clients
	mostStreams     = 64
	bodyTime        = 10 * time.Second // in which a head has to come, and then a body
	writeTime       = 30 * time.Second // in which a client has to take an answer, or a part of a stream
	idleTime        = 15 * time.Second // between two requests of a connection
)

// A Config says what an API answers of, and whom.
type Config struct {
	Engine                engine.Engine
	State                 *state.State
	Replica               *replica.Replica
	Rights                *Rights       // nil: all may do all
	Hosts                 *Hosts        // nil: clients may call this member by any name
	Rates                 *Rates        // nil: no address makes too many requests
	Timeout               time.Duration // of one request
	Mounts                []Mount       // what other packages answer
	Checks                []Check       // of whether this member is ready, beside those of the log
	Build                 Build
	Observe               func(Served)    // is told of each request; nil: nobody is
	Connections, Watchers *Connections    // at the port for clients, and at that for health and metrics; nil: nobody counts them
	Audit                 func(string)    // is told what was asked for as an operator, and what was refused for lack of rights; nil: nobody is
	Log                   *logging.Logger // is told of faults; nil: nobody is
	Knobs                 Knobs
}

// Knobs are what tests do otherwise. Those that are zero change nothing.
type Knobs struct {
	BodyTime  time.Duration // in which a body has to come
	WriteTime time.Duration // in which an answer has to be taken
	IdleTime  time.Duration // between two requests of a connection
}

// withDefaults fills in what the service does.
func (k Knobs) withDefaults() Knobs {
	if k.BodyTime == 0 {
		k.BodyTime = bodyTime
	}
	if k.WriteTime == 0 {
		k.WriteTime = writeTime
	}
	if k.IdleTime == 0 {
		k.IdleTime = idleTime
	}
	return k
}

// An API answers clients.
type API struct {
	cfg     Config
	routes  []Route
	refused *tally
	stop    chan struct{}
	bodies  *room
	answers *room
	flights *flights
	audit   *audit
}

// New makes an API.
func New(cfg Config) *API {
	cfg.Knobs = cfg.Knobs.withDefaults()
	if cfg.Log == nil {
		cfg.Log = logging.Nowhere()
	}
	if cfg.Connections == nil {
		cfg.Connections = NewConnections(MostConnections)
	}
	if cfg.Watchers == nil {
		cfg.Watchers = NewConnections(MostConnections)
	}
	a := &API{cfg: cfg, refused: &tally{}, stop: make(chan struct{}), bodies: &room{most: roomOfBodies},
		answers: &room{most: roomOfAnswers}, flights: newFlights(), audit: newAudit(cfg.Audit)}
	a.routes = a.table()
	for _, mount := range cfg.Mounts {
		a.routes = append(a.routes, mount.route())
	}
	return a
}

// Close ends the streams that are open.
func (a *API) Close() { close(a.stop) }

type connKey struct{}

// Server is an HTTP server for clients.
func (a *API) Server() *http.Server {
	return a.server(a.cfg.Connections, func(w http.ResponseWriter, r *http.Request) { a.serve(w, r, false) })
}

// WatchServer is an HTTP server that answers health and metrics alone, and asks nobody who they are.
func (a *API) WatchServer() *http.Server {
	return a.server(a.cfg.Watchers, func(w http.ResponseWriter, r *http.Request) { a.serve(w, r, true) })
}

func (a *API) server(of *Connections, answer http.HandlerFunc) *http.Server {
	return &http.Server{Handler: answer, ReadHeaderTimeout: a.cfg.Knobs.BodyTime, IdleTimeout: a.cfg.Knobs.IdleTime, MaxHeaderBytes: mostHead,
		ErrorLog: a.cfg.Log.Std(logging.Warn, "the port for clients"), ConnState: of.Note, ConnContext: func(ctx context.Context, c net.Conn) context.Context {
			return context.WithValue(ctx, connKey{}, c)
		}}
}

// ServeHTTP answers one request of a client.
func (a *API) ServeHTTP(w http.ResponseWriter, r *http.Request) { a.serve(w, r, false) }

// answerIn answers a request for a target within its time, and returns what there is to tell of it.
func (a *API) answerIn(w http.ResponseWriter, r *http.Request, to target, isWatch bool) *request {
	ctx, cancel := context.WithTimeout(r.Context(), a.cfg.Timeout)
	defer cancel()
	q := &request{w: w, r: r, conn: connOf(r), ctx: ctx, api: a, id: idOf(r), names: to.names, isWatch: isWatch, caller: &caller{},
		isRead: r.ContentLength == 0}
	defer q.giveBack()
	q.limitTimes()
	if q.isRead {
		q.enter(answering)
	} else {
		q.enter(waiting) // (for the body)
	}
	setSafeHeaders(w.Header())
	if q.id != "" {
		w.Header().Set("X-Request-Id", q.id)
	}
	if err := a.answer(q, to); err != nil {
		fail := failureOf(err)
		a.refused.add(fail.Status)
		q.fail(fail)
	}
	return q
}

// answer answers a request that may be made.
func (a *API) answer(q *request, to target) (err error) {
	if err := a.checkOrigin(q.r); err != nil {
		return err
	}
	if to.err != nil {
		return to.err
	}
	if err := a.checkRights(q, to.route); err != nil {
		return err
	}
	if q.r.Method == http.MethodPost || q.r.Method == http.MethodDelete { // (a page of elsewhere can't send this type unasked)
		if _, err := isJSON(q.r, false); err != nil {
			return err
		}
	}
	if err := q.checkMatch(to.route); err != nil {
		return err
	}
	if q.most = to.route.Most; q.most == 0 && !q.isRead {
		q.w.Header().Set("Connection", "close") // (else the body would be waited for before the answer is sent)
	}
	return to.route.serve(q)
}

// checkRights refuses what a caller may not ask, or asks too often. Whoever watches whether this member is well may always ask.
func (a *API) checkRights(q *request, route *Route) (err error) {
	if route.Role != Nobody && !q.isWatch {
		if err := a.limitRate(q.r); err != nil {
			return err
		}
		if q.caller, err = a.cfg.Rights.callerOf(q.r); err != nil {
			q.caller = &caller{}
			return err
		}
	}
	if !q.isWatch {
		if err := q.require(route.Role); err != nil {
			return err
		}
	}
	name, isOfBook := q.names["book"]
	if isOfBook && !isName(name) {
		return bad("the name of a book has 1 to %d letters, digits, '.', '_' and '-', and begins with one of the first two", mostName)
	}
	if q.query, err = readQuery(q.r, route.Query); err != nil || route.Role == Nobody || q.isWatch {
		return err
	}
	if isOfBook {
		return q.requireBook(name)
	}
	return q.requireAll(route)
}

// A tally counts answers other than 200 by their statuses.
type tally [600]uint64

func (t *tally) add(status int) { atomic.AddUint64(&t[status], 1) }

// counts tells how many requests were answered with each status other than 200.
func (t *tally) counts() map[int]uint64 {
	found := map[int]uint64{}
	for status := range t {
		if count := atomic.LoadUint64(&t[status]); count > 0 {
			found[status] = count
		}
	}
	return found
}

// A request is one that is being answered: what it brings, and where the answer goes.
type request struct {
	w       http.ResponseWriter
	r       *http.Request
	conn    net.Conn // that it came over; looked up once, since each of its times is set there
	ctx     context.Context
	api     *API
	id      string // that its client gave it; "" if none did
	isWatch bool   // at the port for health and metrics
	caller  *caller
	takes   Role              // the right that it takes
	names   map[string]string // of the path
	query   url.Values
	most    int64 // bytes of the body
	isRead  bool  // there is no more of the body
	taken   int64 // bytes of the room for bodies
}

// isSet are the parameters that may come again.
var isSet = map[string]bool{"node": true, "fault": true, "upgrade": true, "missing": true}

// readQuery reads the parameters of a request, which may be these.
func readQuery(r *http.Request, taken string) (url.Values, error) {
	query, err := url.ParseQuery(r.URL.RawQuery)
	if err != nil {
		return nil, bad("the parameters can't be read")
	}
	for name, values := range query {
		isTaken := false
		for _, word := range strings.Fields(taken) {
			isTaken = isTaken || word == name
		}
		if !isTaken {
			return nil, bad("there is no parameter %q here", name)
		}
		if len(values) > 1 && !isSet[name] {
			return nil, bad("the parameter %q comes twice", name)
		}
	}
	for _, name := range []string{"now", "follow", "force"} {
		if value := query.Get(name); value != "" && value != "0" && value != "1" {
			return nil, bad("the parameter %q has to be 0 or 1", name)
		}
	}
	if format := query.Get("format"); format != "" && format != "csv" && format != "json" {
		return nil, bad("the parameter \"format\" has to be csv or json")
	}
	return query, nil
}

func (q *request) fail(fail *failure) {
	fail.setHeaders(q.w.Header())
	if !q.isRead {
		q.w.Header().Set("Connection", "close") // (else what comes of the body would be waited for)
	}
	q.say(fail.Status, fail)
}

// say writes an answer of one object, on one line.
func (q *request) say(status int, value interface{}) error {
	text, err := json.Marshal(value)
	if err != nil {
		return err
	}
	q.write(status, "application/json", append(text, '\n'))
	return nil
}

// write writes an answer whole. Long ones have room together, since a client may take its own slowly.
func (q *request) write(status int, kind string, text []byte) {
	if cost := int64(len(text)); cost >= leastAnswer {
		if !q.api.answers.take(cost, 0) {
			q.fail(&failure{Status: http.StatusServiceUnavailable, Code: "busy", Words: "too many bytes of other answers are being sent"})
			return
		}
		defer q.api.answers.giveBack(cost)
	}
	header := q.w.Header()
	header.Set("Content-Type", kind)
	header.Set("Content-Length", strconv.Itoa(len(text)))
	q.limitWrite()
	q.w.WriteHeader(status)
	q.w.Write(text)
}
