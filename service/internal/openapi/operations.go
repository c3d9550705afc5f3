package openapi

import (
	"sort"
	"strings"

	"lrcman/service/book"
)

// A schema is an object of JSON Schema.
type schema = map[string]interface{}

func text() schema     { return schema{"type": "string"} }
func integer() schema  { return schema{"type": "integer"} }
func boolean() schema  { return schema{"type": "boolean"} }
func anything() schema { return schema{} }

func list(of schema) schema { return schema{"type": "array", "items": of} }

// object has these fields and no others. One whose name ends with ? may be left out.
func object(fields schema) schema {
	properties, required := schema{}, []string{}
	for name, of := range fields {
		bare := strings.TrimSuffix(name, "?")
		properties[bare] = of
		if bare == name {
			required = append(required, name)
		}
	}
	return schema{"type": "object", "properties": properties, "required": sorted(required), "additionalProperties": false}
}

// anyOf is an object of any fields, all of a kind.
func anyOf(kind schema) schema { return schema{"type": "object", "additionalProperties": kind} }

// with has the fields of several lists.
func with(parts ...schema) schema {
	all := schema{}
	for _, part := range parts {
		for name, of := range part {
			all[name] = of
		}
	}
	return all
}

func failure() schema {
	return object(schema{"status": integer(), "code": text(), "error": text(), "maybe?": boolean(), "since?": integer(), "before?": integer(),
		"leader?": text(), "reasons?": anyOf(text())})
}

func asJSON(of schema) map[string]schema { return map[string]schema{"application/json": of} }

// The parts that several answers have.
var (
	ok        = asJSON(object(schema{"ok": boolean()}))
	fresh     = schema{"index": integer(), "age_ms": integer()}
	place     = with(fresh, schema{"n": integer(), "opens": integer()})
	bookPlace = asJSON(object(schema{"n": integer(), "opens": integer(), "again?": boolean()}))
	member    = schema{"id": integer(), "peer": text(), "client": text(), "learner?": boolean(), "folder?": text(), "promote?": boolean()}
	members   = asJSON(object(schema{"members": list(object(with(member, schema{"leader": boolean()}))), "again?": boolean()}))
	seat      = object(schema{"node": integer(), "slot": integer()})
	reply     = schema{"reply": text(), "kind": text(), "seats?": list(seat), "stripe?": integer(), "fragment?": integer(), "target?": seat,
		"epoch?": integer(), "repair?": text(), "sources?": list(integer()), "clock?": integer(), "ended?": integer(), "refusal?": integer(),
		"name?": text(), "detail?": integer()}
	table    = tableWith(schema{"rows": list(anyOf(anything()))})
	forecast = tableWith(schema{"rows": list(anyOf(anything())), "safe": boolean()})
	status   = asJSON(object(with(schema{"id": integer(), "leader": integer(), "term": integer(), "commit": integer(), "applied": integer(),
		"last": integer(), "last_term": integer(),
		"snapshot": integer(), "first": integer(), "members": list(object(member)), "age_ms": integer(), "rules": integer(),
		"refused": anyOf(integer())})))
	rules = asJSON(object(schema{"program": integer(), "group": integer(), "form": integer(), "next?": integer(), "next_form?": integer(),
		"saved": boolean()}))
)

func tableWith(fields schema) map[string]schema {
	return map[string]schema{"application/json": object(with(place, fields)), "text/csv": text()}
}

// The codes that several routes have.
var (
	ofChange  = []string{"no_leader", "outcome_unknown", "disk_full", "other_rules", "key_reused", "key_forgotten", "out_of_range", "unreadable"}
	ofMembers = []string{"no_leader", "not_leader", "outcome_unknown", "refused_change"}
)

func and(codes []string, more ...string) []string {
	return append(codes[:len(codes):len(codes)], more...)
}

// parametersOf are the parameters by name.
var parametersOf = map[string]schema{"now": flagged(), "force": flagged(), "follow": flagged(), "key": text(), "since": integer(), "at": integer(),
	"opens": integer(), "from": text(), "limit": integer(), "code": {"type": "string", "enum": []string{"wide", "narrow"}}, "command": text(),
	"session": integer(), "format": {"type": "string", "enum": []string{"json", "csv"}}, "stripe": integer(), "fragment": integer(),
	"missing": list(integer()), "node": list(integer()), "fault": list(integer()), "upgrade": list(integer()), "book": text(), "books": text(),
	"view": {"type": "string", "enum": book.Views}}

func flagged() schema { return schema{"type": "string", "enum": []string{"0", "1"}} }

// operations are what Build does not know of the routes.
var operations = map[string]*operation{
	"GET /health":  {"Tells whether this member has a leader and keeps up with it.", nil, ok, []string{"no_leader", "differs"}},
	"GET /livez":   {"Tells whether this member does its work at all.", nil, ok, []string{"stuck"}},
	"GET /readyz":  {"Tells whether clients should ask this member, and if not, why.", nil, ok, []string{"not_ready"}},
	"GET /metrics": {"Metrics for Prometheus.", nil, map[string]schema{"text/plain": text(), "application/openmetrics-text": text()}, []string{"busy"}},
	"GET /":        {"The page.", nil, map[string]schema{"text/html": text()}, nil},
	"GET /events": {"The data of the page, as server-sent events.", nil, map[string]schema{"text/event-stream": text()},
		[]string{"no_book", "differs"}},
	"GET /version": {"Versions of program, interface, rules and formats.", nil, asJSON(object(schema{"service": integer(), "version": text(),
		"commit": text(), "form": integer(), "interface": integer(), "rules": integer(), "go": text()})), nil},
	"GET /status":  {"This member: leader, term, indexes, refused requests.", nil, status, nil},
	"GET /members": {"The members of the group.", nil, members, nil},
	"PUT /members/{id}": {"Adds a member, or makes a learner a voter.", asJSON(object(schema{"peer": text(), "client": text(),
		"learner?": boolean()})), members, ofMembers},
	"DELETE /members/{id}": {"Removes a member.", nil, members, ofMembers},
	"POST /leader/{id}":    {"Makes a member the leader.", nil, members, and(ofMembers)},
	"POST /snapshot":       {"Writes a snapshot now.", nil, status, nil},
	"GET /backup": {"A backup of all that the group has.", nil, map[string]schema{"application/octet-stream": text()},
		[]string{"outcome_unknown"}},
	"GET /rules": {"The rules of this program and of the group.", nil, rules, nil},
	"PUT /rules": {"Changes the rules of the group, or its form of entries.", asJSON(object(schema{"rules?": integer(), "form?": integer()})),
		rules, and(ofChange, "not_changed")},
	"GET /matrix": {"The generator matrix of a code.", nil, asJSON(object(schema{"code": text(), "rows": list(list(integer()))})), nil},
	"GET /books": {"The books.", nil, asJSON(object(with(fresh, schema{"more?": boolean(),
		"books": list(object(schema{"name": text(), "n": integer(), "opens": integer()}))}))), nil},
	"PUT /books/{book}": {"Makes a book.", map[string]schema{"application/toml": text(),
		"application/json": object(schema{"nodes": text(), "image": text()})}, bookPlace, and(ofChange, "book_exists", "too_many_books", "bad_text")},
	"DELETE /books/{book}": {"Removes a book at the position of a read.", asJSON(object(schema{"at": integer(), "opens": integer()})), bookPlace,
		and(ofChange, "moved")},
	"GET /books/{book}":       {"The table status of a book.", nil, table, nil},
	"GET /books/{book}/nodes": {"The nodes of a book.", nil, map[string]schema{"application/toml": text()}, nil},
	"PUT /books/{book}/nodes": {"Reopens a book over other nodes.", map[string]schema{"application/toml": text()}, bookPlace,
		and(ofChange, "moved", "bad_text", "spent")},
	"GET /books/{book}/image": {"The image of a book.", nil, map[string]schema{"text/plain": text()}, []string{"spent"}},
	"POST /books/{book}/call": {"Makes one command.", asJSON(object(schema{"session?": integer(), "command": text(), "key?": text(),
		"since?": integer(), "worker?": text(), "at?": integer(), "opens?": integer()})),
		asJSON(object(with(reply, schema{"n?": integer(), "opens?": integer(), "holder?": text(), "again?": boolean()}))),
		and(ofChange, "moved", "spent")},
	"GET /books/{book}/peek":             {"The reply that a command would get.", nil, asJSON(object(with(place, reply))), nil},
	"GET /books/{book}/stripes/{stripe}": {"One stripe.", nil, table, []string{"not_found"}},
	"GET /books/{book}/show/{view}":      {"A table of show.", nil, table, []string{"not_found"}},
	"GET /books/{book}/workers": {"The live leases that were granted to a worker by name.", nil, asJSON(object(with(place, schema{"rows": list(
		object(schema{"stripe": integer(), "fragment": integer(), "epoch": integer(), "worker": text()}))}))), nil},
	"GET /books/{book}/recipe": {"How a fragment is rebuilt.", nil, tableWith(schema{"code": text(), "missing_fragments": list(integer()),
		"rows": list(anyOf(anything()))}), []string{"not_found", "undetermined"}},
	"GET /books/{book}/may-stop": {"The forecast for the stripes if nodes stopped.", nil, forecast, []string{"not_found"}},
	"GET /books/{book}/may-lose": {"The forecast for the stripes if nodes were lost.", nil, forecast, []string{"not_found"}},
	"GET /books/{book}/log": {"The entries after a number, a line of JSON each.", nil, map[string]schema{"application/x-ndjson": text()},
		[]string{"forgotten_entries"}},
}

func sorted(words []string) []string {
	sort.Strings(words)
	return words
}
