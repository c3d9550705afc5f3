// Package openapi makes the description of the service's interface, service/openapi.json, of the table of its routes, and holds answers
// against it.
package openapi

import (
	"bytes"
	"encoding/json"
	"fmt"
	"sort"
	"strings"
)

// A Route is what a request of a method at a path does.
type Route struct {
	Method  string
	Pattern string // the path; a word of it in braces is a name
	Role    string // who may ask, in words; "nobody": anybody may
	Query   string // the parameters that it takes
	HasBody bool
}

// Build is the description of routes, as JSON. Each must be described, and nothing else may be.
func Build(routes []Route) ([]byte, error) {
	paths, seen := map[string]interface{}{}, map[string]bool{}
	for _, route := range routes {
		name := route.Method + " " + route.Pattern
		about, isThere := operations[name]
		if !isThere {
			return nil, fmt.Errorf("there is no description of %s", name)
		}
		seen[name] = true
		built, err := about.build(route)
		if err != nil {
			return nil, fmt.Errorf("%s: %w", name, err)
		}
		path, _ := paths[route.Pattern].(schema)
		if path == nil {
			path = schema{}
			paths[route.Pattern] = path
		}
		path[strings.ToLower(route.Method)] = built
	}
	for name := range operations {
		if !seen[name] {
			return nil, fmt.Errorf("%s is described, and there is no such route", name)
		}
	}
	return written(schema{"openapi": "3.1.0", "paths": paths,
		"info": schema{"title": "lrcmand", "version": "1",
			"description": "Books of a stripe manager. docs/SERVICE.md says more. This file is made of the table of routes."},
		"components": schema{"schemas": schema{"Error": failure()},
			"securitySchemes": schema{"token": schema{"type": "http", "scheme": "bearer"}}}})
}

// mostDepth is how deep objects have a line for each field. What stands deeper is one line.
const mostDepth = 5

// written is JSON that people can read: a line for each answer of each request.
func written(all schema) ([]byte, error) {
	var text bytes.Buffer
	err := write(&text, all, 1)
	return append(text.Bytes(), '\n'), err
}

func write(to *bytes.Buffer, value interface{}, depth int) error {
	object, isObject := value.(schema)
	if !isObject || depth > mostDepth || len(object) == 0 {
		text, err := json.Marshal(value)
		to.Write(text)
		return err
	}
	names := []string{}
	for name := range object {
		names = append(names, name)
	}
	for i, name := range sorted(names) {
		fmt.Fprintf(to, "%s\n%s%q: ", "{,"[min(i, 1):min(i, 1)+1], strings.Repeat(" ", depth), name)
		if err := write(to, object[name], depth+1); err != nil {
			return err
		}
	}
	fmt.Fprintf(to, "\n%s}", strings.Repeat(" ", depth-1))
	return nil
}

func min(a, b int) int {
	if a < b {
		return a
	}
	return b
}

// An operation is what Build does not know of a route.
type operation struct {
	summary string
	body    map[string]schema // by the type of the body
	answers map[string]schema // of status 200, by the type of the answer
	codes   []string          // of its errors, beside those that each route has
}

func (o *operation) build(route Route) (schema, error) {
	if route.HasBody != (len(o.body) > 0) {
		return nil, fmt.Errorf("it has a body, or has none, other than described")
	}
	parameters := []schema{}
	for _, word := range strings.Split(route.Pattern, "/") {
		if strings.HasPrefix(word, "{") {
			name := strings.Trim(word, "{}")
			of, isKnown := parametersOf[name]
			if !isKnown {
				of = text()
			}
			parameters = append(parameters, schema{"name": name, "in": "path", "required": true, "schema": of})
		}
	}
	for _, name := range strings.Fields(route.Query) {
		of, isKnown := parametersOf[name]
		if !isKnown {
			return nil, fmt.Errorf("there is no description of the parameter %s", name)
		}
		parameters = append(parameters, schema{"name": name, "in": "query", "schema": of})
	}
	built := schema{"summary": o.summary, "parameters": parameters, "responses": o.responses(route), "x-role": route.Role}
	if route.Role != "nobody" {
		built["security"] = []schema{{"token": []string{}}}
	}
	if len(o.body) > 0 {
		built["requestBody"] = schema{"required": route.Method != "DELETE", "content": contents(o.body)}
	}
	return built, nil
}

func contents(of map[string]schema) schema {
	content := schema{}
	for kind, it := range of {
		content[kind] = schema{"schema": it}
	}
	return content
}

// responses are those of status 200, and those of each error with its codes.
func (o *operation) responses(route Route) schema {
	responses := schema{"200": schema{"description": "It is done.", "content": contents(o.answers)}}
	byStatus := map[string][]string{}
	for _, code := range append(commonCodes(route), o.codes...) {
		for _, status := range statusesOf[code] {
			byStatus[status] = append(byStatus[status], code)
		}
	}
	for status, codes := range byStatus {
		sort.Strings(codes)
		responses[status] = schema{"description": strings.Join(codes, ", "), "x-codes": codes,
			"content": schema{"application/json": schema{"schema": schema{"$ref": "#/components/schemas/Error"}}}}
	}
	return responses
}

// commonCodes are those of any route of its kind.
func commonCodes(route Route) []string {
	codes := []string{"bad_request", "not_found", "method_not_allowed", "forbidden_origin", "fault", "starting", "ended"}
	if route.Role != "nobody" {
		codes = append(codes, "unauthorized", "forbidden", "too_many_requests")
	}
	if route.HasBody || route.Method != "GET" {
		codes = append(codes, "wrong_type", "busy")
	}
	if route.HasBody {
		codes = append(codes, "too_slow", "length_required", "too_large")
	}
	if strings.Contains(route.Pattern, "{book}") {
		codes = append(codes, "no_book", "differs")
	}
	if strings.Contains(" "+route.Query+" ", " now ") {
		codes = append(codes, "no_leader", "busy")
	}
	return unique(codes)
}

func unique(words []string) (found []string) {
	seen := map[string]bool{}
	for _, word := range words {
		if !seen[word] {
			found = append(found, word)
		}
		seen[word] = true
	}
	return found
}

// statusesOf are the statuses that come with a code.
var statusesOf = map[string][]string{
	"bad_request": {"400"}, "out_of_range": {"400"}, "unreadable": {"400"}, "unauthorized": {"401"}, "forbidden": {"403"},
	"forbidden_origin": {"403"}, "not_found": {"404"}, "no_book": {"404"}, "method_not_allowed": {"405"}, "too_slow": {"408"},
	"book_exists": {"409"}, "too_many_books": {"409"}, "key_reused": {"409"}, "key_forgotten": {"409"}, "moved": {"409", "412"},
	"not_changed": {"409"}, "spent": {"409"}, "undetermined": {"409"}, "refused_change": {"409"}, "forgotten_entries": {"410"},
	"length_required": {"411"}, "too_large": {"413"}, "wrong_type": {"415"}, "bad_text": {"422"}, "too_many_requests": {"429"},
	"fault": {"500"}, "busy": {"503"}, "no_leader": {"503"}, "not_leader": {"503"}, "starting": {"503"}, "ended": {"503"},
	"other_rules": {"503"}, "differs": {"503"}, "stuck": {"503"}, "not_ready": {"503"}, "outcome_unknown": {"504"}, "disk_full": {"507"},
}
