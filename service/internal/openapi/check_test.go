package openapi

import (
	"strings"
	"testing"
)

func described(t *testing.T) *Description {
	t.Helper()
	d, err := Load("../../openapi.json")
	if err != nil {
		t.Fatal(err)
	}
	return d
}

func TestAnswersAreHeldAgainstTheDescription(t *testing.T) {
	d, asJSON := described(t), "application/json"
	for _, it := range []struct {
		method, path string
		status       int
		kind, body   string
		wrong        string // part of what is wrong; "": nothing is
	}{
		{"GET", "/health", 200, asJSON, `{"ok":true}`, ""},
		{"GET", "/health", 200, asJSON, `{"ok":1}`, "the answer.ok is a integer, and not boolean"},
		{"GET", "/health", 200, asJSON, `{}`, "the answer lacks ok"},
		{"GET", "/health", 200, asJSON, `{"ok":true,"more":1}`, "has more, which is not described"},
		{"GET", "/health", 200, "text/plain", `{"ok":true}`, "the type"},
		{"GET", "/health", 201, asJSON, `{"ok":true}`, "the status 201 is not described"},
		{"GET", "/health", 503, asJSON, `{"status":503,"code":"no_leader","error":"none"}`, ""},
		{"GET", "/health", 503, asJSON, `{"status":503,"code":"other","error":"none"}`, "the code other"},
		{"GET", "/health", 503, asJSON, `{"status":503,"code":"no_leader"}`, "lacks error"},
		{"GET", "/health", 503, "text/plain", `no`, "no object"},
		{"GET", "/books/p0/show/leases", 200, asJSON, `{"n":1,"opens":1,"index":1,"age_ms":-1,"rows":[{"stripe":1,"worker":null}]}`, ""},
		{"GET", "/books/p0/show/leases", 200, asJSON, `{"n":1,"opens":1,"index":1,"age_ms":-1,"rows":{}}`, "rows is a object, and not array"},
		{"GET", "/books/p0/show/leases", 200, "text/csv; charset=utf-8", "a,b\n", ""},
		{"GET", "/members", 200, asJSON, `{"members":[{"id":1,"peer":"","client":"","leader":"no"}]}`, "members[0].leader is a string"},
		{"GET", "/members", 200, asJSON, `{"members":[{"id":1.5,"peer":"","client":"","leader":true}]}`, "members[0].id is a number"},
		{"GET", "/nothing", 404, asJSON, `{"status":404,"code":"not_found","error":"nothing"}`, ""},
		{"GET", "/nothing", 200, asJSON, `{}`, "not described"},
		{"PATCH", "/health", 405, asJSON, `{"status":405,"code":"method_not_allowed","error":"no"}`, ""},
	} {
		err := d.Check(it.method, it.path, it.status, it.kind, []byte(it.body))
		if (err == nil) != (it.wrong == "") || err != nil && !strings.Contains(err.Error(), it.wrong) {
			t.Errorf("%s %s %d %s: %v, and not %q", it.method, it.path, it.status, it.body, err, it.wrong)
		}
	}
}

func TestEachCodeHasAStatus(t *testing.T) {
	for name, about := range operations {
		for _, code := range about.codes {
			if len(statusesOf[code]) == 0 {
				t.Errorf("%s: %s", name, code)
			}
		}
	}
}
