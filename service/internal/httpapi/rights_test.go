package httpapi

import (
	"crypto/tls"
	"crypto/x509"
	"crypto/x509/pkix"
	"net/http"
	"net/http/httptest"
	"net/url"
	"strings"
	"testing"

	"lrcman/service/book"
)

func rightsOf(t *testing.T, lines string) *Rights {
	t.Helper()
	rights, err := ReadRights(strings.NewReader(lines))
	if err != nil {
		t.Fatal(err)
	}
	return rights
}

const (
	lookToken    = "lookslookslookslooks"
	workToken    = "worksworksworksworks"
	placeToken   = "placesplacesplaces"
	operateToken = "operatesoperates1"
	bothToken    = "worksandplacesworks"
)

const fileOfRoles = "# tokens\nlook " + lookToken + "\n\nwork " + workToken + "\nplace " + placeToken + "\noperate " + operateToken +
	"\nwork,place " + bothToken + "\n"

func bearer(token string) option { return header("Authorization", "Bearer "+token) }

func TestRolesAllowWhatThePageSays(t *testing.T) {
	s := newService(t, nil)
	s.api.cfg.Rights = rightsOf(t, fileOfRoles)
	call := func(command string) string { return `{"command":"` + command + `"}` }
	for _, it := range []struct {
		method, path, body               string
		look, work, place, both, operate int
	}{
		{"GET", "/books", "", 200, 200, 200, 200, 200},
		{"GET", "/status", "", 200, 200, 200, 200, 200},
		{"GET", "/members", "", 200, 200, 200, 200, 200},
		{"POST", "/books/p0/call", call("place 1"), 403, 403, 200, 200, 200},
		{"POST", "/books/p0/call", call("place6 2"), 403, 403, 200, 200, 200},
		{"POST", "/books/p0/call", call("drop 9"), 403, 403, 200, 200, 200},
		{"POST", "/books/p0/call", call("lease 1 1"), 403, 200, 403, 200, 200},
		{"POST", "/books/p0/call", call("next"), 403, 200, 403, 200, 200},
		{"POST", "/books/p0/call", call("done 1 1 1"), 403, 200, 403, 200, 200},
		{"POST", "/books/p0/call", call("abandon 1 1 1"), 403, 200, 403, 200, 200},
		{"POST", "/books/p0/call", call("revoke 1 1"), 403, 403, 403, 403, 200},
		{"POST", "/books/p0/call", call("fail 1"), 403, 403, 403, 403, 200},
		{"POST", "/books/p0/call", call("tick"), 403, 403, 403, 403, 200},
		{"POST", "/books/p0/call", call("upgrade 1"), 403, 403, 403, 403, 200},
		{"PUT", "/books/p1", nodes(4), 403, 403, 403, 403, 200},
		{"PUT", "/books/p0/nodes", nodes(5), 403, 403, 403, 403, 200},
		{"PUT", "/members/2", `{"peer":"h:1","client":"h:2"}`, 403, 403, 403, 403, 200},
		{"DELETE", "/members/2", "", 403, 403, 403, 403, 504},
		{"DELETE", "/books/p1", `{"at":0,"opens":27648}`, 403, 403, 403, 403, 200},
		{"POST", "/leader/1", "", 403, 403, 403, 403, 200},
		{"POST", "/snapshot", "", 403, 403, 403, 403, 503},
		{"GET", "/backup", "", 403, 403, 403, 403, 200},
	} {
		s.refused(it.method, it.path, it.body, 401, "no token")
		s.refused(it.method, it.path, it.body, 401, "the token is unknown", bearer("xxxxxxxxxxxxxxxx"))
		for token, want := range map[string]int{lookToken: it.look, workToken: it.work, placeToken: it.place, bothToken: it.both, operateToken: it.operate} {
			answer, text := s.ask(it.method, it.path, it.body, bearer(token))
			if answer.StatusCode != want {
				t.Errorf("%s %s %s with %s: %d %s", it.method, it.path, it.body, token, answer.StatusCode, text)
			}
		}
	}
	s.expect("GET", "/health", "", 200, `{"ok":true}`)
	for _, scheme := range []string{"Basic", "Token", "", "Bearer Bearer"} { // (Bearer alone)
		s.refused("GET", "/books", "", 401, "no token", header("Authorization", strings.TrimSpace(scheme+" "+operateToken)))
	}
}

func TestEachCommandTakesOneRight(t *testing.T) {
	for kind := book.Kind(0); kind < 64; kind++ {
		if role := commandRole(kind); role != Work && role != Place && role != Operate {
			t.Errorf("command %d takes %v", kind, role)
		}
	}
}

func TestRightsAreReadOrRefused(t *testing.T) {
	for text, want := range map[string]string{
		"":                                      "it has no token",
		"look":                                  "line 1: it has to be ROLE TOKEN",
		"# x\nlock aaaaaaaaaaaaaaaa":            `line 2: there is no role "lock"`,
		"look,lock aaaaaaaaaaaaaaaa":            `there is no role "lock"`,
		"work short":                            "less than 16",
		"look cert=":                            "cert=NAME takes a name",
		"look cert=" + strings.Repeat("x", 65):  "cert=NAME takes a name",
		"look aaaaaaaaaaaaaaaa more":            "behind a token may stand",
		"look aaaaaaaaaaaaaaaa name=":           "behind a token may stand",
		"look aaaaaaaaaaaaaaaa name=a name=b":   "behind a token may stand",
		"look cert=a name=b":                    "behind a certificate books=",
		"look aaaaaaaaaaaaaaaa books=a books=b": "each once",
		"look aaaaaaaaaaaaaaaa books=":          "and not \"\"",
		"look aaaaaaaaaaaaaaaa books=a,[":       `and not "["`,
		"look aaaaaaaaaaaaaaaa\nwork aaaaaaaaaaaaaaaa name=b": "line 2: the token or certificate stands in an earlier line",
		"look cert=a\nlook cert=a":                            "line 2: the token or certificate stands in an earlier line",

		"look aaaaaaaaaaaaaaaa name=a books=b*,c?":          "",
		"look cert=monitor books=p0\nlook bbbbbbbbbbbbbbbb": "",
	} {
		rights, err := ReadRights(strings.NewReader(text))
		if err == nil && want != "" || err != nil && (want == "" || !strings.Contains(err.Error(), want)) {
			t.Errorf("%q: %v", text, err)
		}
		if err == nil && rights.HaveCertificates() != strings.Contains(text, "cert=") {
			t.Errorf("%q: certificates %v", text, rights.HaveCertificates())
		}
	}
}

func TestRightsAreOfBooks(t *testing.T) {
	var scopes []string
	s := newService(t, func(with *setup) {
		events := func(w http.ResponseWriter, r *http.Request) {
			scopes = append(scopes, ScopeOf(r).String()+strings.Join(ScopeOf(r).Books([]string{"p0", "p1", "q"}), "+"))
		}
		with.Mounts = []Mount{{Route{Method: "GET", Pattern: "/events", Role: Look, Query: "book"}, events},
			{Route{Method: "GET", Pattern: "/metrics", Role: Look}, events}}
	})
	s.expect("PUT", "/books/p1", nodes(4), 200, `{"n":0,"opens":2048}`)
	s.api.cfg.Rights = rightsOf(t, "look aaaaaaaaaaaaaaaa books=p1,q*\noperate bbbbbbbbbbbbbbbb books=p1\n")
	looker, operator := bearer("aaaaaaaaaaaaaaaa"), bearer("bbbbbbbbbbbbbbbb")
	_, text := s.ask("GET", "/books", "", looker)
	if strings.Contains(text, "p0") || !strings.Contains(text, `"books":[{"name":"p1","n":0,"opens":2048}]`) {
		t.Error(text)
	}
	for _, path := range []string{"/books/p0", "/books/p0/nodes", "/books/p0/log", "/books/p9", "/events?book=p0"} {
		s.refused("GET", path, "", 403, "there are no rights to the book p", looker) // whether it is there or not
	}
	for _, path := range []string{"/books/p1", "/status", "/members", "/events?book=p1", "/events"} {
		if answer, text := s.ask("GET", path, "", looker); answer.StatusCode != 200 {
			t.Error(path, text)
		}
	}
	if want := "p1,q*p1+q p1,q*p1+q"; strings.Join(scopes, " ") != want {
		t.Errorf("%q", scopes)
	}
	s.refused("GET", "/books/q9", "", 404, "no such book", looker)
	s.refused("GET", "/metrics", "", 403, "this takes rights to all books", looker)
	s.expect("POST", "/books/p1/call", `{"command":"tick"}`, 200, `{"n":1,"opens":2048,"reply":"ticked 1 0","kind":"ticked","clock":1,"ended":0}`, operator)
	s.refused("POST", "/books/p0/call", `{"command":"tick"}`, 403, "no rights to the book p0", operator)
	s.refused("PUT", "/books/p2", nodes(4), 403, "no rights to the book p2", operator)
	s.refused("PUT", "/members/2", `{"peer":"h:1","client":"h:2"}`, 403, "this takes rights to all books", operator)
	s.refused("POST", "/snapshot", "", 403, "this takes rights to all books", operator)
	s.refused("GET", "/backup", "", 403, "this takes rights to all books", operator)
}

func TestAWorkerHasTheNameOfItsToken(t *testing.T) {
	s := newService(t, nil)
	s.api.cfg.Rights = rightsOf(t, "work aaaaaaaaaaaaaaaa name=w1\nwork bbbbbbbbbbbbbbbb\noperate cccccccccccccccc name=ops\n")
	for _, it := range []struct {
		token, worker string
		status        int
	}{
		{"aaaaaaaaaaaaaaaa", "", 200}, {"aaaaaaaaaaaaaaaa", "w1", 200}, {"aaaaaaaaaaaaaaaa", "w1/disk2", 200}, {"aaaaaaaaaaaaaaaa", "w12", 403},
		{"aaaaaaaaaaaaaaaa", "w2", 403}, {"aaaaaaaaaaaaaaaa", "ops", 403}, {"bbbbbbbbbbbbbbbb", "w2", 200}, {"cccccccccccccccc", "w2", 200},
	} {
		answer, text := s.ask("POST", "/books/p0/call", `{"command":"next","worker":"`+it.worker+`"}`, bearer(it.token))
		if answer.StatusCode != it.status {
			t.Errorf("%+v: %d %s", it, answer.StatusCode, text)
		}
	}
}

// Two callers who happen to give one key are two.
func TestAKeyBelongsToItsOwner(t *testing.T) {
	s := newService(t, nil)
	s.api.cfg.Rights = rightsOf(t, "work aaaaaaaaaaaaaaaa name=a\nwork bbbbbbbbbbbbbbbb name=b\noperate "+operateToken+"\n")
	for _, command := range []string{"place 1", "fail 1", "fail 2"} {
		s.ask("POST", "/books/p0/call", `{"command":"`+command+`"}`, bearer(operateToken))
	}
	next := func(token string) string {
		answer, text := s.ask("POST", "/books/p0/call", `{"command":"next","key":"1"}`, bearer(token))
		if answer.StatusCode != 200 || !strings.Contains(text, `"kind":"granted"`) {
			t.Error(answer.StatusCode, text)
		}
		return text
	}
	first, second, again := next("aaaaaaaaaaaaaaaa"), next("bbbbbbbbbbbbbbbb"), next("aaaaaaaaaaaaaaaa")
	if first == second || strings.Contains(second, `"again"`) || !strings.Contains(again, `"again":true`) {
		t.Errorf("%s %s %s", first, second, again)
	}
}

// shown is a request with a certificate that was verified.
func shown(certificate *x509.Certificate, token string) *http.Request {
	r := httptest.NewRequest("GET", "/", nil)
	r.TLS = &tls.ConnectionState{PeerCertificates: []*x509.Certificate{certificate}, VerifiedChains: [][]*x509.Certificate{{certificate}}}
	if token != "" {
		r.Header.Set("Authorization", "Bearer "+token)
	}
	return r
}

func TestCertificatesHaveRights(t *testing.T) {
	link, _ := url.Parse("spiffe://store/worker")
	byName := map[string]*x509.Certificate{
		"common": {Subject: pkix.Name{CommonName: "monitor"}},
		"dns":    {Subject: pkix.Name{CommonName: "x"}, DNSNames: []string{"y", "w1"}},
		"email":  {EmailAddresses: []string{"ops@store"}},
		"uri":    {URIs: []*url.URL{link}},
		"none":   {Subject: pkix.Name{CommonName: "other"}},
	}
	file := rightsOf(t, "look cert=monitor\nwork cert=w1\noperate cert=ops@store\nplace cert=spiffe://store/worker books=p*\nlook "+lookToken+" name=l\n")
	for name, want := range map[string]caller{"common": {name: "monitor", role: Look}, "dns": {name: "w1", role: Look | Work},
		"email": {name: "ops@store", role: roles["operate"]}, "uri": {name: "spiffe://store/worker", role: Look | Place, books: []string{"p*"}}} {
		got, err := file.callerOf(shown(byName[name], ""))
		if err != nil || got.name != want.name || got.role != want.role || len(got.books) != len(want.books) {
			t.Errorf("%s: %+v %v", name, got, err)
		}
	}
	if got, err := file.callerOf(shown(byName["none"], "")); err == nil || !strings.Contains(err.Error(), "the certificate has no rights here") {
		t.Error(got, err)
	}
	if got, err := file.callerOf(shown(byName["email"], lookToken)); err != nil || got.name != "l" || got.role != Look { // (a token goes first)
		t.Error(got, err)
	}
	if got, err := file.callerOf(shown(byName["email"], "xxxxxxxxxxxxxxxx")); err == nil {
		t.Error(got, "an unknown token is passed over")
	}
	if got, err := (*Rights)(nil).callerOf(shown(byName["dns"], "")); err != nil || got.name != "x" || got.role != roles["operate"] {
		t.Error(got, err) // without a file each certificate may do all
	}
	unverified := shown(byName["email"], "")
	unverified.TLS.VerifiedChains = nil
	if got, err := file.callerOf(unverified); err == nil {
		t.Error(got, "a certificate that nobody verified")
	}
}

func TestRightsAreReplaced(t *testing.T) {
	s := newService(t, nil)
	s.api.cfg.Rights = rightsOf(t, "look "+lookToken+"\n")
	s.api.cfg.Rights.Replace(rightsOf(t, "look "+workToken+"\n"))
	s.refused("GET", "/books", "", 401, "the token is unknown", bearer(lookToken))
	if answer, _ := s.ask("GET", "/books", "", bearer(workToken)); answer.StatusCode != 200 {
		t.Error(answer.Status)
	}
}
