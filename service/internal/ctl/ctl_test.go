package ctl

import (
	"context"
	"crypto/ecdsa"
	"crypto/elliptic"
	"crypto/rand"
	"crypto/tls"
	"crypto/x509"
	"encoding/json"
	"encoding/pem"
	"fmt"
	"io"
	"log"
	"math/big"
	"net"
	"net/http"
	"net/http/httptest"
	"os"
	"path/filepath"
	"strings"
	"sync"
	"testing"
	"time"
)

// A service answers as docs/SERVICE.md says. It has one book, p0.
type service struct {
	mu     sync.Mutex
	calls  []map[string]interface{} // the bodies of calls
	asked  []string                 // method, path and parameters of all requests
	keys   map[string]string
	answer map[string]string // of commands
	broken int               // so many calls are made and not told of
	loads  []int             // of the node that drains, look by look
	safe   bool
	token  string
}

func (s *service) ServeHTTP(w http.ResponseWriter, r *http.Request) {
	s.mu.Lock()
	defer s.mu.Unlock()
	s.asked = append(s.asked, r.Method+" "+r.URL.RequestURI())
	if s.token != "" && r.Header.Get("Authorization") != "Bearer "+s.token {
		w.WriteHeader(401)
		io.WriteString(w, `{"status":401,"error":"the token is unknown"}`+"\n")
		return
	}
	texts := map[string]string{
		"/status": `{"id":2,"leader":1,"term":7,"commit":90,"applied":89,"snapshot":0,"first":1,"members":[{"id":1},{"id":2},{"id":3}],"age_ms":12,"rules":1,"refused":{}}`,
		"/books":  `{"index":89,"age_ms":1,"books":[{"name":"p0","n":17,"opens":1}]}`,
		"/members": `{"members":[{"id":1,"peer":"h1:7422","client":"h1:7421","leader":true},{"id":2,"peer":"","client":"h2:7421","leader":false},` +
			`{"id":3,"peer":"h3:7422","client":"h3:7421","learner":true,"leader":false},` +
			`{"id":4,"peer":"h4:7422","client":"h4:7421","learner":true,"promote":true,"leader":false}]}`,
		"/books/p0/show/status": `{"n":17,"opens":1,"index":89,"age_ms":1,"rows":[{"name":"stripes","value":60},{"name":"whole","value":59},` +
			`{"name":"at_risk_margin_2","value":1},{"name":"lost","value":0},{"name":"upgrading","value":"none"},{"name":"entries","value":17}]}`,
		"/books/p0/show/health": `{"n":17,"opens":1,"index":89,"age_ms":1,"rows":[{"reason":"margin_2","count":1,"first":[7]},` +
			`{"reason":"waiting","count":2,"first":[7,3]}]}`,
		"/books/harm/show/health": `{"n":17,"opens":1,"rows":[{"reason":"margin_0","count":1,"first":[7]}]}`,
		"/books/none/show/health": `{"n":17,"opens":1,"rows":[]}`,
		"/books/p0/workers":       `{"n":17,"opens":1,"index":89,"age_ms":1,"rows":[{"stripe":1,"fragment":3,"epoch":2,"worker":"w7"}]}`,
		"/books/p0/log":           `{"n":18,"session":2,"command":"lease 1 3","reply":"refused 110 1","kind":"refused","refusal":110,"name":"already leased","detail":1}` + "\n\n" + `{"n":19,"session":1,"command":"tick","reply":"ticked 1 0","kind":"ticked"}`,
	}
	switch {
	case r.Method == "POST" && r.URL.Path == "/leader/1":
		io.WriteString(w, texts["/members"]+"\n")
	case r.Method == "POST" && strings.HasPrefix(r.URL.Path, "/leader/"):
		w.WriteHeader(409)
		io.WriteString(w, `{"status":409,"error":"there is no member 9"}`+"\n")
	case r.URL.Path == "/books/p0/call":
		s.call(w, r)
	case r.URL.Path == "/books/p0/show/leases" && r.URL.Query().Get("format") == "csv":
		io.WriteString(w, "stripe,fragment,holder,target,epoch,expiry\n1,3,2,17:0,1,3\n")
	case r.URL.Path == "/books/p0/show/domains-fault" && r.URL.Query().Get("format") == "csv":
		io.WriteString(w, "domain,nodes\n7,2\n")
	case r.URL.Path == "/books/p0/show/nodes":
		load := s.loads[0]
		if len(s.loads) > 1 {
			s.loads = s.loads[1:]
		}
		fmt.Fprintf(w, `{"n":18,"opens":1,"rows":[{"node":4,"mode":"active","load":9},{"node":5,"mode":"draining","load":%d}]}`+"\n", load)
	case r.URL.Path == "/books/p0/may-stop":
		fmt.Fprintf(w, `{"n":17,"opens":1,"safe":%v,"rows":[{"stripe":1,"code":"wide","level_before":"risk","level_after":"unavailable","margin_after":null,`+
			`"missing_fragments_after":[0,1,2,3],"leases_ended":0,"harmed":%v}]}`+"\n", s.safe, !s.safe)
	case texts[r.URL.Path] != "":
		io.WriteString(w, texts[r.URL.Path]+"\n")
	default:
		w.WriteHeader(404)
		io.WriteString(w, `{"status":404,"error":"there is no such book"}`+"\n")
	}
}

// requested are all requests so far. (One that ctl gave up may still be answered)
func (s *service) requested() []string {
	s.mu.Lock()
	defer s.mu.Unlock()
	return append([]string(nil), s.asked...)
}

func (s *service) requests() int { return len(s.requested()) }

// made are the bodies of the calls so far.
func (s *service) made() []map[string]interface{} {
	s.mu.Lock()
	defer s.mu.Unlock()
	return append([]map[string]interface{}(nil), s.calls...)
}

func (s *service) keyCount() int {
	s.mu.Lock()
	defer s.mu.Unlock()
	return len(s.keys)
}

func (s *service) call(w http.ResponseWriter, r *http.Request) {
	text, _ := io.ReadAll(r.Body)
	body := map[string]interface{}{}
	if json.Unmarshal(text, &body) != nil || r.Header.Get("Content-Type") != "application/json" {
		w.WriteHeader(400)
		return
	}
	s.calls = append(s.calls, body)
	key := fmt.Sprint(body["key"])
	answer, isAgain := s.keys[key]
	if !isAgain {
		answer = s.answer[fmt.Sprint(body["command"])]
		s.keys[key] = answer
	}
	if s.broken > 0 {
		s.broken--
		w.WriteHeader(504)
		io.WriteString(w, `{"status":504,"error":"the outcome is unknown","maybe":true}`+"\n")
		return
	}
	io.WriteString(w, answer+"\n")
}

func newService(t *testing.T) (*service, string) {
	t.Helper()
	s := &service{keys: map[string]string{}, answer: map[string]string{
		"tick":       `{"n":18,"opens":1,"reply":"ticked 1 0","kind":"ticked","clock":1,"ended":0}`,
		"lease 1 3":  `{"n":18,"opens":1,"reply":"refused 110 1","kind":"refused","refusal":110,"name":"already leased","detail":1}`,
		"done 1 3 1": `{"opens":1,"reply":"refused 114 2","kind":"refused","refusal":114,"name":"not holder","detail":2,"holder":"w7"}`,
		"drain 5":    `{"n":18,"opens":1,"reply":"changed","kind":"changed"}`,
		"drain 4":    `{"n":18,"opens":1,"reply":"refused 105","kind":"refused","refusal":105,"name":"wrong mode"}`,
	}, loads: []int{0}}
	server := httptest.NewServer(s)
	t.Cleanup(server.Close)
	return s, server.URL
}

// quick are the knobs of tests: they do not wait as long as people do.
var quick = Knobs{Attempt: 2 * time.Second, LookEach: 10 * time.Millisecond}

// ctl runs a line and returns its status, and what it wrote.
func ctl(t *testing.T, words ...string) (status int, out, err string) {
	t.Helper()
	ctx, cancel := context.WithTimeout(context.Background(), 20*time.Second)
	defer cancel()
	var to, other strings.Builder
	status = Run(ctx, words, &to, &other, quick)
	return status, to.String(), other.String()
}

func TestEachCommandHasItsStatusAndWords(t *testing.T) {
	for _, it := range []struct {
		words  string
		status int
		out    []string
		err    string
	}{
		{"status", 0, []string{"member 2 of 3 at ", "leader 1, term 7, applied 89 of 90", "p0    margin_2  60       59     1"}, ""},
		{"books", 0, []string{"BOOK  ENTRIES  OPENED\np0    17       1\n"}, ""},
		{"books -o json", 0, []string{`{"index":89,"age_ms":1,"books":[{"name":"p0","n":17,"opens":1}]}` + "\n"}, ""},
		{"lead 1", 0, []string{"1       h1:7422      h1:7421      leads\n"}, ""},
		{"lead x", 2, nil, `"x" is no number of a member`},
		{"lead 9", 1, nil, "there is no member 9 (409 from http://"},
		{"members", 0, []string{"1       h1:7422      h1:7421      leads\n2       -            h2:7421      votes\n" +
			"3       h3:7422      h3:7421      learns\n4       h4:7422      h4:7421      learns, and votes once it has all\n"}, ""},
		{"table p0 leases", 0, []string{"stripe  fragment  holder  target  epoch  expiry\n1       3         2       17:0    1      3\n"}, ""},
		{"table p0 domains fault", 0, []string{"domain  nodes\n7       2\n"}, ""},
		{"table p0 domains fault 1", 2, nil, "table takes another number of words"},
		{"health p0", 0, []string{"reason    count  first\nmargin_2  1      7\nwaiting   2      7 3\n"}, ""},
		{"health harm", 4, []string{"margin_0  1      7\n"}, ""},
		{"health harm -o json", 4, []string{`"reason":"margin_0"`}, ""},
		{"health none", 1, nil, "is not what lrcmand answers"},
		{"health p9", 1, nil, "there is no such book"},
		{"table p0 workers", 0, []string{"1       3         2      w7\n"}, ""},
		{"table p0 lease", 1, nil, "there is no such book (404 from http://"},
		{"table p9 leases", 1, nil, "there is no such book"},
		{"call p0 tick", 0, []string{"18 ticked 1 0\n"}, ""},
		{"call p0 tick -o json", 0, []string{`{"n":18,"opens":1,"reply":"ticked 1 0","kind":"ticked","clock":1,"ended":0}` + "\n"}, ""},
		{"call p0 lease 1 3", 3, []string{"18 refused 110 1 (already leased)\n"}, ""},
		{"call p0 done 1 3 1", 3, []string{"refused 114 2 (not holder) (worker w7 holds it)\n"}, ""},
		{"ok-to-stop p0 2 3", 4, []string{"not ok: 1 of 1 stripes", "1       wide  risk    unavailable  -       0 1 2 3        0\n"}, ""},
		{"ok-to-stop p0 fault", 2, nil, "a number is missing behind fault"},
		{"ok-to-stop p0 fault upgrade 1", 2, nil, "a number is missing behind fault"},
		{"ok-to-stop p0 rack 3", 2, nil, `"rack" is no number of a node`},
		{"drain p0 5", 0, []string{"18 changed\n", "7 fragments are still to be moved from node 5\n", "node 5 is empty; now it may be retired"}, ""},
		{"drain p0 5 --no-wait", 0, []string{"18 changed\n"}, ""},
		{"drain p0 4", 3, []string{"18 refused 105 (wrong mode)\n"}, ""},
		{"drain p0 x", 2, nil, `"x" is no number of a node`},
		{"--help", 0, []string{"ok-to-stop BOOK NODE..", "-token-file FILE"}, ""},
		{"", 2, nil, "a command is missing"},
		{"stop", 2, nil, `there is no command "stop"`},
		{"call p0", 2, nil, "takes another number of words"},
		{"books p0", 2, nil, "takes another number of words"},
		{"books -o xml", 2, nil, "-o takes text or json"},
		{"books --servers x", 2, nil, "there is no option --servers; there is --server"},
		{"call p0 tick --session 9", 2, nil, "--session is 1 to 8"},
		{"books --cert x", 2, nil, "--cert and --key come together"},
		{"books --server ftp://h1", 2, nil, "--server: a server is http://HOST:PORT"},
		{"call p0 tick --call-since 5", 2, nil, "--call-since takes --call-key"},
		{"books --token-file /nowhere", 1, nil, "no such file"},
		{"watch p0 --from x", 2, nil, "--from takes a number"},
	} {
		s, address := newService(t)
		s.loads = []int{7, 7, 0}
		status, out, err := ctl(t, append([]string{"--server", address}, strings.Fields(it.words)...)...)
		if status != it.status || !strings.Contains(err, it.err) || it.err == "" && err != "" {
			t.Errorf("%s: status %d, %s", it.words, status, err)
		}
		for _, part := range it.out {
			if !strings.Contains(out, part) {
				t.Errorf("%s printed %s and not %s", it.words, out, part)
			}
		}
		if it.status == 2 && len(s.requested()) > 0 {
			t.Errorf("%s asked %v", it.words, s.requested())
		}
	}
}

func TestOkToStopAsksForAllAtOnceAndForNow(t *testing.T) {
	s, address := newService(t)
	s.safe = true
	status, out, err := ctl(t, "ok-to-stop", "p0", "3", "7", "fault", "5", "6", "upgrade", "0", "--server", address)
	if status != 0 || !strings.HasPrefix(out, "ok: no stripe is harmed, and 1 would not be whole (after entry 17)") {
		t.Errorf("status %d, %s, %s", status, out, err)
	}
	if want := "GET /books/p0/may-stop?fault=5&fault=6&node=3&node=7&now=1&upgrade=0"; len(s.requested()) != 1 || s.requested()[0] != want {
		t.Errorf("asked %v and not %s", s.requested(), want)
	}
}

func TestACallIsMadeOnceHoweverOftenItIsAsked(t *testing.T) {
	s, address := newService(t)
	s.broken = 2
	status, out, err := ctl(t, "call", "p0", "tick", "--server", address, "--worker", "w7", "--session", "3")
	if status != 0 || out != "18 ticked 1 0\n" {
		t.Fatalf("status %d, %s, %s", status, out, err)
	}
	if len(s.made()) != 3 || s.keyCount() != 1 || len(fmt.Sprint(s.made()[0]["key"])) != 32 {
		t.Errorf("calls %v", s.made())
	}
	if s.made()[0]["worker"] != "w7" || s.made()[0]["session"] != 3.0 || s.made()[0]["command"] != "tick" {
		t.Errorf("call %v", s.made()[0])
	}
	if ctl(t, "call", "p0", "tick", "--server", address); s.keyCount() != 2 {
		t.Error("two calls had one key")
	}
}

func TestAKeyIsReportedWithAnUnknownOutcome(t *testing.T) {
	s, address := newService(t)
	s.broken = 1000
	status, _, err := ctl(t, "call", "p0", "tick", "--server", address, "--timeout", "700ms")
	if status != 1 || !strings.Contains(err, "the call may have been made: retry with --call-key "+fmt.Sprint(s.made()[0]["key"])) {
		t.Errorf("status %d, %s", status, err)
	}
	if since := fmt.Sprintf("--call-since %v", s.made()[0]["since"]); !strings.Contains(err, since) || since != "--call-since 89" {
		t.Errorf("the error lacks %s: %s", since, err)
	}
	status, _, err = ctl(t, "call", "p0", "tick", "--server", "127.0.0.1:9", "--timeout", "100ms")
	if status != 1 || strings.Contains(err, "may have been made") || !strings.Contains(err, "http://127.0.0.1:9 does not answer") {
		t.Errorf("of one who does not run: status %d, %s", status, err)
	}
	status, _, err = ctl(t, "call", "p0", "tick", "--server", address, "--call-key", "mine", "--call-since", "70", "--timeout", "100ms")
	if last := s.made()[len(s.made())-1]; status != 1 || last["key"] != "mine" || last["since"] != 70.0 {
		t.Errorf("status %d, %s, %v", status, err, s.made())
	}
}

func TestAnotherMemberIsAsked(t *testing.T) {
	_, address := newService(t)
	leaderless := httptest.NewServer(http.HandlerFunc(func(w http.ResponseWriter, r *http.Request) {
		w.WriteHeader(503)
		io.WriteString(w, `{"status":503,"error":"there is no leader"}`)
	}))
	defer leaderless.Close()
	list := "127.0.0.1:9," + leaderless.URL + "," + address
	if status, out, err := ctl(t, "call", "p0", "tick", "--server", list); status != 0 || out != "18 ticked 1 0\n" {
		t.Errorf("status %d, %s, %s", status, out, err)
	}
	t.Setenv("LRCMAND_SERVER", list)
	if status, _, err := ctl(t, "books"); status != 0 {
		t.Errorf("status %d, %s", status, err)
	}
	status, _, err := ctl(t, "books", "--server", leaderless.URL, "--timeout", "400ms")
	if status != 1 || !strings.Contains(err, "there is no leader (503 from "+leaderless.URL+")") {
		t.Errorf("status %d, %s", status, err)
	}
}

func TestAMemberThatHangsIsPassedOver(t *testing.T) {
	end := make(chan struct{})
	hanging := httptest.NewServer(http.HandlerFunc(func(w http.ResponseWriter, r *http.Request) {
		if r.URL.Path != "/status" {
			<-end
		}
		io.WriteString(w, `{"applied":7}`)
	}))
	defer hanging.Close()
	defer close(end)
	s, address := newService(t)
	if status, out, err := ctl(t, "call", "p0", "tick", "--server", hanging.URL+","+address); status != 0 || out != "18 ticked 1 0\n" || len(s.made()) != 1 {
		t.Errorf("status %d, %s, %s", status, out, err)
	}
	status, _, err := ctl(t, "call", "p0", "tick", "--server", hanging.URL, "--timeout", "1500ms")
	if status != 1 || !strings.Contains(err, "the call may have been made") {
		t.Errorf("status %d, %s", status, err)
	}
}

func TestATokenComesFromAFile(t *testing.T) {
	s, address := newService(t)
	s.token = "abcdefghijklmnop"
	file := filepath.Join(t.TempDir(), "token")
	for text, want := range map[string]int{"abcdefghijklmnop\n": 0, "# mine\nlook abcdefghijklmnop\n": 0, "work xbcdefghijklmnop": 1, "# none\n": 1} {
		if err := os.WriteFile(file, []byte(text), 0o600); err != nil {
			t.Fatal(err)
		}
		if status, _, err := ctl(t, "books", "--server", address, "--token-file", file); status != want || strings.Contains(err, "efghijk") {
			t.Errorf("%q: status %d, %s", text, status, err)
		}
	}
	if status, _, err := ctl(t, "books", "--server", address); status != 1 || !strings.Contains(err, "the token is unknown (401 from") {
		t.Errorf("status %d, %s", status, err)
	}
}

// certificates makes a certificate that signs itself, for a server and a client at loopback, and returns its files.
func certificates(t *testing.T) (pair tls.Certificate, cert, key string) {
	t.Helper()
	secret, err := ecdsa.GenerateKey(elliptic.P256(), rand.Reader)
	if err != nil {
		t.Fatal(err)
	}
	template := &x509.Certificate{SerialNumber: big.NewInt(1), NotAfter: time.Now().Add(time.Hour), IPAddresses: []net.IP{net.IPv4(127, 0, 0, 1)},
		IsCA: true, BasicConstraintsValid: true, KeyUsage: x509.KeyUsageDigitalSignature | x509.KeyUsageCertSign,
		ExtKeyUsage: []x509.ExtKeyUsage{x509.ExtKeyUsageServerAuth, x509.ExtKeyUsageClientAuth}}
	der, err := x509.CreateCertificate(rand.Reader, template, template, &secret.PublicKey, secret)
	if err != nil {
		t.Fatal(err)
	}
	private, err := x509.MarshalECPrivateKey(secret)
	if err != nil {
		t.Fatal(err)
	}
	cert, key = filepath.Join(t.TempDir(), "cert"), filepath.Join(t.TempDir(), "key")
	for file, block := range map[string]*pem.Block{cert: {Type: "CERTIFICATE", Bytes: der}, key: {Type: "EC PRIVATE KEY", Bytes: private}} {
		if err := os.WriteFile(file, pem.EncodeToMemory(block), 0o600); err != nil {
			t.Fatal(err)
		}
	}
	if pair, err = tls.LoadX509KeyPair(cert, key); err != nil {
		t.Fatal(err)
	}
	return pair, cert, key
}

func TestCertificatesAreShownAndChecked(t *testing.T) {
	pair, cert, key := certificates(t)
	s, _ := newService(t)
	server := httptest.NewUnstartedServer(s)
	pool := x509.NewCertPool()
	pool.AddCert(func() *x509.Certificate { c, _ := x509.ParseCertificate(pair.Certificate[0]); return c }())
	server.TLS = &tls.Config{Certificates: []tls.Certificate{pair}, ClientCAs: pool, ClientAuth: tls.RequireAndVerifyClientCert}
	server.Config.ErrorLog = log.New(io.Discard, "", 0)
	server.StartTLS()
	defer server.Close()
	for _, it := range []struct {
		words  []string
		status int
		err    string
	}{
		{[]string{"--ca", cert, "--cert", cert, "--key", key}, 0, ""},
		{[]string{"--ca", cert}, 1, "certificate"},
		{[]string{"--cert", cert, "--key", key}, 1, "certificate"},
		{[]string{"--ca", key}, 1, "has no certificate"},
	} {
		status, err := -1, ""
		for _, timeout := range []string{"2s", "8s", "30s"} { // (on a busy machine it may take longer)
			words := append([]string{"books", "--server", server.URL, "--timeout", timeout}, it.words...)
			if status, _, err = ctl(t, words...); status == it.status && strings.Contains(err, it.err) {
				break
			}
		}
		if status != it.status || !strings.Contains(err, it.err) {
			t.Errorf("%v: status %d, %s", it.words, status, err)
		}
	}
}

// A writer ends a run once so many lines were written.
type writer struct {
	strings.Builder
	lines int
	end   func()
}

func (w *writer) Write(text []byte) (int, error) {
	if w.lines -= strings.Count(string(text), "\n"); w.lines <= 0 {
		w.end()
	}
	return w.Builder.Write(text)
}

func TestWatchGoesOnBehindTheLastEntry(t *testing.T) {
	s, address := newService(t)
	ctx, end := context.WithTimeout(context.Background(), 20*time.Second)
	defer end()
	go func() { // it asks for the second time from where it was, and for the third one behind what it got
		defer end()
		for s.requests() < 3 && ctx.Err() == nil {
			time.Sleep(10 * time.Millisecond)
		}
	}()
	out := &writer{lines: 100, end: end}
	var err strings.Builder
	status := Run(ctx, []string{"watch", "p0", "--server", address}, out, &err, quick)
	want := "18 2 lease 1 3: refused 110 1 (already leased)\n19 1 tick: ticked 1 0\n"
	if status != 0 || out.String() != want {
		t.Errorf("status %d, %s, %s", status, out.String(), err.String())
	}
	if len(s.requested()) < 3 || s.requested()[1] != "GET /books/p0/log?follow=1&from=17" || s.requested()[2] != "GET /books/p0/log?follow=1&from=19" {
		t.Errorf("asked %v", s.requested())
	}
}

func TestTextFromOutsideLeavesTheTerminalAlone(t *testing.T) {
	if got := printable("a\x1b[31mb\u202ec"); strings.ContainsAny(got, "\x1b\u202e") {
		t.Errorf("%q", got)
	}
}

func TestATokenIsReadFromTheFileOfTheService(t *testing.T) {
	for text, want := range map[string]string{"": "", "abc\n": "abc", "# x\n\nlook abc\n": "abc", "look abc name=n books=p*\n": "abc",
		"look cert=monitor\nwork,place def name=w\n": "def"} {
		if token := tokenOf(text); token != want {
			t.Errorf("%q: %q, and not %q", text, token, want)
		}
	}
}
