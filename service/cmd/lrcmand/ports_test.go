package main

import (
	"crypto/tls"
	"crypto/x509"
	"io"
	"net/http"
	"os"
	"os/signal"
	"path/filepath"
	"strings"
	"sync"
	"syscall"
	"testing"
	"time"

	"lrcman/service/internal/logging"
	"lrcman/service/internal/testcerts"
	"lrcman/service/internal/testports"
)

// A log under test keeps what it is told.
type said struct {
	mu   sync.Mutex
	text strings.Builder
}

func (s *said) Write(text []byte) (int, error) {
	s.mu.Lock()
	defer s.mu.Unlock()
	return s.text.Write(text)
}

func (s *said) has(words string) bool {
	s.mu.Lock()
	defer s.mu.Unlock()
	return strings.Contains(s.text.String(), words)
}

func until(t *testing.T, what string, holds func() bool) {
	t.Helper()
	for end := time.Now().Add(60 * time.Second); !holds(); time.Sleep(20 * time.Millisecond) {
		if time.Now().After(end) {
			t.Fatalf("not in a minute: %s", what)
		}
	}
}

// begin runs a member until the tests end, and waits until it is well at an address.
func begin(t *testing.T, well string, words ...string) *said {
	t.Helper()
	o, err := parse(append([]string{"--data", t.TempDir()}, words...))
	if err != nil {
		t.Fatal(err)
	}
	told := &said{}
	go run(o, logging.New(told, logging.Config{}))
	until(t, "the member is well", func() bool {
		answer, err := http.Get("http://" + well + "/health")
		if err != nil {
			return false
		}
		answer.Body.Close()
		return answer.StatusCode == 200
	})
	return told
}

func copyTo(t *testing.T, from, to string) {
	t.Helper()
	text, err := os.ReadFile(from)
	if err == nil {
		err = os.WriteFile(to, text, 0o600)
	}
	if err != nil {
		t.Fatal(err)
	}
}

// status asks with a certificate, or with none, and a token, or with none; 0: there was no answer.
func status(trusts, signs *testcerts.Authority, name, url, token string, t *testing.T) int {
	t.Helper()
	text, err := os.ReadFile(trusts.File)
	if err != nil {
		t.Fatal(err)
	}
	config := &tls.Config{RootCAs: x509.NewCertPool()}
	config.RootCAs.AppendCertsFromPEM(text)
	if signs != nil {
		certificate, key := signs.Sign(name)
		pair, err := tls.LoadX509KeyPair(certificate, key)
		if err != nil {
			t.Fatal(err)
		}
		config.Certificates = []tls.Certificate{pair}
	}
	r, err := http.NewRequest("GET", url, nil)
	if err != nil {
		t.Fatal(err)
	}
	if token != "" {
		r.Header.Set("Authorization", "Bearer "+token)
	}
	answer, err := (&http.Client{Transport: &http.Transport{TLSClientConfig: config, DisableKeepAlives: true}, Timeout: 20 * time.Second}).Do(r)
	if err != nil {
		return 0
	}
	defer answer.Body.Close()
	io.Copy(io.Discard, answer.Body)
	return answer.StatusCode
}

// serial is the number of the certificate that a port shows, by the versions of TLS up to one.
func serial(address string, most uint16) (string, error) {
	c, err := tls.Dial("tcp", address, &tls.Config{InsecureSkipVerify: true, MinVersion: tls.VersionTLS10, MaxVersion: most})
	if err != nil {
		return "", err
	}
	defer c.Close()
	return c.ConnectionState().PeerCertificates[0].SerialNumber.String(), nil
}

func TestTokensAndCertificatesAreReadAnew(t *testing.T) {
	ours, next, folder := testcerts.New(t, "ours"), testcerts.New(t, "next"), t.TempDir()
	in := func(name string) string { return filepath.Join(folder, name) }
	certificate, key := ours.Sign("server")
	otherCertificate, otherKey := ours.Sign("server2")
	copyTo(t, certificate, in("cert"))
	copyTo(t, key, in("key"))
	copyTo(t, ours.File, in("ca"))
	write := func(text string) {
		if err := os.WriteFile(in("tokens"), []byte(text), 0o600); err != nil {
			t.Fatal(err)
		}
	}
	write("look cert=monitor\nlook aaaaaaaaaaaaaaaa name=a\n")
	address, watch := testports.Free(t), testports.Free(t)
	told := begin(t, watch, "--listen", address, "--listen-metrics", watch, "--cert", in("cert"), "--key", in("key"), "--client-ca", in("ca"),
		"--token-file", in("tokens"), "--audit-file", in("audit"))
	books := "https://" + address + "/books"
	ask := func(signs *testcerts.Authority, name, token string) int {
		return status(ours, signs, name, books, token, t)
	}
	for _, it := range []struct {
		signs       *testcerts.Authority
		name, token string
		want        int
	}{{ours, "monitor", "", 200}, {ours, "other", "", 401}, {ours, "other", "aaaaaaaaaaaaaaaa", 200}, {ours, "monitor", "bbbbbbbbbbbbbbbb", 401},
		{next, "monitor", "", 0}, {nil, "", "aaaaaaaaaaaaaaaa", 0}} {
		if got := ask(it.signs, it.name, it.token); got != it.want {
			t.Errorf("%s %s: %d, and not %d", it.name, it.token, got, it.want)
		}
	}
	if answer, err := http.Get("http://" + watch + "/metrics"); err != nil || answer.StatusCode != 200 {
		t.Error("metrics of watchers", answer, err)
	}
	if answer, err := http.Get("http://" + watch + "/books"); err != nil || answer.StatusCode != 404 {
		t.Error("books of watchers", answer, err)
	}

	hup := func(words string) {
		t.Helper()
		if err := syscall.Kill(os.Getpid(), syscall.SIGHUP); err != nil {
			t.Fatal(err)
		}
		until(t, words, func() bool { return told.has(words) })
	}
	write("look cert=\n") // what can't be read changes nothing
	hup("tokens: line 1: cert=NAME takes a name")
	if got := ask(ours, "monitor", ""); got != 200 {
		t.Errorf("after a bad file: %d", got)
	}
	write("look cert=other\n")
	copyTo(t, next.File, in("ca"))
	os.Remove(in("audit"))
	hup("were read anew")
	until(t, "the next authority is taken", func() bool { return ask(next, "other", "") == 200 })
	if got := ask(next, "monitor", ""); got != 401 {
		t.Errorf("one that was taken out: %d", got)
	}
	if got := ask(ours, "other", ""); got != 0 {
		t.Errorf("one of the authority before: %d", got)
	}
	audit, err := os.ReadFile(in("audit"))
	if err != nil || !strings.Contains(string(audit), "name=\"\" address=127.0.0.1:") || !strings.Contains(string(audit), "path=/books status=401") {
		t.Errorf("%s %v", audit, err)
	}
	copyTo(t, otherCertificate, in("cert")) // a certificate without its key, halfway through a rotation
	if got := ask(next, "other", ""); got != 200 || !told.has("the certificate that was read before is shown") {
		t.Errorf("halfway through a rotation: %d", got)
	}
	copyTo(t, otherKey, in("key"))
	if got := ask(next, "other", ""); got != 200 {
		t.Errorf("after a rotation: %d", got)
	}
}

// SIGHUP ends no member that is still starting, as one does that waits for others.
func TestAMemberThatStartsReadsAnew(t *testing.T) {
	signals := make(chan os.Signal, 1)
	signal.Notify(signals, syscall.SIGHUP) // (else it would end the tests)
	defer signal.Stop(signals)
	address, first, other := testports.Free(t), testports.Free(t), testports.Free(t)
	members := "1=" + first + "/" + address + ",2=" + other + "/127.0.0.1:1"
	o, err := parse([]string{"--data", t.TempDir(), "--listen", address, "--peer", first, "--new", "--members", members})
	if err != nil {
		t.Fatal(err)
	}
	told := &said{}
	go run(o, logging.New(told, logging.Config{}))
	until(t, "it waits", func() bool {
		answer, err := http.Get("http://" + address + "/health")
		if err != nil {
			return false
		}
		answer.Body.Close()
		return answer.StatusCode == 503
	})
	if err := syscall.Kill(os.Getpid(), syscall.SIGHUP); err != nil {
		t.Fatal(err)
	}
	until(t, "it reads anew", func() bool { return told.has("were read anew") })
}

// The certificate is read anew at each handshake.
func TestACertificateIsReadAnew(t *testing.T) {
	ours, folder := testcerts.New(t, "ours"), t.TempDir()
	certificate, key := ours.Sign("server")
	otherCertificate, otherKey := ours.Sign("server2")
	shownCert, shownKey := filepath.Join(folder, "cert"), filepath.Join(folder, "key")
	copyTo(t, certificate, shownCert)
	copyTo(t, key, shownKey)
	address, watch := testports.Free(t), testports.Free(t)
	begin(t, watch, "--listen", address, "--listen-metrics", watch, "--cert", shownCert, "--key", shownKey)
	shows := func(most uint16) string {
		t.Helper()
		it, err := serial(address, most)
		if err != nil {
			t.Fatal(err)
		}
		return it
	}
	first := shows(tls.VersionTLS12)
	copyTo(t, otherCertificate, shownCert)
	if now := shows(tls.VersionTLS13); now != first {
		t.Error("a certificate without its key is shown")
	}
	copyTo(t, otherKey, shownKey)
	if now := shows(tls.VersionTLS13); now == first {
		t.Error("the certificate of the start is shown")
	}
	if _, err := serial(address, tls.VersionTLS11); err == nil {
		t.Error("TLS 1.1 is spoken")
	}
}
