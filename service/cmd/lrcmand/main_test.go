package main

import (
	"crypto/tls"
	"crypto/x509"
	"net/http"
	"os"
	"path/filepath"
	"reflect"
	"strings"
	"testing"
	"time"

	"lrcman/service/internal/engine"
	"lrcman/service/internal/logging"
	"lrcman/service/internal/testcerts"
	"lrcman/service/internal/testports"
)

func TestTheCommandLineIsReadOrRefused(t *testing.T) {
	folder := t.TempDir()
	write := func(name, text string, mode os.FileMode) string {
		file := filepath.Join(folder, name)
		if err := os.WriteFile(file, []byte(text), 0o600); err != nil {
			t.Fatal(err)
		}
		if err := os.Chmod(file, mode); err != nil {
			t.Fatal(err)
		}
		return file
	}
	token := "look 0123456789abcdef\n"
	tokens, open, shared := write("tokens", token, 0o640), write("open", token, 0o644), write("shared", token, 0o620)
	named := write("named", "look cert=monitor\n", 0o400)
	three := "1=h1:1/h1:2,2=h2:1/h2:2,3=h3:1/h3:2"
	for words, want := range map[string]string{
		"":                                                "--data DIR is missing",
		"--data d more":                                   `this word is none of the options: "more"`,
		"--data d --unknown":                              "there is no option --unknown",
		"--data d --trail 1":                              "there is no option --trail; there is --trailing",
		"--data d --log-level loud":                       "--log-level is debug, info, warn, error, and not",
		"--data d --log-format xml":                       "--log-format is text or json",
		"--data d --id x":                                 `invalid value "x" for flag -id`,
		"--data d --id 0":                                 "--id is 1 to 65535",
		"--data d --id 65536":                             "--id is 1 to 65535",
		"--data d --tick -1":                              `invalid value "-1" for flag -tick`,
		"--data d --election 1ms":                         "--election is 100ms or more",
		"--data d --timeout 500ms":                        "--timeout is --election or more",
		"--data d --snapshot-every 0":                     "--snapshot-every is 1 or more",
		"--data d --listen 7421":                          "--listen has to be HOST:PORT",
		"--data d --listen :7421":                         "--listen has to be HOST:PORT",
		"--data d --peer h":                               "--peer has to be HOST:PORT",
		"--data d --listen h:7421":                        "--listen beyond loopback takes --token-file or --client-ca",
		"--data d --listen 0.0.0.0:1":                     "--listen beyond loopback takes",
		"--data d --peer h:7422":                          "--peer beyond loopback takes --peer-cert",
		"--data d --join":                                 "--join takes --peer",
		"--data d --join --members 1=x":                   "--members is for the first members",
		"--data d --members 1=h:1":                        "--members has N=PEER/CLIENT",
		"--data d --members 0=h:1/h:2":                    "--members has N=PEER/CLIENT",
		"--data d --members 65536=h:1/h:2":                "--members has N=PEER/CLIENT",
		"--data d --members 1=h/h:2":                      "--members: an address has to be HOST:PORT",
		"--data d --members 2=h:1/h:2":                    "--members lacks this one, 1",
		"--data d --members 1=h:1/h:2,1=h:3/h:4":          "--members has 1 twice",
		"--data d --members 1=h:1/h:2,2=h:1/h:4":          "--members has the address h:1 twice",
		"--data d --cert c":                               "--cert and --key come together",
		"--data d --client-ca c":                          "--client-ca with both",
		"--data d --peer-cert c --peer-key k":             "--peer-cert, --peer-key and --peer-ca come together",
		"--data d --token-file " + folder + "/x":          "no such file",
		"--help":                                          "usage: lrcmand --data DIR [OPTIONS]",
		"--data d --token-file " + open:                   "has the mode 0644: others may not read it",
		"--data d --token-file " + shared:                 "has the mode 0620",
		"--data d --token-file " + named:                  "cert= takes --client-ca",
		"--data d --host h1:7421":                         "it takes the name of a host, without a port",
		"--data d --listen-metrics 7421":                  "--listen-metrics has to be HOST:PORT",
		"--data d --listen-metrics h:7420":                "--listen-metrics beyond loopback takes --trust-network",
		"--data d --listen h:7421 --token-file " + tokens: "takes --cert and --key, or tokens are in the clear",

		"--data d --join --new --peer [::1]:2":                                             "--new is for the first members",
		"--data d --join --trust-network --peer 0.0.0.0:1":                                 "--peer is told to the others: they reach nobody at 0.0.0.0:1",
		"--data d --join --trust-network --peer h:1 --listen [::]:2":                       "--listen is told to the others: they reach nobody at [::]:2",
		"--data d --trust-network --listen 0.0.0.0:2":                                      "",
		"--data d --trust-network --peer 0.0.0.0:1 --listen 0.0.0.0:2 --members 1=h:1/h:2": "",

		"--data d --peer-name n":                         "--peer-name takes --peer-ca",
		"--data d --peer-name":                           "flag needs an argument: -peer-name",
		"--data d --peer [::1]:2 --token-file " + tokens: "--token-file and --client-ca take --peer-cert",

		"--data d --peer [::1]:2 --peer-cert c --peer-key k --peer-ca a --peer-name x --peer-name y": "",
		"--data d --peer [::1]:2 --trust-network --token-file " + tokens:                             "",
		"--data d --id 2 --new --trust-network --members " + three:                                   "",

		"--data d": "",
		"--data d --listen 127.0.0.1:1 --peer [::1]:2 --tick 0":                         "",
		"--data d --listen h:7421 --token-file " + tokens + " --trust-network":          "",
		"--data d --listen h:7421 --cert c --key k --token-file " + tokens:              "",
		"--data d --listen h:7421 --cert c --key k --client-ca a --token-file " + named: "",
		"--data d --listen-metrics 127.0.0.1:7420 --host a --host b":                    "",
		"--data d --listen h:7421 --peer h:1 --trust-network":                           "",
		"--data d --id 2 --trust-network --members " + three:                            "",
	} {
		o, err := parse(strings.Fields(words))
		if err == nil && want != "" || err != nil && (want == "" || !strings.Contains(err.Error(), want)) {
			t.Errorf("%q: %v, and not %q", words, err, want)
		}
		if err == nil && strings.Contains(words, three) {
			wanted := engine.Member{ID: 2, Peer: "h2:1", Client: "h2:2"}
			if len(o.first) != 3 || o.self != wanted || o.config(logging.Nowhere()).Listen != "h2:1" {
				t.Errorf("%q: %+v", words, o)
			}
		}
	}
	o, err := parse([]string{"--data", "d", "--join", "--peer", "127.0.0.1:1", "--id", "4"})
	if err != nil || o.first != nil || !reflect.DeepEqual(o.self, engine.Member{ID: 4, Peer: "127.0.0.1:1", Client: "127.0.0.1:7421"}) {
		t.Error(o, err)
	}
	one, err := parse([]string{"--data", "d", "--group", "a"})
	if err != nil || one.config(nil).Name != "a" || one.config(nil).New {
		t.Error(one, err)
	}
}

func TestClientsShowCertificates(t *testing.T) {
	ours, others := testcerts.New(t, "ours"), testcerts.New(t, "others")
	certificate, key := ours.Sign("server")
	address := testports.Free(t)
	o, err := parse([]string{"--data", t.TempDir(), "--listen", address, "--cert", certificate, "--key", key, "--client-ca", ours.File})
	if err != nil {
		t.Fatal(err)
	}
	go run(o, logging.Nowhere()) // (it ends with the tests)
	ask := func(client *http.Client, scheme string) (int, error) {
		answer, err := client.Get(scheme + "://" + address + "/health")
		if err != nil {
			return 0, err
		}
		defer answer.Body.Close()
		return answer.StatusCode, nil
	}
	good := client(t, ours, ours)
	for end := time.Now().Add(60 * time.Second); ; time.Sleep(20 * time.Millisecond) {
		if status, err := ask(good, "https"); err == nil && status == 200 {
			break
		} else if time.Now().After(end) {
			t.Fatal(status, err)
		}
	}
	for name, it := range map[string]*http.Client{"none": client(t, ours, nil), "of others": client(t, ours, others)} {
		if status, err := ask(it, "https"); err == nil {
			t.Errorf("certificate %s: %d", name, status)
		}
	}
	if _, err := ask(client(t, others, ours), "https"); err == nil {
		t.Error("a server of others is trusted")
	}
	if status, err := ask(http.DefaultClient, "http"); err == nil && status != 400 {
		t.Error(status)
	}
}

// client trusts servers of one authority, and shows a certificate of another one.
func client(t *testing.T, trusts, signs *testcerts.Authority) *http.Client {
	t.Helper()
	text, err := os.ReadFile(trusts.File)
	if err != nil {
		t.Fatal(err)
	}
	config := &tls.Config{RootCAs: x509.NewCertPool()}
	config.RootCAs.AppendCertsFromPEM(text)
	if signs != nil {
		certificate, key := signs.Sign("client")
		pair, err := tls.LoadX509KeyPair(certificate, key)
		if err != nil {
			t.Fatal(err)
		}
		config.Certificates = []tls.Certificate{pair}
	}
	return &http.Client{Transport: &http.Transport{TLSClientConfig: config, DisableKeepAlives: true}}
}
