package client

import (
	"crypto/tls"
	"crypto/x509"
	"errors"
	"fmt"
	"net"
	"net/http"
	"net/url"
	"os"
	"strings"
	"sync"
	"time"
)

// What a Config has where it says nothing.
const (
	defaultTimeout = 20 * time.Second
	// A little longer than a member takes to say that it does not know.
	defaultAttempt = 11 * time.Second
	defaultPause   = 200 * time.Millisecond
)

const (
	dialTime = 3 * time.Second
	// A member sends a line into each stream every 15 seconds.
	defaultSilence = 45 * time.Second
	// findEach is how often members are looked for.
	findEach = 30 * time.Second
	// leastAttempt is what the last try has, also where it goes on beyond the timeout.
	leastAttempt = time.Second
	// mostIdle is how many connections to a member stay open.
	mostIdle = 64
)

// A Config says which members a Client asks, and how.
type Config struct {
	Servers []string // of members: http://HOST:PORT, https://HOST:PORT, or HOST:PORT for http
	Token   string   // goes with each request; "": none does
	CA      string   // CA file that certificates of members must chain to; "": those of the system
	Cert    string   // the file with a certificate to be shown, and Key the one with its key
	Key     string
	// FindMembers lets the Client ask members that GET /members names, too. Their addresses for clients have to be reachable.
	FindMembers bool
	Timeout     time.Duration // how long members are tried before a request is given up; 0: 20 s
	Attempt     time.Duration // how long one member may take to answer; 0: 11 s
	Pause       time.Duration // how long a member that failed is left alone at least; 0: 200 ms
	Silence     time.Duration // how long a log that is followed may be silent; 0: 45 s
}

// A Client asks the members of a group, one after the other, until one answers.
type Client struct {
	cfg  Config
	http *http.Client

	mu       sync.Mutex
	servers  []string // URLs without a slash at their end: those of the Config, and behind them those that were found
	given    int      // how many of them are of the Config
	current  int      // the one that is asked first
	heard    uint64   // the highest index that a member told
	heardAt  time.Time
	foundAt  time.Time // when members were looked for
	transfer *http.Transport
}

// New makes a Client. It asks nobody yet.
func New(cfg Config) (*Client, error) {
	c := &Client{cfg: cfg.withDefaults()}
	if len(cfg.Servers) == 0 {
		return nil, errors.New("no server is named")
	}
	for _, text := range cfg.Servers {
		server, err := serverOf(strings.TrimSpace(text))
		if err != nil {
			return nil, err
		}
		c.servers = append(c.servers, server)
	}
	c.given = len(c.servers)
	config, err := cfg.tls()
	if err != nil {
		return nil, err
	}
	c.transfer = &http.Transport{TLSClientConfig: config, ResponseHeaderTimeout: c.cfg.Attempt, MaxIdleConnsPerHost: mostIdle,
		DialContext: (&net.Dialer{Timeout: dialTime}).DialContext, TLSHandshakeTimeout: dialTime,
		IdleConnTimeout: time.Minute, Proxy: http.ProxyFromEnvironment}
	c.http = &http.Client{Transport: c.transfer,
		CheckRedirect: func(*http.Request, []*http.Request) error { return http.ErrUseLastResponse }}
	return c, nil
}

// Close closes connections that nobody uses.
func (c *Client) Close() { c.transfer.CloseIdleConnections() }

func (cfg Config) withDefaults() Config {
	for _, it := range []struct {
		value *time.Duration
		usual time.Duration
	}{{&cfg.Timeout, defaultTimeout}, {&cfg.Attempt, defaultAttempt}, {&cfg.Pause, defaultPause}, {&cfg.Silence, defaultSilence}} {
		if *it.value <= 0 {
			*it.value = it.usual
		}
	}
	return cfg
}

// CheckServer tells why a text is no server of a Config.
func CheckServer(text string) error {
	_, err := serverOf(strings.TrimSpace(text))
	return err
}

func serverOf(text string) (string, error) {
	full := text
	if !strings.Contains(full, "://") {
		full = "http://" + full
	}
	found, err := url.Parse(full)
	if err != nil || found.Host == "" || found.Scheme != "http" && found.Scheme != "https" || strings.Trim(found.Path, "/") != "" ||
		found.RawQuery != "" || found.User != nil {
		return "", fmt.Errorf("a server is http://HOST:PORT or https://HOST:PORT, and not %q", text)
	}
	return found.Scheme + "://" + found.Host, nil
}

func (cfg Config) tls() (*tls.Config, error) {
	config := &tls.Config{MinVersion: tls.VersionTLS12}
	if cfg.CA != "" {
		text, err := os.ReadFile(cfg.CA)
		if err != nil {
			return nil, err
		}
		config.RootCAs = x509.NewCertPool()
		if !config.RootCAs.AppendCertsFromPEM(text) {
			return nil, fmt.Errorf("%s has no certificate", cfg.CA)
		}
	}
	if (cfg.Cert == "") != (cfg.Key == "") {
		return nil, errors.New("a certificate and its key come together")
	}
	if cfg.Cert != "" {
		pair, err := tls.LoadX509KeyPair(cfg.Cert, cfg.Key)
		if err != nil {
			return nil, err
		}
		config.Certificates = []tls.Certificate{pair}
	}
	return config, nil
}

// order is the servers in the order in which they are asked.
func (c *Client) order() []string {
	c.mu.Lock()
	defer c.mu.Unlock()
	return append(append([]string(nil), c.servers[c.current:]...), c.servers[:c.current]...)
}

// prefer has a server asked first. One that is not known changes nothing.
func (c *Client) prefer(server string) {
	c.mu.Lock()
	defer c.mu.Unlock()
	for i, it := range c.servers {
		if it == server {
			c.current = i
		}
	}
}

// passOver has the next server asked first, if this one was.
func (c *Client) passOver(server string) {
	c.mu.Lock()
	defer c.mu.Unlock()
	if c.servers[c.current] == server {
		c.current = (c.current + 1) % len(c.servers)
	}
}

// replaceFound sets the servers that were found besides those of the Config.
func (c *Client) replaceFound(found []string) {
	c.mu.Lock()
	defer c.mu.Unlock()
	first, isKnown := c.servers[c.current], map[string]bool{}
	all := append([]string(nil), c.servers[:c.given]...)
	for _, it := range all {
		isKnown[it] = true
	}
	for _, it := range found {
		if !isKnown[it] {
			all, isKnown[it] = append(all, it), true
		}
	}
	c.servers, c.current = all, 0
	for i, it := range all {
		if it == first {
			c.current = i
		}
	}
}

// isTimeToFind tells, at most once in a while, that members are to be looked for.
func (c *Client) isTimeToFind() bool {
	c.mu.Lock()
	defer c.mu.Unlock()
	if !c.cfg.FindMembers || time.Since(c.foundAt) < findEach {
		return false
	}
	c.foundAt = time.Now()
	return true
}
