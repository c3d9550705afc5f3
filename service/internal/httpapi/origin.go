package httpapi

import (
	"net"
	"net/http"
	"strings"
)

// Hosts are the names by which browsers may call this member. A page of elsewhere whose own name comes to lead here (DNS rebinding)
// still calls by that name. Nil hosts let every name do.
type Hosts struct {
	names map[string]bool
	more  func() []string // addresses of the group, whose names do too
}

// NewHosts takes names and addresses, and a function that returns further addresses.
func NewHosts(names []string, more func() []string) *Hosts {
	hosts := &Hosts{map[string]bool{"localhost": true}, more}
	for _, name := range names {
		hosts.names[nameOf(name)] = true
	}
	return hosts
}

// nameOf is the name of HOST or HOST:PORT as it is compared.
func nameOf(host string) string {
	name := strings.TrimSuffix(strings.TrimPrefix(hostOf(host), "["), "]")
	return strings.ToLower(strings.TrimSuffix(name, "."))
}

// have tells whether a request may be for such a host. (Only a client of HTTP/1.0, which no browser is, leaves it out)
func (h *Hosts) have(host string) bool {
	name := nameOf(host)
	if h == nil || host == "" || h.names[name] || net.ParseIP(name) != nil {
		return true
	}
	for _, address := range h.more() {
		if nameOf(address) == name {
			return true
		}
	}
	return false
}

// checkOrigin refuses what a browser sends for a page of elsewhere.
func (a *API) checkOrigin(r *http.Request) error {
	if !a.cfg.Hosts.have(r.Host) {
		return forbiddenOrigin("no member is called by this name in Host; --host adds one")
	}
	if origin := r.Header["Origin"]; len(origin) > 0 && (len(origin) > 1 || !strings.EqualFold(origin[0], ownOrigin(r))) {
		return forbiddenOrigin("the request is of a page from elsewhere, as its Origin says")
	}
	switch r.Header.Get("Sec-Fetch-Site") {
	case "", "none", "same-origin":
		return nil
	}
	if isVisit(r) {
		return nil
	}
	return forbiddenOrigin("the request is of a page from elsewhere, as its Sec-Fetch-Site says")
}

func ownOrigin(r *http.Request) string {
	if r.TLS != nil {
		return "https://" + r.Host
	}
	return "http://" + r.Host
}

// isVisit tells whether somebody follows a link to the page.
func isVisit(r *http.Request) bool {
	return r.Method == http.MethodGet && r.URL.Path == "/" && r.Header.Get("Sec-Fetch-Mode") == "navigate"
}

func forbiddenOrigin(words string) error {
	return &failure{Status: http.StatusForbidden, Code: "forbidden_origin", Words: words}
}
