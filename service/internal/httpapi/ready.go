package httpapi

import (
	"fmt"
	"net/http"
	"sort"
	"strings"
	"time"

	"lrcman/service/internal/engine"
	"lrcman/service/internal/state"
)

// A Build is which program this is.
type Build struct {
	Version string `json:"version"`
	Commit  string `json:"commit"`
}

// A Check tells why a member is not ready.
type Check struct {
	Name string
	Why  func() string // in words; "": it is ready
}

// stuckTime is how long the loop of the log may stand still. A process that does so longer does not recover by itself.
const stuckTime = time.Minute

func (g *group) health(q *request) error {
	if !g.replica.KeepsUp() {
		return engine.ErrNoLeader
	} else if len(g.state.Differs()) > 0 {
		return state.ErrDiffers
	}
	return q.say(http.StatusOK, map[string]bool{"ok": true})
}

// live tells whether the process does what it does at all: whoever hears that it does not may start it anew.
func (g *group) live(q *request) error {
	turned := g.engine.Status().Turned
	if still := time.Since(turned); !turned.IsZero() && still > stuckTime {
		return &failure{Status: http.StatusServiceUnavailable, Code: "stuck",
			Words: fmt.Sprintf("the loop of this member has stood still for %v", still.Round(time.Second))}
	}
	return q.say(http.StatusOK, map[string]bool{"ok": true})
}

// ready tells whether clients should ask this member, and if not, why.
func (g *group) ready(q *request) error {
	reasons := g.reasons()
	if len(reasons) == 0 {
		return q.say(http.StatusOK, map[string]bool{"ok": true})
	}
	var words []string
	for _, why := range reasons {
		words = append(words, why)
	}
	sort.Strings(words)
	return &failure{Status: http.StatusServiceUnavailable, Code: "not_ready", Words: strings.Join(words, "; "), Reasons: reasons}
}

// reasons are why this member is not ready.
func (g *group) reasons() map[string]string {
	reasons, status := map[string]string{}, g.engine.Status()
	if status.Leader == 0 {
		reasons["leader"] = engine.ErrNoLeader.Error()
	} else if !g.replica.KeepsUp() {
		reasons["behind"] = fmt.Sprintf("this member is behind: it has applied %d of %d entries", status.Applied, status.Commit)
	}
	for _, check := range g.checks {
		if why := check.Why(); why != "" {
			reasons[check.Name] = why
		}
	}
	return reasons
}
