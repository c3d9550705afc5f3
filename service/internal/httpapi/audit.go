package httpapi

import (
	"fmt"
	"net/http"
	"strconv"
	"sync/atomic"
	"time"
)

// mostRefusals is how many lines of refusals a second an audit gets at most.
const mostRefusals = 10

// A sparing log gets so many lines a second, and tells how many it left out.
type sparing struct {
	rates *Rates
	left  uint64 // atomic
	write func(string)
}

func newSparing(each uint64, write func(string)) *sparing {
	return &sparing{rates: NewRates(each), write: write}
}

func (s *sparing) print(words string) {
	if !s.rates.take("") {
		atomic.AddUint64(&s.left, 1)
		return
	}
	if left := atomic.SwapUint64(&s.left, 0); left > 0 {
		words += fmt.Sprintf(" left_out=%d", left)
	}
	s.write(words)
}

// An audit is told of each request that takes the right to operate, and of those that were refused for lack of rights; of the last
// ones so many a second, since everybody may make them.
type audit struct {
	write   func(string)
	refused *sparing
}

func newAudit(write func(string)) *audit {
	if write == nil {
		return nil
	}
	return &audit{write, newSparing(mostRefusals, write)}
}

// idOf is the name that a client, or what passes its requests on, gives a request; "" if there is none.
func idOf(r *http.Request) string {
	if id := r.Header.Get("X-Request-Id"); isWord(id) {
		return id
	}
	return ""
}

func (a *audit) note(q *request, status int, index string) {
	isRefused := status == http.StatusUnauthorized || status == http.StatusForbidden
	if a == nil || q.takes != Operate && !isRefused {
		return
	}
	line := fmt.Sprintf("time=%s name=%s address=%s method=%s path=%s status=%d index=%s",
		time.Now().UTC().Format("2006-01-02T15:04:05.000Z"), quoted(q.caller.name), quoted(q.r.RemoteAddr), quoted(q.r.Method),
		quoted(q.r.URL.EscapedPath()), status, quoted(index))
	if q.id != "" {
		line += " request=" + quoted(q.id)
	}
	if isRefused {
		a.refused.print(line)
	} else {
		a.write(line)
	}
}

// mostQuoted is how much of a value stands in a line.
const mostQuoted = 200

// quoted is a value as it stands in a line of key=value, of which nobody can make two.
func quoted(value string) string {
	if len(value) > mostQuoted {
		value = value[:mostQuoted]
	}
	for i := 0; i < len(value); i++ {
		if c := value[i]; c <= ' ' || c > '~' || c == '"' || c == '=' || c == '\\' {
			return strconv.QuoteToASCII(value)
		}
	}
	if value == "" {
		return `""`
	}
	return value
}
