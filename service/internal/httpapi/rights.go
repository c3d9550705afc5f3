package httpapi

import (
	"bufio"
	"crypto/sha256"
	"crypto/subtle"
	"crypto/x509"
	"errors"
	"fmt"
	"io"
	"net"
	"net/http"
	"path"
	"strconv"
	"strings"
	"sync"

	"lrcman/service/book"
)

// A Role is what a client may do, as a set of rights; or what a request takes, and then one right of it is enough.
type Role int

// The rights.
const (
	Nobody  Role = 0               // takes no right
	Look    Role = 1 << (iota - 1) // looks
	Work                           // repairs
	Place                          // places and drops stripes
	Operate                        // does all else
)

// roles are those of the token file.
var roles = map[string]Role{"look": Look, "work": Look | Work, "place": Look | Place, "operate": Look | Work | Place | Operate}

// String names the rights.
func (r Role) String() string {
	var words []string
	for i, word := range []string{"look", "work", "place", "operate"} {
		if r&(1<<i) != 0 {
			words = append(words, word)
		}
	}
	if words == nil {
		return "nobody"
	}
	return strings.Join(words, " or ")
}

// commandRoles are the rights that commands take. The others take Operate.
var commandRoles = map[book.Kind]Role{book.Place: Place, book.Place6: Place, book.Drop: Place, book.Lease: Work, book.Next: Work,
	book.Done: Work, book.Abandon: Work}

func commandRole(kind book.Kind) Role {
	if role, isThere := commandRoles[kind]; isThere {
		return role
	}
	return Operate
}

// leastToken is the length of the shortest token.
const leastToken = 16

// A caller is whoever sends a request.
type caller struct {
	name  string // of its token or certificate; "" if it has none
	role  Role
	books []string // patterns of the books that it may ask of; nil: all
}

func (c *caller) may(needed Role) bool { return needed == Nobody || c.role&needed != 0 }

func (c *caller) mayBook(name string) bool {
	for _, pattern := range c.books {
		if isMatch, err := path.Match(pattern, name); isMatch && err == nil {
			return true
		}
	}
	return c.books == nil
}

// mayWorkAs tells whether a caller may give a name as that of a worker: one of its own.
func (c *caller) mayWorkAs(worker string) bool {
	return worker == "" || c.name == "" || c.may(Operate) || worker == c.name || strings.HasPrefix(worker, c.name+"/")
}

// everybody may do all.
var everybody = &caller{role: roles["operate"]}

// A grant is a line of the token file.
type grant struct {
	sum         [sha256.Size]byte // of the token
	certificate string            // or the name of a certificate
	caller      caller
}

// Rights are those of tokens and certificates. Nil rights let everybody do all.
type Rights struct {
	mu     sync.RWMutex
	grants []grant
}

// ReadRights reads lines of ROLE[,ROLE..] and then TOKEN or cert=NAME. Empty lines, and lines that begin with #, are passed over.
func ReadRights(r io.Reader) (*Rights, error) {
	rights := &Rights{}
	lines := bufio.NewScanner(r)
	for number := 1; lines.Scan(); number++ {
		words := strings.Fields(lines.Text())
		if len(words) == 0 || words[0][0] == '#' {
			continue
		}
		it, err := grantOf(words)
		if err == nil && rights.has(it) {
			err = errors.New("the token or certificate stands in an earlier line")
		}
		if err != nil {
			return nil, fmt.Errorf("line %d: %w", number, err)
		}
		rights.grants = append(rights.grants, it)
	}
	if err := lines.Err(); err != nil {
		return nil, err
	}
	if len(rights.grants) == 0 {
		return nil, errors.New("it has no token")
	}
	return rights, nil
}

// grantOf reads the words of a line.
func grantOf(words []string) (it grant, err error) {
	if len(words) < 2 {
		return it, errors.New("it has to be ROLE TOKEN, or ROLE cert=NAME")
	}
	for _, word := range strings.Split(words[0], ",") {
		role, ok := roles[word]
		if !ok {
			return it, fmt.Errorf("there is no role %q; it has to be look, work, place or operate", word)
		}
		it.caller.role |= role
	}
	if name := strings.TrimPrefix(words[1], "cert="); name != words[1] {
		if name == "" || !isWord(name) {
			return it, errors.New("cert=NAME takes a name of 1 to 64 printable letters")
		}
		it.certificate, it.caller.name = name, name
	} else if len(words[1]) < leastToken {
		return it, fmt.Errorf("the token has less than %d letters", leastToken)
	} else {
		it.sum = sha256.Sum256([]byte(words[1]))
	}
	for _, word := range words[2:] {
		if err := it.limit(word); err != nil {
			return it, err
		}
	}
	return it, nil
}

// limit reads a further word of a line.
func (g *grant) limit(word string) error {
	field, value, _ := strings.Cut(word, "=")
	switch {
	case field == "name" && g.caller.name == "" && value != "" && isWord(value):
		g.caller.name = value
		return nil
	case field == "books" && g.caller.books == nil:
		g.caller.books = strings.Split(value, ",")
		for _, pattern := range g.caller.books {
			if _, err := path.Match(pattern, ""); err != nil || pattern == "" {
				return fmt.Errorf("books= has patterns with commas between, and not %q", pattern)
			}
		}
		return nil
	}
	return fmt.Errorf("behind a token may stand name=NAME and books=PATTERN,.., each once, and behind a certificate books=, and not %q", word)
}

func (rights *Rights) has(it grant) bool {
	for i := range rights.grants {
		if g := &rights.grants[i]; g.certificate == it.certificate && (it.certificate != "" || g.sum == it.sum) {
			return true
		}
	}
	return false
}

// Replace makes them those of another reading.
func (rights *Rights) Replace(other *Rights) {
	rights.mu.Lock()
	defer rights.mu.Unlock()
	rights.grants = other.grants
}

// HaveTokens and HaveCertificates tell what they are of.
func (rights *Rights) HaveTokens() bool { return rights.count(false) > 0 }

// HaveCertificates tells whether certificates have rights of their own.
func (rights *Rights) HaveCertificates() bool { return rights.count(true) > 0 }

func (rights *Rights) count(ofCertificates bool) (found int) {
	if rights == nil {
		return 0
	}
	rights.mu.RLock()
	defer rights.mu.RUnlock()
	for i := range rights.grants {
		if (rights.grants[i].certificate != "") == ofCertificates {
			found++
		}
	}
	return found
}

// callerOf is whoever sent a request: the one of its token, or else of its certificate.
func (rights *Rights) callerOf(r *http.Request) (*caller, error) {
	names := certificateNames(r)
	if rights == nil {
		if len(names) == 0 {
			return everybody, nil
		}
		return &caller{name: names[0], role: everybody.role}, nil
	}
	rights.mu.RLock()
	defer rights.mu.RUnlock()
	if r.Header.Get("Authorization") != "" {
		return rights.ofToken(r.Header.Get("Authorization"))
	}
	for _, name := range names {
		for i := range rights.grants {
			if rights.grants[i].certificate == name {
				return &rights.grants[i].caller, nil
			}
		}
	}
	if len(names) > 0 {
		return nil, unauthorized("the certificate has no rights here, and the request has no token: it takes Authorization: Bearer TOKEN")
	}
	return nil, unauthorized("the request has no token: it takes Authorization: Bearer TOKEN")
}

// ofToken is the caller with a token. It takes the same time whichever token comes near.
func (rights *Rights) ofToken(authorization string) (*caller, error) {
	words := strings.Fields(authorization)
	if len(words) != 2 || !strings.EqualFold(words[0], "Bearer") {
		return nil, unauthorized("the request has no token: it takes Authorization: Bearer TOKEN")
	}
	sum, found := sha256.Sum256([]byte(words[1])), -1
	for i := range rights.grants {
		isToken := subtle.ConstantTimeCompare(sum[:], rights.grants[i].sum[:]) == 1 && rights.grants[i].certificate == ""
		if isToken {
			found = i
		}
	}
	if found < 0 {
		return nil, unauthorized("the token is unknown")
	}
	return &rights.grants[found].caller, nil
}

// certificateNames are the names of the certificate that a client has shown and that was verified: its common name first.
func certificateNames(r *http.Request) (names []string) {
	if r.TLS == nil || len(r.TLS.VerifiedChains) == 0 {
		return nil
	}
	certificate := r.TLS.PeerCertificates[0]
	for _, name := range namesOf(certificate) {
		if name != "" && isWord(name) {
			names = append(names, name)
		}
	}
	return names
}

func namesOf(certificate *x509.Certificate) []string {
	names := append([]string{certificate.Subject.CommonName}, certificate.DNSNames...)
	names = append(names, certificate.EmailAddresses...)
	for _, uri := range certificate.URIs {
		names = append(names, uri.String())
	}
	return names
}

// owner is the name of the token or certificate that asks; "" if there is none.
func (q *request) owner() string { return q.caller.name }

// require refuses a request whose caller lacks a right.
func (q *request) require(needed Role) error {
	q.takes = needed
	if !q.caller.may(needed) {
		return forbidden("this takes the role %v", needed)
	}
	return nil
}

// requireBook refuses a request whose caller has no right to a book, whether there is such a book or not.
func (q *request) requireBook(name string) error {
	if !q.caller.mayBook(name) {
		return forbidden("there are no rights to the book %s here", name)
	}
	return nil
}

// requireAll refuses a request about more than books of a caller with rights to some books alone: it may look at members, but change
// nothing of the group, and metrics tell of all books.
func (q *request) requireAll(route *Route) error {
	if q.caller.books == nil {
		return nil
	}
	if name := q.query.Get("book"); name != "" {
		return q.requireBook(name)
	}
	if route.Role == Operate || route.Pattern == "/metrics" {
		return forbidden("this takes rights to all books")
	}
	return nil
}

// requireWorker refuses the name of a worker that is not the caller's.
func (q *request) requireWorker(worker string) error {
	if !q.caller.mayWorkAs(worker) {
		return forbidden("the worker has to be %s, or %s/ and more, and not %s", q.caller.name, q.caller.name, worker)
	}
	return nil
}

func unauthorized(words string) error {
	return &failure{Status: http.StatusUnauthorized, Code: "unauthorized", Words: words}
}

func forbidden(form string, values ...interface{}) error {
	return &failure{Status: http.StatusForbidden, Code: "forbidden", Words: fmt.Sprintf(form, values...)}
}

// CheckAddress tells why a text is not HOST:PORT.
func CheckAddress(address string) error {
	host, port, err := net.SplitHostPort(address)
	if err != nil || host == "" || strings.ContainsAny(host, "/ ,=@") {
		return fmt.Errorf("has to be HOST:PORT and not %q", address)
	}
	if number, err := strconv.ParseUint(port, 10, 16); err != nil || number == 0 {
		return fmt.Errorf("has no port from 1 to 65535: %q", address)
	}
	return nil
}
