// Package ctl is `lrcmand ctl`: questions and commands to a service from a terminal.
package ctl

import (
	"context"
	"errors"
	"flag"
	"fmt"
	"io"
	"os"
	"os/signal"
	"strings"
	"syscall"
	"time"

	"lrcman/service/client"
	"lrcman/service/internal/usage"
)

// The statuses that ctl ends with.
const (
	Done    = 0
	Failed  = 1 // nobody answered, or the service could not do it
	Usage   = 2 // the words are not those of a command
	Refused = 3 // the rules refused a command
	Harm    = 4 // a stripe is in danger, or would be harmed
)

type options struct {
	server, tokenFile, ca, cert, key, output string
	session, callSince                       uint64
	worker, callKey                          string
	from                                     string
	now, noWait                              bool
	timeout                                  time.Duration
}

// A usage error is about the words of the command line.
type usageError string

func (u usageError) Error() string { return string(u) }

func usagef(form string, values ...interface{}) error {
	return usageError(fmt.Sprintf(form, values...))
}

// errRefused and errHarm end with a status of their own; what there is to say was printed.
var (
	errRefused = errors.New("the command is refused")
	errHarm    = errors.New("a stripe is in danger, or would be harmed")
)

const help = `usage: lrcmand ctl [OPTIONS] COMMAND

  status                        the member that answers, and each book in a line
  books                         the books
  members                       the members of the group
  lead ID                       makes a member the leader, and prints the members once it is
  health BOOK                   each reason why not all is well. Status 4: a stripe is lost, unavailable
                                or at margin 0
  table BOOK WHAT               WHAT: status, stripes, nodes, leases, work, fragments, domains fault,
                                domains upgrade, health, capacity or workers
  call BOOK COMMAND..           makes one command, as call p0 lease 17 3, and prints the reply
  ok-to-stop BOOK NODE..        status 0: these may be stopped at once; 4: a stripe would be harmed.
                                fault N.. and upgrade N.. name whole domains
  drain BOOK NODE               drains a node, unless it is draining already, and waits until it is empty
  watch BOOK                    follows the book's log, at another member where one breaks off

Options stand before or after the command:
`

// command is one of the words of ctl, with the least and the greatest number of words after it; -1: any.
type command struct {
	least, most int
	run         func(*session, []string) error
}

var commands map[string]command

func init() {
	commands = map[string]command{"status": {0, 0, (*session).status}, "books": {0, 0, (*session).books}, "members": {0, 0, (*session).members},
		"table": {2, 3, (*session).table}, "health": {1, 1, (*session).health}, "call": {2, -1, (*session).call}, "ok-to-stop": {2, -1, (*session).okToStop},
		"drain": {2, 2, (*session).drain}, "watch": {1, 1, (*session).watch}, "lead": {1, 1, (*session).lead}}
}

// Knobs are what tests do otherwise. Those that are zero change nothing.
type Knobs struct {
	Attempt  time.Duration // how long a member may take to answer
	LookEach time.Duration // how often a node that drains is looked at
}

// A session is one run of ctl.
type session struct {
	*client.Client
	*options
	knobs Knobs
	ctx   context.Context
	out   io.Writer
}

// Main runs `lrcmand ctl` with these words and returns the status.
func Main(words []string, out, err io.Writer) int {
	ctx, stop := signal.NotifyContext(context.Background(), os.Interrupt, syscall.SIGTERM)
	defer stop()
	return Run(ctx, words, out, err, Knobs{})
}

// Run is Main, and ends with a context too.
func Run(ctx context.Context, words []string, out, to io.Writer, knobs Knobs) int {
	if knobs.LookEach == 0 {
		knobs.LookEach = 2 * time.Second
	}
	err := run(ctx, words, out, knobs)
	var ofUsage usageError
	switch {
	case err == nil:
		return Done
	case errors.Is(err, flag.ErrHelp):
		return Done
	case errors.Is(err, errRefused):
		return Refused
	case errors.Is(err, errHarm):
		return Harm
	case errors.As(err, &ofUsage):
		fmt.Fprintf(to, "lrcmand ctl: %v (lrcmand ctl --help tells the usage)\n", err)
		return Usage
	}
	fmt.Fprintf(to, "lrcmand ctl: %v\n", err)
	return Failed
}

func run(ctx context.Context, words []string, out io.Writer, knobs Knobs) error {
	o := &options{}
	rest, err := o.parse(words, out)
	if err != nil {
		return err
	}
	if len(rest) == 0 {
		return usagef("a command is missing")
	}
	found, ok := commands[rest[0]]
	if !ok {
		return usagef("there is no command %q", rest[0])
	}
	given := rest[1:]
	if len(given) < found.least || found.most >= 0 && len(given) > found.most {
		return usagef("%s takes another number of words", rest[0])
	}
	c, err := newClient(o, knobs)
	if err != nil {
		return err
	}
	defer c.Close()
	return found.run(&session{c, o, knobs, ctx, out}, given)
}

// flags are the options, which a line sets.
func (o *options) flags() *flag.FlagSet {
	server := os.Getenv("LRCMAND_SERVER")
	if server == "" {
		server = "http://127.0.0.1:7421"
	}
	flags := flag.NewFlagSet("lrcmand ctl", flag.ContinueOnError)
	flags.SetOutput(io.Discard)
	flags.StringVar(&o.server, "server", server,
		"`URL` of a member, or several with commas between, tried one after the other; also LRCMAND_SERVER")
	flags.StringVar(&o.tokenFile, "token-file", os.Getenv("LRCMAND_TOKEN_FILE"),
		"`FILE` with the token, a line of it alone or of ROLE TOKEN; also LRCMAND_TOKEN_FILE")
	flags.StringVar(&o.ca, "ca", "", "CA `FILE` that certificates of members must chain to; by default those of the system")
	flags.StringVar(&o.cert, "cert", "", "`FILE` with a client certificate")
	flags.StringVar(&o.key, "key", "", "`FILE` with its key")
	flags.StringVar(&o.output, "o", "text", "`FORM`: text, in columns, or json, the answer of the service as it is")
	flags.Uint64Var(&o.session, "session", 1, "`N` of the session of calls, 1 to 8")
	flags.StringVar(&o.worker, "worker", "", "`NAME` of the worker who calls")
	flags.StringVar(&o.callKey, "call-key", "", "`KEY` of the call; by default a random one")
	flags.Uint64Var(&o.callSince, "call-since", 0, "`N` that was reported with the key, if the call was sent before")
	flags.StringVar(&o.from, "from", "", "`N`: watch shows the entries after this number; by default those to come")
	flags.BoolVar(&o.now, "now", false, "tables include everything acknowledged before; ok-to-stop always does")
	flags.BoolVar(&o.noWait, "no-wait", false, "drain does not wait until the node is empty")
	flags.DurationVar(&o.timeout, "timeout", 20*time.Second, "how long members are asked before it is given up")
	return flags
}

// parse takes the options out of the words, wherever they stand, and returns the others.
func (o *options) parse(words []string, out io.Writer) ([]string, error) {
	flags, rest := o.flags(), []string{}
	for {
		if err := flags.Parse(words); errors.Is(err, flag.ErrHelp) {
			fmt.Fprint(out, help)
			flags.SetOutput(out)
			flags.PrintDefaults()
			return nil, err
		} else if err != nil {
			return nil, usageError(usage.Explain(flags, err).Error())
		}
		if words = flags.Args(); len(words) == 0 {
			break
		}
		rest, words = append(rest, words[0]), words[1:]
	}
	if o.output != "text" && o.output != "json" {
		return nil, usagef("-o takes text or json, and not %q", o.output)
	}
	if o.session < 1 || o.session > 8 {
		return nil, usagef("--session is 1 to 8")
	}
	if o.callSince > 0 && o.callKey == "" {
		return nil, usagef("--call-since takes --call-key")
	}
	return rest, nil
}

func (s *session) isJSON() bool { return s.output == "json" }

// show prints a body as it came, and an end of line after it.
func (s *session) show(text []byte) error {
	_, err := fmt.Fprintln(s.out, strings.TrimRight(string(text), "\n"))
	return err
}
