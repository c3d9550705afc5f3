package main

import (
	"errors"
	"flag"
	"fmt"
	"io"
	"net"
	"strings"
	"time"

	"go.etcd.io/etcd/pkg/transport"

	"lrcman/service/book"
	"lrcman/service/internal/engine"
	"lrcman/service/internal/engine/raftlog"
	"lrcman/service/internal/httpapi"
	"lrcman/service/internal/logging"
	"lrcman/service/internal/usage"
)

// options are the words of the command line.
type options struct {
	data, listen, peer, group, tokenFile             string
	members                                          string
	cert, key, clientCA                              string
	peerCert, peerKey, peerCA                        string
	id, tick, compare, snapshotEvery, trailing, rate uint64
	isNew, join, trustNetwork, version               bool
	peerNames                                        several
	diskReserve, snapshotBytes                       uint64
	logFormat, logLevel                              string
	logging                                          logging.Config
	election, timeout                                time.Duration
	self                                             engine.Member
	first                                            []engine.Member
	rights                                           *httpapi.Rights
	listenMetrics, auditFile                         string
	hosts                                            hostNames
}

// patience is how long a member that has not begun waits for the others.
const patience = 10 * time.Minute

// several are the words of a repeatable option.
type several []string

func (w *several) String() string { return strings.Join(*w, ",") }

func (w *several) Set(word string) error {
	if word == "" {
		return errors.New("it is empty")
	}
	*w = append(*w, word)
	return nil
}

func parse(words []string) (*options, error) {
	o := &options{}
	flags := flag.NewFlagSet("lrcmand", flag.ContinueOnError)
	flags.SetOutput(io.Discard)
	o.ofMember(flags)
	o.ofWork(flags)
	o.ofGuard(flags)
	if err := usage.Parse(flags, "LRCMAND", words); errors.Is(err, flag.ErrHelp) {
		return nil, answer(help + usage.List(flags, groups))
	} else if err != nil {
		return nil, err
	}
	if o.version {
		return nil, answer(about())
	}
	if flags.NArg() > 0 {
		return nil, fmt.Errorf("this word is none of the options: %q", flags.Arg(0))
	}
	return o, o.check()
}

// ofMember are the options that say who this member is, and where.
func (o *options) ofMember(flags *flag.FlagSet) {
	flags.StringVar(&o.data, "data", "", "`DIR`: folder of this member")
	flags.StringVar(&o.listen, "listen", "127.0.0.1:7421", "`HOST:PORT`: address for clients")
	flags.StringVar(&o.listenMetrics, "listen-metrics", "", "`HOST:PORT`: address for health and metrics alone, without TLS or authentication")
	flags.Var(&o.hosts, "host", "`NAME`: further name of this member for clients; repeatable")
	flags.Uint64Var(&o.id, "id", 1, "`N`: number of this member, 1 to 65535")
	flags.StringVar(&o.members, "members", "", "`N=PEER/CLIENT,..`: the first members, the same list on each")
	flags.BoolVar(&o.isNew, "new", false, "begin a new group of the first members; ignored by a folder that has begun")
	flags.StringVar(&o.peer, "peer", "", "`HOST:PORT`: address for the other members")
	flags.BoolVar(&o.join, "join", false, "this member was added to a running group")
	flags.StringVar(&o.group, "group", "lrcmand", "`NAME`: folders and members of a group of another name are refused")
}

// ofWork are those of its work: times, entries, bytes and lines.
func (o *options) ofWork(flags *flag.FlagSet) {
	flags.Uint64Var(&o.tick, "tick", 600, "`SECONDS`: how often the leader ticks each book with a live lease; 0: never")
	flags.Uint64Var(&o.compare, "compare", 10, "`SECONDS`: how often the members compare one book; 0: never")
	flags.DurationVar(&o.election, "election", time.Second, "`DURATION`: how long a leader may be silent")
	flags.DurationVar(&o.timeout, "timeout", 10*time.Second, "`DURATION`: how long a request may take, at least --election")
	flags.Uint64Var(&o.snapshotEvery, "snapshot-every", 100000, "`N`: log entries between snapshots")
	flags.Uint64Var(&o.snapshotBytes, "snapshot-bytes", 64<<20, "`BYTES`: bytes of log entries between snapshots, if these come first")
	flags.Uint64Var(&o.trailing, "trailing", 5000, "`N`: entries kept from before a snapshot, 16 MiB together at most")
	flags.Uint64Var(&o.diskReserve, "disk-reserve", 256<<20, "`BYTES`: changes are refused with less free space; 0: never")
	flags.Uint64Var(&o.rate, "rate", 0, "`N`: requests a second from one address, and as many at once; 0: any number")
	flags.StringVar(&o.logFormat, "log-format", "text", "`FORM`: lines on standard error: text, or json, an object each")
	flags.StringVar(&o.logLevel, "log-level", "info", "`LEVEL`: lowest level written: debug (with Raft's lines), info, warn or error")
	flags.BoolVar(&o.version, "version", false, "print versions, and exit")
}

// ofGuard are those that say who may ask it.
func (o *options) ofGuard(flags *flag.FlagSet) {
	flags.StringVar(&o.tokenFile, "token-file", "", "`FILE`: who may do what, lines of ROLE TOKEN or ROLE cert=NAME")
	flags.StringVar(&o.auditFile, "audit-file", "", "`FILE`: audit of what operators ask and who is refused; in the log by default")
	flags.StringVar(&o.cert, "cert", "", "`FILE`: certificate for clients")
	flags.StringVar(&o.key, "key", "", "`FILE`: its key")
	flags.StringVar(&o.clientCA, "client-ca", "", "`FILE`: CA file that client certificates must chain to")
	flags.StringVar(&o.peerCert, "peer-cert", "", "`FILE`: certificate for the other members")
	flags.StringVar(&o.peerKey, "peer-key", "", "`FILE`: its key")
	flags.StringVar(&o.peerCA, "peer-ca", "", "`FILE`: CA file that certificates of members must chain to")
	flags.Var(&o.peerNames, "peer-name", "`NAME`: common or alternative name that certificates of members have; repeatable")
	flags.BoolVar(&o.trustNetwork, "trust-network", false,
		"allow addresses beyond loopback without tokens or certificates, and tokens in the clear")
}

func (o *options) check() error {
	switch {
	case o.data == "":
		return errors.New("--data DIR is missing")
	case o.id == 0 || o.id > engine.MostID:
		return fmt.Errorf("--id is 1 to %d", engine.MostID)
	case o.tick > 1<<31:
		return errors.New("--tick is too high")
	case o.compare > 1<<31:
		return errors.New("--compare is too high")
	case o.election < 100*time.Millisecond:
		return errors.New("--election is 100ms or more")
	case o.timeout < o.election:
		return errors.New("--timeout is --election or more")
	case o.snapshotEvery == 0:
		return errors.New("--snapshot-every is 1 or more")
	case o.diskReserve > 1<<60:
		return errors.New("--disk-reserve is too high")
	case o.snapshotBytes == 0:
		return errors.New("--snapshot-bytes is 1 or more")
	}
	for _, step := range []func() error{o.checkTogether, o.readLogging, o.readMembers} {
		if err := step(); err != nil {
			return err
		}
	}
	var err error
	if o.rights, err = o.readRights(); err != nil {
		return err
	}
	return o.checkAddresses()
}

// checkTogether refuses options that don't go together.
func (o *options) checkTogether() error {
	switch {
	case o.join && o.members != "":
		return errors.New("--members is for the first members, and --join for one that was added")
	case o.join && o.isNew:
		return errors.New("--new is for the first members, and --join for one that was added")
	case o.join && o.peer == "":
		return errors.New("--join takes --peer")
	case (o.cert == "") != (o.key == ""), o.clientCA != "" && o.cert == "":
		return errors.New("--cert and --key come together, and --client-ca with both")
	case (o.peerCert == "") != (o.peerKey == ""), (o.peerCert == "") != (o.peerCA == ""):
		return errors.New("--peer-cert, --peer-key and --peer-ca come together")
	case len(o.peerNames) > 0 && o.peerCA == "":
		return errors.New("--peer-name takes --peer-ca")
	}
	return nil
}

// readMembers finds this member and the first ones.
func (o *options) readMembers() error {
	if o.members != "" {
		for _, text := range strings.Split(o.members, ",") {
			member, err := memberOf(text)
			if err != nil {
				return err
			}
			o.first = append(o.first, member)
			if member.ID == o.id {
				o.self = member
			}
		}
		if o.self.ID == 0 {
			return fmt.Errorf("--members lacks this one, %d", o.id)
		}
		if o.peer == "" {
			o.peer = o.self.Peer
		}
		return unique(o.first)
	}
	o.self = engine.Member{ID: o.id, Peer: o.peer, Client: o.listen}
	if !o.join {
		o.first = []engine.Member{o.self}
	}
	return nil
}

func unique(members []engine.Member) error {
	seen, taken := map[uint64]bool{}, map[string]bool{}
	for _, member := range members {
		if seen[member.ID] {
			return fmt.Errorf("--members has %d twice", member.ID)
		}
		seen[member.ID] = true
		for _, address := range []string{member.Peer, member.Client} {
			if taken[address] {
				return fmt.Errorf("--members has the address %s twice", address)
			}
			taken[address] = true
		}
	}
	return nil
}

// memberOf reads N=PEER/CLIENT.
func memberOf(text string) (engine.Member, error) {
	number, addresses, isThere := strings.Cut(text, "=")
	peer, client, isThereToo := strings.Cut(addresses, "/")
	id, err := book.ParseNumber(number, engine.MostID)
	if !isThere || !isThereToo || err != nil || id == 0 {
		return engine.Member{}, fmt.Errorf("--members has N=PEER/CLIENT with commas between, and not %q", text)
	}
	for _, address := range []string{peer, client} {
		if err := httpapi.CheckAddress(address); err != nil {
			return engine.Member{}, fmt.Errorf("--members: an address %w", err)
		}
	}
	return engine.Member{ID: id, Peer: peer, Client: client}, nil
}

func (o *options) readLogging() (err error) {
	if o.logFormat != "text" && o.logFormat != "json" {
		return fmt.Errorf("--log-format is text or json, and not %q", o.logFormat)
	}
	o.logging.JSON = o.logFormat == "json"
	if o.logging.Level, err = logging.ParseLevel(o.logLevel); err != nil {
		return fmt.Errorf("--log-level %w", err)
	}
	return nil
}

// checkAddresses refuses ports that others reach and that ask nobody who they are.
func (o *options) checkAddresses() error {
	if err := httpapi.CheckAddress(o.listen); err != nil {
		return fmt.Errorf("--listen %w", err)
	}
	if o.peer != "" {
		if err := httpapi.CheckAddress(o.peer); err != nil {
			return fmt.Errorf("--peer %w", err)
		}
	}
	if o.listenMetrics != "" {
		if err := httpapi.CheckAddress(o.listenMetrics); err != nil {
			return fmt.Errorf("--listen-metrics %w", err)
		}
	}
	if err := o.checkTold(); err != nil || o.trustNetwork {
		return err
	}
	if !isLoopback(o.listen) && o.rights == nil && o.clientCA == "" {
		return errors.New("--listen beyond loopback takes --token-file or --client-ca, or else --trust-network")
	}
	if !isLoopback(o.listen) && o.cert == "" {
		return errors.New("--token-file with --listen beyond loopback takes --cert and --key, or tokens are in the clear: else --trust-network")
	}
	if o.listenMetrics != "" && !isLoopback(o.listenMetrics) {
		return errors.New("--listen-metrics beyond loopback takes --trust-network: it asks nobody who they are")
	}
	if o.peer != "" && !isLoopback(o.peer) && o.peerCA == "" {
		return errors.New("--peer beyond loopback takes --peer-cert, --peer-key and --peer-ca, or else --trust-network")
	}
	if o.peer != "" && o.peerCA == "" && (o.rights != nil || o.clientCA != "") {
		return errors.New("--token-file and --client-ca take --peer-cert, --peer-key and --peer-ca where there is a port for members, " +
			"or else --trust-network: whoever has an account on this machine speaks as a member there")
	}
	return nil
}

// checkTold refuses addresses at which a member is reached by nobody, where it tells them to its group. (--members has others)
func (o *options) checkTold() error {
	if o.members != "" || o.peer == "" {
		return nil
	}
	for _, it := range []struct{ name, address string }{{"--peer", o.peer}, {"--listen", o.listen}} {
		host, _, _ := net.SplitHostPort(it.address)
		if ip := net.ParseIP(host); ip != nil && ip.IsUnspecified() {
			return fmt.Errorf("%s is told to the others: they reach nobody at %s", it.name, it.address)
		}
	}
	return nil
}

func isLoopback(address string) bool {
	host, _, _ := net.SplitHostPort(address)
	ip := net.ParseIP(host)
	return host == "localhost" || ip != nil && ip.IsLoopback()
}

// rates limit the requests of each address; nil if any number may come.
func (o *options) rates() *httpapi.Rates {
	if o.rate == 0 {
		return nil
	}
	return httpapi.NewRates(o.rate)
}

func (o *options) tickTime() time.Duration    { return time.Duration(o.tick) * time.Second }
func (o *options) compareTime() time.Duration { return time.Duration(o.compare) * time.Second }

func (o *options) config(logger *logging.Logger) raftlog.Config {
	cfg := raftlog.Config{Dir: o.data, Name: o.group, New: o.isNew, Self: o.self, Members: o.first, Listen: o.peer,
		PeerNames: o.peerNames, Patience: patience, Election: o.election, SnapshotEvery: o.snapshotEvery,
		SnapshotBytes: o.snapshotBytes, Trailing: o.trailing, Log: logger, Fatal: func(err error) { logger.Fatal("member ends", "error", err) }}
	if o.peerCA != "" {
		cfg.TLS = transport.TLSInfo{CertFile: o.peerCert, KeyFile: o.peerKey, TrustedCAFile: o.peerCA, ClientCertAuth: true}
	}
	return cfg
}
