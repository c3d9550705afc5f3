package main

import (
	"context"
	"crypto/tls"
	"errors"
	"fmt"
	"io"
	"net"
	"net/http"
	"os"
	"os/signal"
	"strings"
	"sync"
	"syscall"

	"lrcman/service/internal/engine"
	"lrcman/service/internal/httpapi"
	"lrcman/service/internal/logging"
)

// ports are where clients, and those who watch this member, come in, with what is read for them and read anew at SIGHUP.
type ports struct {
	clients, watch        *relay // watch is nil if there is none
	connections, watchers *httpapi.Connections
	keys                  *keys      // nil without TLS
	audit                 *auditFile // nil: the log has it
	log                   *logging.Logger
}

// mostWatchers is how many connections may be open at the port for health and metrics.
const mostWatchers = 64

// open opens them. Files that can't be used are refused.
func (o *options) open(logger *logging.Logger) (p *ports, err error) {
	p = &ports{connections: httpapi.NewConnections(httpapi.MostConnections), watchers: httpapi.NewConnections(mostWatchers), log: logger}
	if o.cert != "" {
		if p.keys, err = newKeys(o.cert, o.key, o.clientCA, logger); err != nil {
			return nil, err
		}
	}
	if o.auditFile != "" {
		if p.audit, err = openAudit(o.auditFile, logger); err != nil {
			return nil, err
		}
	}
	listener, err := net.Listen("tcp", o.listen)
	if err != nil {
		return nil, err
	}
	p.clients = newRelay(p.connections.Limit(listener, p.keys != nil))
	if o.listenMetrics != "" {
		if listener, err = net.Listen("tcp", o.listenMetrics); err != nil {
			return nil, err
		}
		p.watch = newRelay(p.watchers.Limit(listener, false))
	}
	return p, nil
}

// serveEarly answers at both ports while the member starts.
func (p *ports) serveEarly(g *gate) []*http.Server {
	early := func(of *httpapi.Connections) *http.Server {
		return &http.Server{Handler: g.before(nil), ReadTimeout: startTime, ConnState: of.Note, ErrorLog: p.log.Std(logging.Debug, "the port for clients")}
	}
	servers := []*http.Server{early(p.connections)}
	go serve(servers[0], p.clients.turn(), p.tls(), p.log)
	if p.watch != nil {
		servers = append(servers, early(p.watchers))
		go serve(servers[1], p.watch.turn(), nil, p.log)
	}
	return servers
}

// tls is what the port for clients shows and asks for; nil in the clear.
func (p *ports) tls() *tls.Config {
	if p.keys == nil {
		return nil
	}
	return p.keys.config()
}

// auditTo takes the lines of the audit. Where nobody has a name there is none, unless it is asked for.
func (p *ports) auditTo(o *options) func(string) {
	switch {
	case p.audit != nil:
		return p.audit.write
	case o.rights == nil && o.clientCA == "":
		return nil
	}
	return func(line string) { p.log.Info("audit " + line) }
}

// rereadAtSignal reads tokens, certificates and authorities anew at each SIGHUP, until the context ends. What can't be used is told,
// and stays as it was.
func (p *ports) rereadAtSignal(ctx context.Context, o *options, logger *logging.Logger) {
	signals := make(chan os.Signal, 1)
	signal.Notify(signals, syscall.SIGHUP)
	go func() {
		defer signal.Stop(signals)
		for {
			select {
			case <-signals:
				p.reread(o, logger)
			case <-ctx.Done():
				return
			}
		}
	}()
}

func (p *ports) reread(o *options, logger *logging.Logger) {
	rights, err := o.readRights()
	if err == nil && rights != nil {
		o.rights.Replace(rights)
	}
	told := []error{err}
	if p.keys != nil {
		told = append(told, p.keys.reread())
	}
	if p.audit != nil {
		told = append(told, p.audit.reopen())
	}
	isAllRead := true
	for _, err := range told {
		if err != nil {
			isAllRead = false
			logger.Error("what was read before stays", "error", err)
		}
	}
	if isAllRead {
		logger.Info("tokens and certificates were read anew")
	}
}

// allHosts are the names by which browsers may call this member.
func (o *options) allHosts(e engine.Engine) *httpapi.Hosts {
	names := append([]string{o.listen, o.listenMetrics}, o.hosts...)
	for _, member := range o.first {
		names = append(names, member.Client)
	}
	return httpapi.NewHosts(names, func() (addresses []string) {
		for _, member := range e.Status().Members {
			addresses = append(addresses, member.Client)
		}
		return addresses
	})
}

// hostNames are a repeatable option.
type hostNames []string

func (n *hostNames) String() string { return strings.Join(*n, ",") }

// Set takes one more, or several with commas between.
func (n *hostNames) Set(text string) error {
	for _, name := range strings.Split(text, ",") {
		if name == "" || strings.ContainsAny(name, "/:@ ") {
			return errors.New("it takes the name of a host, without a port")
		}
		*n = append(*n, name)
	}
	return nil
}

// readRights reads the token file; nil if there is none.
func (o *options) readRights() (*httpapi.Rights, error) {
	if o.tokenFile == "" {
		return nil, nil
	}
	file, err := os.Open(o.tokenFile)
	if err != nil {
		return nil, err
	}
	defer file.Close()
	info, err := file.Stat()
	if err != nil {
		return nil, err
	}
	if mode := info.Mode().Perm(); mode&0o026 != 0 {
		return nil, fmt.Errorf("%s has the mode %04o: others may not read it, and nobody else write it; chmod 0600", o.tokenFile, mode)
	}
	rights, err := httpapi.ReadRights(io.LimitReader(file, mostTokens))
	if err != nil {
		return nil, fmt.Errorf("%s: %w", o.tokenFile, err)
	}
	if rights.HaveCertificates() && o.clientCA == "" {
		return nil, fmt.Errorf("%s: cert= takes --client-ca", o.tokenFile)
	}
	return rights, nil
}

// mostTokens is how many bytes of a token file are read.
const mostTokens = 16 << 20

// An auditFile has a line for each request of an operator, and for those that were refused for lack of rights.
type auditFile struct {
	name string
	log  *logging.Logger
	mu   sync.Mutex
	file *os.File
}

func openAudit(name string, logger *logging.Logger) (*auditFile, error) {
	a := &auditFile{name: name, log: logger}
	return a, a.reopen()
}

// reopen begins a new file if the old one was moved away.
func (a *auditFile) reopen() error {
	file, err := os.OpenFile(a.name, os.O_APPEND|os.O_CREATE|os.O_WRONLY, 0o600)
	if err != nil {
		return err
	}
	a.mu.Lock()
	defer a.mu.Unlock()
	if a.file != nil {
		a.file.Close()
	}
	a.file = file
	return nil
}

// write writes a line; into the log where that fails.
func (a *auditFile) write(line string) {
	a.mu.Lock()
	defer a.mu.Unlock()
	if _, err := a.file.WriteString(line + "\n"); err != nil {
		a.log.Error("audit "+line, "error", err)
	}
}
