package main

import (
	"context"
	"crypto/tls"
	"errors"
	"net"
	"net/http"
	"os"
	"os/signal"
	"path/filepath"
	"strings"
	"syscall"
	"time"

	"lrcman/service/book"
	"lrcman/service/internal/disk"
	"lrcman/service/internal/engine"
	"lrcman/service/internal/engine/raftlog"
	"lrcman/service/internal/httpapi"
	"lrcman/service/internal/logging"
	"lrcman/service/internal/metrics"
	"lrcman/service/internal/replica"
	"lrcman/service/internal/state"
)

// A service is a member that serves clients.
type service struct {
	options    *options
	log        *logging.Logger
	engine     engine.Engine
	api        *httpapi.API
	monitoring *monitoring
	ports      *ports
	gate       *gate
	server     *http.Server
	watch      *http.Server // of health and metrics alone
	disk       *disk.Watch
	replica    *replica.Replica
	stop       context.CancelFunc // of the replica
}

// startService begins a member. Clients are answered from the first moment on; where it can't begin, the status is that of the process.
func startService(o *options, logger *logging.Logger) (*service, int) {
	if err := book.Check(); err != nil {
		logger.Error(err.Error())
		return nil, statusFault
	}
	ports, err := o.open(logger)
	if err != nil {
		logger.Error(err.Error())
		return nil, statusUsage
	}
	ctx, stop := context.WithCancel(context.Background())
	ports.rereadAtSignal(ctx, o, logger) // (a start may wait for others)
	early := ports.serveEarly(shutGate(starts))
	knobs := readKnobs()
	books, cfg := state.NewWith(knobs.state), o.config(logger)
	cfg.Knobs, cfg.IsFull = knobs.raftlog, func() bool { return disk.IsShort(o.data, o.diskReserve) }
	node, err := raftlog.Start(cfg, books)
	if err != nil {
		stop()
		logger.Error(err.Error())
		return nil, statusOf(err)
	}
	s := newService(o, logger, node, books, knobs.replica, ports)
	s.run(ctx, stop)
	go serve(s.server, ports.clients.last(), ports.tls(), logger)
	if ports.watch != nil {
		go serve(s.watch, ports.watch.last(), nil, logger)
	}
	for _, server := range early {
		turnOff(server)
	}
	logger.Info("member serves", "member", o.id, "listen", o.listen, "rules", books.Rules(), "version", version, "commit", commit)
	s.notify("READY=1")
	return s, 0
}

// turnOff ends a server; what it answers takes no time.
func turnOff(early *http.Server) {
	ctx, cancel := context.WithTimeout(context.Background(), time.Second)
	defer cancel()
	if early.Shutdown(ctx) != nil {
		early.Close() // (somebody has connected, and asks nothing)
	}
}

// startTime is how long a client may take to ask a member that starts.
const startTime = 5 * time.Second

func shutGate(why *reason) *gate {
	g := &gate{}
	g.shut.Store(why)
	return g
}

func newService(o *options, logger *logging.Logger, node engine.Engine, books *state.State, knobs replica.Knobs, ports *ports) *service {
	s := &service{options: o, log: logger, engine: node, ports: ports}
	s.disk = disk.New(disk.Config{Folder: o.data, Reserve: o.diskReserve, Changed: s.diskChanged})
	r := replica.New(replica.Config{Engine: node, State: books, Timeout: o.timeout, Election: o.election, Tick: o.tickTime(),
		Compare: o.compareTime(), Log: logger, MayChange: s.disk.MayChange, Knobs: knobs})
	s.replica = r
	s.monitoring = newMonitoring(node, books, s.sources(r))
	s.monitoring.metrics.ConnectionsOf(ports.connections.Counts)
	s.api = httpapi.New(httpapi.Config{Engine: node, State: books, Replica: r, Rights: o.rights, Hosts: o.allHosts(node), Rates: o.rates(),
		Timeout: o.timeout, Mounts: s.monitoring.mounts(), Observe: s.monitoring.metrics.Observe, Audit: ports.auditTo(o),
		Checks: s.checks(books), Build: httpapi.Build{Version: version, Commit: commit}, Connections: ports.connections,
		Watchers: ports.watchers, Log: logger})
	s.gate, s.server, s.watch = &gate{}, s.api.Server(), s.api.WatchServer()
	s.server.Handler, s.watch.Handler = s.gate.before(s.server.Handler), s.gate.before(s.watch.Handler)
	return s
}

// run does what a member does beside answering, until the context ends.
func (s *service) run(ctx context.Context, stop context.CancelFunc) {
	s.stop = stop
	go s.replica.Run(ctx)
	go s.disk.Run(ctx)
}

// sources are what the metrics of this member are made of, beside its group and its books.
func (s *service) sources(r *replica.Replica) metrics.Sources {
	o := s.options
	return metrics.Sources{Folder: filepath.Join(o.data, "snap"), Version: version, Commit: commit, Waiting: r.Waiting,
		Disk: func() metrics.Disk {
			return metrics.Disk{Free: s.disk.Free(), Reserve: s.disk.Reserve(), ReadOnly: s.disk.IsLow()}
		},
		Certificates: map[string]string{"cert": o.cert, "client-ca": o.clientCA, "peer-cert": o.peerCert, "peer-ca": o.peerCA}}
}

// checks are those of whether this member is ready.
func (s *service) checks(books *state.State) []httpapi.Check {
	return []httpapi.Check{{Name: "disk", Why: func() string {
		if s.disk.IsLow() {
			return disk.ErrFull.Error()
		}
		return ""
	}}, {Name: "differs", Why: func() string {
		if names := books.Differs(); len(names) > 0 {
			return "these books are not what most other members have: " + strings.Join(names, ", ")
		}
		return ""
	}}}
}

// diskChanged says that changes are refused from now on, or taken again.
func (s *service) diskChanged(isLow bool, free int64) {
	if isLow {
		s.log.Warn("the disk has less room than its reserve: changes are refused", "free", free, "reserve", s.options.diskReserve)
		go s.leadAwayWhileLow()
	} else {
		s.log.Info("the disk has room again: changes are taken", "free", free, "reserve", s.options.diskReserve)
	}
}

// leadAwayWhileLow gives the lead to a member with room, as soon as there is one: this one may soon end.
func (s *service) leadAwayWhileLow() {
	for s.disk.IsLow() {
		s.leadAway(true)
		select {
		case <-time.After(lowTime):
		case <-s.engine.Done():
			return
		}
	}
}

// lowTime is the time between two tries to find a member with room.
const lowTime = 5 * time.Second

func (s *service) notify(state string) {
	if err := notify(state); err != nil {
		s.log.Warn("systemd was not told", "state", state, "error", err)
	}
}

func serve(server *http.Server, listener net.Listener, config *tls.Config, logger *logging.Logger) {
	var err error
	if config == nil {
		err = server.Serve(listener)
	} else {
		// (with HTTP/2 requests would share a connection, and so its deadlines)
		server.TLSConfig, server.TLSNextProto = config, map[string]func(*http.Server, *tls.Conn, http.Handler){}
		err = server.ServeTLS(listener, "", "")
	}
	if err != http.ErrServerClosed {
		logger.Fatal("the port for clients fails", "error", err)
	}
}

// wait returns when the member has ended, with the status of the process.
func (s *service) wait() int {
	signals := make(chan os.Signal, 2)
	signal.Notify(signals, syscall.SIGTERM, os.Interrupt)
	defer signal.Stop(signals)
	status := 0
	select {
	case sent := <-signals:
		go func() {
			s.log.Fatal("a second signal ends this member at once", "signal", <-signals)
		}()
		s.log.Info("member ends", "signal", sent)
		s.drain()
	case <-s.engine.Done():
		status = s.whyEnded()
	}
	s.close()
	return status
}

func (s *service) whyEnded() int {
	err := s.engine.Err()
	s.log.Error("member ends", "error", err)
	return statusOf(err)
}

func statusOf(err error) int {
	if err == engine.ErrRemoved || errors.Is(err, engine.ErrLost) {
		return statusRemoved
	}
	return statusFault
}

// drain ends what clients and members do with this one, so that they notice as little as may be: nothing new is taken, what is under
// way is answered, and only then another member leads.
func (s *service) drain() {
	s.notify("STOPPING=1")
	s.gate.shut.Store(ends)
	s.api.Close()
	s.monitoring.stop()
	s.gate.quiet(s.options.election)
	s.leadAway(false)
	ctx, cancel := context.WithTimeout(context.Background(), s.options.timeout)
	defer cancel()
	if err := s.server.Shutdown(ctx); err != nil {
		s.log.Warn("requests under way are cut", "error", err)
	}
}

func (s *service) leadAway(needsRoom bool) {
	before := s.engine.Status()
	if before.Leader != before.ID {
		return
	}
	ctx, cancel := context.WithTimeout(context.Background(), 2*s.options.election)
	defer cancel()
	if err := s.engine.LeadAway(ctx, needsRoom); err == nil {
		s.log.Info("another member leads", "leader", s.engine.Status().Leader)
	} else if len(before.Members) > 1 {
		s.log.Warn("no other member takes the lead", "error", err)
	}
}

// close ends all at once, whatever is under way.
func (s *service) close() {
	s.stop()
	s.server.Close()
	s.watch.Close()
	s.engine.Close()
}
