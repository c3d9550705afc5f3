package raftlog

import (
	"context"
	"crypto/tls"
	"fmt"
	"strings"
	"testing"
	"time"

	"go.etcd.io/etcd/pkg/transport"

	"lrcman/service/internal/testcerts"
)

func expectSaid(t *testing.T, words *said, parts ...string) {
	t.Helper()
	for _, part := range parts {
		eventually(t, "it is said: "+part, func() bool { return strings.Contains(words.String(), part) })
	}
}

func TestTheLogOfTheProcessTellsWhatHappens(t *testing.T) {
	t.Parallel()
	g := groupOf(t, 3, func(cfg *Config) { cfg.Trailing = 5 })
	propose(t, g.nodes[1], "entry 1")
	leader := g.leader()
	words, away := g.says(), g.other(leader)
	g.cutBehind(away, 2, 60)
	expectSaid(t, words, "a snapshot at 6", "is begun, ", "was written in ", fmt.Sprintf("member %d is not reached at 127.0.0.1:", away))
	if strings.Contains(words.String(), "votes from entry") {
		t.Errorf("what was so at the start is said: %s", words)
	}
	cfg := g.configs[away]
	cfg.Log.SetOutput(words)
	g.start(away)
	g.alike(texts(1, 60))
	expectSaid(t, words, fmt.Sprintf("is being sent to member %d, ", away), fmt.Sprintf("was sent to member %d in ", away), "came from member ",
		"was restored in ", fmt.Sprintf("member %d is reached", away))
	g.nodes[g.leader()].Close()
	expectSaid(t, words, "there is no leader any more in term ", "asks whether it may begin an election", " leads in term ")
}

func TestTheLogOfTheProcessTellsOfMembers(t *testing.T) {
	t.Parallel()
	g := groupOf(t, 3)
	propose(t, g.nodes[1], "entry 1")
	words := g.says()
	g.add(4)
	expectSaid(t, words, "member 4 learns from entry ")
	gone := g.removeLeader()
	expectSaid(t, words, fmt.Sprintf("member %d was removed by entry ", gone))
}

func TestTheLogOfTheProcessTellsOfRefusedCertificatesSeldom(t *testing.T) {
	t.Parallel()
	ours, others := testcerts.New(t, "ours"), testcerts.New(t, "others")
	g := groupOf(t, 1, func(cfg *Config) {
		certificate, key := ours.Sign("1")
		cfg.TLS = transport.TLSInfo{CertFile: certificate, KeyFile: key, TrustedCAFile: ours.File, ClientCertAuth: true}
	})
	words := g.says()
	certificate, key := others.Sign("stranger")
	pair, err := tls.LoadX509KeyPair(certificate, key)
	if err != nil {
		t.Fatal(err)
	}
	ctx, cancel := context.WithTimeout(context.Background(), long)
	defer cancel()
	begun := time.Now()
	for i := 0; i < 30; i++ {
		dialer := tls.Dialer{Config: &tls.Config{InsecureSkipVerify: true, Certificates: []tls.Certificate{pair}}}
		if c, err := dialer.DialContext(ctx, "tcp", g.configs[1].Self.Peer); err == nil {
			c.SetReadDeadline(time.Now().Add(long))
			c.Read(make([]byte, 1)) // (it hears that it is refused)
			c.Close()
		}
	}
	expectSaid(t, words, "TLS handshake error")
	windows := 1 + int(time.Since(begun)/(10*time.Second)) // each has ten lines, and one of what was left out
	if said := strings.Count(words.String(), "TLS handshake error"); said > 11*windows {
		t.Errorf("it is said %d times in %v", said, time.Since(begun))
	}
}
