//go:build faulty

// With this tag the program does what it must never do, so that tests/service can be seen to find it; it takes its library for
// one of other rules; the files of its log may be small, so that a test sees many of them; and a start may take long. service/build
// never sets it.

package main

import (
	"fmt"
	"os"
	"strconv"
	"sync/atomic"
	"syscall"
	"time"

	"go.etcd.io/etcd/wal"

	"lrcman/service/internal/state"
)

func init() {
	if size, err := strconv.ParseInt(os.Getenv("LRCMAND_LOG_FILE"), 10, 64); err == nil {
		wal.SegmentSizeBytes = size
	}
}

func readKnobs() (k knobs) {
	if rules, err := strconv.ParseUint(os.Getenv("LRCMAND_RULES"), 10, 32); err == nil {
		k.state.Rules = uint32(rules)
	}
	if slow, err := time.ParseDuration(os.Getenv("LRCMAND_SLOW_START")); err == nil {
		k.raftlog.Opened = func(*wal.WAL) { time.Sleep(slow) }
	}
	if at := os.Getenv("LRCMAND_STOP_AT"); at != "" {
		k.raftlog.Step = stopAt(at)
	}
	switch os.Getenv("LRCMAND_FAULT") {
	case "early":
		k.replica.TellEarly = peekAnswer
	case "fresh":
		k.replica.Age = func(int64) int64 { return 0 }
	case "nosync": // entries are told before they are on disk
		k.raftlog.Opened = func(log *wal.WAL) { log.SetUnsafeNoFsync() }
	case "nonames": // only what etcd's parts sync is synced
		k.raftlog.SyncFolder = func(string) error { return nil }
	case "stale": // looks as of now are as old as they happen to be
		k.raftlog.AskMajority = func() error { return nil }
	case "differs": // its books have other checksums than those of the others
		k.state.Sum = func(sum [32]byte) [32]byte { sum[0] ^= 1; return sum }
	}
	return k
}

// stopAt counts the steps of snapshots, and stops the process before one of them, by its number or its name: for a test that kills it
// there, or cuts its power.
func stopAt(at string) func(string) {
	var steps int64
	return func(what string) {
		number := atomic.AddInt64(&steps, 1)
		fmt.Fprintf(os.Stderr, "step %d: %s\n", number, what)
		if strconv.FormatInt(number, 10) == at || what == at {
			syscall.Kill(os.Getpid(), syscall.SIGSTOP)
			time.Sleep(time.Minute) // (the signal may take a while to stop this thread)
		}
	}
}

// peekAnswer answers a call with what it would be told if nothing came between, before it is in the log.
func peekAnswer(books *state.State, item *state.Item) (answer state.Answer, ok bool) {
	if item.Action != state.Call {
		return answer, false
	}
	err := books.Look(item.Book, func(view *state.View) (err error) {
		answer.Made, answer.Opens = view.Position.Made+1, view.Position.Opens
		answer.Reply, err = view.Peek(item.Session, item.Command)
		return err
	})
	return answer, err == nil
}
