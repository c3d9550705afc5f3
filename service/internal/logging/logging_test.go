package logging

import (
	"encoding/json"
	"errors"
	"fmt"
	"strings"
	"testing"
	"time"

	"go.etcd.io/etcd/raft"
	"go.uber.org/zap"
)

var _ raft.Logger = (*Raft)(nil)

var noon = time.Date(2026, 5, 4, 12, 0, 0, 7e6, time.UTC)

// logger makes one that writes to a text, at a time that the test moves.
func logger(level Level, asJSON bool) (*Logger, *strings.Builder, *time.Time) {
	text, now := &strings.Builder{}, noon
	return New(text, Config{Level: level, JSON: asJSON, Now: func() time.Time { return now }}), text, &now
}

func TestALineHasTimeLevelMessageAndFields(t *testing.T) {
	l, text, _ := logger(Info, false)
	l.Debug("nobody reads this")
	l.Info("member serves", "id", uint64(2), "listen", "h:1", "words", "two words", "empty", "", "error", errors.New(`a "b"`))
	l.With("book", "p0").Warn("no tick", "at", noon)
	l.Printf("%d of %d", 1, 2)
	l.Error("forged\n2026-05-04T12:00:00.007Z info all is well", "name", "x\ny")
	want := `2026-05-04T12:00:00.007Z info member serves id=2 listen=h:1 words="two words" empty="" error="a \"b\""
2026-05-04T12:00:00.007Z warn no tick book=p0 at=2026-05-04T12:00:00Z
2026-05-04T12:00:00.007Z info 1 of 2
2026-05-04T12:00:00.007Z error forged\n2026-05-04T12:00:00.007Z info all is well name="x\ny"
`
	if text.String() != want {
		t.Errorf("%s\nand not\n%s", text, want)
	}
}

func TestALineMayBeJSON(t *testing.T) {
	l, text, _ := logger(Debug, true)
	l.Debug("it \"is\"", "n", uint64(7), "ok", true, "took", 2*time.Second, "error", errors.New("broken"))
	want := `{"time":"2026-05-04T12:00:00.007Z","level":"debug","msg":"it \"is\"","n":7,"ok":true,"took":"2s","error":"broken"}` + "\n"
	if text.String() != want || !json.Valid([]byte(text.String())) {
		t.Errorf("%s and not %s", text, want)
	}
}

func TestTooManyLinesOfOneMessageAreCounted(t *testing.T) {
	l, text, now := logger(Info, false)
	for i := 0; i < burst+5; i++ {
		l.Printf("call %d", i)
	}
	l.Info("another")
	if count := strings.Count(text.String(), "call"); count != burst || !strings.Contains(text.String(), "another") {
		t.Errorf("%d lines: %s", count, text)
	}
	text.Reset()
	*now = now.Add(window)
	l.Printf("call %d", 99)
	l.Printf("call %d", 100)
	if want := "info call 99 left_out=5\n"; !strings.Contains(text.String(), want) || strings.Count(text.String(), "left_out") != 1 {
		t.Errorf("%s and not %s", text, want)
	}
	for i := 0; i < 3*mostCounts; i++ {
		l.Info(strings.Repeat("x", i))
	}
	if count := len(l.sink.counts); count > mostCounts {
		t.Errorf("%d messages are counted", count)
	}
}

func TestPartsOfOthersWriteThroughIt(t *testing.T) {
	l, text, _ := logger(Info, false)
	zapped := l.Zap().With(zap.String("peer", "2"))
	zapped.Info("it went well")
	zapped.Warn("it is slow", zap.Duration("took", time.Second), zap.Error(errors.New("no")))
	l.Raft().Infof("%d became follower", 1)
	l.Raft().Warningf("%d lost %d", 1, 2)
	for i := 0; i < 2*burst; i++ {
		l.Std(Warn, "port").Printf("http: TLS handshake error %d", i)
	}
	want := `2026-05-04T12:00:00.007Z warn it is slow peer=2 took=1s error=no
2026-05-04T12:00:00.007Z warn 1 lost 2
`
	for i := 0; i < burst; i++ {
		want += fmt.Sprintf("2026-05-04T12:00:00.007Z warn port: http: TLS handshake error %d\n", i)
	}
	if text.String() != want {
		t.Errorf("%s\nand not\n%s", text, want)
	}
	l, text, _ = logger(Debug, false)
	l.Zap().Info("it went well")
	l.Raft().Infof("%d became follower", 1)
	if strings.Count(text.String(), " debug ") != 2 {
		t.Error(text)
	}
}

func TestFatalEndsWithAWordWhateverCameBefore(t *testing.T) {
	ended := 0
	var text strings.Builder
	l := New(&text, Config{Level: Error, OnExit: func(status int) { ended = status }})
	for i := 0; i < 2*burst; i++ {
		l.Error("the disk")
	}
	l.Fatal("the disk", "error", "full")
	if ended != 1 || !strings.HasSuffix(text.String(), "error the disk error=full\n") {
		t.Error(ended, text.String())
	}
	defer func() {
		if recover() == nil {
			t.Error("a panic of raft is none")
		}
	}()
	l.Raft().Panicf("it is %s", "wrong")
}

func TestALevelIsReadOrRefused(t *testing.T) {
	for i, word := range levels {
		if level, err := ParseLevel(word); err != nil || level != Debug+Level(i) || level.String() != word {
			t.Error(word, level, err)
		}
	}
	if _, err := ParseLevel("INFO"); err == nil || !strings.Contains(err.Error(), "debug, info, warn, error") {
		t.Error(err)
	}
}
