// Package logging writes what a member has to say: a line for each event, with a level, a message and fields. A message that comes
// again and again is written a few times, and then counted.
package logging

import (
	"encoding/json"
	"fmt"
	"io"
	"os"
	"strconv"
	"strings"
	"sync"
	"time"
)

// A Level tells how much a line matters.
type Level int

// The levels. One that is not set is Info.
const (
	Debug Level = iota - 1
	Info
	Warn
	Error
)

var levels = []string{"debug", "info", "warn", "error"}

// String is the word of a level.
func (l Level) String() string { return levels[l-Debug] }

// ParseLevel reads the word of a level.
func ParseLevel(word string) (Level, error) {
	for i, level := range levels {
		if word == level {
			return Debug + Level(i), nil
		}
	}
	return 0, fmt.Errorf("is %s, and not %q", strings.Join(levels, ", "), word)
}

// What is written of lines with one message.
const (
	burst      = 10               // lines in a window; the others are counted
	window     = 10 * time.Second // that begins with a line of that message
	mostCounts = 1024             // messages that are counted
)

// A Config says what a logger writes, and how.
type Config struct {
	Level  Level
	JSON   bool
	Now    func() time.Time // nil: time.Now
	OnExit func(status int) // is called by Fatal; nil: os.Exit
}

// A Logger writes lines. Many may write at once.
type Logger struct {
	sink   *sink
	fields []interface{} // that each of its lines has
}

// A sink is what loggers share that were made from one.
type sink struct {
	cfg    Config
	mu     sync.Mutex
	to     io.Writer
	counts map[string]*count
}

// A count is that of the lines with one message.
type count struct {
	begun   time.Time
	written int
	left    int // out
}

// New makes a logger.
func New(to io.Writer, cfg Config) *Logger {
	if cfg.Now == nil {
		cfg.Now = time.Now
	}
	if cfg.OnExit == nil {
		cfg.OnExit = os.Exit
	}
	return &Logger{sink: &sink{cfg: cfg, to: to, counts: map[string]*count{}}}
}

// Nowhere is a logger whose lines nobody reads.
func Nowhere() *Logger { return New(io.Discard, Config{Level: Error}) }

// SetOutput makes it, and those that were made of it, write elsewhere from now on.
func (l *Logger) SetOutput(to io.Writer) {
	l.sink.mu.Lock()
	defer l.sink.mu.Unlock()
	l.sink.to = to
}

// With is a logger whose lines have these fields too: a name and a value, and so on.
func (l *Logger) With(fields ...interface{}) *Logger {
	return &Logger{l.sink, append(append([]interface{}{}, l.fields...), fields...)}
}

// Debug writes what only helps who looks for a fault.
func (l *Logger) Debug(message string, fields ...interface{}) {
	l.write(Debug, message, message, fields)
}

// Info writes what happens now and then, and is right.
func (l *Logger) Info(message string, fields ...interface{}) { l.write(Info, message, message, fields) }

// Warn writes what somebody should look at some time.
func (l *Logger) Warn(message string, fields ...interface{}) { l.write(Warn, message, message, fields) }

// Error writes what somebody should look at now.
func (l *Logger) Error(message string, fields ...interface{}) {
	l.write(Error, message, message, fields)
}

// Printf writes a line at level info. It and what follows count lines of one form as one message.
func (l *Logger) Printf(form string, values ...interface{}) { l.writef(Info, form, values) }

// Debugf writes a line at level debug.
func (l *Logger) Debugf(form string, values ...interface{}) { l.writef(Debug, form, values) }

// Infof writes a line at level info.
func (l *Logger) Infof(form string, values ...interface{}) { l.writef(Info, form, values) }

// Warnf writes a line at level warn.
func (l *Logger) Warnf(form string, values ...interface{}) { l.writef(Warn, form, values) }

// Errorf writes a line at level error.
func (l *Logger) Errorf(form string, values ...interface{}) { l.writef(Error, form, values) }

func (l *Logger) writef(level Level, form string, values []interface{}) {
	if level >= l.sink.cfg.Level {
		l.write(level, form, fmt.Sprintf(form, values...), nil)
	}
}

// Fatal writes a line, and ends the process.
func (l *Logger) Fatal(message string, fields ...interface{}) {
	l.sink.write(l.sink.cfg.Now(), Error, message, append(l.fields[:len(l.fields):len(l.fields)], fields...))
	l.sink.cfg.OnExit(1)
}

// write writes a line, unless too many of its kind came.
func (l *Logger) write(level Level, kind, message string, fields []interface{}) {
	if level < l.sink.cfg.Level {
		return
	}
	now := l.sink.cfg.Now()
	isWritten, left := l.sink.take(now, level.String()+kind)
	if !isWritten {
		return
	}
	fields = append(l.fields[:len(l.fields):len(l.fields)], fields...)
	if left > 0 {
		fields = append(fields, "left_out", left)
	}
	l.sink.write(now, level, message, fields)
}

// take tells whether a line of a kind is to be written, and how many were left out before it.
func (s *sink) take(now time.Time, kind string) (isWritten bool, left int) {
	s.mu.Lock()
	defer s.mu.Unlock()
	c := s.counts[kind]
	if c == nil {
		if len(s.counts) >= mostCounts {
			s.counts = map[string]*count{} // (what was left out is not told then)
		}
		c = &count{begun: now}
		s.counts[kind] = c
	}
	if now.Sub(c.begun) >= window {
		left = c.left
		*c = count{begun: now}
	}
	if c.written >= burst {
		c.left++
		return false, 0
	}
	c.written++
	return true, left
}

func (s *sink) write(now time.Time, level Level, message string, fields []interface{}) {
	at := now.UTC().Format("2006-01-02T15:04:05.000Z")
	line := asText(at, level, message, fields)
	if s.cfg.JSON {
		line = asJSON(at, level, message, fields)
	}
	s.mu.Lock()
	defer s.mu.Unlock()
	io.WriteString(s.to, line) // (where it can't be written there is nobody to tell)
}

// asText is a line of words: time, level, message and NAME=VALUE.
func asText(at string, level Level, message string, fields []interface{}) string {
	var line strings.Builder
	fmt.Fprintf(&line, "%s %s %s", at, level, oneLine(message))
	for i := 0; i+1 < len(fields); i += 2 {
		fmt.Fprintf(&line, " %v=%s", fields[i], quoted(words(fields[i+1])))
	}
	return line.String() + "\n"
}

// oneLine is a message in which each control letter is written as in Go: what came from elsewhere can't begin a line.
func oneLine(message string) string {
	if !strings.ContainsAny(message, controls) {
		return message
	}
	text := strconv.Quote(message)
	return text[1 : len(text)-1]
}

// controls are the letters that end or hide a part of a line.
var controls = func() string {
	text := "\x7f"
	for r := rune(0); r < ' '; r++ {
		text += string(r)
	}
	return text
}()

// quoted is a value that is one word, in quotes where it would be several.
func quoted(value string) string {
	if value == "" || strings.ContainsAny(value, controls+" \"=") {
		return strconv.Quote(value)
	}
	return value
}

// asJSON is a line with one object, whose fields stand in their order.
func asJSON(at string, level Level, message string, fields []interface{}) string {
	var line strings.Builder
	fmt.Fprintf(&line, `{"time":%s,"level":%s,"msg":%s`, encoded(at), encoded(level.String()), encoded(message))
	for i := 0; i+1 < len(fields); i += 2 {
		fmt.Fprintf(&line, ",%s:%s", encoded(fmt.Sprint(fields[i])), encoded(jsonOf(fields[i+1])))
	}
	return line.String() + "}\n"
}

func encoded(value interface{}) string {
	text, err := json.Marshal(value)
	if err != nil {
		return strconv.Quote(err.Error())
	}
	return string(text)
}

// jsonOf is a value as JSON has it: numbers and truths are themselves, and all else is words.
func jsonOf(value interface{}) interface{} {
	switch value.(type) {
	case bool, int, int64, uint8, uint16, uint32, uint64, float64:
		return value
	}
	return words(value)
}

func words(value interface{}) string {
	if at, is := value.(time.Time); is {
		return at.UTC().Format(time.RFC3339)
	}
	return fmt.Sprint(value)
}
