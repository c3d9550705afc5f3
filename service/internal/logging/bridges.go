package logging

import (
	"fmt"
	"log"
	"strings"

	"go.uber.org/zap"
	"go.uber.org/zap/zapcore"
)

// Std is a logger of the standard library whose lines come out at a level, behind a word of where they come from, as an HTTP server's.
// They are counted as one message: whoever reaches a port can cause as many as it likes.
func (l *Logger) Std(level Level, where string) *log.Logger {
	return log.New(lines{l, level, where}, "", 0)
}

// lines takes what a standard logger writes, a line each.
type lines struct {
	*Logger
	level Level
	where string
}

func (l lines) Write(text []byte) (int, error) {
	l.Logger.write(l.level, l.where, l.where+": "+strings.TrimRight(string(text), "\n"), nil)
	return len(text), nil
}

// Zap is a logger for parts that write to zap: warnings and errors come out as they are, and all else at level debug.
func (l *Logger) Zap() *zap.Logger { return zap.New(zapCore{l}) }

// A zapCore takes lines of zap.
type zapCore struct{ to *Logger }

func levelOf(level zapcore.Level) Level {
	switch {
	case level >= zapcore.ErrorLevel:
		return Error
	case level == zapcore.WarnLevel:
		return Warn
	}
	return Debug
}

func (z zapCore) Enabled(level zapcore.Level) bool { return levelOf(level) >= z.to.sink.cfg.Level }

func (z zapCore) With(fields []zapcore.Field) zapcore.Core {
	return zapCore{z.to.With(pairs(fields)...)}
}

func (z zapCore) Check(entry zapcore.Entry, checked *zapcore.CheckedEntry) *zapcore.CheckedEntry {
	if z.Enabled(entry.Level) {
		return checked.AddCore(entry, z)
	}
	return checked
}

func (z zapCore) Write(entry zapcore.Entry, fields []zapcore.Field) error {
	z.to.write(levelOf(entry.Level), entry.Message, entry.Message, pairs(fields))
	return nil
}

func (z zapCore) Sync() error { return nil }

// pairs are the fields of zap as names and values.
func pairs(fields []zapcore.Field) (found []interface{}) {
	for _, field := range fields {
		one := zapcore.NewMapObjectEncoder()
		field.AddTo(one)
		for name, value := range one.Fields { // (one, but for an error, whose text has a name of its own)
			found = append(found, name, value)
		}
	}
	return found
}

// Raft is a logger as raft wants one: warnings and errors come out as they are, and all else at level debug.
func (l *Logger) Raft() *Raft { return &Raft{l} }

// A Raft takes lines of raft. A panic stays one: raft's state is wrong then.
type Raft struct{ to *Logger }

// Debug and what follows are the methods of raft.Logger.
func (r *Raft) Debug(v ...interface{})                 { r.to.Debugf("%s", fmt.Sprint(v...)) }
func (r *Raft) Debugf(form string, v ...interface{})   { r.to.Debugf(form, v...) }
func (r *Raft) Info(v ...interface{})                  { r.to.Debugf("%s", fmt.Sprint(v...)) }
func (r *Raft) Infof(form string, v ...interface{})    { r.to.Debugf(form, v...) }
func (r *Raft) Warning(v ...interface{})               { r.to.Warnf("%s", fmt.Sprint(v...)) }
func (r *Raft) Warningf(form string, v ...interface{}) { r.to.Warnf(form, v...) }
func (r *Raft) Error(v ...interface{})                 { r.to.Errorf("%s", fmt.Sprint(v...)) }
func (r *Raft) Errorf(form string, v ...interface{})   { r.to.Errorf(form, v...) }
func (r *Raft) Fatal(v ...interface{})                 { r.to.Fatal(fmt.Sprint(v...)) }
func (r *Raft) Fatalf(form string, v ...interface{})   { r.to.Fatal(fmt.Sprintf(form, v...)) }
func (r *Raft) Panic(v ...interface{})                 { r.to.Std(Error, "raft").Panic(v...) }
func (r *Raft) Panicf(form string, v ...interface{})   { r.to.Std(Error, "raft").Panicf(form, v...) }
