package main

import (
	"lrcman/service/internal/engine/raftlog"
	"lrcman/service/internal/replica"
	"lrcman/service/internal/state"
)

// knobs are what a program that is built with the tag faulty does otherwise. In any other they are zero.
type knobs struct {
	state   state.Knobs
	replica replica.Knobs
	raftlog raftlog.Knobs
}
