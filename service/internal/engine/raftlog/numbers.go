package raftlog

import (
	"crypto/rand"
	"encoding/binary"
	"sync/atomic"
)

// numberBits is how many bits of a number tell one proposal from another; the member stands above them.
const numberBits = 48

// Numbers for the proposals and questions of a member, so that it knows the answers when they come. They begin by chance, and
// not at the time of day: after a restart with another clock an old entry would answer a new question.
type numbers struct{ member, last uint64 }

func newNumbers(member uint64) (*numbers, error) {
	b := make([]byte, 8)
	if _, err := rand.Read(b); err != nil {
		return nil, err
	}
	return &numbers{member << numberBits, binary.LittleEndian.Uint64(b)}, nil
}

func (x *numbers) next() uint64 {
	return x.member | atomic.AddUint64(&x.last, 1)&(1<<numberBits-1)
}
