package raftlog

import "testing"

// Two lives of one member, at one moment of the clock, and another member.
func TestNumbersAreUsedOnce(t *testing.T) {
	seen := map[uint64]bool{}
	for _, member := range []uint64{1, 1, 1, 65535} {
		numbers, err := newNumbers(member)
		if err != nil {
			t.Fatal(err)
		}
		for i := 0; i < 1000; i++ {
			number := numbers.next()
			if seen[number] || number>>numberBits != member {
				t.Fatalf("member %d has number %x", member, number)
			}
			seen[number] = true
		}
	}
}
