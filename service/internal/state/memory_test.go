package state

import (
	"fmt"
	"runtime"
	"testing"
)

// A book keeps a key, with its whole call and its answer, in some 300 bytes.
func TestKeysTakeLittleMemory(t *testing.T) {
	p := newPlayer(t)
	var before, after runtime.MemStats
	runtime.GC()
	runtime.GC()
	runtime.ReadMemStats(&before)
	var items []*Item
	for i := 0; i < MostKeys; i++ {
		item := call(t, "done 9 9 9")
		item.Key, item.Worker, item.Since = fmt.Sprintf("worker%02d-%012d", i%50, i), fmt.Sprintf("worker%02d", i%50), 1
		if items = append(items, item); len(items) == 64 {
			p.items(items...)
			items = nil
		}
	}
	runtime.GC()
	runtime.GC()
	runtime.ReadMemStats(&after)
	if each := (after.HeapAlloc - before.HeapAlloc) / MostKeys; each > 330 {
		t.Errorf("a key takes %d bytes", each)
	}
	runtime.KeepAlive(p)
}
