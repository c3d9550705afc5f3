package disk

import (
	"context"
	"testing"
	"time"

	"lrcman/service/internal/state"
)

func TestChangesAreRefusedBelowTheReserve(t *testing.T) {
	free, told := int64(1000), []bool{}
	w := New(Config{Reserve: 160, Free: func(string) int64 { return free }, Changed: func(isLow bool, at int64) {
		if told = append(told, isLow); at != free {
			t.Error(at)
		}
	}})
	for i, it := range []struct {
		free  int64
		isLow bool
	}{{1000, false}, {160, false}, {159, true}, {0, true}, {160, true}, {-1, true}, {169, true}, {170, false}, {160, false}, {-1, false}} {
		free = it.free
		if w.measure(); w.IsLow() != it.isLow || w.Free() != free {
			t.Errorf("%d: %d bytes: %v", i, it.free, w.IsLow())
		}
		for action, mayCome := range map[state.Action]bool{state.Create: false, state.Reopen: false, state.Call: false, state.ChangeRules: false,
			state.Remove: true} {
			if err := w.MayChange(&state.Item{Action: action}); (err == nil) != (mayCome || !it.isLow) || err != nil && err != ErrFull {
				t.Errorf("%d: %d: %v", i, action, err)
			}
		}
	}
	if len(told) != 2 || !told[0] || told[1] {
		t.Error(told)
	}
}

func TestWithoutAReserveNothingIsRefused(t *testing.T) {
	w := New(Config{Free: func(string) int64 { return 0 }})
	if w.measure(); w.IsLow() {
		t.Error("refused")
	}
}

func TestTheRoomOfAFolderIsMeasuredAgain(t *testing.T) {
	if free := Free(t.TempDir()); free <= 0 {
		t.Error(free)
	}
	if free := Free("/no/such/folder"); free != -1 {
		t.Error(free)
	}
	if folder := t.TempDir(); !IsShort(folder, 1<<62) || IsShort(folder, 0) || IsShort("/no/such/folder", 1<<62) {
		t.Error("the disk has more than there is, or less")
	}
	changed := make(chan bool, 1)
	calls := 0
	free := func(string) int64 { calls++; return int64(20 - 15*(calls-1)) }
	w := New(Config{Reserve: 10, Changed: func(isLow bool, _ int64) { changed <- isLow }, Free: free})
	ctx, stop := context.WithCancel(context.Background())
	defer stop()
	go w.Run(ctx)
	select {
	case isLow := <-changed:
		if !isLow {
			t.Error("it has room")
		}
	case <-time.After(30 * time.Second):
		t.Error("it is not measured again")
	}
}
