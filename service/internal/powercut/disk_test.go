package main

import (
	"bytes"
	"math/rand"
	"reflect"
	"testing"
)

func text(f *file) string {
	buffer := make([]byte, f.now.size)
	f.read(0, buffer)
	return string(buffer)
}

func TestWhatIsReadIsWhatWasWritten(t *testing.T) {
	f, want := newFile(), make([]byte, 5*pageSize)
	chance := rand.New(rand.NewSource(1))
	for i := 0; i < 200; i++ {
		at, length := chance.Intn(4*pageSize), chance.Intn(pageSize)
		piece := bytes.Repeat([]byte{byte(i)}, length)
		f.write(int64(at), piece)
		copy(want[at:], piece)
		if got := text(f); got != string(want[:f.now.size]) {
			t.Fatalf("after write %d it has other bytes", i)
		}
	}
	f.resize(100)
	f.resize(3 * pageSize)
	if got := text(f); got != string(want[:100])+string(make([]byte, 3*pageSize-100)) {
		t.Error("what was cut off comes back")
	}
}

// outcomes are the texts that cuts with many seeds leave.
func outcomes(make func() *file) map[string]bool {
	found := map[string]bool{}
	for seed := int64(0); seed < 200; seed++ {
		f := make()
		f.cut(rand.New(rand.NewSource(seed)), &loss{})
		found[text(f)] = true
	}
	return found
}

func TestACutSparesWhatWasSynced(t *testing.T) {
	full := string(bytes.Repeat([]byte{'x'}, 3*pageSize+7))
	found := outcomes(func() *file {
		f := newFile()
		f.write(0, []byte(full))
		f.sync()
		return f
	})
	if !reflect.DeepEqual(found, map[string]bool{full: true}) {
		t.Errorf("%d outcomes", len(found))
	}
}

func TestACutMayTakeWhatWasNotSynced(t *testing.T) {
	before, after := string(bytes.Repeat([]byte{'b'}, pageSize)), string(bytes.Repeat([]byte{'a'}, pageSize))
	found := outcomes(func() *file {
		f := newFile()
		f.write(0, []byte(before))
		f.sync()
		f.write(0, []byte(after))
		return f
	})
	if !found[before] || !found[after] || len(found) < 3 {
		t.Errorf("%d outcomes, of which none may be left out: lost %v, kept %v, torn", len(found), found[before], found[after])
	}
	longer := outcomes(func() *file {
		f := newFile()
		f.write(0, []byte(before))
		return f
	})
	if !longer[""] || !longer[before] || !longer[string(zeros[:])] {
		t.Errorf("a file that was never synced has %d outcomes", len(longer))
	}
}

// namesAfter are the sets of names that cuts with many seeds leave of a folder.
func namesAfter(make func(*folder, *node)) map[string]bool {
	found := map[string]bool{}
	for seed := int64(0); seed < 200; seed++ {
		d := newFolder()
		make(d, &node{file: newFile()})
		d.cut(rand.New(rand.NewSource(seed)), &loss{})
		all := ""
		for _, name := range names(d.now) {
			all += name + " "
		}
		found[all] = true
	}
	return found
}

func TestNamesAreOldOrNew(t *testing.T) {
	for what, it := range map[string]struct {
		do   func(*folder, *node)
		want map[string]bool
	}{
		"created":         {func(d *folder, n *node) { d.change(change{"a": n}) }, map[string]bool{"": true, "a ": true}},
		"created, synced": {func(d *folder, n *node) { d.change(change{"a": n}); d.sync() }, map[string]bool{"a ": true}},
		"renamed": {func(d *folder, n *node) { d.change(change{"a": n}); d.sync(); d.rename("a", "b") },
			map[string]bool{"a ": true, "b ": true}},
		"created, renamed": {func(d *folder, n *node) { d.change(change{"a": n}); d.rename("a", "b") },
			map[string]bool{"": true, "a ": true, "b ": true}},
		"two removed": {func(d *folder, n *node) {
			d.change(change{"a": n})
			d.change(change{"b": n})
			d.sync()
			d.remove("a", false)
			d.remove("b", false)
		}, map[string]bool{"": true, "a ": true, "b ": true, "a b ": true}},
	} {
		if found := namesAfter(it.do); !reflect.DeepEqual(found, it.want) {
			t.Errorf("%s: %v and not %v", what, found, it.want)
		}
	}
}
