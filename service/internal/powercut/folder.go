package main

import (
	"math/rand"
	"sort"
	"syscall"
)

// A node is a file or a folder.
type node struct {
	number uint64
	mode   uint32
	file   *file
	folder *folder
}

// A change gives names of a folder other nodes; nil takes the name away. It is on disk as a whole or not at all.
type change map[string]*node

// A folder has the names that programs see, those that a power cut can't take away, and the changes between the two.
type folder struct {
	now, synced map[string]*node
	changes     []change
}

func newFolder() *folder {
	return &folder{now: map[string]*node{}, synced: map[string]*node{}}
}

func apply(names map[string]*node, it change) {
	for name, node := range it {
		if node == nil {
			delete(names, name)
		} else {
			names[name] = node
		}
	}
}

func (d *folder) change(it change) {
	apply(d.now, it)
	d.changes = append(d.changes, it)
}

func (d *folder) remove(name string, isFolder bool) syscall.Errno {
	found := d.now[name]
	switch {
	case found == nil:
		return syscall.ENOENT
	case isFolder && found.folder == nil:
		return syscall.ENOTDIR
	case !isFolder && found.folder != nil:
		return syscall.EISDIR
	case isFolder && len(found.folder.now) > 0:
		return syscall.ENOTEMPTY
	}
	d.change(change{name: nil})
	return 0
}

func (d *folder) rename(from, to string) syscall.Errno {
	moved, replaced := d.now[from], d.now[to]
	switch {
	case moved == nil:
		return syscall.ENOENT
	case from == to:
		return 0
	case replaced != nil && replaced.folder != nil && len(replaced.folder.now) > 0:
		return syscall.ENOTEMPTY
	}
	d.change(change{from: nil, to: moved})
	return 0
}

// sync makes the names safe from a power cut.
func (d *folder) sync() {
	for _, it := range d.changes {
		apply(d.synced, it)
	}
	d.changes = nil
}

// cut leaves what a power cut may leave: each change is made or not, in any order, but for those of one name.
func (d *folder) cut(chance *rand.Rand, did *loss) {
	gone := map[string]bool{}
	for _, it := range d.changes {
		isKept := chance.Intn(2) == 0
		for name := range it {
			isKept = isKept && !gone[name]
		}
		if isKept {
			apply(d.synced, it)
			did.namesKept++
			continue
		}
		did.namesLost++
		for name := range it {
			gone[name] = true
		}
	}
	d.now, d.changes = map[string]*node{}, nil
	apply(d.now, d.synced)
	for _, name := range names(d.now) {
		d.now[name].cut(chance, did)
	}
}

func (n *node) cut(chance *rand.Rand, did *loss) {
	if n.folder != nil {
		n.folder.cut(chance, did)
	} else {
		n.file.cut(chance, did)
	}
}

func names(all map[string]*node) []string {
	found := make([]string, 0, len(all))
	for name := range all {
		found = append(found, name)
	}
	sort.Strings(found)
	return found
}

func sorted(all map[int64]bool) []int64 {
	found := make([]int64, 0, len(all))
	for number := range all {
		found = append(found, number)
	}
	sort.Slice(found, func(i, j int) bool { return found[i] < found[j] })
	return found
}
