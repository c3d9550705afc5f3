package main

import (
	"math/rand"
	"sync"
	"syscall"

	"github.com/hanwen/go-fuse/fuse"
)

// A disk is a file system in memory that can lose power.
type disk struct {
	fuse.RawFileSystem // what is not here is told to be unknown

	mu       sync.Mutex
	awake    *sync.Cond
	isCut    bool             // requests wait until the programs that asked are killed
	nodes    map[uint64]*node // by number; the root is 1
	listings map[uint64][]fuse.DirEntry
	last     uint64
}

func newDisk() *disk {
	d := &disk{RawFileSystem: fuse.NewDefaultRawFileSystem(), nodes: map[uint64]*node{}, listings: map[uint64][]fuse.DirEntry{}}
	d.awake = sync.NewCond(&d.mu)
	d.make(syscall.S_IFDIR | 0o700)
	return d
}

func (d *disk) make(mode uint32) *node {
	d.last++
	made := &node{number: d.last, mode: mode}
	if mode&syscall.S_IFMT == syscall.S_IFDIR {
		made.folder = newFolder()
	} else {
		made.file = newFile()
	}
	d.nodes[made.number] = made
	return made
}

// enter begins a request, and returns with the lock. One that comes while the power is cut waits until it is back, and fails
// then.
func (d *disk) enter() fuse.Status {
	d.mu.Lock()
	if !d.isCut {
		return fuse.OK
	}
	for d.isCut {
		d.awake.Wait()
	}
	return fuse.EIO
}

// cut takes the power away: what was not synced is lost, torn or kept, as the seed has it. Requests wait from now on.
func (d *disk) cut(seed int64) loss {
	d.mu.Lock()
	defer d.mu.Unlock()
	did := loss{}
	d.nodes[fuse.FUSE_ROOT_ID].cut(rand.New(rand.NewSource(seed)), &did)
	d.isCut = true
	return did
}

// restore gives the power back. It is called when no program that saw the time before the cut runs any more.
func (d *disk) restore() {
	d.mu.Lock()
	defer d.mu.Unlock()
	d.isCut = false
	d.awake.Broadcast()
}

// inFolder calls a function with a folder, if there is such one.
func (d *disk) inFolder(number uint64, do func(*folder) syscall.Errno) fuse.Status {
	status := d.enter()
	defer d.mu.Unlock()
	if !status.Ok() {
		return status
	}
	found := d.nodes[number]
	if found == nil || found.folder == nil {
		return fuse.ENOTDIR
	}
	return fuse.Status(do(found.folder))
}

// inFile is the same for a file.
func (d *disk) inFile(number uint64, do func(*file)) fuse.Status {
	status := d.enter()
	defer d.mu.Unlock()
	if !status.Ok() {
		return status
	}
	found := d.nodes[number]
	if found == nil || found.file == nil {
		return fuse.Status(syscall.EISDIR)
	}
	do(found.file)
	return fuse.OK
}

func fillAttr(found *node, out *fuse.Attr) {
	out.Ino, out.Mode, out.Nlink, out.Blksize = found.number, found.mode, 1, pageSize
	if found.file != nil {
		out.Size = uint64(found.file.now.size)
		out.Blocks = (out.Size + sectorSize - 1) / sectorSize
	}
}

// fillEntry lets the kernel remember nothing: after a cut names and sizes are others.
func fillEntry(found *node, out *fuse.EntryOut) {
	out.NodeId, out.Generation = found.number, 1
	fillAttr(found, &out.Attr)
}
