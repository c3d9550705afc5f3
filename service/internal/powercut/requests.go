package main

import (
	"syscall"
	"time"

	"github.com/hanwen/go-fuse/fuse"
)

// Lookup finds a name.
func (d *disk) Lookup(_ <-chan struct{}, header *fuse.InHeader, name string, out *fuse.EntryOut) fuse.Status {
	return d.inFolder(header.NodeId, func(folder *folder) syscall.Errno {
		found := folder.now[name]
		if found == nil {
			return syscall.ENOENT
		}
		fillEntry(found, out)
		return 0
	})
}

// GetAttr tells kind and size.
func (d *disk) GetAttr(_ <-chan struct{}, input *fuse.GetAttrIn, out *fuse.AttrOut) fuse.Status {
	status := d.enter()
	defer d.mu.Unlock()
	if found := d.nodes[input.NodeId]; status.Ok() && found != nil {
		fillAttr(found, &out.Attr)
	} else if status.Ok() {
		status = fuse.ENOENT
	}
	return status
}

// SetAttr changes the size and the mode, and passes over times and owners.
func (d *disk) SetAttr(_ <-chan struct{}, input *fuse.SetAttrIn, out *fuse.AttrOut) fuse.Status {
	status := d.enter()
	defer d.mu.Unlock()
	found := d.nodes[input.NodeId]
	if !status.Ok() || found == nil {
		return fuse.EIO
	}
	if size, isGiven := input.GetSize(); isGiven && found.file != nil {
		found.file.resize(int64(size))
	}
	if mode, isGiven := input.GetMode(); isGiven {
		found.mode = found.mode&syscall.S_IFMT | mode
	}
	fillAttr(found, &out.Attr)
	return fuse.OK
}

func (d *disk) add(parent uint64, name string, mode uint32, out *fuse.EntryOut) fuse.Status {
	return d.inFolder(parent, func(folder *folder) syscall.Errno {
		if folder.now[name] != nil {
			return syscall.EEXIST
		}
		made := d.make(mode)
		folder.change(change{name: made})
		fillEntry(made, out)
		return 0
	})
}

// Mkdir makes a folder.
func (d *disk) Mkdir(_ <-chan struct{}, input *fuse.MkdirIn, name string, out *fuse.EntryOut) fuse.Status {
	return d.add(input.NodeId, name, syscall.S_IFDIR|input.Mode&0o777, out)
}

// Create makes a file and opens it.
func (d *disk) Create(_ <-chan struct{}, input *fuse.CreateIn, name string, out *fuse.CreateOut) fuse.Status {
	out.OpenFlags = fuse.FOPEN_DIRECT_IO
	return d.add(input.NodeId, name, syscall.S_IFREG|input.Mode&0o777, &out.EntryOut)
}

// Unlink removes a file.
func (d *disk) Unlink(_ <-chan struct{}, header *fuse.InHeader, name string) fuse.Status {
	return d.inFolder(header.NodeId, func(folder *folder) syscall.Errno { return folder.remove(name, false) })
}

// Rmdir removes a folder.
func (d *disk) Rmdir(_ <-chan struct{}, header *fuse.InHeader, name string) fuse.Status {
	return d.inFolder(header.NodeId, func(folder *folder) syscall.Errno { return folder.remove(name, true) })
}

// Rename renames within a folder; lrcmand does not move files to other folders.
func (d *disk) Rename(_ <-chan struct{}, input *fuse.RenameIn, from, to string) fuse.Status {
	return d.inFolder(input.NodeId, func(folder *folder) syscall.Errno {
		if input.Newdir != input.NodeId {
			return syscall.EXDEV
		} else if input.Flags != 0 {
			return syscall.EINVAL
		}
		return folder.rename(from, to)
	})
}

// Open opens a file. The kernel keeps no copy, so each write is seen here when it is made.
func (d *disk) Open(_ <-chan struct{}, input *fuse.OpenIn, out *fuse.OpenOut) fuse.Status {
	out.OpenFlags = fuse.FOPEN_DIRECT_IO
	return d.inFile(input.NodeId, func(file *file) {
		if input.Flags&syscall.O_TRUNC != 0 {
			file.resize(0)
		}
	})
}

// Read reads.
func (d *disk) Read(_ <-chan struct{}, input *fuse.ReadIn, buffer []byte) (fuse.ReadResult, fuse.Status) {
	count := 0
	status := d.inFile(input.NodeId, func(file *file) { count = file.read(int64(input.Offset), buffer) })
	return fuse.ReadResultData(buffer[:count]), status
}

// Write writes. What it writes is not safe from a power cut.
func (d *disk) Write(_ <-chan struct{}, input *fuse.WriteIn, text []byte) (uint32, fuse.Status) {
	status := d.inFile(input.NodeId, func(file *file) { file.write(int64(input.Offset), text) })
	return uint32(len(text)), status
}

// Fallocate makes a file longer; what it was asked to keep is not made longer.
func (d *disk) Fallocate(_ <-chan struct{}, input *fuse.FallocateIn) fuse.Status {
	if input.Mode != 0 {
		return fuse.Status(syscall.EOPNOTSUPP)
	}
	return d.inFile(input.NodeId, func(file *file) {
		if end := int64(input.Offset + input.Length); end > file.now.size {
			file.resize(end)
		}
	})
}

// A sync takes as long as on a disk: so that a cut often comes before it is over.
const syncTime = 2 * time.Millisecond

// Fsync makes the content of a file safe, and not its name.
func (d *disk) Fsync(_ <-chan struct{}, input *fuse.FsyncIn) fuse.Status {
	time.Sleep(syncTime)
	return d.inFile(input.NodeId, func(file *file) { file.sync() })
}

// FsyncDir makes the names in a folder safe, and not what they name.
func (d *disk) FsyncDir(_ <-chan struct{}, input *fuse.FsyncIn) fuse.Status {
	time.Sleep(syncTime)
	return d.inFolder(input.NodeId, func(folder *folder) syscall.Errno { folder.sync(); return 0 })
}

// OpenDir takes the names of a folder as they are now.
func (d *disk) OpenDir(_ <-chan struct{}, input *fuse.OpenIn, out *fuse.OpenOut) fuse.Status {
	return d.inFolder(input.NodeId, func(folder *folder) syscall.Errno {
		d.last++
		out.Fh = d.last
		for _, name := range names(folder.now) {
			it := folder.now[name]
			d.listings[out.Fh] = append(d.listings[out.Fh], fuse.DirEntry{Mode: it.mode, Name: name, Ino: it.number})
		}
		return 0
	})
}

// ReadDir lists as many names as there is room for.
func (d *disk) ReadDir(_ <-chan struct{}, input *fuse.ReadIn, out *fuse.DirEntryList) fuse.Status {
	return d.list(input, out.AddDirEntry)
}

// ReadDirPlus lists names, and says nothing more of them.
func (d *disk) ReadDirPlus(_ <-chan struct{}, input *fuse.ReadIn, out *fuse.DirEntryList) fuse.Status {
	return d.list(input, func(entry fuse.DirEntry) bool { return out.AddDirLookupEntry(entry) != nil })
}

func (d *disk) list(input *fuse.ReadIn, add func(fuse.DirEntry) bool) fuse.Status {
	return d.inFolder(input.NodeId, func(*folder) syscall.Errno {
		for i, all := int(input.Offset), d.listings[input.Fh]; i < len(all) && add(all[i]); i++ {
		}
		return 0
	})
}

// ReleaseDir forgets what OpenDir took.
func (d *disk) ReleaseDir(input *fuse.ReleaseIn) {
	d.mu.Lock()
	defer d.mu.Unlock()
	delete(d.listings, input.Fh)
}

// StatFs tells that there is room.
func (d *disk) StatFs(_ <-chan struct{}, _ *fuse.InHeader, out *fuse.StatfsOut) fuse.Status {
	out.Bsize, out.Frsize, out.NameLen = pageSize, pageSize, 255
	out.Blocks, out.Bfree, out.Bavail = 1<<20, 1<<20, 1<<20
	return fuse.OK
}
