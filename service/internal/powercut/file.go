package main

import "math/rand"

const (
	pageSize   = 4096
	sectorSize = 512
)

// A page is never changed once it is in a file: a write puts another one in its place. The nil page is all zeros.
type page *[pageSize]byte

// A version of a file is its size and its pages; those that are absent are zeros.
type version struct {
	size  int64
	pages map[int64]page
}

// A file has the version that programs see, and the one that a power cut can't take away.
type file struct {
	now, synced version
	dirty       map[int64]bool // pages that may differ between the two
}

func newFile() *file {
	return &file{now: version{pages: map[int64]page{}}, synced: version{pages: map[int64]page{}}, dirty: map[int64]bool{}}
}

var zeros [pageSize]byte

func (v *version) set(number int64, p page) {
	if p == nil || *p == zeros {
		delete(v.pages, number)
	} else {
		v.pages[number] = p
	}
}

// copyOf is a page that may be changed.
func copyOf(p page) *[pageSize]byte {
	made := new([pageSize]byte)
	if p != nil {
		*made = *p
	}
	return made
}

func (f *file) write(at int64, text []byte) {
	for done := 0; done < len(text); {
		number, begin := (at+int64(done))/pageSize, (at+int64(done))%pageSize
		made := copyOf(f.now.pages[number])
		done += copy(made[begin:], text[done:])
		f.now.set(number, made)
		f.dirty[number] = true
	}
	if end := at + int64(len(text)); end > f.now.size {
		f.now.size = end
	}
}

// read fills as much of the buffer as the file has, and returns how much that is.
func (f *file) read(at int64, buffer []byte) int {
	if at >= f.now.size {
		return 0
	}
	if left := f.now.size - at; int64(len(buffer)) > left {
		buffer = buffer[:left]
	}
	for done := 0; done < len(buffer); {
		number, begin := (at+int64(done))/pageSize, (at+int64(done))%pageSize
		have := &zeros
		if p := f.now.pages[number]; p != nil {
			have = p
		}
		done += copy(buffer[done:], have[begin:])
	}
	return len(buffer)
}

// resize cuts the file off, or adds zeros.
func (f *file) resize(size int64) {
	for number := range f.now.pages {
		if (number+1)*pageSize > size {
			f.dirty[number] = true
		}
	}
	f.now.resize(size)
}

func (v *version) resize(size int64) {
	for number, p := range v.pages {
		begin := number * pageSize
		if begin >= size {
			delete(v.pages, number)
		} else if begin+pageSize > size {
			made := copyOf(p)
			copy(made[size-begin:], zeros[:])
			v.set(number, made)
		}
	}
	v.size = size
}

// sync makes what programs see safe from a power cut.
func (f *file) sync() {
	for number := range f.dirty {
		f.synced.set(number, f.now.pages[number])
	}
	f.synced.size, f.dirty = f.now.size, map[int64]bool{}
}

// What a power cut did to the pages and names that were not synced.
type loss struct{ kept, torn, lost, namesKept, namesLost int }

// cut leaves what a power cut may leave: each page that was not synced is lost, torn or kept, and the size is the old or the
// new one.
func (f *file) cut(chance *rand.Rand, did *loss) {
	size := f.now.size
	if chance.Intn(2) == 0 {
		size = f.synced.size
	}
	for _, number := range sorted(f.dirty) {
		switch chance.Intn(3) {
		case 0:
			did.lost++
		case 1:
			f.synced.set(number, torn(chance, f.synced.pages[number], f.now.pages[number]))
			did.torn++
		default:
			f.synced.set(number, f.now.pages[number])
			did.kept++
		}
	}
	f.synced.resize(size)
	f.now = version{f.synced.size, map[int64]page{}}
	for number, p := range f.synced.pages {
		f.now.pages[number] = p
	}
	f.dirty = map[int64]bool{}
}

// torn is a page of which each sector is the old or the new one.
func torn(chance *rand.Rand, before, after page) page {
	made, other := copyOf(before), copyOf(after)
	for at := 0; at < pageSize; at += sectorSize {
		if chance.Intn(2) == 0 {
			copy(made[at:at+sectorSize], other[at:])
		}
	}
	return made
}
