// Command powercut is a disk that can lose power, for tests: a file system in memory, mounted by FUSE, that knows which bytes
// and names were synced.
//
// Usage: powercut FOLDER. It prints `ready` once the folder is mounted, and reads lines: `cut SEED` takes the power away, and
// `on` gives it back. In between, kill who uses the folder. It ends with its input.
package main

import (
	"bufio"
	"fmt"
	"os"
	"syscall"

	"github.com/hanwen/go-fuse/fuse"
)

func main() {
	if len(os.Args) != 2 {
		fail(fmt.Errorf("usage: powercut FOLDER"))
	}
	disk := newDisk()
	options := &fuse.MountOptions{Name: "powercut", FsName: "powercut", DirectMount: true, DisableXAttrs: true}
	server, err := fuse.NewServer(disk, os.Args[1], options)
	if err != nil {
		fail(err)
	}
	go server.Serve()
	if err := server.WaitMount(); err != nil {
		fail(err)
	}
	fmt.Println("ready")
	obey(disk, bufio.NewScanner(os.Stdin))
	disk.restore()
	if server.Unmount() == nil {
		return
	}
	if err := syscall.Unmount(os.Args[1], syscall.MNT_DETACH); err != nil { // (somebody still uses it)
		fail(err)
	}
}

// obey does what the lines say.
func obey(disk *disk, lines *bufio.Scanner) {
	for lines.Scan() {
		var seed int64
		if _, err := fmt.Sscanf(lines.Text(), "cut %d", &seed); err == nil {
			did := disk.cut(seed)
			fmt.Printf("%d kept pages, %d torn pages, %d lost pages, %d kept names, %d lost names\n",
				did.kept, did.torn, did.lost, did.namesKept, did.namesLost)
		} else if lines.Text() == "on" {
			disk.restore()
			fmt.Println("on")
		} else {
			fail(fmt.Errorf("this line is none of the two: %q", lines.Text()))
		}
	}
}

func fail(err error) {
	fmt.Fprintf(os.Stderr, "powercut: %v\n", err)
	os.Exit(1)
}
