package metrics

import (
	"crypto/x509"
	"encoding/pem"
	"os"
	"strings"
	"time"
)

// A Disk is the room that a member has.
type Disk struct {
	Free     int64 // bytes; -1: unknown
	Reserve  uint64
	ReadOnly bool // for lack of room
}

// member tells of what this member has beside books.
func (c *collector) member(t teller) {
	if newest, broken, ok := snapshots(c.Folder); ok {
		t.gauge(brokenDesc, float64(broken))
		if !newest.IsZero() {
			t.gauge(writtenDesc, float64(newest.UnixMilli())/1000)
		}
	}
	if c.Disk != nil {
		disk := c.Disk()
		t.gauge(reserveDesc, float64(disk.Reserve))
		t.gauge(readOnlyDesc, one(disk.ReadOnly))
		if disk.Free >= 0 {
			t.gauge(freeDesc, float64(disk.Free))
		}
	}
	for option, file := range c.Certificates {
		if expiry, ok := expiryOf(file); ok {
			t.gauge(expiryDesc, float64(expiry.Unix()), option)
		}
	}
	if c.Differs != nil {
		t.gauge(differDesc, float64(len(c.Differs())))
	}
	if c.Waiting != nil {
		t.gauge(waitingDesc, float64(c.Waiting()))
	}
}

// snapshots tells when the newest snapshot of a folder was written, and how many were set aside.
func snapshots(folder string) (newest time.Time, broken int, ok bool) {
	files, err := os.ReadDir(folder)
	if folder == "" || err != nil {
		return newest, 0, false
	}
	for _, file := range files {
		info, err := file.Info()
		switch {
		case err != nil || !info.Mode().IsRegular():
		case strings.HasSuffix(file.Name(), ".snap.broken"):
			broken++
		case strings.HasSuffix(file.Name(), ".snap") && info.ModTime().After(newest):
			newest = info.ModTime()
		}
	}
	return newest, broken, true
}

// expiryOf is when the first certificate of a file expires.
func expiryOf(file string) (first time.Time, ok bool) {
	rest, err := os.ReadFile(file)
	if err != nil {
		return first, false
	}
	for {
		var block *pem.Block
		if block, rest = pem.Decode(rest); block == nil {
			return first, ok
		}
		certificate, err := x509.ParseCertificate(block.Bytes)
		if block.Type == "CERTIFICATE" && err == nil && (!ok || certificate.NotAfter.Before(first)) {
			first, ok = certificate.NotAfter, true
		}
	}
}
