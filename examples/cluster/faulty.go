//go:build faulty

// With this tag the program does what it must never do, so that tests can be seen to find it. build never sets it.

package main

import "os"

func init() {
	hasFence = os.Getenv("CLUSTER_FAULT") != "fence"
	comparesChecksums = os.Getenv("CLUSTER_FAULT") != "checksum"
	keepsLimit = os.Getenv("CLUSTER_FAULT") != "targets"
}
