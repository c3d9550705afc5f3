// Command load asks lrcmand, or puts into etcd, from many clients at once. It prints, as one line of JSON, how much they were
// told and how fast. service/measure runs it.
package main

import (
	"encoding/json"
	"errors"
	"flag"
	"fmt"
	"os"
	"strings"
	"time"
)

// options are the words of the command line.
type options struct {
	kind      kind
	addresses []string
	clients   int
	each      uint64 // calls of each client; 0: as many as it makes in the time
	time      time.Duration
	limit     time.Duration // of one request
	books     uint64
	run       string // begins each key, so that no two runs have one in common
}

func parse(words []string) (*options, error) {
	o := &options{}
	flags := flag.NewFlagSet("load", flag.ContinueOnError)
	name := flags.String("kind", "tick", "tick, turns, fill or put")
	addresses := flags.String("addresses", "", "HOST:PORT,.. of members: client i begins at number i")
	flags.IntVar(&o.clients, "clients", 8, "clients at once")
	flags.Uint64Var(&o.each, "each", 0, "calls of each client; 0: until the time is over")
	flags.DurationVar(&o.time, "time", 3*time.Second, "how long clients begin new calls")
	flags.DurationVar(&o.limit, "limit", 30*time.Second, "how long one request may take before it is made again")
	flags.Uint64Var(&o.books, "books", 64, "books p0, p1 and so on that are asked")
	flags.StringVar(&o.run, "run", "", "begins each key: another text for each run")
	if err := flags.Parse(words); err != nil {
		return nil, err
	}
	o.kind, o.addresses = kinds[*name], strings.Split(*addresses, ",")
	switch {
	case o.kind == 0:
		return nil, fmt.Errorf("there is no kind %q", *name)
	case *addresses == "" || o.run == "":
		return nil, errors.New("--addresses and --run are missing")
	case o.clients < 1 || o.books < 1:
		return nil, errors.New("--clients and --books are 1 or more")
	}
	return o, nil
}

func main() {
	o, err := parse(os.Args[1:])
	if err != nil {
		fmt.Fprintf(os.Stderr, "load: %v\n", err)
		os.Exit(2)
	}
	report, err := run(o)
	if err == nil {
		err = json.NewEncoder(os.Stdout).Encode(report)
	}
	if err != nil {
		fmt.Fprintf(os.Stderr, "load: %v\n", err)
		os.Exit(1)
	}
}
