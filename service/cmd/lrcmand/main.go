// Command lrcmand serves books of a stripe manager: one member by `lrcmand --data DIR`, or three and five by Raft.
// docs/SERVICE.md says how to run it and what it answers.
package main

import (
	"errors"
	"fmt"
	"os"

	"lrcman/service/book"
	"lrcman/service/internal/ctl"
	"lrcman/service/internal/logging"
)

// The statuses that the process ends with.
const (
	statusFault   = 1 // a fault ended it
	statusUsage   = 2 // the command line, a file or an address is refused
	statusRemoved = 3 // it was removed from its group, or its folder is not taken there
)

func main() {
	words := os.Args[1:]
	isCheck := false
	if len(words) > 0 {
		switch words[0] {
		case "ctl":
			os.Exit(ctl.Main(words[1:], os.Stdout, os.Stderr))
		case "restore", "recover":
			os.Exit(runRepair(words, os.Stdout, os.Stderr))
		case "check":
			isCheck, words = true, words[1:]
		}
	}
	options, err := parse(words)
	var told answer
	if errors.As(err, &told) {
		fmt.Println(told)
		return
	} else if err != nil {
		fmt.Fprintf(os.Stderr, "lrcmand: %v\n", err)
		os.Exit(statusUsage)
	}
	if isCheck {
		os.Exit(check(options))
	}
	os.Exit(run(options, logging.New(os.Stderr, options.logging)))
}

// check judges the options and the files that they name, and starts nothing.
func check(o *options) int {
	err := book.Check()
	if err == nil && o.cert != "" {
		_, err = newKeys(o.cert, o.key, o.clientCA, logging.Nowhere())
	}
	if err != nil {
		fmt.Fprintf(os.Stderr, "lrcmand check: %v\n", err)
		return statusUsage
	}
	fmt.Println("the options are right")
	return 0
}

func run(o *options, logger *logging.Logger) int {
	s, status := startService(o, logger)
	if s == nil {
		return status
	}
	return s.wait()
}
