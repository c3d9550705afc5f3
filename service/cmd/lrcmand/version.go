package main

import (
	"fmt"
	"runtime"

	"lrcman/service/book"
	"lrcman/service/internal/state"
)

// version and commit are given by service/build.
var version, commit = "dev", "unknown"

// about is what --version prints.
func about() string {
	return fmt.Sprintf("lrcmand %s\ncommit %s\ninterface %d\nrules %d\nform %d\n%s", version, commit, book.Interface(), book.Rules(),
		state.Form, runtime.Version())
}
