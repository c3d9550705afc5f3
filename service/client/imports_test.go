package client

import (
	"go/parser"
	"go/token"
	"io/fs"
	"strings"
	"testing"
)

// The package takes nothing but the standard library: neither cgo nor another package of the service.
func TestTheStandardLibraryIsEnough(t *testing.T) {
	packages, err := parser.ParseDir(token.NewFileSet(), ".", func(file fs.FileInfo) bool {
		return !strings.HasSuffix(file.Name(), "_test.go")
	}, parser.ImportsOnly)
	if err != nil || len(packages["client"].Files) < 5 {
		t.Fatal(packages, err)
	}
	for name, file := range packages["client"].Files {
		for _, it := range file.Imports {
			first, _, _ := strings.Cut(strings.Trim(it.Path.Value, `"`), "/")
			if first == "C" || first == "lrcman" || strings.Contains(first, ".") {
				t.Errorf("%s imports %s", name, it.Path.Value)
			}
		}
	}
}
