package client

import "fmt"

// A Command is a line of a script, as docs/FORMATS.md has it: "done 1 3 1". The library of the members reads it, and refuses what is
// no command; so this package has no list of commands, and takes those of later rules.
type Command string

// Commandf is a command with numbers in it: Commandf("lease %d %d", stripe, fragment).
func Commandf(form string, numbers ...interface{}) Command {
	return Command(fmt.Sprintf(form, numbers...))
}
