// Package usage has what command lines share: options from the environment, a list of them by groups, and the nearest name to one
// that is mistyped.
package usage

import (
	"errors"
	"flag"
	"fmt"
	"os"
	"strings"
)

// A Group is some options under a title.
type Group struct {
	Title string
	Names []string
}

// Parse reads options. One that the words lack is taken from the environment, where its name is written in capitals behind a
// prefix: --data-folder is PREFIX_DATA_FOLDER. The words that are no options are flags.Args().
func Parse(flags *flag.FlagSet, prefix string, words []string) error {
	if err := flags.Parse(words); err != nil {
		return Explain(flags, err)
	}
	given := map[string]bool{}
	flags.Visit(func(f *flag.Flag) { given[f.Name] = true })
	var err error
	flags.VisitAll(func(f *flag.Flag) {
		name := Variable(prefix, f.Name)
		value, isThere := os.LookupEnv(name)
		if err != nil || given[f.Name] || !isThere {
			return
		}
		if wrong := flags.Set(f.Name, value); wrong != nil {
			err = fmt.Errorf("%s in the environment: invalid value %q: %v", name, value, wrong)
		}
	})
	return err
}

// Variable is the name of an option in the environment.
func Variable(prefix, name string) string {
	return prefix + "_" + strings.ToUpper(strings.ReplaceAll(name, "-", "_"))
}

// Explain names the option that is nearest to one that there is not.
func Explain(flags *flag.FlagSet, err error) error {
	_, name, isUnknown := strings.Cut(err.Error(), "flag provided but not defined: -")
	if !isUnknown {
		return err
	}
	var names []string
	flags.VisitAll(func(f *flag.Flag) { names = append(names, f.Name) })
	words := "there is no option --" + name
	if nearest := Nearest(name, names); nearest != "" {
		words += "; there is --" + nearest
	}
	return errors.New(words)
}

// Nearest is the name that takes the fewest changes of letters to be another one, or that begins with it; "" where all are far from it.
func Nearest(word string, names []string) (nearest string) {
	least := len(word)/3 + 2
	for _, name := range names {
		far := distance(word, name)
		if len(word) > 2 && strings.HasPrefix(name, word) {
			far = 1
		}
		if far < least {
			least, nearest = far, name
		}
	}
	return nearest
}

// distance is the number of letters that have to be changed, added or left out to make one word another.
func distance(a, b string) int {
	row := make([]int, len(b)+1)
	for j := range row {
		row[j] = j
	}
	for i := 1; i <= len(a); i++ {
		corner := row[0]
		row[0] = i
		for j := 1; j <= len(b); j++ {
			changed := corner
			if a[i-1] != b[j-1] {
				changed++
			}
			corner = row[j]
			row[j] = least(changed, row[j]+1, row[j-1]+1)
		}
	}
	return row[len(b)]
}

func least(first int, more ...int) int {
	for _, it := range more {
		if it < first {
			first = it
		}
	}
	return first
}

// List is the options by groups, with their defaults. Those of no group come last.
func List(flags *flag.FlagSet, groups []Group) string {
	var text strings.Builder
	listed := map[string]bool{}
	write := func(title string, names []string) {
		if len(names) > 0 {
			fmt.Fprintf(&text, "\n%s:\n", title)
		}
		for _, name := range names {
			if f := flags.Lookup(name); f != nil {
				text.WriteString(line(f))
			}
			listed[name] = true
		}
	}
	for _, group := range groups {
		write(group.Title, group.Names)
	}
	var others []string
	flags.VisitAll(func(f *flag.Flag) {
		if !listed[f.Name] {
			others = append(others, f.Name)
		}
	})
	write(map[bool]string{true: "Options", false: "Others"}[len(groups) == 0], others)
	return strings.TrimLeft(text.String(), "\n")
}

// line is that of one option.
func line(f *flag.Flag) string {
	kind, words := flag.UnquoteUsage(f)
	words = strings.TrimPrefix(words, kind+": ")
	left := "  --" + f.Name
	if kind != "" {
		left += " " + kind
	}
	switch f.DefValue {
	case "", "false":
		return fmt.Sprintf("%-30s %s\n", left, words)
	}
	return fmt.Sprintf("%-30s %s (%s)\n", left, words, f.DefValue)
}
