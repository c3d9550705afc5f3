package usage

import (
	"flag"
	"io"
	"strings"
	"testing"
)

func flags() (*flag.FlagSet, *string, *uint64, *bool) {
	all := flag.NewFlagSet("x", flag.ContinueOnError)
	all.SetOutput(io.Discard)
	folder := all.String("data-folder", "here", "`DIR`: folder of all")
	every := all.Uint64("snapshot-every", 7, "entries")
	return all, folder, every, all.Bool("join", false, "it joins")
}

func TestTheEnvironmentHasWhatTheWordsLack(t *testing.T) {
	t.Setenv("X_DATA_FOLDER", "there")
	t.Setenv("X_SNAPSHOT_EVERY", "9")
	t.Setenv("X_JOIN", "true")
	all, folder, every, join := flags()
	if err := Parse(all, "X", []string{"--snapshot-every", "8", "word"}); err != nil || all.Arg(0) != "word" {
		t.Fatal(err)
	}
	if *folder != "there" || *every != 8 || !*join {
		t.Error(*folder, *every, *join)
	}
	t.Setenv("X_SNAPSHOT_EVERY", "many")
	all, _, _, _ = flags()
	if err := Parse(all, "X", nil); err == nil || !strings.Contains(err.Error(), `X_SNAPSHOT_EVERY in the environment: invalid value "many"`) {
		t.Error(err)
	}
}

func TestAnUnknownOptionNamesTheNearest(t *testing.T) {
	for given, want := range map[string]string{
		"--snapshotevery": "there is no option --snapshotevery; there is --snapshot-every",
		"--data":          "there is no option --data; there is --data-folder",
		"--datafolder=x":  "there is no option --datafolder; there is --data-folder",
		"--jion":          "there is no option --jion; there is --join",
		"-elephant":       "there is no option --elephant",
	} {
		all, _, _, _ := flags()
		if err := Parse(all, "X", []string{given}); err == nil || err.Error() != want {
			t.Errorf("%s: %v and not %s", given, err, want)
		}
	}
	all, _, _, _ := flags()
	if err := Parse(all, "X", []string{"-h"}); err != flag.ErrHelp {
		t.Error(err)
	}
}

func TestOptionsAreListedByGroups(t *testing.T) {
	all, _, _, _ := flags()
	got := List(all, []Group{{"Files", []string{"data-folder"}}, {"None", nil}})
	want := "Files:\n  --data-folder DIR            folder of all (here)\n\nOthers:\n  --join                       it joins\n" +
		"  --snapshot-every uint        entries (7)\n"
	if got != want {
		t.Errorf("%s and not %s", got, want)
	}
}
