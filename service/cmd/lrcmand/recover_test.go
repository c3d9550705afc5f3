package main

import (
	"bytes"
	"strings"
	"testing"
)

func TestWordsOfRestoreAndRecover(t *testing.T) {
	folder := t.TempDir()
	for words, want := range map[string]string{
		"restore":                              "lrcmand restore: --data DIR is missing",
		"restore --data d":                     "--from FILE is missing",
		"restore --data d --from f --id 65536": "--id is 1 to 65535",
		"restore --data d --from f --listen h": "--listen has to be HOST:PORT",
		"restore --data d --from f --peer h":   "--peer has to be HOST:PORT",
		"restore --data d --from f more":       `this word is none of the options: "more"`,
		"recover":                              "lrcmand recover: --data DIR is missing",
		"recover --data d --from f":            "there is no option --from",
	} {
		var out, says bytes.Buffer
		status := runRepair(strings.Fields(words), &out, &says)
		if status != statusUsage || !strings.Contains(says.String(), want) || out.Len() > 0 {
			t.Errorf("%s: %d %q %q", words, status, out.String(), says.String())
		}
	}
	for words, want := range map[string]string{
		"restore --data " + folder + "/new --from " + folder + "/none": "no such file",
		"recover --data " + folder:                                     "has no log",
		"recover --data " + folder + "/none":                           "no such file",
	} {
		var out, says bytes.Buffer
		if status := runRepair(strings.Fields(words), &out, &says); status != statusFault || !strings.Contains(says.String(), want) {
			t.Errorf("%s: %d %q %q", words, status, out.String(), says.String())
		}
	}
}
