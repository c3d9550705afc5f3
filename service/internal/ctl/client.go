package ctl

import (
	"errors"
	"fmt"
	"os"
	"strings"

	"lrcman/service/client"
)

// newClient is a client of the service as the options have it.
func newClient(o *options, knobs Knobs) (*client.Client, error) {
	cfg := client.Config{Servers: strings.Split(o.server, ","), CA: o.ca, Cert: o.cert, Key: o.key, Timeout: o.timeout,
		Attempt: knobs.Attempt}
	for _, server := range cfg.Servers {
		if err := client.CheckServer(server); err != nil {
			return nil, usagef("--server: %v; several have commas between", err)
		}
	}
	if (o.cert == "") != (o.key == "") {
		return nil, usagef("--cert and --key come together")
	}
	if o.tokenFile != "" {
		text, err := os.ReadFile(o.tokenFile)
		if err != nil {
			return nil, err
		}
		if cfg.Token = tokenOf(string(text)); cfg.Token == "" {
			return nil, fmt.Errorf("%s has no token", o.tokenFile)
		}
	}
	return client.New(cfg)
}

// tokenOf is the first token of a file: a line TOKEN, or ROLE TOKEN and more as the service reads it.
func tokenOf(text string) string {
	for _, line := range strings.Split(text, "\n") {
		words := strings.Fields(line)
		switch {
		case len(words) == 0 || words[0][0] == '#':
		case len(words) == 1:
			return words[0]
		case !strings.HasPrefix(words[1], "cert="):
			return words[1]
		}
	}
	return ""
}

// sayUnknown adds to an unknown outcome how to retry with the same key.
func sayUnknown(err error) error {
	var unknown *client.OutcomeUnknown
	if errors.As(err, &unknown) && unknown.Key != "" {
		return fmt.Errorf("%w; the call may have been made: retry with --call-key %s --call-since %d", unknown.Err, unknown.Key, unknown.Since)
	}
	return err
}
