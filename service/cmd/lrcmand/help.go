package main

import "lrcman/service/internal/usage"

// An answer is what the command line asks for in place of a member: it goes to standard output, and the status is 0.
type answer string

// Error is the text.
func (a answer) Error() string { return string(a) }

const help = `usage: lrcmand --data DIR [OPTIONS]         runs a member
       lrcmand check --data DIR [OPTIONS]   judges the options and their files, and starts nothing
       lrcmand restore --data DIR --from FILE [--id N] [--listen HOST:PORT] [--peer HOST:PORT]
                                            makes a new group of one of a backup
       lrcmand recover --data DIR           makes a new group of one of a member whose majority is lost
       lrcmand ctl COMMAND                  asks a service and commands it; lrcmand ctl -h tells more

The environment may set options too: LRCMAND_SNAPSHOT_EVERY for --snapshot-every. docs/SERVICE.md says more.

`

// groups are the options as -h lists them.
var groups = []usage.Group{
	{Title: "Member", Names: []string{"data", "listen", "listen-metrics", "host", "id"}},
	{Title: "Group", Names: []string{"members", "new", "join", "peer", "peer-name", "group"}},
	{Title: "Times", Names: []string{"tick", "compare", "election", "timeout"}},
	{Title: "Disk and limits", Names: []string{"snapshot-every", "snapshot-bytes", "trailing", "disk-reserve", "rate"}},
	{Title: "Rights and certificates", Names: []string{"token-file", "audit-file", "cert", "key", "client-ca", "peer-cert",
		"peer-key", "peer-ca",
		"trust-network"}},
	{Title: "Output", Names: []string{"log-format", "log-level", "version"}},
}
