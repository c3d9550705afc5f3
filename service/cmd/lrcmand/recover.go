package main

import (
	"errors"
	"flag"
	"fmt"
	"io"
	"os"
	"strings"

	"lrcman/service/book"
	"lrcman/service/internal/engine"
	"lrcman/service/internal/engine/raftlog"
	"lrcman/service/internal/httpapi"
	"lrcman/service/internal/logging"
	"lrcman/service/internal/state"
	"lrcman/service/internal/usage"
)

// A repair is `lrcmand restore` or `lrcmand recover`: what it was told, and what it makes.
type repair struct {
	data, from, listen, peer string
	id                       uint64
	make                     func(*repair, raftlog.Config, *state.State) (string, error)
}

// repairs are those that there are, by their words.
var repairs = map[string]func(*flag.FlagSet, *repair){
	"restore": func(flags *flag.FlagSet, r *repair) {
		r.make = (*repair).restore
		flags.StringVar(&r.from, "from", "", "the file of a backup")
		flags.Uint64Var(&r.id, "id", 1, "number of the member")
		flags.StringVar(&r.listen, "listen", "127.0.0.1:7421", "HOST:PORT for clients")
		flags.StringVar(&r.peer, "peer", "", "HOST:PORT for the other members")
	},
	"recover": func(_ *flag.FlagSet, r *repair) { r.make = (*repair).recover },
}

// runRepair makes a group of one, and says in words what is in it. It returns the status to end with.
func runRepair(words []string, out, says io.Writer) int {
	r, err := readRepair(words)
	var told answer
	if errors.As(err, &told) {
		fmt.Fprint(out, told)
		return 0
	} else if err != nil {
		fmt.Fprintf(says, "lrcmand %s: %v\n", words[0], err)
		return statusUsage
	}
	if err := book.Check(); err != nil {
		fmt.Fprintf(says, "lrcmand %s: %v\n", words[0], err)
		return statusFault
	}
	knobs := readKnobs()
	cfg := raftlog.Config{Dir: r.data, Self: engine.Member{ID: r.id, Peer: r.peer, Client: r.listen}, Knobs: knobs.raftlog,
		Log: logging.New(says, logging.Config{})}
	made, err := r.make(r, cfg, state.NewWith(knobs.state))
	if err != nil {
		fmt.Fprintf(says, "lrcmand %s: %v\n", words[0], err)
		return statusFault
	}
	fmt.Fprintln(out, made)
	return 0
}

func readRepair(words []string) (*repair, error) {
	r, flags := &repair{}, flag.NewFlagSet("lrcmand "+words[0], flag.ContinueOnError)
	flags.SetOutput(io.Discard)
	flags.StringVar(&r.data, "data", "", "folder of the member")
	repairs[words[0]](flags, r)
	if err := flags.Parse(words[1:]); errors.Is(err, flag.ErrHelp) {
		return nil, answer("usage: lrcmand " + words[0] + " OPTIONS\n\n" + usage.List(flags, nil))
	} else if err != nil {
		return nil, usage.Explain(flags, err)
	}
	switch {
	case flags.NArg() > 0:
		return nil, fmt.Errorf("this word is none of the options: %q", flags.Arg(0))
	case r.data == "":
		return nil, errors.New("--data DIR is missing")
	case words[0] == "recover":
		return r, nil
	case r.from == "":
		return nil, errors.New("--from FILE is missing")
	case r.id == 0 || r.id > engine.MostID:
		return nil, fmt.Errorf("--id is 1 to %d", engine.MostID)
	}
	if err := httpapi.CheckAddress(r.listen); err != nil {
		return nil, fmt.Errorf("--listen %w", err)
	}
	if r.peer == "" {
		return r, nil
	}
	if err := httpapi.CheckAddress(r.peer); err != nil {
		return nil, fmt.Errorf("--peer %w", err)
	}
	return r, nil
}

func (r *repair) restore(cfg raftlog.Config, books *state.State) (string, error) {
	file, err := os.Open(r.from)
	if err != nil {
		return "", err
	}
	defer file.Close()
	made, err := raftlog.Restore(cfg, books, file)
	if err != nil {
		return "", err
	}
	if made.IsResumed {
		return resumedWords, nil
	}
	return fmt.Sprintf("member %d is a new group of its own, with all that the backup has: up to entry %d of its group, whose members "+
		"were %s.\nWhat they told behind entry %d is not in it. Folders of that group are not taken into this one.", made.Self.ID, made.Last,
		listOf(made.Others), made.Last), nil
}

func (r *repair) recover(cfg raftlog.Config, books *state.State) (string, error) {
	made, err := raftlog.Recover(cfg, books)
	if err != nil {
		return "", err
	}
	if made.IsResumed {
		return resumedWords, nil
	}
	others := "It had no other member."
	if len(made.Others) > 0 {
		others = fmt.Sprintf("The folders of members %s are of the old group: empty them, and add these members with new numbers.",
			listOf(made.Others))
	}
	return fmt.Sprintf("member %d is a new group of its own, with all that its log has: up to entry %d.\n"+
		"It knew the entries up to %d as committed. The %d behind that are kept, since they may have been told.\n"+
		"Entry %d is perhaps not the last that was told: nobody knows how many more the other members have told without this one, and "+
		"they are lost.\nWhat was in the folder is kept there, under names that end with %s. %s", made.Self.ID, made.Last,
		made.Commit, made.Last-made.Commit, made.Last, made.Beside, others), nil
}

const resumedWords = "what was cut off before is finished: the member of this folder is a new group of its own"

// listOf are the numbers of members.
func listOf(members []engine.Member) string {
	words := make([]string, len(members))
	for i, member := range members {
		words[i] = fmt.Sprint(member.ID)
	}
	return strings.Join(words, ", ")
}
