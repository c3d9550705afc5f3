package replica

import (
	"context"
	"sort"
	"time"

	"lrcman/service/internal/state"
)

// compare keeps members from differing unseen. While this member leads, it asks now and then for the checksum of a book that has
// changed: each member takes it at one place of the log. And each tells the others which one it took.
func (r *Replica) compare(ctx context.Context) {
	asked := map[string]state.Position{} // where the books stood when their checksums were taken last
	last := ""
	check := time.NewTicker(r.cfg.Compare)
	defer check.Stop()
	for {
		select {
		case <-check.C:
		case <-ctx.Done():
			return
		}
		status := r.cfg.Engine.Status()
		if status.Leader != status.ID || len(status.Members) < 2 {
			continue
		}
		if name, isThere := r.changedBehind(last, asked); isThere {
			last = name
			r.askForChecksum(ctx, name, asked)
		}
	}
}

// changedBehind is the next book, in the order of names and round about, that does not stand where it was compared.
func (r *Replica) changedBehind(last string, asked map[string]state.Position) (string, bool) {
	names := r.cfg.State.Names()
	first := sort.Search(len(names), func(i int) bool { return names[i] > last })
	for i := range names {
		name := names[(first+i)%len(names)]
		isChanged := false
		err := r.cfg.State.Look(name, func(view *state.View) error {
			at, isAsked := asked[name]
			isChanged = !isAsked || at != view.Position
			return nil
		})
		if err == nil && isChanged {
			return name, true
		}
	}
	return "", false
}

func (r *Replica) askForChecksum(ctx context.Context, name string, asked map[string]state.Position) {
	ctx, cancel := context.WithTimeout(ctx, r.cfg.Timeout)
	defer cancel()
	if answer, err := r.Do(ctx, &state.Item{Action: state.Digest, Book: name}); err == nil {
		asked[name] = state.Position{Made: answer.Made, Opens: answer.Opens}
	}
}

// report tells the others which checksums this member took, and says once in which books it differs.
func (r *Replica) report(ctx context.Context) {
	told, differs := map[string]state.Stamp{}, map[string]bool{}
	check := time.NewTicker(r.reportTime())
	defer check.Stop()
	for {
		select {
		case <-check.C:
		case <-ctx.Done():
			return
		}
		for _, it := range r.cfg.State.Digests() {
			if told[it.Book] != it.At && r.tellChecksum(ctx, it) {
				told[it.Book] = it.At
			}
		}
		for _, name := range r.cfg.State.Differs() {
			if !differs[name] {
				r.cfg.Log.Errorf("book %s of this member is not that of the others: remove this member, and add another one", name)
			}
			differs[name] = true
		}
	}
}

// reportTime is how often a member looks whether it took a checksum.
func (r *Replica) reportTime() time.Duration {
	if r.cfg.Compare < freshTime {
		return r.cfg.Compare
	}
	return freshTime
}

func (r *Replica) tellChecksum(ctx context.Context, it state.BookDigest) bool {
	status := r.cfg.Engine.Status()
	if len(status.Members) < 2 {
		return false
	}
	ctx, cancel := context.WithTimeout(ctx, r.cfg.Timeout)
	defer cancel()
	_, err := r.Do(ctx, &state.Item{Action: state.Report, Book: it.Book, Digest: it.At, Member: status.ID, Sum: it.Sum})
	return err == nil
}
