package survey_test

import (
	"reflect"
	"sort"
	"testing"
	"time"

	"lrcman/service/internal/state"
	"lrcman/service/internal/survey"
	"lrcman/service/internal/survey/recorded"
)

// The library and the model are surveyed alike.
func TestASurveyOfTheLibraryIsThatOfTheModel(t *testing.T) {
	if !recorded.HasRules() {
		t.Skip("the library is a stand-in without rules, so it is not surveyed")
	}
	for _, name := range states {
		b := load(t, name)
		s := state.New()
		if err := b.Replay(name, s); err != nil {
			t.Errorf("%s: %v", name, err)
			continue
		}
		c := newClock()
		got, want := report(t, survey.NewWatcher(survey.OfState(s), c.time), name), report(t, c.watch(recorded.Books{name: b}), name)
		for _, r := range []*survey.Report{got, want} {
			sort.Slice(r.Leases, func(i, j int) bool {
				a, b := r.Leases[i], r.Leases[j]
				return a.Stripe < b.Stripe || a.Stripe == b.Stripe && a.Fragment < b.Fragment
			})
		}
		capacity, err := survey.NewWatcher(survey.OfState(s), c.time).Capacity(name)
		if err != nil || string(capacity.Rows.CSV()) != b.Room || capacity.N != uint64(len(b.Lines)) {
			t.Errorf("%s: the library has the capacity %+v, and the model %s; %v", name, capacity, b.Room, err)
		}
		health, err := survey.NewWatcher(survey.OfState(s), c.time).Health(name)
		if err != nil || !reflect.DeepEqual(health.Reasons, b.Reasons) || health.N != uint64(len(b.Lines)) {
			t.Errorf("%s: the library has the health %+v, and the model %+v; %v", name, health, b.Reasons, err)
		}
		if !reflect.DeepEqual(got, want) {
			t.Errorf("%s: the library has %+v, and the model has %+v", name, got, want)
		}
	}
}

// A survey of 512 nodes and 4,096 stripes after a rack was lost, with a node draining.
func BenchmarkSurvey(b *testing.B) {
	if !recorded.HasRules() {
		b.Skip("the library is a stand-in without rules")
	}
	s := state.New()
	if err := recorded.Largest(s, 1, "p0"); err != nil {
		b.Fatal(err)
	}
	books := survey.OfState(s)
	b.ResetTimer()
	for i := 0; i < b.N; i++ {
		report, err := survey.NewWatcher(books, time.Now).Report("p0")
		if err != nil || report.Work.Open == 0 {
			b.Fatalf("%v, %+v", err, report.Work)
		}
	}
}
