package book

import (
	"sort"
	"testing"
)

func TestStripesHaveAnOrderForPeople(t *testing.T) {
	levels := []Level{{Kind: Whole}, {Kind: Lost}, {Kind: AtRisk, Margin: 2}, {Kind: Unavailable}, {Kind: AtRisk}, {Kind: AtRisk, Margin: 1}}
	want := []Level{levels[1], levels[3], levels[4], levels[5], levels[2], levels[0]}
	sort.SliceStable(levels, func(i, j int) bool { return levels[i].RankForPeople() < levels[j].RankForPeople() })
	for i := range levels {
		if levels[i] != want[i] {
			t.Errorf("%v, and not %v", levels, want)
			break
		}
	}
}
