package metrics

import (
	"html/template"
	"os"
	"regexp"
	"strconv"
	"strings"
	"testing"
)

// Each thing that a group is to show, as a metric that the console asks for.
var shownByConsole = []string{"lrcmand_stripes", "lrcmand_missing_fragments", "lrcmand_work_fragments", "lrcmand_leases",
	"lrcmand_lease_oldest_seconds", "lrcmand_domain_held_seats", "lrcmand_domain_slots", "lrcmand_disk_free_bytes",
	"lrcmand_raft_leader", "ALERTS"}

var (
	asking = regexp.MustCompile(`\bquery \(?(?:printf )?("(?:[^"\\]|\\.)*")`)
	given  = regexp.MustCompile(`%[a-z]`)
)

// expressions are what the console asks for, with x for each label that it fills in.
func expressions(t *testing.T, text string) []string {
	all := []string{}
	for _, found := range asking.FindAllStringSubmatch(text, -1) {
		expression, err := strconv.Unquote(found[1])
		if err != nil {
			t.Fatalf("%s: %v", found[1], err)
		}
		all = append(all, given.ReplaceAllStringFunc(expression, func(verb string) string {
			if verb != "%q" {
				t.Errorf("a label is filled in without quotes: %s", expression)
			}
			return `"x"`
		}))
	}
	if count := len(regexp.MustCompile(`\bquery\b`).FindAllString(text, -1)); len(all) != count {
		t.Errorf("%d queries, and %d expressions were found", count, len(all))
	}
	return all
}

func console(t *testing.T) string {
	text, err := os.ReadFile("../../console.html")
	if err != nil {
		t.Fatal(err)
	}
	return string(text)
}

func TestTheConsoleAsksForMetrics(t *testing.T) {
	metrics, asked := labelsByMetric(t), map[string]bool{}
	for _, expression := range expressions(t, console(t)) {
		if err := checkExpression(expression, metrics); err != nil {
			t.Errorf("%v in %s", err, expression)
		}
		for metric := range metrics {
			asked[metric] = asked[metric] || regexp.MustCompile(`\b`+metric+`\b`).MatchString(expression)
		}
	}
	for _, metric := range shownByConsole {
		if !asked[metric] {
			t.Errorf("the console does not ask for %s", metric)
		}
	}
}

func TestTheConsoleIsATemplate(t *testing.T) {
	none := func(...interface{}) string { return "" }
	functions := template.FuncMap{}
	for _, name := range []string{"query", "first", "value", "sortByLabel", "humanize1024", "humanizeDuration", "humanizePercentage"} {
		functions[name] = none
	}
	if _, err := template.New("console").Funcs(functions).Parse(console(t)); err != nil {
		t.Error(err)
	}
}

// What an expression of the console may not be is found.
func TestAWrongConsoleIsFound(t *testing.T) {
	metrics, text := labelsByMetric(t), console(t)
	for _, it := range [][2]string{{"lrcmand_missing_fragments", "lrcmand_missing_fragment"},
		{"age_ticks) (lrcmand", "age_ticks (lrcmand"}, {`standing=\"no_node\"`, `standings=\"no_node\"`}, {"topk(50, ", "topk("}} {
		isFound := false
		for _, expression := range expressions(t, strings.Replace(text, it[0], it[1], 1)) {
			isFound = isFound || checkExpression(expression, metrics) != nil
		}
		if !strings.Contains(text, it[0]) || !isFound {
			t.Errorf("passed: %s", it[1])
		}
	}
}
