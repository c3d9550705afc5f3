package metrics

import (
	"fmt"
	"os"
	"path/filepath"
	"regexp"
	"strings"
	"testing"
	"time"

	"gopkg.in/yaml.v2"

	"lrcman/service/internal/httpapi"
	"lrcman/service/internal/survey/recorded"
)

type rules struct {
	Groups []struct {
		Name  string `yaml:"name"`
		Rules []rule `yaml:"rules"`
	} `yaml:"groups"`
}

type rule struct {
	Alert       string            `yaml:"alert"`
	Expr        string            `yaml:"expr"`
	For         string            `yaml:"for"`
	Labels      map[string]string `yaml:"labels"`
	Annotations map[string]string `yaml:"annotations"`
}

func alerts(t *testing.T) []rule {
	t.Helper()
	file, err := os.Open("../../alerts.yml")
	if err != nil {
		t.Fatal(err)
	}
	defer file.Close()
	var read rules
	decoder := yaml.NewDecoder(file)
	decoder.SetStrict(true)
	if err := decoder.Decode(&read); err != nil {
		t.Fatal(err)
	}
	all := []rule{}
	for _, group := range read.Groups {
		if group.Name == "" || len(group.Rules) == 0 {
			t.Errorf("group %q has %d rules", group.Name, len(group.Rules))
		}
		all = append(all, group.Rules...)
	}
	return all
}

// labelsByMetric are the labels of each metric that a member tells.
func labelsByMetric(t *testing.T) map[string]map[string]bool {
	all, folder := recorded.Books{}, t.TempDir()
	m := wholeMember(t, all, folder)
	m.ConnectionsOf(func() (none httpapi.ConnectionCounts) { return none })
	watcher := m.from.Watcher
	watcher.Step()
	for name, b := range books(t) {
		all[name] = b
	}
	watcher.Step()
	if _, err := watcher.Health("rack"); err != nil {
		t.Fatal(err)
	}
	if err := os.WriteFile(filepath.Join(folder, "one.snap"), nil, 0o600); err != nil {
		t.Fatal(err)
	}
	m.Observe(httpapi.Served{Label: "/books/{book}/call", Book: "rack", Timing: httpapi.TimedByBook, Status: 200})
	families, err := m.Registry().Gather()
	if err != nil {
		t.Fatal(err)
	}
	found := map[string]map[string]bool{"up": {"job": true, "instance": true}, "ALERTS": {"alertname": true, "alertstate": true}}
	for _, family := range families {
		labels := map[string]bool{"job": true, "instance": true} // (which Prometheus adds)
		for _, pair := range family.Metric[0].Label {
			labels[pair.GetName()] = true
		}
		found[family.GetName()] = labels
	}
	return found
}

func TestAlertsAreRules(t *testing.T) {
	metrics, names := labelsByMetric(t), map[string]bool{}
	for _, rule := range alerts(t) {
		if names[rule.Alert] || !regexp.MustCompile("^Lrcmand[A-Za-z]+$").MatchString(rule.Alert) {
			t.Errorf("a name that is no name, or there twice: %q", rule.Alert)
		}
		names[rule.Alert] = true
		if err := checkExpression(rule.Expr, metrics); err != nil {
			t.Errorf("%s: %v in %s", rule.Alert, err, rule.Expr)
		}
		if rule.For != "" {
			if _, err := time.ParseDuration(rule.For); err != nil {
				t.Errorf("%s: %v", rule.Alert, err)
			}
		}
		if severity := rule.Labels["severity"]; severity != "critical" && severity != "warning" {
			t.Errorf("%s: severity %q", rule.Alert, severity)
		}
		checkRunbook(t, rule)
		description := rule.Annotations["description"]
		if strings.Count(description, ". ") != 0 || !strings.HasSuffix(description, ".") || rule.Annotations["summary"] == "" {
			t.Errorf("%s: the description is not one sentence: %q", rule.Alert, description)
		}
	}
	for _, wanted := range []string{"DiskReadOnly", "DiskLow", "CertificateExpires", "LeaderChanges", "RequestsRefused", "OutcomesUnknown",
		"BooksDiffer", "SnapshotBroken", "ConnectionsFull", "StripeLost", "StripeUnavailable", "StripeAtMarginZero", "DomainWouldLoseStripe", "SlotsLow", "WorkDoesNotShrink", "NoLeader", "MemberBehind",
		"RequestsWithoutRight", "LeasesExpire"} {
		if !names["Lrcmand"+wanted] {
			t.Errorf("there is no alert %s", wanted)
		}
	}
}

// checkRunbook finds the section of a page of this tree that a rule names.
func checkRunbook(t *testing.T, rule rule) {
	t.Helper()
	file, section, hasSection := strings.Cut(rule.Annotations["runbook_url"], "#")
	text, err := os.ReadFile("../../../" + file)
	if err != nil || !hasSection {
		t.Errorf("%s: runbook_url %q: %v", rule.Alert, rule.Annotations["runbook_url"], err)
		return
	}
	for _, line := range strings.Split(string(text), "\n") {
		title := strings.TrimLeft(line, "#")
		if title != line && strings.ReplaceAll(strings.ToLower(strings.TrimSpace(title)), " ", "-") == section {
			return
		}
	}
	t.Errorf("%s: %s has no section %s", rule.Alert, file, section)
}

func TestTheCheckRefusesWhatIsNoExpression(t *testing.T) {
	metrics := labelsByMetric(t)
	for _, expression := range []string{"", "lrcmand_stripe > 0", "lrcmand_stripes{lvl=\"lost\"} > 0", "max by (book (lrcmand_stripes) > 0",
		"lrcmand_stripes >", "lrcmand_stripes[5m", "> 0", "maximum(lrcmand_stripes)", "lrcmand_stripes lrcmand_books", "rate(lrcmand_entries_total[5]) > 0",
		"lrcmand_stripes{level=lost}", "(lrcmand_books) > 0)", "lrcmand_books == 0 or"} {
		if checkExpression(expression, metrics) == nil {
			t.Errorf("passed: %s", expression)
		}
	}
}

// A parser of the part of Prometheus' language that the rules are written in. It stops at the first fault.
type parser struct {
	tokens  []string
	metrics map[string]map[string]bool
	err     error
}

var token = regexp.MustCompile(`^(\s+|[a-zA-Z_][a-zA-Z0-9_]*|[0-9]+(?:s|m|h|d)|[0-9]+(?:\.[0-9]+)?|"[^"\n]*"|=~|!~|!=|==|>=|<=|[-+*/<>=(){}\[\],:])`)

func checkExpression(text string, metrics map[string]map[string]bool) error {
	p := &parser{metrics: metrics}
	for rest := text; rest != ""; {
		found := token.FindString(rest)
		if found == "" {
			return fmt.Errorf("no word begins at %q", rest)
		}
		if strings.TrimSpace(found) != "" {
			p.tokens = append(p.tokens, found)
		}
		rest = rest[len(found):]
	}
	p.binary()
	if p.err == nil && len(p.tokens) > 0 {
		p.fail("the end is due")
	}
	return p.err
}

func (p *parser) fail(words string) {
	if p.err == nil {
		p.err = fmt.Errorf("%s at %q", words, strings.Join(p.tokens, " "))
	}
	p.tokens = nil
}

func (p *parser) next() string {
	if len(p.tokens) == 0 {
		return ""
	}
	return p.tokens[0]
}

func (p *parser) take() string {
	taken := p.next()
	if taken == "" {
		p.fail("something is due")
		return ""
	}
	p.tokens = p.tokens[1:]
	return taken
}

func (p *parser) is(word string) bool {
	if p.next() != word {
		return false
	}
	p.tokens = p.tokens[1:]
	return true
}

func (p *parser) want(word string) {
	if !p.is(word) {
		p.fail(word + " is due")
	}
}

var operators = map[string]bool{"+": true, "-": true, "*": true, "/": true, ">": true, "<": true, ">=": true, "<=": true, "==": true,
	"!=": true, "and": true, "or": true, "unless": true}

func (p *parser) binary() {
	p.value()
	for operators[p.next()] {
		p.take()
		if p.is("on") || p.is("ignoring") {
			p.names()
		}
		if p.is("group_left") || p.is("group_right") {
			p.names()
		}
		p.value()
	}
}

var name = regexp.MustCompile(`^[a-zA-Z_][a-zA-Z0-9_]*$`)

// names reads a list of labels in brackets.
func (p *parser) names() {
	p.want("(")
	for p.err == nil && !p.is(")") {
		if !name.MatchString(p.take()) {
			p.fail("a label is due")
		}
		p.is(",")
	}
}

var aggregations = map[string]bool{"sum": true, "max": true, "min": true, "group": true, "count": true, "topk": true}
var functions = map[string]bool{"rate": true, "increase": true, "min_over_time": true, "max_over_time": true, "absent": true, "changes": true,
	"time": true}

func (p *parser) value() {
	word := p.take()
	switch {
	case word == "(":
		p.binary()
		p.want(")")
	case aggregations[word]:
		if p.is("by") || p.is("without") {
			p.names()
		}
		p.want("(")
		if word == "topk" {
			p.count()
		}
		p.binary()
		p.want(")")
	case functions[word]:
		p.want("(")
		if word != "time" {
			p.binary()
		}
		p.want(")")
	case name.MatchString(word):
		p.metric(word)
	case !regexp.MustCompile(`^[0-9.]+$`).MatchString(word):
		p.fail("a value is due")
	}
	p.range_()
}

// count reads how many topk takes.
func (p *parser) count() {
	if !regexp.MustCompile("^[0-9]+$").MatchString(p.take()) {
		p.fail("a number is due")
	}
	p.want(",")
}

func (p *parser) metric(metric string) {
	labels, ok := p.metrics[metric]
	if !ok {
		p.fail("there is no metric " + metric)
	}
	if !p.is("{") {
		return
	}
	for p.err == nil && !p.is("}") {
		if label := p.take(); !labels[label] {
			p.fail(metric + " has no label " + label)
		}
		if operator := p.take(); operator != "=" && operator != "!=" && operator != "=~" && operator != "!~" {
			p.fail("a comparison is due")
		}
		if !strings.HasPrefix(p.take(), `"`) {
			p.fail("a text is due")
		}
		p.is(",")
	}
}

var duration = regexp.MustCompile("^[0-9]+[smhd]$")

// range_ reads a range, perhaps with a step, and an offset, behind a value.
func (p *parser) range_() {
	if p.is("[") {
		p.duration()
		if p.is(":") {
			p.duration()
		}
		p.want("]")
	}
	if p.is("offset") {
		p.duration()
	}
}

func (p *parser) duration() {
	if !duration.MatchString(p.take()) {
		p.fail("a duration is due")
	}
}
