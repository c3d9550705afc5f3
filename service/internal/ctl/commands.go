package ctl

import (
	"encoding/json"
	"fmt"
	"io"
	"net/url"
	"strconv"
	"strings"
	"text/tabwriter"
	"time"

	"lrcman/service/client"
)

// bookPath is a path below a book.
func bookPath(book, rest string) string { return "/books/" + url.PathEscape(book) + rest }

func (s *session) get(path string, values url.Values) ([]byte, error) {
	answer, err := s.Get(s.ctx, path, values)
	if err != nil {
		return nil, err
	}
	return answer.Text, nil
}

// look reads one JSON object.
func (s *session) look(path string, values url.Values, to interface{}) error {
	text, err := s.get(path, values)
	if err != nil {
		return err
	}
	if err := json.Unmarshal(text, to); err != nil {
		return fmt.Errorf("the answer to %s is not what lrcmand answers: %w", path, err)
	}
	return nil
}

// print writes rows in columns.
func (s *session) print(rows [][]string) error {
	w := tabwriter.NewWriter(s.out, 0, 0, 2, ' ', 0)
	for _, row := range rows {
		for i, cell := range row {
			row[i] = printable(cell)
		}
		fmt.Fprintln(w, strings.TrimRight(strings.Join(row, "\t"), "\t"))
	}
	return w.Flush()
}

// printable is a text without letters that change a terminal.
func printable(text string) string {
	return strings.Map(func(letter rune) rune {
		if strconv.IsPrint(letter) {
			return letter
		}
		return '\uFFFD'
	}, text)
}

// does is what a member does in its group.
func does(m client.Member) string {
	switch {
	case m.Leader:
		return "leads"
	case m.Learner && m.Promote:
		return "learns, and votes once it has all"
	case m.Learner:
		return "learns"
	}
	return "votes"
}

// table is a table of a book.
type table struct {
	N    uint64
	Safe *bool
	Rows []map[string]interface{}
}

func (s *session) status([]string) error {
	member, err := s.Status(s.ctx)
	if err != nil {
		return err
	}
	list, _, err := s.Books(s.ctx)
	if err != nil {
		return err
	}
	books := map[string]map[string]interface{}{}
	for _, row := range list {
		if books[row.Name], err = s.standing(row.Name); err != nil {
			return err
		}
	}
	if s.isJSON() {
		return json.NewEncoder(s.out).Encode(map[string]interface{}{"member": json.RawMessage(member.Raw), "books": books})
	}
	leader := "no leader"
	if member.Leader != 0 {
		leader = fmt.Sprintf("leader %d", member.Leader)
	}
	fmt.Fprintf(s.out, "member %d of %d at %s: %s, term %d, applied %d of %d, looks %d ms old\n", member.ID, len(member.Members),
		member.Server, leader, member.Term, member.Applied, member.Commit, member.Age)
	rows := [][]string{{"BOOK", "HEALTH", "STRIPES", "WHOLE", "MARGIN 2", "1", "0", "UNAVAILABLE", "LOST", "MISSING", "LEASES", "UPGRADING", "ENTRIES"}}
	for _, row := range list {
		v := books[row.Name]
		cells := []string{row.Name}
		for _, name := range []string{"health", "stripes", "whole", "at_risk_margin_2", "at_risk_margin_1", "at_risk_margin_0", "unavailable", "lost",
			"missing_fragments", "leases", "upgrading", "entries"} {
			cells = append(cells, textOf(v[name]))
		}
		rows = append(rows, cells)
	}
	return s.print(rows)
}

// standing are the values of the table of status, and the word of that of health.
func (s *session) standing(name string) (map[string]interface{}, error) {
	var status, health table
	if err := s.look(bookPath(name, "/show/status"), nil, &status); err != nil {
		return nil, err
	}
	if err := s.look(bookPath(name, "/show/health"), nil, &health); err != nil {
		return nil, err
	}
	values := valuesOf(status)
	values["health"] = wordOf(health)
	return values, nil
}

// valuesOf are the rows of a table of names and values.
func valuesOf(t table) map[string]interface{} {
	values := map[string]interface{}{}
	for _, row := range t.Rows {
		values[textOf(row["name"])] = row["value"]
	}
	return values
}

// wordOf is how a book fares, in a word: the first reason of the table of health.
func wordOf(health table) string {
	if len(health.Rows) == 0 {
		return "-"
	}
	return textOf(health.Rows[0]["reason"])
}

// isDanger are the reasons of health with which `lrcman show health` ends with status 4.
var isDanger = map[string]bool{"lost": true, "unavailable": true, "margin_0": true}

// health prints the table of health. It ends as `lrcman show health` does.
func (s *session) health(words []string) error {
	var found table
	text, err := s.get(bookPath(words[0], "/show/health"), s.isNow())
	if err != nil {
		return err
	}
	if err := json.Unmarshal(text, &found); err != nil || len(found.Rows) == 0 {
		return fmt.Errorf("the answer to /show/health is not what lrcmand answers: %.80q", text)
	}
	rows, inDanger := [][]string{{"reason", "count", "first"}}, false
	for _, row := range found.Rows {
		inDanger = inDanger || isDanger[textOf(row["reason"])]
		rows = append(rows, []string{textOf(row["reason"]), textOf(row["count"]), textOf(row["first"])})
	}
	if s.isJSON() {
		err = s.show(text)
	} else {
		err = s.print(rows)
	}
	if err == nil && inDanger {
		err = errHarm
	}
	return err
}

// isNow are the parameters of a look that may have to be as of now.
func (s *session) isNow() url.Values {
	values := url.Values{}
	if s.now {
		values.Set("now", "1")
	}
	return values
}

// textOf is a value of JSON as a table prints it.
func textOf(value interface{}) string {
	switch v := value.(type) {
	case nil:
		return "-"
	case float64:
		return strconv.FormatFloat(v, 'f', -1, 64)
	case bool:
		return map[bool]string{false: "no", true: "yes"}[v]
	case []interface{}:
		words := make([]string, len(v))
		for i, one := range v {
			words[i] = textOf(one)
		}
		return strings.Join(words, " ")
	}
	return fmt.Sprint(value)
}

func (s *session) books([]string) error {
	if s.isJSON() {
		return s.showIf(s.get("/books", nil))
	}
	list, _, err := s.Books(s.ctx)
	if err != nil {
		return err
	}
	rows := [][]string{{"BOOK", "ENTRIES", "OPENED"}}
	for _, row := range list {
		rows = append(rows, []string{row.Name, fmt.Sprint(row.N), fmt.Sprint(row.Opens)})
	}
	return s.print(rows)
}

func (s *session) showIf(text []byte, err error) error {
	if err != nil {
		return err
	}
	return s.show(text)
}

func (s *session) members([]string) error {
	if s.isJSON() {
		return s.showIf(s.get("/members", nil))
	}
	list, err := s.Members(s.ctx)
	if err != nil {
		return err
	}
	rows := [][]string{{"MEMBER", "FOR MEMBERS", "FOR CLIENTS", "DOES"}}
	for _, m := range list {
		peer := m.Peer
		if peer == "" {
			peer = "-"
		}
		rows = append(rows, []string{fmt.Sprint(m.ID), peer, m.Client, does(m)})
	}
	return s.print(rows)
}

// lead makes a member the leader, and prints the members once it is.
func (s *session) lead(words []string) error {
	id, err := strconv.ParseUint(words[0], 10, 16)
	if err != nil {
		return usagef("%q is no number of a member", words[0])
	}
	if _, err := s.Lead(s.ctx, id); err != nil {
		return err
	}
	return s.members(nil)
}

// table prints a table with the columns of `lrcman show`.
func (s *session) table(words []string) error {
	book, what, values := words[0], strings.Join(words[1:], "-"), s.isNow()
	path := bookPath(book, "/show/"+url.PathEscape(what))
	if what == "workers" {
		path = bookPath(book, "/workers")
	} else if !s.isJSON() {
		values.Set("format", "csv")
	}
	text, err := s.get(path, values)
	if err != nil || s.isJSON() {
		return s.showIf(text, err)
	}
	if what == "workers" {
		return s.workers(text)
	}
	return s.print(rowsOf(text))
}

// rowsOf are the fields of a CSV table without quotes.
func rowsOf(text []byte) [][]string {
	rows := [][]string{}
	for _, line := range strings.Split(strings.TrimRight(string(text), "\n"), "\n") {
		cells := strings.Split(line, ",")
		for i, cell := range cells {
			if cell == "" {
				cells[i] = "-"
			}
		}
		rows = append(rows, cells)
	}
	return rows
}

func (s *session) workers(text []byte) error {
	var found table
	if err := json.Unmarshal(text, &found); err != nil {
		return fmt.Errorf("the answer to /workers is not what lrcmand answers: %w", err)
	}
	rows := [][]string{{"stripe", "fragment", "epoch", "worker"}}
	for _, row := range found.Rows {
		rows = append(rows, []string{textOf(row["stripe"]), textOf(row["fragment"]), textOf(row["epoch"]), textOf(row["worker"])})
	}
	return s.print(rows)
}

// make makes one command, once however often it is asked for.
func (s *session) make(book, command string) (*client.Reply, error) {
	options := []client.Option{client.WithSession(int(s.session)), client.WithWorker(s.worker)}
	if s.callKey != "" {
		options = append(options, client.WithKey(s.callKey, s.callSince))
	}
	reply, err := s.Call(s.ctx, book, client.Command(command), options...)
	return reply, sayUnknown(err)
}

// say is a reply in a line: as `run` prints it, with the words for a refusal, and with the number of its entry if there is one.
func say(number uint64, reply *client.Reply) string {
	words := []string{}
	if number > 0 {
		words = append(words, fmt.Sprint(number))
	}
	words = append(words, reply.Line)
	if reply.Name != "" {
		words = append(words, "("+reply.Name+")")
	}
	if reply.Holder != "" {
		words = append(words, "(worker "+printable(reply.Holder)+" holds it)")
	}
	return strings.Join(words, " ")
}

func (s *session) call(words []string) error {
	found, err := s.make(words[0], strings.Join(words[1:], " "))
	if err != nil {
		return err
	}
	text := found.Raw
	if !s.isJSON() {
		text = []byte(say(found.N, found))
	}
	if err := s.show(text); err != nil {
		return err
	}
	if found.Kind == client.Refused {
		return errRefused
	}
	return nil
}

// outage are the parameters for nodes and domains: NODE.. fault N.. upgrade N..
func outage(words []string) (url.Values, error) {
	values, kind, isOpen := url.Values{"now": {"1"}}, "node", false
	for _, word := range words {
		if word == "fault" || word == "upgrade" {
			if isOpen {
				return nil, usagef("a number is missing behind %s", kind)
			}
			kind, isOpen = word, true
			continue
		}
		if _, err := strconv.ParseUint(word, 10, 16); err != nil {
			return nil, usagef("%q is no number of a %s", word, kind)
		}
		values.Add(kind, word)
		isOpen = false
	}
	if isOpen {
		return nil, usagef("a number is missing behind %s", kind)
	}
	return values, nil
}

func (s *session) okToStop(words []string) error {
	values, err := outage(words[1:])
	if err != nil {
		return err
	}
	text, err := s.get(bookPath(words[0], "/may-stop"), values)
	if err != nil {
		return err
	}
	var found table
	if err := json.Unmarshal(text, &found); err != nil || found.Safe == nil {
		return fmt.Errorf("the answer to /may-stop is not what lrcmand answers: %.80q", text)
	}
	if s.isJSON() {
		err = s.show(text)
	} else {
		err = s.sayOutlook(found)
	}
	if err == nil && !*found.Safe {
		err = errHarm
	}
	return err
}

func (s *session) sayOutlook(found table) error {
	harmed := [][]string{{"stripe", "code", "before", "after", "margin", "missing after", "leases ended"}}
	for _, row := range found.Rows {
		if is, _ := row["harmed"].(bool); is {
			harmed = append(harmed, []string{textOf(row["stripe"]), textOf(row["code"]), textOf(row["level_before"]), textOf(row["level_after"]),
				textOf(row["margin_after"]), textOf(row["missing_fragments_after"]), textOf(row["leases_ended"])})
		}
	}
	if *found.Safe {
		_, err := fmt.Fprintf(s.out, "ok: no stripe is harmed, and %d would not be whole (after entry %d)\n", len(found.Rows), found.N)
		return err
	}
	fmt.Fprintf(s.out, "not ok: %d of %d stripes that would not be whole are harmed (after entry %d)\n", len(harmed)-1, len(found.Rows), found.N)
	return s.print(harmed)
}

// The refusal of a command because of the mode of a node.
const wrongMode = 105

// drain drains a node and waits until nothing is on it. A node that is draining already is waited for.
func (s *session) drain(words []string) error {
	book, node := words[0], words[1]
	if _, err := strconv.ParseUint(node, 10, 16); err != nil {
		return usagef("%q is no number of a node", node)
	}
	found, err := s.make(book, "drain "+node)
	if err != nil {
		return err
	}
	isRefused := found.Kind == client.Refused
	if isRefused && found.Refusal == wrongMode {
		if row, err := s.node(book, node); err != nil {
			return err
		} else if textOf(row["mode"]) == "draining" {
			isRefused = false
		}
	}
	if s.isJSON() && (isRefused || s.noWait) {
		err = s.show(found.Raw)
	} else if !s.isJSON() {
		_, err = fmt.Fprintln(s.out, say(found.N, found))
	}
	if err != nil || s.noWait && !isRefused {
		return err
	}
	if isRefused {
		return errRefused
	}
	return s.empty(book, node)
}

// node is the row of a node.
func (s *session) node(book, node string) (map[string]interface{}, error) {
	var nodes table
	if err := s.look(bookPath(book, "/show/nodes"), url.Values{"now": {"1"}}, &nodes); err != nil {
		return nil, err
	}
	for _, row := range nodes.Rows {
		if textOf(row["node"]) == node {
			return row, nil
		}
	}
	return nil, fmt.Errorf("there is no node %s", node)
}

func (s *session) empty(book, node string) error {
	last := ""
	for {
		row, err := s.node(book, node)
		if err != nil {
			return err
		}
		load := textOf(row["load"])
		if mode := textOf(row["mode"]); mode != "draining" {
			return fmt.Errorf("node %s is %s and no longer draining, with %s fragments on it", node, mode, load)
		}
		if load == "0" && s.isJSON() {
			return json.NewEncoder(s.out).Encode(row)
		} else if load == "0" {
			_, err := fmt.Fprintf(s.out, "node %s is empty; now it may be retired: lrcmand ctl call %s retire %s\n", node, book, node)
			return err
		}
		if load != last && !s.isJSON() {
			fmt.Fprintf(s.out, "%s fragments are still to be moved from node %s\n", load, node)
		}
		last = load
		select {
		case <-s.ctx.Done():
			return s.ctx.Err()
		case <-time.After(s.knobs.LookEach):
		}
	}
}

// watch follows a log, behind the last entry that was shown.
func (s *session) watch(words []string) error {
	from, err := s.begin(words[0])
	if err != nil {
		return err
	}
	err = s.Follow(s.ctx, words[0], from, func(entry client.Entry) error {
		text := string(entry.Raw)
		if !s.isJSON() {
			text = fmt.Sprintf("%d %d %s: %s", entry.N, entry.Session, entry.Command, say(0, &entry.Reply))
		}
		_, err := io.WriteString(s.out, text+"\n")
		return err
	})
	if s.ctx.Err() != nil {
		return nil
	}
	return err
}

func (s *session) begin(book string) (uint64, error) {
	if s.from != "" {
		from, err := strconv.ParseUint(s.from, 10, 64)
		if err != nil {
			return 0, usagef("--from takes a number, and not %q", s.from)
		}
		return from, nil
	}
	var status table
	err := s.look(bookPath(book, "/show/status"), nil, &status)
	return status.N, err
}
