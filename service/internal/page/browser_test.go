package page

import (
	"context"
	"fmt"
	"net/http"
	"net/http/httptest"
	"os"
	"path/filepath"
	"reflect"
	"regexp"
	"strconv"
	"strings"
	"sync/atomic"
	"testing"

	"lrcman/service/internal/engine"
	"lrcman/service/internal/httpapi"
	"lrcman/service/internal/survey/recorded"
	"lrcman/service/internal/testbrowser"
)

// A store serves a page, and counts how often its events were asked for.
type store struct {
	*httptest.Server
	asked int32
}

// serveOnce ends each stream after one event, so that a page asks again.
func serveOnce(t *testing.T, p *Page, token string) *store {
	t.Helper()
	return serveEvents(t, p, func(w http.ResponseWriter, r *http.Request, _ int32) {
		if token != "" && r.Header.Get("Authorization") != "Bearer "+token {
			httpapi.Refuse(w, http.StatusUnauthorized, "no token")
			return
		}
		sendOne(p, w, r)
	})
}

func sendOne(p *Page, w http.ResponseWriter, r *http.Request) {
	ctx, cancel := context.WithCancel(r.Context())
	cancel() // (the first event is sent all the same)
	p.Events(w, r.WithContext(ctx))
}

// serveEvents serves a page with other events than its own, which know how often they were asked for.
func serveEvents(t *testing.T, p *Page, events func(w http.ResponseWriter, r *http.Request, asked int32)) *store {
	t.Helper()
	s := &store{}
	mux := http.NewServeMux()
	mux.HandleFunc("/", p.Page)
	mux.HandleFunc("/events", func(w http.ResponseWriter, r *http.Request) { events(w, r, atomic.AddInt32(&s.asked, 1)) })
	s.Server = httptest.NewServer(mux)
	t.Cleanup(s.Close)
	return s
}

// look opens a path in a browser, and returns the page when it asks for its events once more than so many times: it has drawn what
// it was answered each time.
func (s *store) look(t *testing.T, path string, times int32) string {
	t.Helper()
	tab := testbrowser.Visit(t, s.URL+path, 1280, 900)
	defer tab.End()
	tab.Until(fmt.Sprintf("drawn %d answers", times), func() bool { return atomic.LoadInt32(&s.asked) > times })
	return tab.DOM()
}

// factsOf are the numbers that a page shows.
func factsOf(dom string) map[string]string {
	found := map[string]string{}
	for _, match := range regexp.MustCompile(`<div[^>]*data-fact="([^"]*)"[^>]*><dt>[^<]*</dt><dd>([^<]*)</dd></div>`).FindAllStringSubmatch(dom, -1) {
		found[match[1]] = match[2]
	}
	return found
}

func TestTheBrowserShowsTheNumbersOfTheModel(t *testing.T) {
	books := load(t, states...)
	p := pageOf(books)
	for name, b := range books {
		checkDOM(t, name, serveOnce(t, p, "").look(t, "/?book="+name, 2), b)
	}
}

var words = map[string]string{"quiet": "Ok", "rack": "Margin 1", "upgrade": "Margin 1", "harm": "Lost", "most": "Margin 2"}

func checkDOM(t *testing.T, name, dom string, b *recorded.Book) {
	if !strings.Contains(dom, `<p id="word" aria-live="polite">`+words[name]+"</p>") {
		t.Errorf("%s: the page does not say %s", name, words[name])
	}
	checkReasons(t, name, dom, b)
	checkShares(t, name, dom, b)
	checkRoom(t, name, dom, b)
	checkBalance(t, name, dom, b)
	if isUpgrading := strings.Contains(dom, "Upgrade domain "+b.Status["upgrading"]+" is upgrading"); isUpgrading != (b.Status["upgrading"] != "none") {
		t.Errorf("%s: the page tells of the upgrade of %s: %v", name, b.Status["upgrading"], isUpgrading)
	}
	facts := factsOf(dom)
	want := map[string]int{"leased": b.Standing("leased"), "open": b.Standing("open"), "no node takes it": b.Standing("no_node"),
		"too much is missing": b.Standing("unrecoverable")}
	for fact, row := range map[string]string{"stripes": "stripes", "whole": "whole", "margin 2": "at_risk_margin_2", "margin 1": "at_risk_margin_1",
		"margin 0": "at_risk_margin_0", "unavailable": "unavailable", "lost": "lost", "missing fragments": "missing_fragments",
		"commands": "entries", "clock in ticks": "clock"} {
		want[fact] = b.Value(row)
	}
	for fact, value := range want {
		if facts[fact] != fmt.Sprint(value) {
			t.Errorf("%s: the page shows %q for %s, and the model has %d", name, facts[fact], fact, value)
		}
	}
	atRisk := 0
	checkTiles(t, name, dom, b)
	for _, stripe := range b.Stripes {
		if stripe.Level != "whole" {
			atRisk++
		}
	}
	if shown := strings.Count(dom, `class="level `); shown != atRisk {
		t.Errorf("%s: %d stripes are shown at risk, and the model has %d", name, shown, atRisk)
	}
	if shown := strings.Count(dom, `class="age"`); shown != b.Value("leases") {
		t.Errorf("%s: %d leases are shown, and the model has %d", name, shown, b.Value("leases"))
	}
	checkPicture(t, name, dom, len(b.Nodes))
	last := b.Lines[len(b.Lines)-1]
	if !strings.Contains(dom, "<code>"+last.Command+"</code>") || !strings.Contains(dom, "<code>"+last.Reply+"</code>") {
		t.Errorf("%s: the last command is not shown: %+v", name, last)
	}
}

// nodeOf is the node of a seat, or of the home of a fragment; "" where it has none.
func nodeOf(seat string) string {
	node, _, _ := strings.Cut(strings.TrimPrefix(seat, "-"), ":")
	return node
}

// heldOn are how many targets of leases are on each node, and how many homes of fragments that are leased.
func heldOn(b *recorded.Book) (targets, leaving map[string]int) {
	targets, leaving = map[string]int{}, map[string]int{}
	for _, lease := range b.Leases {
		targets[nodeOf(lease.Target)]++
		for _, stripe := range b.Stripes {
			if stripe.Stripe == lease.Stripe {
				leaving[nodeOf(stripe.Homes[lease.Fragment])]++
			}
		}
	}
	return targets, leaving
}

// markOf are the elements by which tools/picture marks what is the matter with a node too.
var markOf = map[string]string{"draining": "hatch", "gone": "cross", "full": "full-mark", "down": "barred", "upgrading": "arrow"}

// checkTiles looks whether the tile of each node, and its row, have its words and marks, and homes and targets as high as they are many.
func checkTiles(t *testing.T, name, dom string, b *recorded.Book) {
	targets, _ := heldOn(b)
	rows := rowsIn(dom, "nodes")
	for i, node := range b.Nodes {
		matters := []string{node.Mode}
		for _, one := range []struct {
			word string
			is   bool
		}{{"full", node.Load == uint32(node.Slots)}, {"down", node.Down}, {"upgrading", fmt.Sprint(node.Upgrade) == b.Status["upgrading"]}} {
			if one.is {
				matters = append(matters, one.word)
			}
		}
		online, aims := "not online", targets[fmt.Sprint(node.Node)]
		if node.Online {
			online = "online"
		}
		state := strings.Join(append(matters, online), ", ")
		head := fmt.Sprintf(`<g id="node-%d" class="node %s"><title>node %d: fault domain %d, upgrade domain %d, %s, %d homes and %d targets in %d slots</title>`,
			node.Node, strings.Join(matters, " "), node.Node, node.Fault, node.Upgrade, state, int(node.Load)-aims, aims, node.Slots)
		_, tile, isThere := strings.Cut(dom, head)
		tile, _, _ = strings.Cut(tile, "</g>")
		if !isThere || rows[i][3] != state {
			t.Errorf("%s: the picture lacks %s, or the table has %v", name, head, rows[i])
			continue
		}
		for word, mark := range markOf {
			if strings.Contains(tile, `class="`+mark+`"`) != strings.Contains(strings.Join(matters, " "), word) {
				t.Errorf("%s: node %d is %s, and its tile is %s", name, node.Node, state, tile)
			}
		}
		for class, count := range map[string]int{"fill": int(node.Load) - aims, "targets": aims} {
			high, _ := strconv.Atoi(regexp.MustCompile(`height="(\d+)" class="` + class + `"`).FindStringSubmatch(tile)[1])
			if far := float64(high) - 34*float64(count)/float64(node.Slots); far > 2 || far < -2 || count == 0 && high > 0 {
				t.Errorf("%s: node %d has %d of %d slots as %s, drawn %d high", name, node.Node, count, node.Slots, class, high)
			}
		}
	}
}

// Each thing that is the matter with a node has a mark of its own, also beside others.
func TestEachMatterOfANodeHasItsMark(t *testing.T) {
	one := load(t, "upgrade")["upgrade"]
	for i := range one.Nodes {
		node := &one.Nodes[i]
		isUpgrading := fmt.Sprint(node.Upgrade) == one.Status["upgrading"]
		node.Load = uint32(node.Slots) - uint32(i%3)
		if node.Mode == "active" && i%4 == 3 {
			node.Mode = "gone"
		}
		node.Down = node.Mode != "gone" && (i%5 == 0 || node.Mode == "draining")
		node.Online = node.Mode != "gone" && !node.Down && !isUpgrading
	}
	one.Leases = one.Leases[:0]
	for i := 0; i < 4; i++ { // (of the first two nodes, so much that it can be seen)
		one.Leases = append(one.Leases, recorded.Lease{Stripe: one.Stripes[0].Stripe, Fragment: uint8(i), Session: 1,
			Target: fmt.Sprintf("%d:%d", one.Nodes[i/3].Node, i), Epoch: 1, Expiry: uint32(one.Value("clock")) + 1})
		one.Nodes[i/3].Load, one.Nodes[i/3].Slots = 4, 4
	}
	dom := serveOnce(t, pageOf(recorded.Books{"p0": one}), "").look(t, "/", 2)
	checkTiles(t, "changed nodes", dom, one)
	checkBalance(t, "changed nodes", dom, one)
}

// rowsIn are the cells of the table in an element of the page.
func rowsIn(dom, id string) (rows [][]string) {
	_, part, _ := strings.Cut(dom, `id="`+id+`"`)
	part, _, _ = strings.Cut(part, "</section>")
	_, body, _ := strings.Cut(part, "<tbody>")
	body, _, _ = strings.Cut(body, "</tbody>")
	for _, row := range strings.Split(body, "<tr>")[1:] {
		var cells []string
		for _, match := range regexp.MustCompile(`<td[^>]*>(.*?)</td>`).FindAllStringSubmatch(row, -1) {
			cells = append(cells, match[1])
		}
		rows = append(rows, cells)
	}
	return rows
}

// checkReasons compares the reasons with those of the model.
func checkReasons(t *testing.T, name, dom string, b *recorded.Book) {
	var want [][]string
	for _, row := range b.Reasons {
		if row.Reason != "ok" {
			want = append(want, []string{strings.ReplaceAll(row.Reason, "_", " "), fmt.Sprint(row.Count), strings.Trim(fmt.Sprint(row.First), "[]")})
		}
	}
	if shown := rowsIn(dom, "reasons"); !reflect.DeepEqual(shown, want) {
		t.Errorf("%s: the page shows the reasons %v, and the model has %v", name, shown, want)
	}
}

// checkShares looks whether each fault domain is there once, with the sums of its nodes, the fullest first.
func checkShares(t *testing.T, name, dom string, b *recorded.Book) {
	load, slots := map[string]int{}, map[string]int{}
	for _, node := range b.Nodes {
		fault := fmt.Sprint(node.Fault)
		load[fault], slots[fault] = load[fault]+int(node.Load), slots[fault]+int(node.Slots)
	}
	rows, before := rowsIn(dom, "shares"), 2.0
	if len(rows) != len(slots) {
		t.Errorf("%s: the page has %d fault domains, and the model %d", name, len(rows), len(slots))
	}
	for _, row := range rows {
		share := float64(load[row[0]]) / float64(slots[row[0]])
		if row[3] != fmt.Sprint(load[row[0]]) || row[4] != fmt.Sprint(slots[row[0]]) || row[5] != fmt.Sprintf("%.1f %%", share*100) || share > before {
			t.Errorf("%s: the page shows %v of fault domain %s, with %d of %d", name, row, row[0], load[row[0]], slots[row[0]])
		}
		before = share
	}
}

// textIn is the text of an element of the page that has no other in it.
func textIn(dom, id string) string {
	_, text, _ := strings.Cut(dom, `id="`+id+`"`)
	_, text, _ = strings.Cut(text, ">")
	text, _, _ = strings.Cut(text, "<")
	return text
}

// more is how many more stripes of a code would be placed, with the word for them.
func more(count, word string) string {
	if count != "1" {
		word += "s"
	}
	return count + " " + word
}

// checkRoom compares the table of capacity, and what is said of it, with that of the model.
func checkRoom(t *testing.T, name, dom string, b *recorded.Book) {
	var want [][]string
	for _, line := range strings.Split(strings.TrimSpace(b.Room), "\n")[1:] {
		want = append(want, strings.Split(line, ","))
	}
	if shown := rowsIn(dom, "room"); !reflect.DeepEqual(shown, want) {
		t.Errorf("%s: the page shows the capacity %v, and the model has %v", name, shown, want)
	}
	said := more(want[0][1], "more wide stripe") + " would be placed, or " + more(want[1][1], "narrow one") + "."
	if told := textIn(dom, "room-told"); told != said {
		t.Errorf("%s: the page says %q, and not %q", name, told, said)
	}
}

// What is older than the rest says so; where the numbers of stripes run out nothing rules out nodes; and there may be no node.
func TestThePageSaysAsOfWhichEntryItsCapacityIs(t *testing.T) {
	books := load(t, "rack")
	head, _, _ := strings.Cut(books["rack"].Room, "\n")
	books["rack"].Room = head + "\nwide,4036,,,,,,,65536\nnarrow,1,9,1,2,3,4,5,6\n"
	p := pageOf(books)
	books["rack"].Show(60)
	if _, err := p.Watcher.Capacity("rack"); err != nil {
		t.Fatal(err)
	}
	books["rack"].Show(61)
	for i := range books["rack"].Nodes {
		books["rack"].Nodes[i].Online = false
	}
	dom := serveOnce(t, p, "").look(t, "/", 2)
	if told := textIn(dom, "balance-told"); told != "No node takes fragments." || len(rowsIn(dom, "balance")) > 0 {
		t.Error(told)
	}
	if told := textIn(dom, "room-told"); told != "4,036 more wide stripes would be placed, or 1 narrow one. As of entry 60." {
		t.Error(told)
	}
	rows := fmt.Sprint(rowsIn(dom, "room"))
	if rows != "[[wide 4036 – – – – – – 65536] [narrow 1 9 1 2 3 4 5 6]]" {
		t.Error(rows)
	}
}

// checkBalance looks whether each node that takes fragments is there once, the fullest by share first, with its way from the mean share,
// with what is on it once all leases are reported.
func checkBalance(t *testing.T, name, dom string, b *recorded.Book) {
	able, load, slots := map[string]recorded.Node{}, 0, 0
	_, leaving := heldOn(b)
	for _, node := range b.Nodes {
		node.Load -= uint32(leaving[fmt.Sprint(node.Node)]) // (as all leases leave it)
		if node.Mode == "active" && node.Online {
			able[fmt.Sprint(node.Node)] = node
			load, slots = load+int(node.Load), slots+int(node.Slots)
		}
	}
	rows, before, above, below := rowsIn(dom, "balance"), 2.0, 0, 0
	for _, row := range rows {
		node := able[row[0]]
		delete(able, row[0])
		share, mean := float64(node.Load)/float64(node.Slots), float64(load)/float64(slots)
		want := []string{row[0], fmt.Sprint(node.Fault), fmt.Sprint(node.Upgrade), fmt.Sprint(node.Load), fmt.Sprint(node.Slots),
			fmt.Sprintf("%.1f %%", share*100), fmt.Sprintf("%.1f", (share-mean)*100)}
		if !reflect.DeepEqual(row, want) || share > before {
			t.Errorf("%s: the page shows %v, and not %v, behind %f", name, row, want, before)
		}
		if share > mean {
			above++
		} else if share < mean {
			below++
		}
		before = share
	}
	if len(able) > 0 || len(rows) == 0 {
		t.Errorf("%s: the page lacks nodes of %d rows: %v", name, len(rows), able)
	}
	told := textIn(dom, "balance-told")
	words := []string{fmt.Sprintf("fragments %.1f %% of the", 100*float64(load)/float64(slots)), "up to " + rows[0][5] + "; ",
		fmt.Sprintf(" %d node", above), fmt.Sprintf("; %d below, down to %s.", below, rows[len(rows)-1][5])}
	for _, it := range words {
		if !strings.Contains(told, it) {
			t.Errorf("%s: the page says %q, without %q", name, told, it)
		}
	}
}

// The command line of the plan is that of this service and this book; where there is a token it takes a file.
func TestThePageNamesTheCommandOfThePlan(t *testing.T) {
	server := serveOnce(t, pageOf(load(t, "quiet", "rack")), "")
	if told := textIn(server.look(t, "/?book=rack", 2), "balance-command"); told != "tools/balance --server "+server.URL+" --moves rack" {
		t.Error(told)
	}
}

// checkPicture looks whether each node stands inside the picture, and over no other one.
func checkPicture(t *testing.T, name, dom string, nodes int) {
	size := regexp.MustCompile(`<svg width="(\d+)" height="(\d+)" [^>]*role="img"`).FindStringSubmatch(dom)
	if size == nil {
		t.Errorf("%s: there is no picture", name)
		return
	}
	number := func(text string) float64 {
		value, err := strconv.ParseFloat(text, 64)
		if err != nil {
			t.Fatal(err)
		}
		return value
	}
	type place struct{ x, y float64 }
	places := []place{}
	for _, match := range regexp.MustCompile(`<g id="node-\d+"[^>]*><title>[^<]*</title><rect x="([\d.]+)" y="([\d.]+)"`).FindAllStringSubmatch(dom, -1) {
		places = append(places, place{number(match[1]), number(match[2])})
	}
	if len(places) != nodes {
		t.Errorf("%s: the picture has %d nodes of %d", name, len(places), nodes)
	}
	for i, a := range places {
		if a.x < 0 || a.y < 0 || a.x+48 > number(size[1]) || a.y+34 > number(size[2]) {
			t.Errorf("%s: a node stands at %v, outside of %v", name, a, size[1:])
		}
		for _, b := range places[:i] {
			if a.x < b.x+48 && b.x < a.x+48 && a.y < b.y+34 && b.y < a.y+34 {
				t.Errorf("%s: nodes at %v and %v stand over each other", name, a, b)
			}
		}
	}
}

func TestSeveralNodesOfADomainStandSideBySide(t *testing.T) {
	for name, upgrades := range map[string]uint8{"one upgrade domain": 1, "two": 2, "three": 3} {
		one := load(t, "quiet")["quiet"]
		for i := range one.Nodes {
			one.Nodes[i].Upgrade %= upgrades
		}
		dom := serveOnce(t, pageOf(recorded.Books{"p0": one}), "").look(t, "/", 2)
		checkPicture(t, name, dom, len(one.Nodes))
		if !strings.Contains(dom, "Columns are fault domains") {
			t.Errorf("%s: the nodes stand in no grid", name)
		}
	}
}

func TestNamesFromOutsideStayText(t *testing.T) {
	const evil = `<img src=x onerror=alert(1)><script>document.title="owned"</script>`
	one := load(t, "rack")["rack"]
	one.Leases[0].Worker = evil
	dom := serveOnce(t, pageOf(recorded.Books{evil: one}), "").look(t, "/", 2)
	if strings.Contains(dom, "<img") || strings.Count(dom, "<script>") != 1 || strings.Contains(dom, "<title>owned") {
		t.Error("a name became markup")
	}
	if strings.Count(dom, "&lt;img src=x onerror=alert(1)&gt;") < 3 { // the book in the list and in the title, and the worker
		t.Error("the names are not shown")
	}
}

func TestAPageWithoutContactOrLeaderSaysSo(t *testing.T) {
	p := pageOf(load(t, "quiet"))
	p.Status = func() engine.Status { return engine.Status{ID: 2, Term: 8} }
	dom := serveEvents(t, p, func(w http.ResponseWriter, r *http.Request, asked int32) {
		if asked > 1 {
			httpapi.Refuse(w, http.StatusServiceUnavailable, "this member has <ended>")
			return
		}
		sendOne(p, w, r)
	}).look(t, "/", 2)
	if !strings.Contains(dom, `<p id="word" aria-live="polite">No leader</p>`) {
		t.Error("the page does not say that there is no leader")
	}
	if !strings.Contains(dom, `<body class="stale">`) || !strings.Contains(dom, "No contact, and what you see is old: this member has &lt;ended&gt;. Trying again.") {
		t.Error("the page does not say that its stream ended")
	}
}

func TestThePageShowsAnotherBookIfItsBookIsUnknown(t *testing.T) {
	dom := serveOnce(t, pageOf(load(t, "quiet")), "").look(t, "/?book=p9", 3) // (the first answer is that there is none)
	if factsOf(dom)["stripes"] != "60" {
		t.Error("nothing is shown")
	}
}

func TestThePageAsksForAToken(t *testing.T) {
	server := serveOnce(t, pageOf(load(t, "rack")), "abcdefghijklmnop")
	tab := testbrowser.Visit(t, server.URL+"/", 1280, 900)
	tab.UntilContact("document", "not live")
	dom := tab.DOM()
	if !strings.Contains(dom, `<section id="ask" class="wide" aria-labelledby="ask-head">`) || strings.Contains(dom, `id="node-`) {
		t.Error("the page does not ask for a token, or shows a store without one")
	}
	tab.Text(`(document.getElementById("token").value = "abcdefghijklmnop", document.getElementById("token-form").requestSubmit())`)
	tab.Until("named the command of the plan", func() bool { return textIn(tab.DOM(), "balance-command") != "" })
	if told := textIn(tab.DOM(), "balance-command"); told != "tools/balance --server "+server.URL+" --token-file FILE --moves rack" {
		t.Error(told)
	}
}

// servePhone serves the page, and at /phone/BOOK a frame that is as wide as a phone: a browser without a window is wider.
func servePhone(t *testing.T, p *Page) *httptest.Server {
	t.Helper()
	mux := http.NewServeMux()
	mux.HandleFunc("/events", p.Events)
	mux.HandleFunc("/phone/", func(w http.ResponseWriter, r *http.Request) {
		fmt.Fprintf(w, `<!doctype html><meta name="color-scheme" content="light dark"><body style="margin:0">`+
			`<iframe src="/?book=%s" style="width:390px;height:2600px;border:0"></iframe>`,
			strings.TrimPrefix(r.URL.Path, "/phone/"))
	})
	mux.HandleFunc("/", func(w http.ResponseWriter, r *http.Request) {
		p.Page(framed{w}, r)
	})
	server := httptest.NewServer(mux)
	t.Cleanup(server.Close)
	return server
}

// phone is the page in the frame.
const phone = `document.querySelector("iframe").contentDocument`

// framed lets a page stand in a frame of the same server.
type framed struct{ http.ResponseWriter }

func (f framed) Write(text []byte) (int, error) {
	policy := f.Header().Get("Content-Security-Policy")
	f.Header().Set("Content-Security-Policy", strings.Replace(policy, "frame-ancestors 'none'", "frame-ancestors 'self'", 1))
	return f.ResponseWriter.Write(text)
}

func TestThePageIsNoWiderThanAPhone(t *testing.T) {
	server := servePhone(t, pageOf(load(t, states...)))
	for _, name := range states {
		tab := testbrowser.Visit(t, server.URL+"/phone/"+name, 800, 2700)
		tab.UntilContact(phone, "live")
		if wide, _ := tab.Text(phone + ".documentElement.scrollWidth"); wide != "390" {
			t.Errorf("%s: the page is %s wide", name, wide)
		}
		tab.End()
	}
}

// The pictures are kept where LRCMAND_PICTURES names a folder, to be looked at; LRCMAND_PICTURE names one of them.
func TestPictures(t *testing.T) {
	folder := os.Getenv("LRCMAND_PICTURES")
	only := os.Getenv("LRCMAND_PICTURE")
	if folder == "" {
		t.Skip("LRCMAND_PICTURES names no folder for pictures")
	}
	books := load(t, states...)
	for i, lease := range books["rack"].Leases {
		books["rack"].Leases[i].Worker = strings.ReplaceAll(lease.Worker, "<script>alert(1)</script>", "repair-2.rack-a")
	}
	books["rack"].Show(61)
	p := pageOf(books)
	books["rack"].Show(len(books["rack"].Lines))
	p.Watcher.Step()
	server := servePhone(t, p)
	dark := "--blink-settings=preferredColorScheme=0"
	for _, picture := range []struct {
		name, path    string
		width, height int
		flags         []string
	}{
		{"quiet", "/?book=quiet", 1280, 1100, nil},
		{"rack", "/?book=rack", 1280, 1500, nil},
		{"upgrade", "/?book=upgrade", 1280, 1500, nil},
		{"harm", "/?book=harm", 1280, 1200, nil},
		{"most", "/?book=most", 1800, 1500, nil},
		{"phone", "/phone/rack", 500, 2600, nil},
		{"dark", "/?book=rack", 1280, 1500, []string{dark}},
		{"phone-dark", "/phone/upgrade", 500, 2600, []string{dark}},
	} {
		if only != "" && only != picture.name {
			continue
		}
		tab := testbrowser.Visit(t, server.URL+picture.path, picture.width, picture.height, picture.flags...)
		document := "document"
		if strings.HasPrefix(picture.path, "/phone/") {
			document = phone
		}
		tab.UntilContact(document, "live")
		tab.Picture(filepath.Join(folder, picture.name+".png"))
		tab.End()
	}
}
