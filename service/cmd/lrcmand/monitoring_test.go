package main

import (
	"bytes"
	"context"
	"fmt"
	"io"
	"net/http"
	"regexp"
	"strings"
	"testing"
	"time"

	"lrcman/service/internal/ctl"
	"lrcman/service/internal/logging"
	"lrcman/service/internal/survey/recorded"
	"lrcman/service/internal/testbrowser"
	"lrcman/service/internal/testports"
)

// start runs a member alone, which ends with the test, and returns its address.
func start(t *testing.T) string {
	t.Helper()
	address := testports.Free(t)
	o, err := parse([]string{"--data", t.TempDir(), "--listen", address, "--tick", "0"})
	if err != nil {
		t.Fatal(err)
	}
	s, status := startService(o, logging.Nowhere())
	if s == nil {
		t.Fatal(status)
	}
	t.Cleanup(func() {
		s.close()
		<-s.engine.Done()
	})
	for begin := time.Now(); ; time.Sleep(20 * time.Millisecond) {
		if answer, err := http.Get("http://" + address + "/health"); err == nil {
			answer.Body.Close()
			if answer.StatusCode == http.StatusOK {
				return address
			}
		}
		if time.Since(begin) > 60*time.Second {
			t.Fatal("the member does not begin")
		}
	}
}

func get(t *testing.T, url string) string {
	t.Helper()
	answer, err := http.Get(url)
	if err != nil {
		t.Fatal(err)
	}
	defer answer.Body.Close()
	text, err := io.ReadAll(answer.Body)
	if err != nil || answer.StatusCode != http.StatusOK {
		t.Fatalf("%s: %d %v %.200s", url, answer.StatusCode, err, text)
	}
	return string(text)
}

// makeBook makes a recorded book by a request, and its calls from a terminal.
func makeBook(t *testing.T, address string, b *recorded.Book) {
	t.Helper()
	r, err := http.NewRequest("PUT", "http://"+address+"/books/p0", bytes.NewReader(b.TOML()))
	if err != nil {
		t.Fatal(err)
	}
	answer, err := http.DefaultClient.Do(r)
	if err != nil || answer.StatusCode != http.StatusOK {
		t.Fatal(answer, err)
	}
	answer.Body.Close()
	for i, line := range b.Lines {
		words := append([]string{"--server", address, "--session", fmt.Sprint(line.Session), "call", "p0"}, strings.Split(line.Command, " ")...)
		if line.Worker != "" {
			words = append(words, "--worker", strings.ReplaceAll(line.Worker, " ", "-"))
		}
		var out, err strings.Builder
		status := ctl.Run(context.Background(), words, &out, &err, ctl.Knobs{})
		if want := fmt.Sprintf("%d %s", i+1, line.Reply); recorded.HasRules() && !strings.HasPrefix(out.String(), want) || status == ctl.Failed || status == ctl.Usage {
			t.Fatalf("%s: status %d, %s%s, and the model answers %s", line.Command, status, out.String(), err.String(), want)
		}
	}
}

// metric is the value of a sample.
func metric(text, sample string) string {
	for _, line := range strings.Split(text, "\n") {
		if value := strings.TrimPrefix(line, sample+" "); value != line {
			return value
		}
	}
	return "absent"
}

// differences are the samples of a text that are not as they have to be.
func differences(text string, want map[string]int) (wrong []string) {
	for sample, value := range want {
		if got := metric(text, sample); got != fmt.Sprint(value) {
			wrong = append(wrong, fmt.Sprintf("%s is %s and not %d", sample, got, value))
		}
	}
	return wrong
}

func TestAMemberShowsWhatItDoes(t *testing.T) {
	address := start(t)
	b, err := recorded.Load("rack")
	if err != nil {
		t.Fatal(err)
	}
	makeBook(t, address, b)
	want := map[string]int{`lrcmand_entries_total{book="p0"}`: len(b.Lines), `lrcmand_raft_is_leader`: 1,
		`lrcmand_http_requests_total{route="/books/{book}/call",status="200"}`: len(b.Lines), `lrcmand_call_duration_seconds_count{book="p0"}`: len(b.Lines)}
	if recorded.HasRules() {
		want[`lrcmand_stripes{book="p0",level="risk",margin="1"}`] = b.Value("at_risk_margin_1")
		want[`lrcmand_work_fragments{book="p0",standing="open"}`] = b.Standing("open")
		for _, row := range b.Reasons {
			want[fmt.Sprintf(`lrcmand_health{book="p0",reason=%q}`, row.Reason)] = row.Count
		}
		for cause, count := range b.Counts {
			command, reply, _ := strings.Cut(cause, " ")
			want[fmt.Sprintf(`lrcmand_commands_total{book="p0",command=%q,reply=%q}`, command, reply)] = int(count)
		}
	}
	wrong := differences(get(t, "http://"+address+"/metrics"), want)
	for begin := time.Now(); len(wrong) > 0; time.Sleep(200 * time.Millisecond) { // (the watch steps once a second)
		if time.Since(begin) > 30*time.Second {
			t.Fatal(wrong)
		}
		wrong = differences(get(t, "http://"+address+"/metrics"), want)
	}
	if page := get(t, "http://"+address+"/?book=p0"); !strings.Contains(page, "<title>lrcmand</title>") {
		t.Error("there is no page")
	}
	browse(t, address, b)
}

// browse compares what a browser shows of the member's book with the model.
func browse(t *testing.T, address string, b *recorded.Book) {
	if !testbrowser.Is() {
		t.Log("there is no chromium here, so the page is not looked at")
		return
	}
	tab := testbrowser.Visit(t, "http://"+address+"/?book=p0", 1280, 900)
	tab.UntilContact("document", "live")
	dom := tab.DOM()
	facts := map[string]int{"commands": len(b.Lines)}
	if recorded.HasRules() {
		facts["stripes"], facts["margin 2"], facts["margin 1"] = b.Value("stripes"), b.Value("at_risk_margin_2"), b.Value("at_risk_margin_1")
		facts["leased"], facts["open"] = b.Standing("leased"), b.Standing("open")
	}
	for name, value := range facts {
		found := regexp.MustCompile(`data-fact="` + name + `"[^>]*><dt>[^<]*</dt><dd>([^<]*)</dd>`).FindStringSubmatch(dom)
		if found == nil || found[1] != fmt.Sprint(value) {
			t.Errorf("the page shows %q for %s, and the model has %d", found, name, value)
		}
	}
	if strings.Count(dom, "<script>") != 1 {
		t.Error("a name became markup")
	}
}
