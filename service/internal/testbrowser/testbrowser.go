// Package testbrowser lets tests look at pages with Chromium. They wait for what a page has done, and not for a time that it may
// take, so that a busy machine only makes them slower.
package testbrowser

import (
	"bufio"
	"encoding/json"
	"fmt"
	"os"
	"os/exec"
	"strings"
	"syscall"
	"testing"
	"time"
)

// most is how long a page may take for anything: no machine is so busy.
const most = 120 * time.Second

// A Tab is the one tab of a Chromium without a window.
type Tab struct {
	t       testing.TB
	command *exec.Cmd
	said    strings.Builder // on its standard error; read when it has ended
	to      *os.File
	from    *os.File
	answers *bufio.Reader
	calls   int
	session string
	faults  []string
}

// Is tells whether there is a Chromium here.
func Is() bool {
	_, err := exec.LookPath("chromium")
	return err == nil
}

// Visit opens an address in a tab of a size, with more flags for Chromium, which ends with the test if not before. The test is left
// out where there is no Chromium.
func Visit(t testing.TB, address string, width, height int, flags ...string) *Tab {
	t.Helper()
	if !Is() {
		t.Skip("there is no chromium here, so the page is not looked at")
	}
	tab := start(t, flags)
	var target struct{ TargetID string }
	tab.call("Target.createTarget", object{"url": "about:blank"}, &target)
	var attached struct{ SessionID string }
	tab.call("Target.attachToTarget", object{"targetId": target.TargetID, "flatten": true}, &attached)
	tab.session = attached.SessionID
	tab.call("Runtime.enable", object{}, nil)
	tab.call("Log.enable", object{}, nil)
	tab.call("Emulation.setDeviceMetricsOverride", object{"width": width, "height": height, "deviceScaleFactor": 1, "mobile": false}, nil)
	var gone struct{ ErrorText string }
	tab.call("Page.navigate", object{"url": address}, &gone)
	if gone.ErrorText != "" {
		tab.fatal("there is no page at %s: %s", address, gone.ErrorText)
	}
	return tab
}

// start runs Chromium, which takes calls of the DevTools protocol from its file 3 and answers in its file 4.
func start(t testing.TB, flags []string) *Tab {
	t.Helper()
	calls, to := pipe(t)
	from, answers := pipe(t)
	tab := &Tab{t: t, to: to, from: from, answers: bufio.NewReader(from)}
	flags = append([]string{"--headless", "--no-sandbox", "--disable-gpu", "--disable-dev-shm-usage", "--hide-scrollbars",
		"--user-data-dir=" + t.TempDir(), "--remote-debugging-pipe"}, flags...)
	tab.command = exec.Command("chromium", flags...)
	tab.command.Stderr = &tab.said
	tab.command.ExtraFiles = []*os.File{calls, answers}
	tab.command.SysProcAttr = &syscall.SysProcAttr{Setpgid: true}
	err := tab.command.Start()
	calls.Close()
	answers.Close()
	if err != nil {
		t.Fatal(err)
	}
	t.Cleanup(tab.End)
	return tab
}

func pipe(t testing.TB) (from, to *os.File) {
	t.Helper()
	from, to, err := os.Pipe()
	if err != nil {
		t.Fatal(err)
	}
	return from, to
}

// End ends Chromium. The test fails if the page has had a fault: an error that nothing caught, or something that its policy
// forbids.
func (tab *Tab) End() {
	tab.t.Helper()
	if tab.command.ProcessState != nil {
		return
	}
	tab.Text("0") // (what was noted before is read with the answer)
	tab.kill()
	if len(tab.faults) > 0 {
		tab.t.Errorf("the console of the page has %q", tab.faults)
	}
}

// kill ends all processes of Chromium, so that nothing is written into its folder any more.
func (tab *Tab) kill() {
	syscall.Kill(-tab.command.Process.Pid, syscall.SIGKILL) // (it may have ended)
	tab.command.Wait()                                      // (it was killed)
	tab.to.Close()
	tab.from.Close()
}

// fatal ends a test in which Chromium does not do what it is told.
func (tab *Tab) fatal(format string, values ...interface{}) {
	tab.t.Helper()
	tab.kill()
	said := tab.said.String()
	if len(said) > 2000 {
		said = said[len(said)-2000:]
	}
	tab.t.Fatalf("%s; chromium says %s", fmt.Sprintf(format, values...), said)
}

type object map[string]interface{}

// A message is an answer, which has the number of its call, or an event.
type message struct {
	ID     int
	Error  *struct{ Message string }
	Result json.RawMessage
	Method string
	Params json.RawMessage
}

// call makes a call and waits for its answer.
func (tab *Tab) call(method string, parameters object, answer interface{}) {
	tab.t.Helper()
	tab.calls++
	request := object{"id": tab.calls, "method": method, "params": parameters}
	if tab.session != "" {
		request["sessionId"] = tab.session
	}
	text, err := json.Marshal(request)
	if err != nil {
		tab.fatal("%s: %v", method, err)
	}
	limit := time.Now().Add(most)
	tab.to.SetWriteDeadline(limit) // (a pipe has deadlines)
	tab.from.SetReadDeadline(limit)
	if _, err := tab.to.Write(append(text, 0)); err != nil {
		tab.fatal("%s: %v", method, err)
	}
	for {
		read := tab.read(method)
		if read.ID == 0 {
			tab.note(read)
			continue
		}
		if read.ID != tab.calls || read.Error != nil {
			tab.fatal("%s: %+v", method, read)
		}
		if answer != nil {
			tab.parse(read.Result, answer)
		}
		return
	}
}

func (tab *Tab) read(method string) (read message) {
	tab.t.Helper()
	text, err := tab.answers.ReadBytes(0)
	if err != nil {
		tab.fatal("%s has no answer: %v", method, err)
	}
	tab.parse(text[:len(text)-1], &read)
	return read
}

func (tab *Tab) parse(text []byte, into interface{}) {
	tab.t.Helper()
	if err := json.Unmarshal(text, into); err != nil {
		tab.fatal("%v in %s", err, text)
	}
}

// note keeps the faults that the console of the page shows.
func (tab *Tab) note(event message) {
	tab.t.Helper()
	switch event.Method {
	case "Runtime.exceptionThrown":
		var thrown struct {
			ExceptionDetails struct {
				Text      string
				Exception struct{ Description string }
			}
		}
		tab.parse(event.Params, &thrown)
		tab.faults = append(tab.faults, thrown.ExceptionDetails.Text+" "+thrown.ExceptionDetails.Exception.Description)
	case "Log.entryAdded":
		var added struct{ Entry struct{ Text string } }
		tab.parse(event.Params, &added)
		if strings.Contains(added.Entry.Text, "Content Security Policy") {
			tab.faults = append(tab.faults, added.Entry.Text)
		}
	}
}

// Text is the value of an expression in the page, as text, and whether it has one: it throws where a part that it names is not
// there.
func (tab *Tab) Text(expression string) (string, bool) {
	tab.t.Helper()
	var answer struct {
		Result           struct{ Value string }
		ExceptionDetails *struct{}
	}
	tab.call("Runtime.evaluate", object{"expression": "String(" + expression + ")", "returnByValue": true}, &answer)
	return answer.Result.Value, answer.ExceptionDetails == nil
}

// Until waits until something is so, which the test fails without.
func (tab *Tab) Until(what string, is func() bool) {
	tab.t.Helper()
	for begin := time.Now(); !is(); time.Sleep(20 * time.Millisecond) {
		if time.Since(begin) > most {
			shown, _ := tab.Text("document.body.innerText")
			tab.t.Fatalf("in %v the page has not %s, and shows %.2000q; its console has %q", most, what, shown, tab.faults)
		}
	}
}

// UntilContact waits until lrcmand's page says that its contact is "live" or "not live": it has drawn what it was answered. It is
// the page in a document, which is an expression.
func (tab *Tab) UntilContact(document, is string) {
	tab.t.Helper()
	tab.Until("said that it is "+is, func() bool {
		said, _ := tab.Text(document + `.getElementById("contact").textContent`)
		return said == is
	})
}

// DOM is the page as it is now, as markup.
func (tab *Tab) DOM() string {
	tab.t.Helper()
	dom, has := tab.Text("document.documentElement.outerHTML")
	if !has {
		tab.fatal("the page has no markup")
	}
	return dom
}

// Picture writes the page as it is now, as PNG.
func (tab *Tab) Picture(file string) {
	tab.t.Helper()
	var answer struct{ Data []byte }
	tab.call("Page.captureScreenshot", object{"format": "png"}, &answer)
	if err := os.WriteFile(file, answer.Data, 0o644); err != nil {
		tab.fatal("%v", err)
	}
}
