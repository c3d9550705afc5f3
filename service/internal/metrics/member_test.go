package metrics

import (
	"fmt"
	"net/http/httptest"
	"os"
	"path/filepath"
	"strings"
	"testing"
	"time"

	"lrcman/service/internal/survey"
	"lrcman/service/internal/survey/recorded"
	"lrcman/service/internal/testcerts"
)

// wholeMember is a member that tells all there is to tell.
func wholeMember(t testing.TB, from survey.Books, folder string) *Metrics {
	certificate, _ := testcerts.New(t, "ours").Sign("server")
	m, _ := metricsOf(from, folder)
	sources := m.from
	sources.Disk = func() Disk { return Disk{Free: 1 << 40, Reserve: 1 << 30, ReadOnly: true} }
	sources.Certificates = map[string]string{"cert": certificate, "peer-cert": folder + "/none"}
	sources.Differs = func() []string { return []string{"rack", "harm"} }
	sources.Waiting = func() int { return 3 }
	return New(sources)
}

func TestAMemberTellsOfItsDiskAndFiles(t *testing.T) {
	folder := t.TempDir()
	for _, name := range []string{"1.snap", "2.snap.broken", "2.snap.db.broken", "3.snap.broken"} {
		if err := os.WriteFile(filepath.Join(folder, name), nil, 0o600); err != nil {
			t.Fatal(err)
		}
	}
	got := values(t, wholeMember(t, recorded.Books{}, folder))
	for sample, want := range map[string]float64{"disk_free_bytes": 1 << 40, "disk_reserve_bytes": 1 << 30, "disk_read_only": 1,
		"books_that_differ": 2, "requests_waiting": 3, "snapshots_broken": 2} {
		if found, isThere := got["lrcmand_"+sample]; !isThere || found != want {
			t.Errorf("%s is %v, and not %v", sample, found, want)
		}
	}
	expiry := time.Unix(int64(got[`lrcmand_certificate_expiry_timestamp_seconds{file="cert"}`]), 0)
	if time.Until(expiry) < time.Minute || time.Until(expiry) > 100*365*24*time.Hour {
		t.Errorf("the certificate expires at %v", expiry)
	}
	for sample := range got {
		if strings.Contains(sample, "peer-cert") {
			t.Errorf("a file that can't be read: %s", sample)
		}
	}
	m, _ := metricsOf(recorded.Books{}, folder)
	m.from.Disk = func() Disk { return Disk{Free: -1} }
	if _, isThere := values(t, m)["lrcmand_disk_free_bytes"]; isThere {
		t.Error("room that nobody knows")
	}
}

// Domains are told of the books that need attention most, and the number of series stays bounded however many there are.
func TestDomainsAreToldOfFewBooks(t *testing.T) {
	all, one := recorded.Books{}, books(t)
	for i := 0; i < 3*mostDomains; i++ {
		all[fmt.Sprintf("quiet%02d", i)] = one["quiet"]
	}
	all["zharm"], all["zrack"] = one["harm"], one["rack"]
	m, _ := metricsOf(all, "")
	told := map[string]bool{}
	for sample := range values(t, m) {
		if rest := strings.TrimPrefix(sample, `lrcmand_domain_slots{book="`); rest != sample {
			told[rest[:strings.IndexByte(rest, '"')]] = true
		}
	}
	if len(told) != mostDomains || !told["zharm"] || !told["zrack"] || !told["quiet00"] {
		t.Errorf("%v", told)
	}
}

func TestAScrapeMayNameItsBooks(t *testing.T) {
	m, _ := metricsOf(books(t), "")
	recorder := httptest.NewRecorder()
	m.Handler().ServeHTTP(recorder, httptest.NewRequest("GET", "/metrics?books=rack,gone", nil))
	text := recorder.Body.String()
	for part, want := range map[string]bool{`lrcmand_domain_slots{book="rack"`: true, `lrcmand_nodes{book="rack"`: true, `book="harm"`: false,
		`book="gone"`: false, "lrcmand_raft_leader 1": true, "go_goroutines": true, fmt.Sprintf("lrcmand_books %d", len(states)): true} {
		if strings.Contains(text, part) != want {
			t.Errorf("%s: %v", part, !want)
		}
	}
}

func TestTooManyScrapesAreRefused(t *testing.T) {
	m, _ := metricsOf(recorded.Books{}, "")
	for i := 0; i < mostScrapes; i++ {
		m.scrapes <- struct{}{}
	}
	recorder := httptest.NewRecorder()
	m.Handler().ServeHTTP(recorder, httptest.NewRequest("GET", "/metrics", nil))
	if recorder.Code != 503 || !strings.Contains(recorder.Body.String(), `"code":"busy"`) {
		t.Error(recorder.Code, recorder.Body)
	}
	<-m.scrapes
	recorder = httptest.NewRecorder()
	m.Handler().ServeHTTP(recorder, httptest.NewRequest("GET", "/metrics", nil))
	if recorder.Code != 200 {
		t.Error(recorder.Code)
	}
}
