package httpapi

import (
	"net/http"
	"net/http/httptest"
	"reflect"
	"testing"
)

// observed are the requests that an API tells of, without the time that they took.
func observed(mounts ...Mount) (*API, *[]Served) {
	found := &[]Served{}
	a := New(Config{Mounts: mounts, Observe: func(it Served) {
		it.Took = 0
		*found = append(*found, it)
	}, Rights: &Rights{}}) // (whoever may do nothing gets no further than its route)
	return a, found
}

func TestARequestIsToldOfByItsRoute(t *testing.T) {
	a, found := observed()
	for _, it := range []struct {
		method, path, query string
		want                Served
	}{
		{"POST", "/books/p0/call", "", Served{"/books/{book}/call", "p0", TimedByBook, 401, 0}},
		{"GET", "/books/p0/call", "", Served{"/books/{book}/call", "p0", TimedByBook, 405, 0}},
		{"GET", "/books/p0", "", Served{"/books/{book}", "p0", Timed, 401, 0}},
		{"PATCH", "/books/p0", "", Served{"/books/{book}", "p0", Timed, 405, 0}},
		{"GET", "/books/p0/stripes/17", "", Served{"/books/{book}/stripes/{stripe}", "p0", Timed, 401, 0}},
		{"GET", "/books/p0/show/work", "", Served{"/books/{book}/show/work", "p0", Timed, 401, 0}},
		{"PUT", "/books/p0/show/work", "", Served{"/books/{book}/show/work", "p0", Timed, 405, 0}},
		{"GET", "/books/p0/show/all", "", Served{Other, "p0", Timed, 401, 0}},
		{"GET", "/books/<script>/log", "", Served{"/books/{book}/log", "<script>", Timed, 401, 0}},
		{"GET", "/books/p0/log", "from=1&follow=1", Served{"/books/{book}/log", "p0", NotTimed, 401, 0}},
		{"GET", "/status", "follow=1", Served{"/status", "", NotTimed, 401, 0}},
		{"DELETE", "/members/4", "", Served{"/members/{id}", "", Timed, 401, 0}},
		{"GET", "/members/", "", Served{"/members/{id}", "", Timed, 405, 0}},
		{"GET", "/books/", "", Served{"/books/{book}", "", Timed, 401, 0}},
		{"GET", "/books/p0/", "", Served{Other, "", Timed, 404, 0}},
		{"GET", "/../etc", "", Served{Other, "", Timed, 404, 0}},
		{"GET", "//health", "", Served{Other, "", Timed, 404, 0}},
		{"GET", "/", "", Served{Other, "", Timed, 404, 0}}, // (without a page)
	} {
		r := httptest.NewRequest("GET", "/", nil)
		r.Method, r.URL.Path, r.URL.RawQuery = it.method, it.path, it.query
		a.ServeHTTP(httptest.NewRecorder(), r)
		if last := (*found)[len(*found)-1]; !reflect.DeepEqual(last, it.want) {
			t.Errorf("%s %s?%s: %+v, and not %+v", it.method, it.path, it.query, last, it.want)
		}
	}
}

func mountAt(path string, answer http.HandlerFunc) Mount {
	return Mount{Route{Method: "GET", Pattern: path, Timing: NotTimed}, answer}
}

func TestAnswersAreSentBitByBit(t *testing.T) {
	a, found := observed(mountAt("/events", func(w http.ResponseWriter, r *http.Request) { w.(http.Flusher).Flush() }))
	recorder := httptest.NewRecorder()
	a.ServeHTTP(recorder, httptest.NewRequest("GET", "/events", nil))
	if !recorder.Flushed || len(*found) != 1 {
		t.Errorf("nothing was flushed, %+v", *found)
	}
}
