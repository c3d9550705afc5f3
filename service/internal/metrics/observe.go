package metrics

import (
	"net/http"
	"strconv"

	"lrcman/service/internal/httpapi"
)

// Mount is where the metrics are.
func (m *Metrics) Mount() httpapi.Mount {
	return httpapi.Mount{Route: httpapi.Route{Method: "GET", Pattern: "/metrics", Role: httpapi.Look, Query: "books"}, Answer: m.Handler().ServeHTTP}
}

// Observe counts a request that was answered, and how long it took.
func (m *Metrics) Observe(it httpapi.Served) {
	m.requests.WithLabelValues(it.Label, strconv.Itoa(it.Status)).Inc()
	if it.Timing == httpapi.NotTimed {
		return
	}
	m.duration.WithLabelValues(it.Label).Observe(it.Took.Seconds())
	if it.Timing == httpapi.TimedByBook && it.Status == http.StatusOK { // (so the book exists, or did)
		m.noteCall(it.Book, it.Took)
	}
}
