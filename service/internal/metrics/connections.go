package metrics

import (
	"github.com/prometheus/client_golang/prometheus"

	"lrcman/service/internal/httpapi"
)

var (
	openDesc    = desc("http_connections", "Connections that are open at the port for clients, by whether a request is being answered.", "state")
	closedDesc  = desc("http_connections_closed_total", "Connections that waited and were closed for new ones, as there were too many.")
	refusedDesc = desc("http_connections_refused_total", "Connections that were refused, as all others had requests that were being answered.")
)

// connections are the metrics of connections.
type connections struct {
	counts func() httpapi.ConnectionCounts
}

// Describe tells which metrics there are.
func (c *connections) Describe(to chan<- *prometheus.Desc) {
	for _, desc := range []*prometheus.Desc{openDesc, closedDesc, refusedDesc} {
		to <- desc
	}
}

// Collect makes the metrics.
func (c *connections) Collect(to chan<- prometheus.Metric) {
	counts, t := c.counts(), teller{to, nil}
	t.gauge(openDesc, float64(counts.Waiting), "waiting")
	t.gauge(openDesc, float64(counts.Answering), "answering")
	t.counter(closedDesc, counts.Closed)
	t.counter(refusedDesc, counts.Refused)
}
