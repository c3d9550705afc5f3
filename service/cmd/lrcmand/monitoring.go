package main

import (
	"context"
	"time"

	"lrcman/service/book"
	"lrcman/service/internal/engine"
	"lrcman/service/internal/httpapi"
	"lrcman/service/internal/metrics"
	"lrcman/service/internal/page"
	"lrcman/service/internal/state"
	"lrcman/service/internal/survey"
)

// monitoring is what people and Prometheus look at.
type monitoring struct {
	metrics *metrics.Metrics
	page    *page.Page
	stop    context.CancelFunc
}

func newMonitoring(e engine.Engine, books *state.State, from metrics.Sources) *monitoring {
	ctx, stop := context.WithCancel(context.Background())
	watcher := survey.NewWatcher(survey.OfState(books), time.Now)
	go watcher.Watch(ctx)
	go watcher.WatchHealth(ctx)
	from.Watcher, from.Status, from.Refusal, from.Differs = watcher, e.Status, book.RefusalName, books.Differs
	return &monitoring{
		metrics: metrics.New(from),
		page:    page.New(page.Sources{Watcher: watcher, Status: e.Status, Done: ctx.Done()}),
		stop:    stop,
	}
}

// mounts are the paths at which it is.
func (m *monitoring) mounts() []httpapi.Mount { return append(m.page.Mounts(), m.metrics.Mount()) }
