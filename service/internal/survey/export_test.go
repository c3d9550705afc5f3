package survey

// Renew makes the tables of a book that may take long, as WatchHealth does.
func (w *Watcher) Renew(name string) { w.renew(name) }
