package httpapi

import (
	"math"
	"net/http"
	"sync"
	"time"
)

// Rates limit how many requests come from one address: so many a second, and as many at once after a second without any.
type Rates struct {
	each   float64
	now    func() time.Time
	mu     sync.Mutex
	left   map[string]*allowance
	lookAt time.Time // when addresses that are quiet are forgotten next
}

// An allowance is how many requests an address may still make.
type allowance struct {
	requests float64
	at       time.Time
}

// NewRates allows so many requests a second to each address.
func NewRates(each uint64) *Rates {
	return &Rates{each: float64(each), now: time.Now, left: map[string]*allowance{}}
}

// take takes one request of an address, and returns false if it has none left. Nil rates allow all.
func (r *Rates) take(address string) bool {
	if r == nil {
		return true
	}
	r.mu.Lock()
	defer r.mu.Unlock()
	now := r.now()
	r.forget(now)
	it := r.left[address]
	if it == nil {
		it = &allowance{r.each, now}
		r.left[address] = it
	}
	it.requests = math.Min(r.each, it.requests+now.Sub(it.at).Seconds()*r.each)
	it.at = now
	if it.requests < 1 {
		return false
	}
	it.requests--
	return true
}

// forget drops the addresses that have made no request for a second: they may make all again.
func (r *Rates) forget(now time.Time) {
	if now.Before(r.lookAt) {
		return
	}
	r.lookAt = now.Add(time.Second)
	for address, it := range r.left {
		if now.Sub(it.at) >= time.Second {
			delete(r.left, address)
		}
	}
}

// limitRate refuses a request of an address that makes too many.
func (a *API) limitRate(r *http.Request) error {
	if !a.cfg.Rates.take(hostOf(r.RemoteAddr)) {
		return &failure{Status: http.StatusTooManyRequests, Words: "too many requests come from this address"}
	}
	return nil
}
