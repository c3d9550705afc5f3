package httpapi

import (
	"net/http"
	"testing"
	"time"
)

func TestAnAddressHasSoManyRequestsASecond(t *testing.T) {
	now := time.Unix(1000, 0)
	rates := NewRates(4)
	rates.now = func() time.Time { return now }
	for i, it := range []struct {
		after   time.Duration
		address string
		ask     int
		get     int
	}{
		{0, "a", 6, 4},                      // as many at once as in a second
		{0, "b", 1, 1},                      // another address has its own
		{250 * time.Millisecond, "a", 3, 1}, // a quarter of a second gives one
		{500 * time.Millisecond, "a", 3, 2},
		{time.Hour, "a", 9, 4}, // and no time gives more than a second does
		{100 * time.Millisecond, "a", 1, 0},
	} {
		now = now.Add(it.after)
		got := 0
		for n := 0; n < it.ask; n++ {
			if rates.take(it.address) {
				got++
			}
		}
		if got != it.get {
			t.Errorf("step %d: %d of %d requests, and not %d", i, got, it.ask, it.get)
		}
	}
	now = now.Add(time.Minute)
	rates.take("c")
	if len(rates.left) != 1 {
		t.Errorf("%d addresses are kept, of which one made a request", len(rates.left))
	}
}

func TestTooManyRequestsAreRefused(t *testing.T) {
	s := newService(t, func(with *setup) {
		with.Rates = NewRates(3)
		with.Rates.now = func() time.Time { return time.Unix(1000, 0) }
	})
	for i := 0; i < 2; i++ { // (the service has asked once to make its book)
		if answer, _ := s.ask("GET", "/books", ""); answer.StatusCode != http.StatusOK {
			t.Errorf("request %d: %d", i, answer.StatusCode)
		}
	}
	s.refused("GET", "/books", "", 429, "too many requests come from this address")
	s.refused("POST", "/books/p0/call", `{"command":"tick"}`, 429, "too many requests come from this address")
	if answer, _ := s.ask("GET", "/health", ""); answer.StatusCode != http.StatusOK {
		t.Errorf("health: %d", answer.StatusCode)
	}
	if counts := s.api.refused.counts(); counts[429] != 2 {
		t.Errorf("counted: %v", counts)
	}
}
