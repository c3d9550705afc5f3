package httpapi

import (
	"fmt"
	"io"
	"net/http"
	"net/http/httptest"
	"strings"
	"sync"
	"testing"
	"time"
)

func TestBodiesHaveRoomTogether(t *testing.T) {
	o := &room{most: roomOfBodies}
	const image = mostImage * costOfByte
	taken := 0
	for o.take(image, roomOfCalls) {
		taken++
	}
	if taken == 0 || taken*image > roomOfBodies-roomOfCalls {
		t.Errorf("%d images", taken)
	}
	for i := 0; i < MostConnections; i++ { // so many calls there can be
		if !o.take(mostCall*costOfByte, 0) {
			t.Fatalf("no room for call %d beside images", i)
		}
	}
	o.giveBack(image)
	if !o.take(image, roomOfCalls) {
		t.Error("room that was given back is not taken again")
	}
}

// What has no room is told before it is read, and calls go on beside images that come slowly.
func TestABodyWithoutRoomIsToldSo(t *testing.T) {
	s := newService(t, nil)
	head := fmt.Sprintf("PUT /books/p1 HTTP/1.1\r\nHost: x\r\nContent-Type: application/json\r\nContent-Length: %d\r\n\r\n{", mostImage)
	room := int64(roomOfBodies-roomOfCalls) / (mostImage * costOfByte)
	for i := int64(0); i < room; i++ {
		c := s.dialWith(head)
		wait(t, "its room is taken", func() bool { return s.roomTaken() == (i+1)*mostImage*costOfByte })
		defer c.Close()
	}
	begun := time.Now()
	answer, fail := s.failed("PUT", "/books/p1", `{"nodes":"`+strings.Repeat("x", mostImage-20)+`"}`)
	if fail.Status != 503 || fail.Code != "busy" || answer.Header.Get("Retry-After") != "1" || !answer.Close {
		t.Errorf("%+v %v", fail, answer.Header)
	}
	if took := time.Since(begun); took > 5*time.Second {
		t.Errorf("told after %v", took)
	}
	s.call("tick")
}

func (s *service) roomTaken() int64 {
	s.api.bodies.mu.Lock()
	defer s.api.bodies.mu.Unlock()
	return s.api.bodies.taken
}

func TestRoomIsGivenBack(t *testing.T) {
	s := newService(t, func(with *setup) { with.Knobs.BodyTime = 300 * time.Millisecond })
	c := s.dialWith("POST /books/p0/call HTTP/1.1\r\nHost: x\r\nContent-Type: application/json\r\nContent-Length: 100\r\n\r\n{")
	s.status(c, 408)
	s.dialWith("POST /books/p0/call HTTP/1.1\r\nHost: x\r\nContent-Type: application/json\r\nContent-Length: 100\r\n\r\n{").Close()
	wait(t, "all is given back", func() bool { return s.roomTaken() == 0 })
	s = newService(t, nil) // (its clients have all the time)
	var all sync.WaitGroup
	for i := 0; i < 8; i++ {
		all.Add(1)
		go func(i int) {
			defer all.Done()
			r, _ := http.NewRequest("PUT", fmt.Sprintf("%s/books/b%d", s.url, i), strings.NewReader(nodes(4)))
			if answer, err := http.DefaultClient.Do(r); err != nil || answer.StatusCode != 200 {
				t.Error(answer, err)
			} else {
				io.Copy(io.Discard, answer.Body)
				answer.Body.Close()
			}
		}(i)
	}
	all.Wait()
	wait(t, "all is given back", func() bool { return s.roomTaken() == 0 })
}

// Clients that take long answers slowly hold no more than that room; short answers are sent all the while.
func TestAnswersHaveRoomTogether(t *testing.T) {
	s := newService(t, nil)
	q := func() (*request, *httptest.ResponseRecorder) {
		recorder := httptest.NewRecorder()
		return &request{w: recorder, r: httptest.NewRequest("GET", "/", nil), api: s.api, isRead: true}, recorder
	}
	s.api.answers.take(roomOfAnswers-leastAnswer, 0) // others are being sent
	long := make([]byte, leastAnswer+1)
	it, recorder := q()
	if it.write(200, "text/plain", long); recorder.Code != 503 || !strings.Contains(recorder.Body.String(), `"code":"busy"`) || recorder.Header().Get("Retry-After") != "1" {
		t.Error(recorder.Code, recorder.Body)
	}
	it, recorder = q()
	if it.write(200, "text/plain", long[:leastAnswer-1]); recorder.Code != 200 {
		t.Error(recorder.Code)
	}
	s.api.answers.giveBack(roomOfAnswers - leastAnswer)
	it, recorder = q()
	if it.write(200, "text/plain", long); recorder.Code != 200 || s.api.answers.taken != 0 {
		t.Error(recorder.Code, s.api.answers.taken)
	}
}
