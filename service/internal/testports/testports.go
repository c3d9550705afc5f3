// Package testports gives tests addresses on loopback that nobody listens at.
package testports

import (
	"fmt"
	"math/rand"
	"net"
	"os"
	"sync"
	"testing"
	"time"
)

// The system gives clients ports from 32768 on, so none of them takes one of these while a server is away.
const (
	least = 20000
	most  = 32000
)

var (
	mu    sync.Mutex
	dice  = rand.New(rand.NewSource(time.Now().UnixNano() + int64(os.Getpid())))
	given = map[int]net.Listener{} // names that tell other processes of tests, until this one ends
)

// Free is an address that it has given to nobody else, in this process or in others that run now.
func Free(t testing.TB) string {
	t.Helper()
	mu.Lock()
	defer mu.Unlock()
	for try := 0; try < 1000; try++ {
		port := least + dice.Intn(most-least)
		address := fmt.Sprintf("127.0.0.1:%d", port)
		name, err := net.Listen("unix", fmt.Sprintf("@lrcmand-test-port-%d", port))
		if err != nil {
			continue
		}
		listener, err := net.Listen("tcp", address)
		if err != nil {
			name.Close()
			continue
		}
		listener.Close()
		given[port] = name
		return address
	}
	t.Fatal("there is no free port")
	return ""
}
