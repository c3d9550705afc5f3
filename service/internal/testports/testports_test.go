package testports

import (
	"net"
	"os"
	"os/exec"
	"strings"
	"testing"
)

// Two processes of tests run beside each other, and a port is not listened at from the time when it is given.
func TestNoPortIsGivenToTwoProcesses(t *testing.T) {
	const count, asked = 500, "LRCMAND_TEST_PORTS"
	given := map[string]bool{}
	for i := 0; i < count; i++ {
		given[Free(t)] = true
	}
	if os.Getenv(asked) != "" {
		for address := range given {
			os.Stdout.WriteString("given " + address + "\n")
		}
		return
	}
	other := exec.Command(os.Args[0], "-test.run", t.Name())
	other.Env = append(os.Environ(), asked+"=1")
	text, err := other.Output()
	if err != nil {
		t.Fatal(err)
	}
	found := 0
	for _, line := range strings.Split(string(text), "\n") {
		if address := strings.TrimPrefix(line, "given "); address != line {
			if found++; given[address] {
				t.Errorf("%s is given twice", address)
			}
		}
	}
	if len(given) != count || found != count {
		t.Errorf("%d and %d are given, and not %d each", len(given), found, count)
	}
	for address := range given {
		listener, err := net.Listen("tcp", address)
		if err != nil {
			t.Fatal(err)
		}
		listener.Close()
		break
	}
}
