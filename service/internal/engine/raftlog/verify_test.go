package raftlog

import (
	"bytes"
	"encoding/binary"
	"fmt"
	"io"
	"net/http"
	"os"
	"path/filepath"
	"strings"
	"testing"

	"go.etcd.io/etcd/pkg/types"
	"go.etcd.io/etcd/raft/raftpb"
)

// whole is the file of a snapshot with a list.
func whole(t *testing.T) string {
	t.Helper()
	var text bytes.Buffer
	machine := &list{index: 7, entries: texts(1, 1000)}
	if err := writeHead(&text, head{}); err != nil {
		t.Fatal(err)
	}
	if err := machine.Freeze()(&text); err != nil {
		t.Fatal(err)
	}
	path := filepath.Join(t.TempDir(), "file")
	if err := os.WriteFile(path, text.Bytes(), 0o600); err != nil {
		t.Fatal(err)
	}
	return path
}

func TestAFileIsCheckedWhileItIsRead(t *testing.T) {
	for name, damage := range map[string]func(path string){
		"nothing": func(string) {},
		"head":    func(path string) { change(t, path, len(headMark)+9) },
		"state":   func(path string) { change(t, path, -1) },
		"cut off": func(path string) { os.Truncate(path, 500) },
	} {
		path := whole(t)
		damage(path)
		file, err := os.Open(path)
		if err != nil {
			t.Fatal(err)
		}
		spoilt := 0
		v := newVerified(file, (&list{}).Verify, func(error) { spoilt++ })
		text, err := io.ReadAll(v)
		isWhole := name == "nothing"
		if (err == nil) != isWhole || (spoilt == 0) != isWhole {
			t.Errorf("%s: %v, and %d times spoilt", name, err, spoilt)
		}
		if have, _ := os.ReadFile(path); isWhole && !bytes.Equal(text, have) {
			t.Errorf("%d bytes are read of %d", len(text), len(have))
		}
		for i := 0; i < 2; i++ {
			if err := v.Close(); err != nil {
				t.Errorf("%s: closed %d times: %v", name, i+1, err)
			}
		}
	}
	file, err := os.Open(whole(t))
	if err != nil {
		t.Fatal(err)
	}
	v := newVerified(file, (&list{}).Verify, func(error) { t.Error("to leave off is no damage") })
	v.Read(make([]byte, 10))
	v.Close()
}

// broken are the snapshots of a member that were set aside.
func broken(t *testing.T, cfg Config) []string { return files(t, cfg, "*.snap.db.broken") }

func TestASnapshotThatIsDamagedOnTheLeadersDiskIsReplaced(t *testing.T) {
	t.Parallel()
	for name, damage := range map[string]func(path string){
		"its head":  func(path string) { change(t, path, len(headMark)+10) },
		"its state": func(path string) { change(t, path, -1) },
		"cut off":   func(path string) { os.Truncate(path, 30) },
		"gone":      func(path string) { os.Remove(path) },
	} {
		name, damage := name, damage
		t.Run(name, func(t *testing.T) {
			t.Parallel()
			g := groupOf(t, 3, func(cfg *Config) { cfg.Trailing = 5 })
			propose(t, g.nodes[1], "entry 1")
			away := g.other(g.leader())
			words, sender := g.says(), g.leader()
			g.cutBehind(away, 2, 60)
			for id := range g.nodes { // (whoever leads)
				damage(g.nodes[id].fileOf(g.nodes[id].Status().Snapshot))
			}
			g.start(away)
			g.alike(texts(1, 60))
			if g.nodes[away].Status().Snapshot < 60 {
				t.Error("it has got no snapshot")
			}
			if name != "gone" && !strings.Contains(words.String(), "on this disk can't be sent") {
				t.Errorf("said: %q", words)
			}
			if leads := g.leader(); leads == sender { // (else another one has sent it)
				expectStored(t, g.nodes[leads])
			}
			propose(t, g.nodes[away], "entry 61")
			g.alike(texts(1, 61))
		})
	}
}

// expectStored expects that the last snapshot can be begun in.
func expectStored(t *testing.T, n *Node) {
	t.Helper()
	eventually(t, "the snapshot is there again", func() bool {
		last, err := n.storage.Snapshot()
		if err != nil || n.check(last.Metadata) != nil {
			return false
		}
		found, err := n.indexesOf()
		return err == nil && len(found) > 0 && found[len(found)-1] == last.Metadata.Index
	})
}

// post sends a message with the file of a snapshot to a member, as another one does.
func post(t *testing.T, g *group, to uint64, message raftpb.Message, file []byte) int {
	t.Helper()
	text, err := message.Marshal()
	if err != nil {
		t.Fatal(err)
	}
	body := binary.BigEndian.AppendUint64(nil, uint64(len(text)))
	body = append(append(body, text...), file...)
	path := "/raft/snapshot"
	if file == nil {
		path, body = "/raft", text
	}
	sender := g.nodes[message.From].ownStart()
	url := "http://" + g.configs[to].Self.Peer + path + "?" + sender.query(0)
	r, err := http.NewRequest("POST", url, bytes.NewReader(body))
	if err != nil {
		t.Fatal(err)
	}
	for name, value := range map[string]string{"X-Etcd-Cluster-ID": types.ID(g.nodes[to].identity.Group).String(), "X-Server-From": types.ID(message.From).String(),
		"X-Server-Version": "3.4.0", "X-Min-Cluster-Version": "3.0.0"} {
		r.Header.Set(name, value)
	}
	answer, err := http.DefaultClient.Do(r)
	if err != nil {
		return 0
	}
	defer answer.Body.Close()
	return answer.StatusCode
}

func TestADamagedSnapshotThatComesEndsNobody(t *testing.T) {
	t.Parallel()
	g := groupOf(t, 3)
	propose(t, g.nodes[1], "entry 1")
	leader := g.leader()
	to, term := g.other(leader), g.nodes[leader].Status().Term
	good, err := os.ReadFile(whole(t))
	if err != nil {
		t.Fatal(err)
	}
	message := func(index uint64) raftpb.Message {
		return raftpb.Message{Type: raftpb.MsgSnap, From: leader, To: to, Term: term, Snapshot: raftpb.Snapshot{
			Metadata: raftpb.SnapshotMetadata{Index: index, Term: term, ConfState: raftpb.ConfState{Voters: []uint64{1, 2, 3}}}}}
	}
	for i := uint64(0); i < 4; i++ {
		if status := post(t, g, to, message(1000000+i), []byte("garbage that is no snapshot, of forty bytes")); status != 422 {
			t.Errorf("garbage: status %d", status)
		}
	}
	if found := broken(t, g.configs[to]); len(found) != 2 {
		t.Errorf("of four damaged ones these are kept: %v", found)
	}
	if status := post(t, g, to, message(2000000), good); status != 422 {
		t.Errorf("whole, but of no member: status %d", status)
	}
	if status := post(t, g, to, message(3000000), nil); status != 400 {
		t.Errorf("a message without a file: status %d", status)
	}
	for i := 2; i <= 20; i++ {
		propose(t, g.nodes[to], fmt.Sprintf("entry %d", i))
	}
	g.alike(texts(1, 20))
	if left := files(t, g.configs[to], "*.snap.db"); len(left) != 0 {
		t.Errorf("these are kept: %v", left)
	}
}
