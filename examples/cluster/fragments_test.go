package main

import (
	"bytes"
	"net/http"
	"net/http/httptest"
	"os"
	"path/filepath"
	"reflect"
	"strings"
	"testing"
)

func open(t *testing.T, folder string) *Store {
	t.Helper()
	store, err := openStore(folder)
	if err != nil {
		t.Fatal(err)
	}
	return store
}

// full is a fragment that has the same byte everywhere.
func full(one byte) []byte { return bytes.Repeat([]byte{one}, fragmentLength) }

func TestNamesHoldStripeFragmentAndEpoch(t *testing.T) {
	name := Name{17, 3, 2}
	if again, err := parseName("17.3.epoch2"); err != nil || again != name || name.String() != "17.3.epoch2" {
		t.Error(again, err)
	}
	if name.place() != "17.3" {
		t.Error(name.place())
	}
	for _, text := range []string{"", "17.3", "17.3.epoch", "17.3.epoch02", "17.3.epoch2x", "17.3.epoch-1", "part-1"} {
		if name, err := parseName(text); err == nil {
			t.Errorf("%q is %v", text, name)
		}
	}
}

// Each step is a write or a deletion, and what is there after it.
func TestANodeKeepsTheNewestEpoch(t *testing.T) {
	folder := t.TempDir()
	store := open(t, folder)
	for _, it := range []struct {
		act  string
		name Name
		text string
		err  error
		want string // "" where nothing is there
	}{
		{"write", Name{1, 2, 0}, "first", nil, "first"},
		{"write", Name{1, 2, 3}, "third", nil, "third"},
		{"write", Name{1, 2, 2}, "late", errFenced, "third"},
		{"write", Name{1, 2, 3}, "again", nil, "again"},
		{"delete", Name{1, 2, 2}, "", nil, "again"},
		{"open", Name{1, 2, 0}, "", nil, "again"},
		{"write", Name{1, 2, 2}, "late", errFenced, "again"},
		{"delete", Name{1, 2, 4}, "", nil, ""},
		{"write", Name{1, 2, 1}, "anew", nil, "anew"},
	} {
		var err error
		switch it.act {
		case "write":
			err = store.Write(it.name, []byte(it.text))
		case "delete":
			err = store.Delete(it.name)
		default:
			store = open(t, folder)
		}
		text, _, _ := store.Read(it.name.place())
		if err != it.err || string(text) != it.want {
			t.Errorf("%s %v %s: %v, and %q is there", it.act, it.name, it.text, err, text)
		}
	}
	if files, err := os.ReadDir(folder); err != nil || len(files) != 1 {
		t.Error(files, err)
	}
}

func TestANodeThatStartsDeletesWhatIsHalfWrittenOrReplaced(t *testing.T) {
	folder := t.TempDir()
	for _, name := range []string{"part-17", "1.2.epoch3", "1.2.epoch10", "1.2.epoch9", "1.3.epoch0"} {
		if err := os.WriteFile(filepath.Join(folder, name), []byte("\x00\x00\x00\x00"), 0o644); err != nil {
			t.Fatal(err)
		}
	}
	open(t, folder)
	files, err := os.ReadDir(folder)
	if err != nil || len(files) != 2 || files[0].Name() != "1.2.epoch10" || files[1].Name() != "1.3.epoch0" {
		t.Error(files, err)
	}
}

// change makes one byte of a file another one.
func change(t *testing.T, file string) {
	t.Helper()
	text, err := os.ReadFile(file)
	if err == nil {
		text[5] ^= 4
		err = os.WriteFile(file, text, 0o644)
	}
	if err != nil {
		t.Fatal(err)
	}
}

func TestADamagedFragmentIsNeitherWholeNorRead(t *testing.T) {
	folder := t.TempDir()
	server := httptest.NewServer(open(t, folder))
	defer server.Close()
	nodes := newNodes(&Cluster{Nodes: []Node{{7, strings.TrimPrefix(server.URL, "http://")}}}, limitOfNodes)
	for fragment := 0; fragment < 3; fragment++ {
		if err := nodes.Write(7, Name{1, fragment, 2}, full(byte(fragment))); err != nil {
			t.Fatal(err)
		}
	}
	if err := nodes.Write(7, Name{2, 0, 0}, []byte("short")); err != nil {
		t.Fatal(err)
	}
	if err := nodes.Write(7, Name{1, 0, 1}, []byte("late")); err != errFenced {
		t.Error(err)
	}
	change(t, filepath.Join(folder, "1.1.epoch2"))
	found, failed := nodes.ReadAll(1, map[int]int{0: 7, 1: 7, 2: 7, 3: 7, 4: 8})
	if len(found) != 2 || !bytes.Equal(found[2], full(2)) || !reflect.DeepEqual(failed, []int{1, 3, 4}) {
		t.Error(len(found), failed)
	}
	if _, err := nodes.Read(7, 2, 0); err == nil {
		t.Error("a short fragment is read")
	}
	whole, err := nodes.Whole(7)
	for _, name := range whole {
		if name == (Name{1, 1, 2}) {
			t.Error("it is whole")
		}
	}
	if err != nil || len(whole) != 3 {
		t.Error(whole, err)
	}
	if err := nodes.Empty(7); err != nil {
		t.Error(err)
	}
	if files, err := os.ReadDir(folder); err != nil || len(files) != 0 {
		t.Error(files, err)
	}
}

// A file is cut within its checksum, of which three bytes, two, one or none are left.
func TestAFileThatIsCutIsDamaged(t *testing.T) {
	folder := t.TempDir()
	store := open(t, folder)
	server := httptest.NewServer(store)
	defer server.Close()
	name := Name{1, 2, 3}
	for length := int64(3); length >= 0; length-- {
		if err := store.Write(name, full(7)); err != nil {
			t.Fatal(err)
		}
		if err := os.Truncate(filepath.Join(folder, name.String()), length); err != nil {
			t.Fatal(err)
		}
		if data, sum, err := store.Read(name.place()); err == nil {
			t.Errorf("%d bytes are read as %q with the checksum %x: %v", length, data, sum, err)
		}
		if whole := store.Whole(); len(whole) != 0 {
			t.Errorf("of %d bytes, %v is whole", length, whole)
		}
		answer, err := http.Get(server.URL + "/fragments/" + name.place())
		if err != nil {
			t.Fatal(err)
		}
		answer.Body.Close()
		if answer.StatusCode != http.StatusServiceUnavailable {
			t.Errorf("of %d bytes: %s", length, answer.Status)
		}
	}
}

func TestBytesThatChangedOnTheWayAreNotWritten(t *testing.T) {
	server := httptest.NewServer(open(t, t.TempDir()))
	defer server.Close()
	request, err := http.NewRequest("PUT", server.URL+"/fragments/1.2.epoch0", strings.NewReader("bytes"))
	if err != nil {
		t.Fatal(err)
	}
	request.Header.Set("Checksum", "0")
	answer, err := http.DefaultClient.Do(request)
	if err != nil {
		t.Fatal(err)
	}
	defer answer.Body.Close()
	if answer.StatusCode != http.StatusServiceUnavailable {
		t.Error(answer.Status)
	}
}

// The sums are those of the field of docs/RULES.md: there 2 times 128 is 29.
func TestSumsAreThoseOfTheField(t *testing.T) {
	for _, it := range []struct{ rows, sources, want [][]byte }{
		{[][]byte{{1, 1}}, [][]byte{{1, 2}, {4, 2}}, [][]byte{{5, 0}}},
		{[][]byte{{2, 0}, {0, 1}}, [][]byte{{128, 3}, {9, 9}}, [][]byte{{29, 6}, {9, 9}}},
	} {
		if have := combine(it.rows, it.sources); !bytes.Equal(bytes.Join(have, nil), bytes.Join(it.want, nil)) {
			t.Error(have, it.want)
		}
	}
}
