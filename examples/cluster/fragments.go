package main

import (
	"encoding/binary"
	"encoding/json"
	"errors"
	"fmt"
	"hash/crc32"
	"io"
	"net/http"
	"os"
	"path/filepath"
	"strconv"
	"strings"
	"sync"
)

// A Name is that of bytes of a fragment: those that were written under one lease, or with epoch 0 by who placed the stripe.
type Name struct {
	Stripe, Fragment int
	Epoch            uint32
}

func (n Name) String() string { return fmt.Sprintf("%d.%d.epoch%d", n.Stripe, n.Fragment, n.Epoch) }

func parseName(word string) (name Name, err error) {
	if _, err = fmt.Sscanf(word, "%d.%d.epoch%d", &name.Stripe, &name.Fragment, &name.Epoch); err == nil && name.String() != word {
		err = fmt.Errorf("%q is no name of a fragment", word)
	}
	return name, err
}

// place is the name without the epoch.
func (n Name) place() string { return fmt.Sprintf("%d.%d", n.Stripe, n.Fragment) }

// errFenced says that a write came too late.
var errFenced = errors.New("a newer epoch of the fragment is there")

// errCut says that a file is shorter than its checksum. (No bytes have the checksum 0, so it must not be read as these)
var errCut = errors.New("the file of the fragment is cut")

// hasFence is true. (A faulty program, which only tests make, writes without the fence)
var hasFence = true

// A Store keeps the fragments of a node in a folder. A file begins with the checksum of its other bytes, and its name holds the
// epoch. Of each fragment only the newest epoch is kept.
type Store struct {
	folder string
	mu     sync.Mutex
	newest map[string]Name // by place
}

func openStore(folder string) (*Store, error) {
	if err := makeFolder(folder); err != nil {
		return nil, err
	}
	files, err := os.ReadDir(folder)
	if err != nil {
		return nil, err
	}
	store := &Store{folder: folder, newest: map[string]Name{}}
	for _, file := range files {
		name, err := parseName(file.Name())
		older, isThere := store.newest[name.place()]
		switch {
		case err != nil, isThere && older.Epoch > name.Epoch: // half written, or replaced
			err = os.Remove(filepath.Join(folder, file.Name()))
		default:
			store.newest[name.place()] = name
			if err = nil; isThere {
				err = os.Remove(store.file(older))
			}
		}
		if err != nil {
			return nil, err
		}
	}
	return store, nil
}

func (s *Store) file(name Name) string { return filepath.Join(s.folder, name.String()) }

// Write keeps the bytes of a fragment, durable when it returns. It refuses an epoch that is older than what is there.
func (s *Store) Write(name Name, data []byte) error {
	s.mu.Lock()
	defer s.mu.Unlock()
	older, isThere := s.newest[name.place()]
	if isThere && name.Epoch < older.Epoch && hasFence {
		return errFenced
	}
	head := binary.BigEndian.AppendUint32(nil, crc32.ChecksumIEEE(data))
	if err := writeDurable(s.file(name), head, data); err != nil {
		return err
	}
	s.newest[name.place()] = name
	if isThere && older != name {
		return os.Remove(s.file(older))
	}
	return nil
}

// writeDurable makes a file that is whole and durable, or leaves what was there.
func writeDurable(path string, parts ...[]byte) (err error) {
	file, err := os.CreateTemp(filepath.Dir(path), "part-")
	if err != nil {
		return err
	}
	defer os.Remove(file.Name()) // (which fails once it is renamed)
	for _, part := range parts {
		if err == nil {
			_, err = file.Write(part)
		}
	}
	if err == nil {
		err = file.Sync()
	}
	if closed := file.Close(); err == nil {
		err = closed
	}
	if err == nil {
		err = os.Rename(file.Name(), path)
	}
	if err == nil {
		err = syncFolder(filepath.Dir(path))
	}
	return err
}

// makeFolder makes a folder, durable, if it is not there.
func makeFolder(path string) error {
	if err := os.MkdirAll(path, 0o755); err != nil {
		return err
	}
	return syncFolder(filepath.Dir(path))
}

// syncFolder makes the names in a folder durable.
func syncFolder(path string) error {
	folder, err := os.Open(path)
	if err != nil {
		return err
	}
	defer folder.Close()
	return folder.Sync()
}

// Read gives the newest bytes of a fragment with the checksum that was written with them. The reader compares them.
func (s *Store) Read(place string) (data []byte, sum uint32, err error) {
	s.mu.Lock()
	defer s.mu.Unlock()
	name, isThere := s.newest[place]
	if !isThere {
		return nil, 0, os.ErrNotExist
	}
	data, err = os.ReadFile(s.file(name))
	if err == nil && len(data) < 4 {
		err = errCut
	}
	if err != nil {
		return nil, 0, err
	}
	return data[4:], binary.BigEndian.Uint32(data), nil
}

// Delete deletes the fragment, if what is there is not newer than the epoch of the name.
func (s *Store) Delete(name Name) error {
	s.mu.Lock()
	defer s.mu.Unlock()
	there, isThere := s.newest[name.place()]
	if !isThere || there.Epoch > name.Epoch {
		return nil
	}
	delete(s.newest, name.place())
	return os.Remove(s.file(there))
}

// names are those of all fragments.
func (s *Store) names() []Name {
	s.mu.Lock()
	defer s.mu.Unlock()
	var names []Name
	for _, name := range s.newest {
		names = append(names, name)
	}
	return names
}

// Empty deletes everything.
func (s *Store) Empty() error {
	for _, name := range s.names() {
		if err := s.Delete(name); err != nil {
			return err
		}
	}
	return nil
}

// Whole reads everything, and names the fragments whose checksum is right.
func (s *Store) Whole() []Name {
	whole := []Name{}
	for _, name := range s.names() {
		if data, sum, err := s.Read(name.place()); err == nil && crc32.ChecksumIEEE(data) == sum {
			whole = append(whole, name)
		}
	}
	return whole
}

// ServeHTTP answers at /, /fragments, /fragments/NAME and, to read, /fragments/STRIPE.FRAGMENT.
func (s *Store) ServeHTTP(w http.ResponseWriter, r *http.Request) {
	var err error
	switch path := r.URL.Path; {
	case path == "/":
	case path == "/fragments" && r.Method == "GET":
		err = json.NewEncoder(w).Encode(s.Whole())
	case path == "/fragments" && r.Method == "DELETE":
		err = s.Empty()
	case strings.HasPrefix(path, "/fragments/"):
		err = s.serveFragment(w, r, strings.TrimPrefix(path, "/fragments/"))
	default:
		err = os.ErrNotExist
	}
	answerError(w, err)
}

// answerError answers with an error, if there is one.
func answerError(w http.ResponseWriter, err error) {
	switch {
	case errors.Is(err, os.ErrNotExist):
		http.Error(w, err.Error(), http.StatusNotFound)
	case errors.Is(err, errFenced):
		http.Error(w, err.Error(), http.StatusConflict)
	case err != nil:
		http.Error(w, err.Error(), http.StatusServiceUnavailable)
	}
}

func (s *Store) serveFragment(w http.ResponseWriter, r *http.Request, word string) error {
	if r.Method == "GET" {
		data, sum, err := s.Read(word)
		if err == nil {
			w.Header().Set("Checksum", strconv.FormatUint(uint64(sum), 16))
			_, err = w.Write(data)
		}
		return err
	}
	name, err := parseName(word)
	if err != nil {
		return err
	}
	if r.Method == "DELETE" {
		return s.Delete(name)
	}
	data, err := io.ReadAll(r.Body)
	if err != nil {
		return err
	}
	if r.Method != "PUT" || r.Header.Get("Checksum") != strconv.FormatUint(uint64(crc32.ChecksumIEEE(data)), 16) {
		return errors.New("this takes GET, DELETE, and PUT with the checksum of the bytes")
	}
	return s.Write(name, data)
}

func runNode(given options) error {
	node, err := given.cluster.node(given.number)
	if err != nil {
		return err
	}
	store, err := openStore(given.folder)
	if err != nil {
		return err
	}
	return http.ListenAndServe(node.Address, store)
}
