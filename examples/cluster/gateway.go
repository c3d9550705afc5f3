package main

import (
	"encoding/json"
	"errors"
	"fmt"
	"io"
	"net/http"
	"os"
	"path/filepath"
	"strconv"
	"strings"
	"sync"
	"time"

	"lrcman/service/client"
)

// What the wide code has, and how long a fragment is.
const (
	fragmentsOfStripe = 16
	dataOfStripe      = 12
	mostStripes       = 4096 // of a book
	fragmentLength    = 64 << 10
)

const (
	mostPlaces   = 50 // times that a stripe is placed before it is given up
	pauseOfPlace = 200 * time.Millisecond
	ofReserve    = 16 // numbers of stripes that are reserved at once
)

// An Object is where the bytes of an object are.
type Object struct {
	Length  int
	Stripes []int
}

// An Index is what a gateway keeps, in a file that is written anew with each object.
type Index struct {
	Reserved int // no number of a stripe below it is used again: what is late may still have its name
	Objects  map[string]Object
}

// A Gateway puts and gets objects.
type Gateway struct {
	book   *Book
	nodes  *Nodes
	matrix [][]byte
	file   string

	mu    sync.Mutex
	index Index
	next  int // the number of the next stripe
}

func openGateway(cluster *Cluster, folder string) (*Gateway, error) {
	book, err := newBook(cluster)
	if err != nil {
		return nil, err
	}
	g := &Gateway{book: book, nodes: newNodes(cluster, limitOfNodes), file: filepath.Join(folder, "index")}
	g.index.Objects = map[string]Object{}
	text, err := os.ReadFile(g.file)
	if err == nil {
		err = json.Unmarshal(text, &g.index)
	} else if errors.Is(err, os.ErrNotExist) {
		err = makeFolder(folder)
	}
	g.next = g.index.Reserved
	if err != nil {
		return nil, err
	}
	if g.matrix, err = g.book.Matrix(); err != nil {
		return nil, err
	}
	return g, g.dropOthers()
}

// save keeps the index. The caller has the lock.
func (g *Gateway) save() error {
	text, err := json.Marshal(g.index)
	if err == nil {
		err = writeDurable(g.file, text)
	}
	return err
}

// number is a number of a stripe that was not used before.
func (g *Gateway) number() (int, error) {
	g.mu.Lock()
	defer g.mu.Unlock()
	if g.next == mostStripes {
		return 0, errors.New("each number of a stripe was used")
	}
	if g.next == g.index.Reserved {
		g.index.Reserved += ofReserve
		if err := g.save(); err != nil {
			g.index.Reserved -= ofReserve
			return 0, err
		}
	}
	g.next++
	return g.next - 1, nil
}

// dropOthers drops the stripes that are in no object: a gateway before this one ended while it wrote them.
func (g *Gateway) dropOthers() error {
	isKnown := map[int]bool{}
	for _, object := range g.index.Objects {
		for _, stripe := range object.Stripes {
			isKnown[stripe] = true
		}
	}
	stripes, err := g.book.Stripes()
	for _, stripe := range stripes {
		if err == nil && !isKnown[stripe.Number] {
			_, err = g.book.Call("", client.Commandf("drop %d", stripe.Number))
		}
	}
	return err
}

// Put writes an object. It is durable on all its nodes, and in the index, when it returns.
func (g *Gateway) Put(name string, content []byte) error {
	object := Object{Length: len(content)}
	for len(content) > 0 {
		part := make([]byte, dataOfStripe*fragmentLength) // the last one is filled up with zeros
		content = content[copy(part, content):]
		stripe, err := g.putStripe(part)
		if err != nil {
			return err
		}
		object.Stripes = append(object.Stripes, stripe)
	}
	g.mu.Lock()
	defer g.mu.Unlock()
	g.index.Objects[name] = object
	return g.save()
}

// putStripe encodes a stripe, and has it placed until all of its fragments could be written.
func (g *Gateway) putStripe(part []byte) (int, error) {
	data := cut(part, fragmentLength)
	fragments := append(data, combine(g.matrix[dataOfStripe:], data)...)
	for try := 0; try < mostPlaces; try++ {
		stripe, err := g.number()
		if err != nil {
			return 0, err
		}
		reply, err := g.book.Call("", client.Commandf("place %d", stripe))
		switch {
		case err != nil:
			return 0, err
		case reply.Kind == client.Placed:
			if g.writeAll(stripe, reply.Seats, fragments) {
				return stripe, nil
			}
			if _, err := g.book.Call("", client.Commandf("drop %d", stripe)); err != nil {
				return 0, err
			}
		case reply.Refusal != noLawfulNode:
			return 0, errors.New(reply.Line)
		}
		time.Sleep(pauseOfPlace) // until the monitor knows which nodes do not answer
	}
	return 0, errors.New("no sixteen nodes take the stripe")
}

// writeAll writes all fragments to their homes at once, and tells whether all of them are durable.
func (g *Gateway) writeAll(stripe int, homes []client.Seat, fragments [][]byte) bool {
	failures := make(chan error)
	for fragment, home := range homes {
		go func(node, fragment int) {
			failures <- g.nodes.Write(node, Name{stripe, fragment, 0}, fragments[fragment])
		}(int(home.Node), fragment)
	}
	isWhole := true
	for range homes {
		isWhole = <-failures == nil && isWhole
	}
	if !isWhole {
		for fragment, home := range homes { // (as far as it goes: what is left takes room, and is never read)
			_ = g.nodes.Delete(int(home.Node), Name{stripe, fragment, 0})
		}
	}
	return isWhole
}

// Get reads an object, and tells how many of its fragments had to be rebuilt.
func (g *Gateway) Get(object Object) (content []byte, rebuilt int, err error) {
	for _, stripe := range object.Stripes {
		part, missing, err := g.getStripe(stripe)
		if err != nil {
			return nil, 0, err
		}
		content, rebuilt = append(content, part...), rebuilt+missing
	}
	return content[:object.Length], rebuilt, nil
}

func (g *Gateway) getStripe(number int) (part []byte, rebuilt int, err error) {
	stripe, err := g.book.Stripe(number)
	if err != nil {
		return nil, 0, err
	}
	for parity := dataOfStripe; parity < fragmentsOfStripe; parity++ {
		delete(stripe.Homes, parity)
	}
	found, _ := g.nodes.ReadAll(number, stripe.Homes)
	var missing []int
	for fragment := 0; fragment < dataOfStripe; fragment++ {
		if found[fragment] == nil {
			missing = append(missing, fragment)
		}
	}
	for _, fragment := range missing {
		if found[fragment], _, err = rebuild(g.book, g.nodes, number, fragment, missing); err != nil {
			return nil, 0, fmt.Errorf("fragment %d of stripe %d: %w", fragment, number, err)
		}
	}
	for fragment := 0; fragment < dataOfStripe; fragment++ {
		part = append(part, found[fragment]...)
	}
	return part, len(missing), nil
}

// ServeHTTP puts and gets at /objects/NAME.
func (g *Gateway) ServeHTTP(w http.ResponseWriter, r *http.Request) {
	name := strings.TrimPrefix(r.URL.Path, "/objects/")
	var err error
	switch {
	case r.URL.Path == "/":
	case r.Method == "PUT":
		var content []byte
		if content, err = io.ReadAll(r.Body); err == nil {
			err = g.Put(name, content)
		}
	case r.Method == "GET":
		err = g.serveGet(w, name)
	default:
		err = errors.New("this takes PUT and GET")
	}
	answerError(w, err)
}

func (g *Gateway) serveGet(w http.ResponseWriter, name string) error {
	g.mu.Lock()
	object, isThere := g.index.Objects[name]
	g.mu.Unlock()
	if !isThere {
		return os.ErrNotExist
	}
	content, rebuilt, err := g.Get(object)
	if err == nil {
		w.Header().Set("Rebuilt", strconv.Itoa(rebuilt))
		_, err = w.Write(content)
	}
	return err
}

func runGateway(given options) error {
	gateway, err := openGateway(given.cluster, given.folder)
	if err != nil {
		return err
	}
	return http.ListenAndServe(given.cluster.Gateway, gateway)
}
