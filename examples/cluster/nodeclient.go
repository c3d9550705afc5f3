package main

import (
	"bytes"
	"encoding/json"
	"fmt"
	"hash/crc32"
	"io"
	"net/http"
	"sort"
	"strconv"
	"sync"
	"time"
)

// limitOfNodes is how long a node may take to answer.
const limitOfNodes = 10 * time.Second

// Nodes asks the nodes of a cluster.
type Nodes struct {
	cluster *Cluster
	client  http.Client
}

func newNodes(cluster *Cluster, limit time.Duration) *Nodes {
	return &Nodes{cluster, http.Client{Timeout: limit, Transport: &http.Transport{MaxIdleConnsPerHost: 4}}}
}

// comparesChecksums is true. (A faulty program, which only tests make, takes whatever bytes a node gives)
var comparesChecksums = true

func (n *Nodes) ask(number int, method, path string, body []byte) (data []byte, head http.Header, err error) {
	node, err := n.cluster.node(number)
	if err != nil {
		return nil, nil, err
	}
	request, err := http.NewRequest(method, "http://"+node.Address+path, bytes.NewReader(body))
	if err != nil {
		return nil, nil, err
	}
	if body != nil {
		request.Header.Set("Checksum", strconv.FormatUint(uint64(crc32.ChecksumIEEE(body)), 16))
	}
	answer, err := n.client.Do(request)
	if err != nil {
		return nil, nil, err
	}
	defer answer.Body.Close()
	data, err = io.ReadAll(answer.Body)
	if err == nil && answer.StatusCode == http.StatusConflict {
		err = errFenced
	} else if err == nil && answer.StatusCode != http.StatusOK {
		err = fmt.Errorf("node %d answers %d: %s", number, answer.StatusCode, bytes.TrimSpace(data))
	}
	return data, answer.Header, err
}

// Write writes a fragment, durable when it returns. errFenced: a newer epoch is there.
func (n *Nodes) Write(node int, name Name, data []byte) error {
	_, _, err := n.ask(node, "PUT", "/fragments/"+name.String(), data)
	return err
}

// Delete deletes a fragment, if no newer epoch is there.
func (n *Nodes) Delete(node int, name Name) error {
	_, _, err := n.ask(node, "DELETE", "/fragments/"+name.String(), nil)
	return err
}

// Empty deletes all that is on a node.
func (n *Nodes) Empty(node int) error {
	_, _, err := n.ask(node, "DELETE", "/fragments", nil)
	return err
}

// Answers tells whether a node answers.
func (n *Nodes) Answers(node int) bool {
	_, _, err := n.ask(node, "GET", "/", nil)
	return err == nil
}

// Whole has a node read all its fragments, and gives the names of those whose checksum is right.
func (n *Nodes) Whole(node int) (names []Name, err error) {
	data, _, err := n.ask(node, "GET", "/fragments", nil)
	if err == nil {
		err = json.Unmarshal(data, &names)
	}
	return names, err
}

// Read reads a fragment, and compares its length and its checksum.
func (n *Nodes) Read(node, stripe, fragment int) ([]byte, error) {
	data, head, err := n.ask(node, "GET", "/fragments/"+Name{stripe, fragment, 0}.place(), nil)
	if err != nil {
		return nil, err
	}
	isRight := head.Get("Checksum") == strconv.FormatUint(uint64(crc32.ChecksumIEEE(data)), 16)
	if len(data) != fragmentLength || !isRight && comparesChecksums {
		return nil, fmt.Errorf("fragment %d.%d on node %d is damaged", stripe, fragment, node)
	}
	return data, nil
}

// ReadAll reads fragments of a stripe at their homes, all at once. It returns those that could be read, and the numbers of the
// others.
func (n *Nodes) ReadAll(stripe int, homes map[int]int) (map[int][]byte, []int) {
	var mu sync.Mutex
	var wait sync.WaitGroup
	found, failed := map[int][]byte{}, []int(nil)
	for fragment, node := range homes {
		wait.Add(1)
		go func(fragment, node int) {
			defer wait.Done()
			data, err := n.Read(node, stripe, fragment)
			mu.Lock()
			defer mu.Unlock()
			if err == nil {
				found[fragment] = data
			} else {
				failed = append(failed, fragment)
			}
		}(fragment, node)
	}
	wait.Wait()
	sort.Ints(failed)
	return found, failed
}
