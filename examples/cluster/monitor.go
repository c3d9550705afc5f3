package main

import (
	"fmt"
	"time"

	"lrcman/service/client"
)

// How often nodes are asked, and how often in a row before the book is told.
const (
	pauseOfMonitor = 200 * time.Millisecond
	limitOfMonitor = 5 * time.Second
	missesToDown   = 3
	missesToFail   = 15
	answersToUp    = 2
)

// A monitor tells the book which nodes do not answer, and which do again.
type monitor struct {
	book    *Book
	nodes   *Nodes
	answers map[int]int // by node: how often it answered in a row, or with a minus did not
}

// round asks all nodes once.
func (m *monitor) round() error {
	rows, err := m.book.Nodes()
	if err != nil {
		return err
	}
	type answer struct {
		row     client.Node
		answers bool
	}
	told := make(chan answer)
	for _, row := range rows {
		go func(row client.Node) { told <- answer{row, m.nodes.Answers(int(row.Number))} }(row)
	}
	var failed error
	for range rows {
		it := <-told
		node := int(it.row.Number)
		m.count(node, it.answers)
		if err := m.decide(it.row, m.answers[node]); err != nil {
			failed = err
		}
	}
	return failed
}

func (m *monitor) count(node int, answers bool) {
	switch count := m.answers[node]; {
	case answers && count < 0:
		m.answers[node] = 1
	case answers:
		m.answers[node]++
	case count > 0:
		m.answers[node] = -1
	default:
		m.answers[node]--
	}
}

// decide makes the commands that a node calls for, if there are any. Those of a domain that upgrades are left alone.
func (m *monitor) decide(row client.Node, answers int) error {
	switch isGone, node := row.Mode == "gone", int(row.Number); {
	case row.Upgrading:
		return nil
	case isGone && answers >= answersToUp: // the book has given up what is on it
		if err := m.nodes.Empty(node); err != nil {
			return err
		}
		return m.tell(client.Commandf("join %d", row.Number))
	case row.Down && answers >= answersToUp:
		return m.tell(client.Commandf("up %d", row.Number))
	case !isGone && !row.Down && answers <= -missesToDown:
		return m.tell(client.Commandf("down %d", row.Number))
	case !isGone && row.Down && answers <= -missesToFail:
		return m.fail(node)
	}
	return nil
}

// fail gives up on a node, unless that harms a stripe: then an operator has to bring the node back, or to decide.
func (m *monitor) fail(node int) error {
	isSafe, err := m.book.MayLose(node)
	if err != nil || !isSafe {
		return err
	}
	return m.tell(client.Commandf("fail %d", node))
}

func (m *monitor) tell(command client.Command) error {
	fmt.Println(command)
	return m.book.Change(command)
}

func runMonitor(given options) error {
	book, err := newBook(given.cluster)
	if err != nil {
		return err
	}
	m := &monitor{book, newNodes(given.cluster, limitOfMonitor), map[int]int{}}
	for {
		if err := m.round(); err != nil {
			fmt.Println("monitor:", err)
		}
		time.Sleep(pauseOfMonitor)
	}
}
