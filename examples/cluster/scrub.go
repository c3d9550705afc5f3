package main

import (
	"fmt"

	"lrcman/service/client"
)

// mend replaces a damaged fragment of a node that is well, as docs/CODING.md has it: it is leased as if its node were to be
// emptied, and rebuilt without it.
func mend(book *Book, nodes *Nodes, stripe, fragment, node int) (result, error) {
	if err := book.Change(client.Commandf("drain %d", node)); err != nil {
		return result{}, err
	}
	reply, err := book.Call("scrub", client.Commandf("lease %d %d", stripe, fragment))
	if err := book.Change(client.Commandf("undrain %d", node)); err != nil {
		return result{}, err
	}
	if err != nil {
		return result{}, err
	}
	if reply.Kind != client.Granted { // (where a worker was faster, it finds the checksum wrong and rebuilds too)
		return result{words: reply.Line}, nil
	}
	w := worker{"scrub", book, nodes, choice{}}
	return w.repair(reply.Lease, []int{fragment})
}

// wholeOf are the places of the fragments that are whole, by node. A node that does not answer has none: the monitor knows of it.
func wholeOf(nodes *Nodes) map[int]map[string]bool {
	whole := map[int]map[string]bool{}
	for _, node := range nodes.cluster.Nodes {
		names, err := nodes.Whole(node.Number)
		if err != nil {
			continue
		}
		whole[node.Number] = map[string]bool{}
		for _, name := range names {
			whole[node.Number][name.place()] = true
		}
	}
	return whole
}

// runScrub has every node compare the checksums of all that it has, and mends each fragment that is damaged or not there.
func runScrub(given options) error {
	book, err := newBook(given.cluster)
	if err != nil {
		return err
	}
	nodes := newNodes(given.cluster, limitOfNodes)
	stripes, err := book.Stripes()
	if err != nil {
		return err
	}
	whole := wholeOf(nodes)
	for _, stripe := range stripes {
		for fragment, node := range stripe.Homes {
			if whole[node] == nil || whole[node][Name{stripe.Number, fragment, 0}.place()] {
				continue
			}
			done, err := mend(book, nodes, stripe.Number, fragment, node)
			if err != nil {
				return err
			}
			fmt.Printf("node %d stripe %d fragment %d reads %d: %s\n", node, stripe.Number, fragment, done.reads, done.words)
		}
	}
	return nil
}
