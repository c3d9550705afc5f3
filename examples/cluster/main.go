// Command cluster is a small store that moves bytes: nodes, a gateway, workers and a monitor, over the book that lrcmand serves.
// README.md says what each of them does.
package main

import (
	"encoding/json"
	"flag"
	"fmt"
	"os"
)

// A Node is a machine with a disk.
type Node struct {
	Number  int
	Address string
}

// A Cluster is what all processes know: who is there, and where.
type Cluster struct {
	Book    string
	Servers []string // members of lrcmand
	Gateway string
	Nodes   []Node
}

func readCluster(file string) (*Cluster, error) {
	text, err := os.ReadFile(file)
	if err != nil {
		return nil, err
	}
	cluster := &Cluster{}
	if err := json.Unmarshal(text, cluster); err != nil {
		return nil, fmt.Errorf("%s: %w", file, err)
	}
	return cluster, nil
}

func (c *Cluster) node(number int) (Node, error) {
	for _, node := range c.Nodes {
		if node.Number == number {
			return node, nil
		}
	}
	return Node{}, fmt.Errorf("there is no node %d", number)
}

// The options of a part of the cluster.
type options struct {
	cluster *Cluster
	folder  string
	number  int
	wanted  choice
}

// parts are what the first word names.
var parts = map[string]func(options) error{
	"node": runNode, "gateway": runGateway, "worker": runWorker, "monitor": runMonitor, "scrub": runScrub,
	"move": runMove,
}

func run(part func(options) error, words []string) error {
	set := flag.NewFlagSet("cluster", flag.ExitOnError)
	file := set.String("cluster", "cluster.json", "the file that describes the cluster")
	folder := set.String("folder", "", "the folder of a node or of the gateway")
	number := set.Int("number", 0, "the number of a node or of a worker")
	limit := set.Int("targets", 0, "of a worker: the most leases with their target on one node, also of other workers; 0: any number")
	noneMoved := set.Bool("repairs", false, "of a worker: take repairs alone, and leave moves to others")
	if err := set.Parse(words); err != nil {
		return err
	}
	cluster, err := readCluster(*file)
	if err != nil {
		return err
	}
	if *limit < 0 {
		return fmt.Errorf("-targets is below 0")
	}
	return part(options{cluster, *folder, *number, choice{*limit, *noneMoved}})
}

func main() {
	if len(os.Args) < 2 || parts[os.Args[1]] == nil {
		fmt.Fprintln(os.Stderr, "cluster: the first word has to be node, gateway, worker, monitor, scrub or move")
		os.Exit(2)
	}
	if err := run(parts[os.Args[1]], os.Args[2:]); err != nil {
		fmt.Fprintf(os.Stderr, "cluster %s: %v\n", os.Args[1], err)
		os.Exit(1)
	}
}
