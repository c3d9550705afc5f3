package main

import (
	"context"
	"errors"
	"fmt"
	"time"

	"lrcman/service/client"
)

// The refusals of docs/RULES.md that this program tells apart.
const (
	noLawfulNode  = 103
	notHolder     = 114
	targetOffline = 115
)

const (
	limitOfMember = 5 * time.Second  // in which a member has to answer
	limitOfBook   = 30 * time.Second // in which members are asked again
)

// A Book asks lrcmand about the book of the cluster.
type Book struct {
	client *client.Client
	name   string
}

func newBook(cluster *Cluster) (*Book, error) {
	c, err := client.New(client.Config{Servers: cluster.Servers, Timeout: limitOfBook, Attempt: limitOfMember})
	return &Book{c, cluster.Book}, err
}

// isUndetermined tells whether an error says that there is no recipe: what is left does not determine the fragment.
func isUndetermined(err error) bool {
	var told *client.Error
	return errors.As(err, &told) && told.Code == client.CodeUndetermined
}

// Call makes a command once. Where nobody tells what came of it, it asks again by the same key, however long that takes: whoever
// went on as if it was not made would delete what it made, or leave what it was granted. The error is a client.KeyForgotten if
// nobody can know any more; any other one says that nothing was made.
func (b *Book) Call(worker string, command client.Command, more ...client.Option) (*client.Reply, error) {
	asked := append([]client.Option{client.WithWorker(worker)}, more...)
	options := asked
	for {
		reply, err := b.client.Call(context.Background(), b.name, command, options...)
		var unknown *client.OutcomeUnknown
		if !errors.As(err, &unknown) {
			return reply, err
		}
		fmt.Printf("%s: %v\n", command, err)
		options = append(asked[:len(asked):len(asked)], client.WithKey(unknown.Key, unknown.Since))
	}
}

// Change makes a command that has to be replied to by `changed`.
func (b *Book) Change(command client.Command) error {
	reply, err := b.Call("", command)
	if err == nil && reply.Kind != client.Changed {
		err = fmt.Errorf("%s: %s", command, reply.Line)
	}
	return err
}

// Next asks for the most urgent lease; nil: there is none. It peeks first, so that idle workers do not fill the history.
func (b *Book) Next(worker string) (*client.Grant, error) {
	reply, _, err := b.client.Peek(context.Background(), b.name, "next")
	if err == nil && reply.Kind == client.Granted {
		reply, err = b.Call(worker, "next")
	}
	if err != nil {
		return nil, err
	}
	return reply.Lease, nil
}

// Recipe tells how a fragment is rebuilt: the one with a live lease or, without some that are named as missing, any.
func (b *Book) Recipe(stripe, fragment int, missing []int) (map[int]int, []client.Source, error) {
	var without []uint8
	for _, it := range missing {
		without = append(without, uint8(it))
	}
	recipe, _, err := b.client.Recipe(context.Background(), b.name, uint16(stripe), uint8(fragment), without, client.WithNow())
	homes := map[int]int{}
	for _, source := range recipe.Sources {
		homes[int(source.Fragment)] = int(source.Home.Node)
	}
	return homes, recipe.Sources, err
}

// A Stripe is a stripe with the node of each fragment that has a home.
type Stripe struct {
	Number int
	Homes  map[int]int
}

func stripeOf(row client.Stripe) Stripe {
	stripe := Stripe{int(row.Number), map[int]int{}}
	for fragment, home := range row.Homes {
		if home != nil {
			stripe.Homes[fragment] = int(home.Node)
		}
	}
	return stripe
}

// Stripe looks where the fragments of a stripe are.
func (b *Book) Stripe(number int) (Stripe, error) {
	row, _, err := b.client.ShowStripe(context.Background(), b.name, uint16(number), client.WithNow())
	return stripeOf(row), err
}

// Stripes are all stripes.
func (b *Book) Stripes() ([]Stripe, error) {
	rows, _, err := b.client.ShowStripes(context.Background(), b.name, client.WithNow())
	var stripes []Stripe
	for _, row := range rows {
		stripes = append(stripes, stripeOf(row))
	}
	return stripes, err
}

// Matrix is the generator matrix of the wide code: a row for each fragment.
func (b *Book) Matrix() ([][]byte, error) { return b.client.Matrix(context.Background(), "wide") }

// Nodes are the rows of all nodes.
func (b *Book) Nodes() ([]client.Node, error) {
	rows, _, err := b.client.ShowNodes(context.Background(), b.name, client.WithNow())
	return rows, err
}

// MayLose tells whether no stripe is harmed if all that is on a node is lost.
func (b *Book) MayLose(node int) (bool, error) {
	outage := client.Outage{Nodes: []uint16{uint16(node)}}
	told, _, err := b.client.MayLose(context.Background(), b.name, outage, client.WithNow())
	return told.Safe, err
}
