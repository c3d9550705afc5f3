package main

import (
	"context"
	"fmt"

	"lrcman/service/client"
)

const mostPeeks = 64 // for a lease; more of the work would mostly have the same targets

// keepsLimit is false where a test wants to see what comes of it.
var keepsLimit = true

// What a worker takes, if not what comes next.
type choice struct {
	limit     int  // the most leases with their target on one node, also of other workers; 0: any number
	noneMoved bool // moves are left to others
}

func (c choice) isAny() bool { return c.limit == 0 && !c.noneMoved }

// allows tells whether so many leases with their target on one node are few enough.
func (c choice) allows(targets int) bool { return c.limit == 0 || targets <= c.limit || !keepsLimit }

// NextOf asks for the most urgent lease that is of this choice; nil: there is none. It peeks at each open row of the work, takes
// the first that fits, and looks again: two workers that took one each at the same time see each other's then, and the one that is
// above the limit, or both, gives its lease back before it writes anything. So no more than limit fragments are written to a node
// at a time.
func (b *Book) NextOf(worker string, wanted choice) (*client.Grant, error) {
	ctx := context.Background()
	rows, _, err := b.client.ShowWork(ctx, b.name, client.WithNow())
	if err != nil {
		return nil, err
	}
	targets, _, err := b.targets()
	if err != nil {
		return nil, err
	}
	peeks := 0
	for _, row := range rows {
		if row.Standing != "open" || row.Repair == "move" && wanted.noneMoved {
			continue
		}
		if peeks++; peeks > mostPeeks {
			break
		}
		command := client.Commandf("lease %d %d", row.Stripe, row.Fragment)
		reply, _, err := b.client.Peek(ctx, b.name, command)
		if err != nil {
			return nil, err
		}
		if reply.Kind == client.Granted && wanted.allows(targets[reply.Lease.Target.Node]+1) {
			return b.take(worker, command, wanted)
		}
	}
	return nil, nil
}

// take makes a lease, and gives it back if its target has more than the limit now.
func (b *Book) take(worker string, command client.Command, wanted choice) (*client.Grant, error) {
	reply, err := b.Call(worker, command)
	if err != nil || reply.Kind != client.Granted {
		return nil, err
	}
	lease := reply.Lease
	targets, n, err := b.targets()
	if count := targets[lease.Target.Node]; err == nil && wanted.allows(count) {
		if wanted.limit > 0 {
			fmt.Printf("stripe %d fragment %d epoch %d: %d of %d targets on node %d after entry %d\n", lease.Stripe, lease.Fragment,
				lease.Epoch, count, wanted.limit, lease.Target.Node, n)
		}
		return lease, nil
	}
	if _, abandoned := b.Call(worker, lease.Abandon()); err == nil {
		err = abandoned
	}
	return nil, err
}

// targets are how many live leases have their target on each node, after so many entries.
func (b *Book) targets() (map[uint16]int, uint64, error) {
	rows, look, err := b.client.ShowNodes(context.Background(), b.name, client.WithNow())
	targets := map[uint16]int{}
	for _, row := range rows {
		targets[row.Number] = row.Targets
	}
	return targets, look.N, err
}
