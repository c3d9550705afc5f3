package client_test

import (
	"context"
	"errors"
	"fmt"
	"log"
	"time"

	"lrcman/service/client"
)

// A worker takes the most urgent lease, does its work, and reports it. What nobody has told of is asked again by its key.
func Example() {
	c, err := client.New(client.Config{Servers: []string{"h1:7421", "h2:7421", "h3:7421"}})
	if err != nil {
		log.Fatal(err)
	}
	ctx, cancel := context.WithTimeout(context.Background(), time.Minute)
	defer cancel()
	worker := client.WithWorker("w7")
	reply, err := c.Call(ctx, "p0", "next", worker)
	if err != nil || reply.Kind != client.Granted {
		return
	}
	lease := reply.Lease
	recipe, _, err := c.Recipe(ctx, "p0", lease.Stripe, lease.Fragment, nil, client.WithNow())
	if err != nil {
		log.Fatal(err)
	}
	for _, source := range recipe.Sources {
		fmt.Printf("read fragment %d at %v, times %d\n", source.Fragment, source.Home, source.Coefficient)
	}
	_, err = c.Call(ctx, "p0", lease.Done(), worker)
	var unknown *client.OutcomeUnknown
	if errors.As(err, &unknown) {
		_, err = c.Call(ctx, "p0", lease.Done(), worker, client.WithKey(unknown.Key, unknown.Since))
	}
	if err != nil {
		log.Fatal(err)
	}
}

// A log is followed over the failures of members. To go on later, the number of the last entry is all that has to be kept.
func ExampleClient_Follow() {
	c, err := client.New(client.Config{Servers: []string{"h1:7421", "h2:7421"}, FindMembers: true})
	if err != nil {
		log.Fatal(err)
	}
	err = c.Follow(context.Background(), "p0", 0, func(entry client.Entry) error {
		fmt.Println(entry.N, entry.Session, entry.Command, entry.Line)
		return nil
	})
	var forgotten *client.Forgotten
	if errors.As(err, &forgotten) {
		fmt.Println("ask behind", forgotten.First)
	}
}
