package book_test

import (
	"bytes"
	"fmt"
	"log"
	"strings"

	"lrcman/service/book"
)

// nodes is a text of twenty nodes, each in a fault domain of its own.
func nodes() []byte {
	var text strings.Builder
	for i := 0; i < 20; i++ {
		fmt.Fprintf(&text, "[[node]]\nnumber = %d\nfault = %d\nupgrade = %d\nslots = 4\n", i, i, i%10)
	}
	return []byte(text.String())
}

func check(err error) {
	if err != nil {
		log.Fatal(err)
	}
}

// call makes the command of a line, and prints its reply.
func call(b *book.Book, line string) book.Entry {
	command, err := book.Parse(line)
	check(err)
	entry, err := b.Call(1, command)
	check(err)
	fmt.Println(entry.Reply.String())
	return entry
}

// A store keeps the entry of each call, and makes its book of them after a restart.
func Example() {
	check(book.Check())
	b, err := book.Open(nodes())
	check(err)
	var kept []book.Entry
	for _, line := range []string{"place 1", "fail 3", "next", "done 1 3 1", "done 1 3 1"} {
		kept = append(kept, call(b, line)) // (a store writes it to its log, and then acts on the reply)
	}
	b.Close()

	again, err := book.Open(nodes())
	check(err)
	defer again.Close()
	check(again.Replay(kept))
	homes, err := again.Homes(1)
	check(err)
	fmt.Println(again.Made(), homes[3].Seat)
	// Output:
	// placed 0:0 1:0 2:0 3:0 4:0 5:0 6:0 7:0 8:0 9:0 10:0 11:0 16:0 12:0 13:0 14:0
	// changed
	// granted 1 3 17:0 epoch 1 local 0 1 2 4 5 12
	// ended
	// refused 113
	// 5 17:0
}

// A viewer looks on a goroutine of its own, without the lock that orders the calls.
func ExamplePublished() {
	b, err := book.Open(nodes())
	check(err)
	p, err := b.Publish()
	check(err)
	b.Close()
	defer p.Close()
	v, err := p.View(nodes())
	check(err)
	command, err := book.Parse("place 1")
	check(err)
	_, err = p.Call(1, command) // what follows after it sees it
	check(err)

	seen := make(chan string)
	go func() {
		defer v.Close()
		place, _, err := v.Follow()
		check(err)
		level, err := v.Level(1)
		check(err)
		seen <- fmt.Sprint(place, " ", level.Kind)
	}()
	fmt.Println(<-seen)
	// Output: 1 whole
}

// A worker rebuilds the fragment of its lease from those that the recipe reads.
func ExampleRecipe_Rebuild() {
	b, err := book.Open(nodes())
	check(err)
	defer b.Close()
	stripe := make([][]byte, book.NarrowFragments)
	for f := range stripe {
		stripe[f] = bytes.Repeat([]byte{byte('a' + f)}, 5)
	}
	check(book.Encode(book.Narrow, stripe[:6], stripe[6:]))
	call(b, "place6 1")
	call(b, "fail 2")
	call(b, "next")

	recipe, err := b.Recipe(1, 2)
	check(err)
	stripe[2] = nil // (it is lost, and the others are read from their homes)
	rebuilt := make([]byte, 5)
	check(recipe.Rebuild(stripe, rebuilt))
	fmt.Printf("%s\n", rebuilt)
	// Output:
	// placed 0:0 1:0 2:0 3:0 4:0 5:0 6:0 7:0 8:0 9:0
	// changed
	// granted 1 2 12:0 epoch 1 local 0 1 6
	// ccccc
}
