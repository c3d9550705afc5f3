// Package client asks a group of lrcmand, as docs/SERVICE.md has it, and commands it.
//
//	c, err := client.New(client.Config{Servers: []string{"h1:7421", "h2:7421", "h3:7421"}})
//	if err != nil {
//		return err
//	}
//	reply, err := c.Call(ctx, "p0", "place 17")
//
// A Client may be used by several goroutines at once. It asks one member after the other until one answers, or Config.Timeout
// or the context is over. A member that sends Retry-After is left alone so long.
//
// # Each request is made at most once
//
// Every request that changes a book or makes one has a random key, and a since: an index of the log that was heard before its
// first try. Both are the same in each try, so that it is made once however often it is sent. These errors say more than that it
// failed:
//
//   - An OutcomeUnknown: it was sent, and its outcome is unknown. It may have been made, or still be made. Retry with its key
//     and since, by WithKey, now or in another process: then it is made once all the same.
//   - A KeyForgotten: it may have been made, and the group has forgotten its key since. Nobody will know by this key: look at the
//     book.
//
// Any other error of such a request says that nothing was made. An *Error is the answer of a member, with its status and its
// code. A refusal by the rules is no error: it is a reply of the kind Refused, and an entry of the book.
package client
