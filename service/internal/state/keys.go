package state

import (
	"fmt"

	"lrcman/service/book"
)

// MostKeys are the keys that a book keeps, and those that the group keeps of books that are made, opened again and removed. The
// oldest is forgotten first, by count.
const MostKeys = 4096

// A keyName is a key of an owner: the length of the owner's name, that name, and the key. (One text, since there are many)
type keyName string

func nameOf(owner, key string) keyName {
	return keyName([]byte{byte(len(owner)), byte(len(owner) >> 8)}) + keyName(owner+key)
}

func (n keyName) parts() (owner, key string) {
	length := 2 + int(n[0]) + int(n[1])<<8
	return string(n[2:length]), string(n[length:])
}

// A told is what a keyed request was answered when it was made.
type told struct {
	at      uint64 // the number of the stamp at which it was made
	made    uint64
	opens   uint64
	holder  string
	reply   book.Reply
	isAgain bool
}

// A kept is a request that came with a key, and its answer. A book has thousands, so the fields of both stand where they take
// little room.
type kept[A comparable] struct {
	name  keyName
	asked A
	told  told
}

// keys are the last keyed requests, the oldest first, and up to where earlier ones are forgotten.
type keys[A comparable] struct {
	most   int
	forgot Stamp // of the newest one that is forgotten; before that the stamp at which these keys began
	rows   []kept[A]
	oldest int                // the place of the oldest in rows, once there are as many as may be
	places map[keyName]uint16 // of rows
}

func newKeys[A comparable](most int, began Stamp) keys[A] {
	return keys[A]{most: most, forgot: began, places: map[keyName]uint16{}}
}

// tell is the answer to an item whose key tells it: because it is known, or because it may be forgotten. It returns false for an
// item that is to be made.
//
// A request is never proposed below its Since. So if it was made before, its key is known, or one at least as new as that is
// forgotten.
func (k *keys[A]) tell(item *Item, asked A) (Answer, bool) {
	if item.Key == "" {
		return Answer{}, false
	}
	place, isKnown := k.places[nameOf(item.Owner, item.Key)]
	switch {
	case isKnown && k.rows[place].asked != asked:
		return reject(KeyReused, "the key was used for another request"), true
	case isKnown:
		t := &k.rows[place].told
		return Answer{Made: t.made, Opens: t.opens, Reply: t.reply, Holder: t.holder, IsAgain: true}, true
	case item.Since < k.forgot.Index:
		words := "the key may be forgotten: the request is from entry %d of the log or later, and keys up to entry %d are forgotten"
		return reject(KeyForgotten, fmt.Sprintf(words, item.Since, k.forgot.Index)), true
	}
	return Answer{}, false
}

// keep notes the answer to an item that has a key, and forgets the oldest one.
func (k *keys[A]) keep(at Stamp, item *Item, asked A, answer Answer) {
	if item.Key == "" || answer.Rejected != 0 {
		return
	}
	k.add(kept[A]{nameOf(item.Owner, item.Key), asked,
		told{at.Number(), answer.Made, answer.Opens, answer.Holder, answer.Reply, answer.IsAgain}})
}

func (k *keys[A]) add(row kept[A]) {
	if len(k.rows) < k.most {
		k.places[row.name] = uint16(len(k.rows))
		k.rows = append(k.grown(), row)
		return
	}
	gone := &k.rows[k.oldest]
	delete(k.places, gone.name)
	k.forgot = stampOf(gone.told.at)
	k.places[row.name], *gone = uint16(k.oldest), row
	k.oldest = (k.oldest + 1) % k.most
}

// grown are the rows with room for one more. (append would make room for more than there may be)
func (k *keys[A]) grown() []kept[A] {
	if len(k.rows) < cap(k.rows) {
		return k.rows
	}
	room := 2*len(k.rows) + 1
	if room > k.most {
		room = k.most
	}
	return append(make([]kept[A], 0, room), k.rows...)
}

// each calls a function with the rows, the oldest first.
func (k *keys[A]) each(do func(*kept[A])) {
	for i := range k.rows {
		do(&k.rows[(k.oldest+i)%len(k.rows)])
	}
}

// appendKeys appends the keys as a snapshot has them.
func appendKeys[A comparable](b []byte, k *keys[A], appendAsked func([]byte, A) []byte) []byte {
	b = little.AppendUint32(appendStamp(b, k.forgot), uint32(len(k.rows)))
	k.each(func(row *kept[A]) {
		owner, key := row.name.parts()
		b = appendText(appendText(b, owner), key)
		b = appendAsked(b, row.asked)
		b = appendTold(b, &row.told)
	})
	return b
}

// readKeys takes keys, of which no two are alike and none was made before another one.
func readKeys[A comparable](r *reader, most int, readAsked func(*reader) A) keys[A] {
	k := newKeys[A](most, r.stamp())
	count, before := r.u32(), k.forgot.Number()
	r.isBad = r.isBad || count > uint32(most)
	for ; count > 0 && !r.isBad; count-- {
		owner, key := r.text(), r.text()
		row := kept[A]{name: nameOf(owner, key), asked: readAsked(r), told: r.told()}
		_, isThere := k.places[row.name]
		r.isBad = r.isBad || isThere || key == "" || len(owner) > mostOwner || row.told.at <= before
		before = row.told.at
		k.add(row)
	}
	return k
}

func appendTold(b []byte, t *told) []byte {
	for _, number := range []uint64{t.at, t.made, t.opens} {
		b = little.AppendUint64(b, number)
	}
	return appendBool(appendReply(appendText(b, t.holder), &t.reply), t.isAgain)
}

func (r *reader) told() told {
	return told{r.u64(), r.u64(), r.u64(), r.text(), r.reply(), r.bool()}
}

// A place is where a book has to stand, if anywhere: a Position that can be compared.
type place struct {
	Position
	is bool
}

func placeOf(at *Position) place {
	if at == nil {
		return place{}
	}
	return place{*at, true}
}

func (p place) position() *Position {
	if !p.is {
		return nil
	}
	return &p.Position
}

// An askedCall is a call without its key.
type askedCall struct {
	worker  string
	command book.Command
	at      Position
	isAt    bool
	session uint8
}

func (item *Item) askedCall() askedCall {
	at := placeOf(item.At)
	return askedCall{item.Worker, item.Command, at.Position, at.is, item.Session}
}

func appendAskedCall(b []byte, a askedCall) []byte {
	b = append(appendText(b, a.worker), a.session)
	return appendPosition(appendCommand(b, a.command), place{a.at, a.isAt}.position())
}

func (r *reader) askedCall() askedCall {
	item := Item{Worker: r.text(), Session: r.u8(), Command: r.command(), At: r.position()}
	return item.askedCall()
}

// An askedChange is a Create, Reopen, Remove or ChangeRules without its key. It has its texts as their checksum.
type askedChange struct {
	action Action
	book   string
	at     place
	texts  [32]byte
	to     version
}

func (item *Item) askedChange() askedChange {
	texts := checksum(item.Nodes, item.Image)
	return askedChange{item.Action, item.Book, placeOf(item.At), texts, version{item.Rules, item.Form}}
}

func appendAskedChange(b []byte, a askedChange) []byte {
	b = appendPosition(appendText(append(b, byte(a.action)), a.book), a.at.position())
	b = append(b, a.texts[:]...)
	return appendVersion(b, a.to)
}

func (r *reader) askedChange() askedChange {
	return askedChange{Action(r.u8()), r.text(), placeOf(r.position()), r.sum(), r.version()}
}
