package state

import "fmt"

// Form is the version of the form of entries that this program reads and writes.
const Form = 2

// MostItems are the items of an entry. An entry with more can't be read.
const MostItems = 1 << positionBits

// A version says by which rules and in which form an entry was made.
type version struct{ rules, form uint32 }

// A head stands before the items of an entry: these bytes are alike in every form.
type head struct {
	version
	count uint32
}

const headLength = 9

// Encode makes the payload of one entry of the log: the form, the rules of this member's library, and the items.
func (s *State) Encode(items []*Item) []byte {
	return encode(head{version{s.ours.rules, Form}, uint32(len(items))}, items)
}

func encode(h head, items []*Item) []byte {
	b := append(make([]byte, 0, headLength+128*len(items)), byte(h.form))
	b = little.AppendUint32(little.AppendUint32(b, h.rules), h.count)
	for _, item := range items {
		b = appendItem(b, item)
	}
	return b
}

func appendItem(b []byte, item *Item) []byte {
	b = append(b, byte(item.Action))
	b = appendText(b, item.Book)
	b = appendText(b, item.Key)
	b = appendText(b, item.Owner)
	b = little.AppendUint64(b, item.Since)
	switch item.Action {
	case Call:
		b = appendText(b, item.Worker)
		b = appendCommand(append(b, item.Session), item.Command)
		b = appendPosition(b, item.At)
	case Create:
		b = appendText(appendText(b, item.Nodes), item.Image)
	case Reopen:
		b = appendText(appendPosition(b, item.At), item.Nodes)
	case Remove:
		b = appendPosition(b, item.At)
	case ChangeRules:
		b = appendVersion(b, version{item.Rules, item.Form})
	case Report:
		b = little.AppendUint64(appendStamp(b, item.Digest), item.Member)
		b = append(b, item.Sum[:]...)
	}
	return b
}

func (r *reader) item() *Item {
	item := &Item{Action: Action(r.u8()), Book: r.text(), Key: r.text(), Owner: r.text(), Since: r.u64()}
	switch item.Action {
	case Call:
		item.Worker = r.text()
		item.Session, item.Command, item.At = r.u8(), r.command(), r.position()
	case Create:
		item.Nodes, item.Image = r.bytes(), r.bytes()
	case Reopen:
		item.At, item.Nodes = r.position(), r.bytes()
	case Remove:
		item.At = r.position()
	case ChangeRules:
		item.Rules, item.Form = r.u32(), r.u32()
	case Digest:
	case Report:
		item.Digest, item.Member, item.Sum = r.stamp(), r.u64(), r.sum()
	default:
		r.isBad = true
	}
	return item
}

// decode takes a payload apart. It is the inverse of encode: what encode would not have made is an error. The head is told also
// where the items can't be read, since it is alike in every form.
func decode(payload []byte) (head, []*Item, error) {
	r := &reader{rest: payload}
	h := head{version: version{form: uint32(r.u8()), rules: r.u32()}, count: r.u32()}
	switch {
	case r.isBad:
		return h, nil, errUnreadable
	case h.form != Form:
		return h, nil, fmt.Errorf("it has form %d, and this program reads form %d", h.form, Form)
	case h.count > MostItems:
		return h, nil, fmt.Errorf("it has %d items, and an entry has at most %d", h.count, MostItems)
	}
	items := make([]*Item, 0, h.count)
	for i := uint32(0); i < h.count && !r.isBad; i++ {
		items = append(items, r.item())
	}
	return h, items, r.end()
}

// Check returns why a payload is no entry that this program can read, or nil. It needs no state.
func (s *State) Check(payload []byte) error {
	if _, _, err := decode(payload); err != nil {
		return fmt.Errorf("this is no entry: %w", err)
	}
	return nil
}
