package httpapi

import (
	"bytes"
	"math"
	"reflect"
	"strings"
	"sync"
)

// The bodies of calls are short objects of strings and numbers, and each call brings one: so these are read in one pass, where
// package json takes two with many allocations. Whatever is not plain is left to package json, whose words an error then has.

// A plan is the fields of a struct that can be read in one pass, by their names: where in the struct each of them stands.
type plan map[string]int

// plans are those of structs that were decoded: a plan by reflect.Type.
var plans sync.Map

func planOf(kind reflect.Type) plan {
	if known, isKnown := plans.Load(kind); isKnown {
		return known.(plan)
	}
	fields := plan{}
	for i := 0; i < kind.NumField() && i < mostFlat; i++ {
		field := kind.Field(i)
		name := field.Tag.Get("json")
		if field.IsExported() && name != "" && name != "-" && !strings.Contains(name, ",") {
			fields[name] = i
		}
	}
	plans.Store(kind, fields)
	return fields
}

// mostFlat is how many fields of a struct are looked at: each has one bit in what was seen.
const mostFlat = 64

// readFlat fills a struct from an object of plain values. If it tells that it did not, some fields may be filled: with what
// package json fills them with, too, if it takes the object.
func readFlat(text []byte, value interface{}) bool {
	into := reflect.ValueOf(value).Elem()
	fields, seen := planOf(into.Type()), uint64(0)
	rest, ok := after(text, '{')
	if !ok {
		return false
	}
	if behind, isEmpty := after(rest, '}'); isEmpty {
		return len(spaceless(behind)) == 0
	}
	for {
		if rest, ok = readField(rest, into, fields, &seen); !ok {
			return false
		}
		if behind, isEnd := after(rest, '}'); isEnd {
			return len(spaceless(behind)) == 0
		}
		if rest, ok = after(rest, ','); !ok {
			return false
		}
	}
}

// readField reads a name and its value into the field of this name, unless it was seen before, and returns what comes behind.
func readField(text []byte, into reflect.Value, fields plan, seen *uint64) (rest []byte, ok bool) {
	name, rest, ok := plainString(text)
	if !ok {
		return text, false
	}
	place, isKnown := fields[string(name)]
	if !isKnown || *seen&(1<<place) != 0 {
		return text, false
	}
	*seen |= 1 << place
	if rest, ok = after(rest, ':'); !ok {
		return text, false
	}
	return readPlain(rest, into.Field(place).Addr().Interface())
}

// after is what comes behind a mark, if a text begins with it.
func after(text []byte, mark byte) (rest []byte, ok bool) {
	text = spaceless(text)
	if len(text) == 0 || text[0] != mark {
		return text, false
	}
	return text[1:], true
}

// readPlain reads a value of the type of a field into it, and returns what comes behind. (A null is not plain, either)
func readPlain(text []byte, field interface{}) (rest []byte, ok bool) {
	switch field := field.(type) {
	case *string:
		value, rest, ok := plainString(text)
		if ok {
			*field = string(value)
		}
		return rest, ok
	case **uint64:
		value, rest, ok := plainNumber(text)
		if ok {
			*field = &value
		}
		return rest, ok
	case *bool:
		value, rest, ok := plainBool(text)
		if ok {
			*field = value
		}
		return rest, ok
	}
	return text, false
}

func plainBool(text []byte) (value bool, rest []byte, ok bool) {
	text = spaceless(text)
	switch {
	case bytes.HasPrefix(text, []byte("true")):
		return true, text[len("true"):], true
	case bytes.HasPrefix(text, []byte("false")):
		return false, text[len("false"):], true
	}
	return false, text, false
}

// plainString is the string without escapes with which a text begins.
func plainString(text []byte) (value, rest []byte, ok bool) {
	text, ok = after(text, '"')
	if !ok {
		return nil, text, false
	}
	for i, c := range text {
		if c == '"' {
			return text[:i], text[i+1:], true
		}
		if c == '\\' || c < ' ' {
			break
		}
	}
	return nil, text, false
}

// plainNumber is the number of digits alone with which a text begins. (What goes on otherwise, as 1.5 does, no mark follows)
func plainNumber(text []byte) (value uint64, rest []byte, ok bool) {
	text = spaceless(text)
	end := 0
	for ; end < len(text) && '0' <= text[end] && text[end] <= '9'; end++ {
		digit := uint64(text[end] - '0')
		if value > (math.MaxUint64-digit)/10 {
			return 0, text, false
		}
		value = value*10 + digit
	}
	return value, text[end:], end == 1 || end > 1 && text[0] != '0'
}
