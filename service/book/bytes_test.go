package book

import (
	"bytes"
	"errors"
	"fmt"
	"math/rand"
	"testing"
)

// times is the product of two bytes, as docs/CODING.md has it.
func times(a, b byte) byte {
	product := byte(0)
	for ; b > 0; b >>= 1 {
		if b&1 == 1 {
			product ^= a
		}
		if a&0x80 == 0 {
			a <<= 1
		} else {
			a = a<<1 ^ 0x1d
		}
	}
	return product
}

// sum is the sum of buffers of one length, each times its coefficient.
func sum(coefficients []uint8, buffers [][]byte, length int) []byte {
	total := make([]byte, length)
	for f, coefficient := range coefficients {
		for i := range total {
			if coefficient != 0 {
				total[i] ^= times(coefficient, buffers[f][i])
			}
		}
	}
	return total
}

// buffersOf are so many buffers of one length, with drawn bytes.
func buffersOf(r *rand.Rand, count, length int) [][]byte {
	buffers := make([][]byte, count)
	for i := range buffers {
		buffers[i] = make([]byte, length)
		r.Read(buffers[i])
	}
	return buffers
}

// encoded is a stripe of drawn data, whose parities are the rows of the code's matrix.
func encoded(t *testing.T, r *rand.Rand, code Code, length int) [][]byte {
	t.Helper()
	rows, err := Matrix(code)
	if err != nil {
		t.Fatal(err)
	}
	data, found := buffersOf(r, code.Fragments()-parities, length), buffersOf(r, parities, length)
	kept := bytes.Join(data, nil)
	if err := Encode(code, data, found); err != nil {
		t.Fatal(err)
	}
	for p, row := range rows[len(data):] {
		if !bytes.Equal(found[p], sum(row, data, length)) {
			t.Fatalf("parity %d of the %v code, of %d bytes", p, code, length)
		}
	}
	if !bytes.Equal(bytes.Join(data, nil), kept) {
		t.Fatal("the data is changed")
	}
	return append(data, found...)
}

// Each fragment is rebuilt from those that its recipe reads, with the others away or not.
func TestFragmentsAreRebuilt(t *testing.T) {
	r, rebuilt := rand.New(rand.NewSource(5)), 0
	for _, code := range []Code{Wide, Narrow} {
		for _, length := range []int{0, 1, 100, 4099} {
			stripe := encoded(t, r, code, length)
			for i := 0; i < 60; i++ {
				fragment, missing := r.Intn(len(stripe)), uint16(r.Intn(1<<16)&r.Intn(1<<16))
				recipe, err := RecipeOf(code, missing|1<<fragment, uint8(fragment))
				if errors.Is(err, ErrUndetermined) {
					continue
				} else if err != nil {
					t.Fatal(err)
				}
				others := append([][]byte{}, stripe...)
				for f := range others {
					if recipe.Coefficients[f] == 0 && i%2 == 0 {
						others[f] = nil
					}
				}
				found := make([]byte, length)
				if err := recipe.Rebuild(others, found); err != nil || !bytes.Equal(found, stripe[fragment]) {
					t.Fatalf("fragment %d without %x, of %d bytes: %v", fragment, missing, length, err)
				}
				rebuilt++
			}
		}
	}
	if rebuilt < 100 {
		t.Error("most sets do not determine the fragment:", rebuilt)
	}
}

// As it is in lrc_status.
const miscounted, uneven = 12, 13

func TestBuffersThatDoNotFitAreRefused(t *testing.T) {
	r := rand.New(rand.NewSource(6))
	recipe, err := RecipeOf(Narrow, 1<<2, 2)
	if err != nil {
		t.Fatal(err)
	}
	shorter := buffersOf(r, 10, 8)
	shorter[1] = shorter[1][:7]
	other := recipe
	other.Code = 3
	for _, it := range []struct {
		name  string
		fault uint32
		call  func(written [][]byte) error
	}{
		{"no such code", 3, func(to [][]byte) error { return Encode(3, buffersOf(r, 6, 8), to) }},
		{"no data", miscounted, func(to [][]byte) error { return Encode(Narrow, nil, to) }},
		{"data of the other code", miscounted, func(to [][]byte) error { return Encode(Narrow, buffersOf(r, 12, 8), to) }},
		{"more than a stripe has", miscounted, func(to [][]byte) error { return Encode(Wide, buffersOf(r, 13, 8), to) }},
		{"a parity too few", miscounted, func(to [][]byte) error { return Encode(Narrow, buffersOf(r, 6, 8), to[:3]) }},
		{"data of two lengths", uneven, func(to [][]byte) error { return Encode(Narrow, shorter[:6], to) }},
		{"data of another length", uneven, func(to [][]byte) error { return Encode(Wide, buffersOf(r, 12, 9), to) }},
		{"no recipe", 3, func(to [][]byte) error { return other.Rebuild(buffersOf(r, 10, 8), to[0]) }},
		{"no fragments", miscounted, func(to [][]byte) error { return recipe.Rebuild(nil, to[0]) }},
		{"a fragment too many", miscounted, func(to [][]byte) error { return recipe.Rebuild(buffersOf(r, 11, 8), to[0]) }},
		{"seventeen fragments", miscounted, func(to [][]byte) error { return recipe.Rebuild(buffersOf(r, 17, 8), to[0]) }},
		{"a source that is shorter", uneven, func(to [][]byte) error { return recipe.Rebuild(shorter, to[0]) }},
		{"nothing to write to", uneven, func(to [][]byte) error { return recipe.Rebuild(buffersOf(r, 10, 8), nil) }},
	} {
		written := buffersOf(r, parities, 8)
		before := fmt.Sprint(written)
		if err := it.call(written); !is(err, it.fault) {
			t.Errorf("%s: %v", it.name, err)
		}
		if fmt.Sprint(written) != before {
			t.Errorf("%s: something is written", it.name)
		}
	}
}
