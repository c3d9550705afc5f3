package book

/*
#include "lrc_embed.h"
*/
import "C"

import (
	"errors"
	"fmt"
	"unsafe"
)

// A Recipe has the layout of lrc_recipe.
type Recipe struct {
	Code         Code
	Fragment     uint8
	_            [6]uint8
	Coefficients [Fragments]uint8
}

// ErrUndetermined says that there is no recipe.
var ErrUndetermined = errors.New("what is not missing does not determine the fragment")

func recipeFault(status C.uint32_t) error {
	if status == C.LRC_UNDETERMINED {
		return ErrUndetermined
	}
	return faultOf(status)
}

// Recipe tells how the fragment of a live lease is rebuilt from what is not missing now.
func (b *Looks) Recipe(stripe uint16, fragment uint8) (Recipe, error) {
	var recipe Recipe
	status := C.lrc_embed_recipe(b.handle, C.uint16_t(stripe), C.uint8_t(fragment), (*C.lrc_recipe)(unsafe.Pointer(&recipe)))
	return recipe, recipeFault(status)
}

// RecipeOf tells how a fragment of a code is rebuilt where a set of fragments is missing.
func RecipeOf(code Code, missing uint16, fragment uint8) (Recipe, error) {
	var recipe Recipe
	status := C.lrc_embed_recipe_of(C.uint8_t(code), C.uint16_t(missing), C.uint8_t(fragment),
		(*C.lrc_recipe)(unsafe.Pointer(&recipe)))
	return recipe, recipeFault(status)
}

// Matrix is the generator matrix of a code: a row for each fragment, with a column for each data fragment.
func Matrix(code Code) ([]Numbers, error) {
	cells, length := make([]uint8, Fragments*Fragments), C.size_t(0)
	status := C.lrc_embed_matrix(C.uint8_t(code), firstByte(cells), C.size_t(len(cells)), &length)
	if status != C.LRC_DONE {
		return nil, faultOf(status)
	}
	columns, rows := code.Fragments()-parities, make([]Numbers, code.Fragments())
	for f := range rows {
		rows[f] = cells[f*columns : (f+1)*columns]
	}
	return rows, nil
}

// A Rebuild tells how a fragment is rebuilt, and where its sources are, all at one moment.
type Rebuild struct {
	Recipe  Recipe
	Missing uint16 // what the recipe does without
	homes   [Fragments]Home
}

// Rebuild is the recipe of the fragment of a live lease; or, with further fragments that are missing too, that of any fragment.
func (b *Looks) Rebuild(stripe uint16, fragment uint8, further []uint8) (Rebuild, error) {
	row, err := b.Stripe(stripe)
	if errors.Is(err, ErrNotFound) {
		return Rebuild{}, &notFound{"stripe", uint64(stripe)}
	} else if err != nil {
		return Rebuild{}, err
	}
	found := Rebuild{Missing: row.Missing}
	for _, f := range append([]uint8{fragment}, further...) {
		if int(f) >= row.Code.Fragments() {
			return Rebuild{}, &notFound{"fragment", uint64(f)}
		}
	}
	for _, f := range further {
		found.Missing |= 1 << f
	}
	if found.homes, err = b.Homes(stripe); err != nil {
		return Rebuild{}, err
	}
	if len(further) > 0 {
		found.Recipe, err = RecipeOf(row.Code, found.Missing, fragment)
	} else if found.Recipe, err = b.Recipe(stripe, fragment); errors.Is(err, ErrNotFound) {
		return Rebuild{}, &notFound{"lease", uint64(fragment)}
	}
	return found, err
}

// Table has a row for each fragment that the recipe reads. (What is not missing has a home)
func (r *Rebuild) Table() *Table {
	text := []byte("fragment,coefficient,home\n")
	for f, coefficient := range r.Recipe.Coefficients {
		if coefficient != 0 {
			text = append(text, fmt.Sprintf("%d,%d,%v\n", f, coefficient, r.homes[f].Seat)...)
		}
	}
	return &Table{text}
}

// MissingFragments lists what the recipe does without.
func (r *Rebuild) MissingFragments() Numbers { return membersOf(r.Missing) }
