package book

import (
	"bytes"
	"strconv"
)

// The columns that are lists of numbers, with spaces between. Those of all other columns are a number, a seat, a mask, a word, "yes"
// or "no", and "-" or nothing where there is none.
var isList = map[string]bool{"missing_fragments": true, "homeless_fragments": true, "missing_fragments_after": true, "sources": true,
	"first": true}

// JSON is a list with an object for each row, whose fields are the columns: made of the CSV, cell by cell.
func (t *Table) JSON() []byte {
	columns := t.Columns()
	names, lists := make([]string, len(columns)), make([]bool, len(columns))
	for i, column := range columns {
		names[i], lists[i] = strconv.Quote(column)+":", isList[column]
	}
	text := append(make([]byte, 0, 8*len(t.text)), '[')
	_, rest, _ := bytes.Cut(t.text, []byte{'\n'})
	for isFirst := true; len(rest) > 0; isFirst = false {
		var line, cell []byte
		line, rest, _ = bytes.Cut(rest, []byte{'\n'})
		if !isFirst {
			text = append(text, ',')
		}
		text = append(text, '{')
		for i := range names {
			cell, line, _ = bytes.Cut(line, []byte{','})
			if i > 0 {
				text = append(text, ',')
			}
			text = append(text, names[i]...)
			if lists[i] {
				text = append(append(append(text, '['), bytes.ReplaceAll(cell, []byte{' '}, []byte{','})...), ']')
			} else {
				text = appendCell(text, cell)
			}
		}
		text = append(text, '}')
	}
	return append(text, ']')
}

// MarshalJSON is JSON.
func (t *Table) MarshalJSON() ([]byte, error) { return t.JSON(), nil }

// appendCell writes a cell that is no list. (A text has letters, digits, "_", ":" and spaces: JSON writes none of them otherwise)
func appendCell(text, cell []byte) []byte {
	switch string(cell) {
	case "", "-":
		return append(text, "null"...)
	case "yes":
		return append(text, "true"...)
	case "no":
		return append(text, "false"...)
	}
	if isNumber(cell) {
		return append(text, cell...)
	}
	return append(append(append(text, '"'), cell...), '"')
}

func isNumber(cell []byte) bool {
	for _, letter := range cell {
		if letter < '0' || letter > '9' {
			return false
		}
	}
	return true
}
