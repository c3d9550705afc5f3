package httpapi

import (
	"encoding/json"
	"strconv"
	"unicode/utf16"
	"unicode/utf8"
)

// textsOf reads a JSON object whose fields are texts, with the names that are given, each at most once. Texts stand in the place of
// the body itself, since an image is long: so the body is not to be used any more.
func textsOf(body []byte, names ...string) (map[string][]byte, error) {
	if !utf8.Valid(body) {
		return nil, bad("the body is not UTF-8")
	}
	rest := spaceless(body)
	if len(rest) == 0 || rest[0] != '{' {
		return nil, bad("the body is not a JSON object")
	}
	if err := json.Unmarshal(body, &struct{}{}); err != nil { // (this copies nothing)
		return nil, bad("%s", wordsOf(err))
	}
	found := map[string][]byte{}
	for rest = spaceless(rest[1:]); rest[0] != '}'; {
		if rest[0] == ',' {
			rest = spaceless(rest[1:])
		}
		var name []byte
		name, rest = unquote(rest)
		if err := checkName(string(name), names, found); err != nil {
			return nil, err
		}
		rest = spaceless(spaceless(rest)[1:]) // (behind the colon)
		if rest[0] != '"' {
			return nil, bad("the field %q has to be a string", name)
		}
		text, behind := unquote(rest)
		found[string(name)], rest = text, spaceless(behind)
	}
	return found, nil
}

func checkName(name string, names []string, found map[string][]byte) error {
	if _, isThere := found[name]; isThere {
		return bad("the field %q comes twice", name)
	}
	for _, known := range names {
		if known == name {
			return nil
		}
	}
	return bad("there is no field %q", name)
}

func spaceless(text []byte) []byte {
	for len(text) > 0 && (text[0] == ' ' || text[0] == '\t' || text[0] == '\n' || text[0] == '\r') {
		text = text[1:]
	}
	return text
}

// short are the escapes of one letter.
var short = map[byte]byte{'"': '"', '\\': '\\', '/': '/', 'b': '\b', 'f': '\f', 'n': '\n', 'r': '\r', 't': '\t'}

// unquote takes the quotes and escapes out of a string of valid JSON with which a text begins, in its place: it never gets longer.
func unquote(text []byte) (value, rest []byte) {
	end := 0
	for i := 1; ; {
		switch {
		case text[i] == '"':
			return text[:end], text[i+1:]
		case text[i] != '\\':
			text[end] = text[i]
			end, i = end+1, i+1
		case text[i+1] != 'u':
			text[end] = short[text[i+1]]
			end, i = end+1, i+2
		default:
			letter, length := escaped(text[i:])
			end, i = end+utf8.EncodeRune(text[end:end+utf8.UTFMax], letter), i+length
		}
	}
}

// escaped is the letter that \uXXXX is, or two of them are, with their length.
func escaped(text []byte) (rune, int) {
	first := unitOf(text)
	if !utf16.IsSurrogate(first) {
		return first, 6
	}
	if text[6] == '\\' && text[7] == 'u' {
		if both := utf16.DecodeRune(first, unitOf(text[6:])); both != utf8.RuneError {
			return both, 12
		}
	}
	return utf8.RuneError, 6
}

func unitOf(text []byte) rune {
	unit, _ := strconv.ParseUint(string(text[2:6]), 16, 16) // (never an error: the JSON is valid)
	return rune(unit)
}
