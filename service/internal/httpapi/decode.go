package httpapi

import (
	"bytes"
	"encoding/json"
	"errors"
	"fmt"
	"io"
	"math"
	"mime"
	"net/http"
	"reflect"
	"strings"
	"sync"
	"unicode/utf8"

	"lrcman/service/book"
	"lrcman/service/internal/engine"
	"lrcman/service/internal/state"
)

// The limits of what a request may have.
const (
	mostCall   = 4096
	mostNodes  = 1 << 20
	mostImage  = 8 << 20
	mostMember = 4096
	mostName   = 64
	mostHead   = 16 << 10
)

// decode reads one JSON object with no other fields than those of the value, each at most once.
func decode(text []byte, value interface{}) error {
	if !utf8.Valid(text) {
		return bad("the body is not UTF-8")
	}
	if readFlat(text, value) {
		return nil
	}
	return decodeAny(text, value)
}

// decodeAny reads an object that is not plain, or finds the words for what is wrong with it.
func decodeAny(text []byte, value interface{}) error {
	if err := checkFields(text, value); err != nil {
		return err
	}
	if err := json.Unmarshal(text, value); err != nil {
		return bad("%s", wordsOf(err))
	}
	return nil
}

// checkFields goes over the fields of an object. (Package json would take a field in other letters, and a second one)
func checkFields(text []byte, value interface{}) error {
	decoder := json.NewDecoder(bytes.NewReader(text))
	if token, err := decoder.Token(); err != nil {
		return bad("%s", wordsOf(err))
	} else if token != json.Delim('{') {
		return bad("the body is not a JSON object")
	}
	fields, seen := fieldsOf(reflect.TypeOf(value).Elem()), map[string]bool{}
	for decoder.More() {
		token, err := decoder.Token()
		name, isName := token.(string)
		if err != nil || !isName {
			return bad("%s", wordsOf(err))
		}
		if !fields[name] {
			return bad("there is no field %q", name)
		} else if seen[name] {
			return bad("the field %q comes twice", name)
		}
		seen[name] = true
		var field json.RawMessage
		if err := decoder.Decode(&field); err != nil {
			return bad("%s", wordsOf(err))
		}
	}
	if _, err := decoder.Token(); err != nil {
		return bad("%s", wordsOf(err))
	}
	if _, err := decoder.Token(); err != io.EOF {
		return bad("the body goes on behind the JSON object")
	}
	return nil
}

// known are the fields of structs that were decoded: a map[string]bool by reflect.Type.
var known sync.Map

// fieldsOf are the names of the fields of a struct.
func fieldsOf(kind reflect.Type) map[string]bool {
	if fields, isKnown := known.Load(kind); isKnown {
		return fields.(map[string]bool)
	}
	fields := map[string]bool{}
	for i := 0; i < kind.NumField(); i++ {
		fields[kind.Field(i).Tag.Get("json")] = true
	}
	known.Store(kind, fields)
	return fields
}

// wordsOf are the words for an error of package json.
func wordsOf(err error) string {
	var ofType *json.UnmarshalTypeError
	switch {
	case errors.As(err, &ofType):
		wanted := jsonType(ofType.Type.String())
		return fmt.Sprintf("the field %q has to be a %s and not a %s", ofType.Field, wanted, ofType.Value)
	case err == nil:
		return "the body is not JSON"
	case err == io.EOF || err == io.ErrUnexpectedEOF:
		return "the JSON object has no end"
	}
	return "the body is not JSON: " + strings.TrimPrefix(err.Error(), "json: ")
}

func jsonType(goType string) string {
	if strings.HasPrefix(goType, "uint") {
		return "whole number within its range"
	}
	return goType
}

// A callBody is the body of a call, as docs/SERVICE.md has it.
type callBody struct {
	Session *uint64 `json:"session"`
	Command string  `json:"command"`
	Key     string  `json:"key"`
	Since   *uint64 `json:"since"`
	Worker  string  `json:"worker"`
	At      *uint64 `json:"at"`
	Opens   *uint64 `json:"opens"`
}

// callOf is what the body of a call asks for.
func callOf(text []byte, name string) (change, error) {
	var body callBody
	if err := decode(text, &body); err != nil {
		return change{}, err
	}
	item := &state.Item{Action: state.Call, Book: name, Key: body.Key, Worker: body.Worker, Session: 1}
	asked := change{item, body.Since}
	if body.Session != nil {
		if *body.Session < 1 || *body.Session > book.Sessions {
			return asked, bad("the session is out of its range, 1 to %d: %d", book.Sessions, *body.Session)
		}
		item.Session = uint8(*body.Session)
	}
	if err := asked.check("field"); err != nil {
		return asked, err
	} else if !isWord(body.Worker) {
		return asked, notWord("field", "worker")
	}
	if (body.At == nil) != (body.Opens == nil) {
		return asked, bad("the fields \"at\" and \"opens\" come together")
	}
	if body.At != nil {
		item.At = &state.Position{Made: *body.At, Opens: *body.Opens}
	}
	command, err := book.Parse(body.Command)
	if err != nil {
		return asked, bad("%v", err)
	}
	item.Command = command
	return asked, nil
}

func notWord(what, name string) error {
	return bad("the %s %q has to be at most %d printable letters of ASCII without spaces", what, name, mostName)
}

// isWord tells whether a text may be a key or the name of a worker; it may be empty.
func isWord(text string) bool {
	for i := 0; i < len(text); i++ {
		if text[i] <= ' ' || text[i] > '~' {
			return false
		}
	}
	return len(text) <= mostName
}

// isName tells whether a text may name a book.
func isName(text string) bool {
	for i := 0; i < len(text); i++ {
		c := text[i]
		isLetter := 'a' <= c && c <= 'z' || 'A' <= c && c <= 'Z' || '0' <= c && c <= '9'
		if !isLetter && (i == 0 || c != '.' && c != '_' && c != '-') {
			return false
		}
	}
	return text != "" && len(text) <= mostName
}

// createOf is the item that makes a book: of a text of nodes, or of JSON with an image.
func createOf(text []byte, name string, isJSON bool) (*state.Item, error) {
	item := &state.Item{Action: state.Create, Book: name, Nodes: text}
	if isJSON {
		texts, err := textsOf(text, "nodes", "image")
		if err != nil {
			return nil, err
		}
		if len(texts["image"]) == 0 {
			return nil, bad("the field \"image\" is missing")
		}
		item.Nodes, item.Image = texts["nodes"], texts["image"]
	}
	if len(item.Nodes) > mostNodes {
		return nil, tooLarge("nodes have", mostNodes)
	}
	return item, nil
}

// A positionBody is the body that removes a book: where it stood when it was looked at.
type positionBody struct {
	At    *uint64 `json:"at"`
	Opens *uint64 `json:"opens"`
}

func removalOf(text []byte) (*state.Position, error) {
	var body positionBody
	if err := decode(text, &body); err != nil {
		return nil, err
	}
	if body.At == nil || body.Opens == nil {
		return nil, bad("the fields \"at\" and \"opens\" are needed: the \"n\" and the \"opens\" of a look at the book")
	}
	return &state.Position{Made: *body.At, Opens: *body.Opens}, nil
}

// positionOf is where a book has to stand, as the parameters of a request say; nil if they don't.
func positionOf(q *request) (*state.Position, error) {
	at, opens := q.query.Get("at"), q.query.Get("opens")
	if (at == "") != (opens == "") {
		return nil, bad("the parameters \"at\" and \"opens\" come together")
	} else if at == "" {
		return nil, nil
	}
	made, err := q.number("at", math.MaxUint64)
	if err != nil {
		return nil, err
	}
	opened, err := q.number("opens", math.MaxUint64)
	return &state.Position{Made: made, Opens: opened}, err
}

// A memberBody is the body that adds a member.
type memberBody struct {
	Peer    string `json:"peer"`
	Client  string `json:"client"`
	Learner bool   `json:"learner"`
}

func memberOf(text []byte, id uint64) (engine.Member, error) {
	var body memberBody
	if err := decode(text, &body); err != nil {
		return engine.Member{}, err
	}
	for _, it := range []struct{ field, address string }{{"peer", body.Peer}, {"client", body.Client}} {
		if err := CheckAddress(it.address); err != nil {
			return engine.Member{}, bad("the field %q %v", it.field, err)
		}
	}
	return engine.Member{ID: id, Peer: body.Peer, Client: body.Client, Learner: body.Learner}, nil
}

// isJSON tells what kind of body a request has; an error if it has none that is taken.
func isJSON(r *http.Request, takesText bool) (bool, error) {
	if encoding := r.Header.Get("Content-Encoding"); encoding != "" && encoding != "identity" {
		return false, wrongType("the body may have no Content-Encoding")
	}
	if r.Header.Get("Content-Type") == "application/json" { // (nearly all say it so, and there is nothing to parse)
		return true, nil
	}
	kind, parameters, err := mime.ParseMediaType(r.Header.Get("Content-Type"))
	charset := strings.ToLower(parameters["charset"])
	isUTF8 := charset == "" || charset == "utf-8"
	switch {
	case err == nil && kind == "application/json" && isUTF8:
		return true, nil
	case takesText && r.Header.Get("Content-Type") == "", takesText && err == nil && isTOML[kind] && isUTF8:
		return false, nil
	case takesText:
		return false, wrongType("the Content-Type has to be application/toml or application/json, in UTF-8")
	}
	return false, wrongType("the Content-Type has to be application/json, in UTF-8")
}

func wrongType(words string) error {
	return &failure{Status: http.StatusUnsupportedMediaType, Words: words}
}

func tooLarge(what string, most int64) error {
	return &failure{Status: http.StatusRequestEntityTooLarge, Words: fmt.Sprintf("the %s more than %d bytes", what, most)}
}

var isTOML = map[string]bool{"application/toml": true, "text/plain": true, "application/octet-stream": true}
