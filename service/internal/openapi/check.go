package openapi

import (
	"bytes"
	"encoding/json"
	"fmt"
	"mime"
	"os"
	"sort"
	"strings"
)

// A Description is one that was read.
type Description struct {
	Paths map[string]map[string]struct {
		Responses map[string]struct {
			Codes   []string `json:"x-codes"`
			Content map[string]struct {
				Schema schema `json:"schema"`
			} `json:"content"`
		} `json:"responses"`
	} `json:"paths"`
	Components struct {
		Schemas map[string]schema `json:"schemas"`
	} `json:"components"`
}

// Load reads a description.
func Load(file string) (*Description, error) {
	text, err := os.ReadFile(file)
	if err != nil {
		return nil, err
	}
	d := &Description{}
	return d, json.Unmarshal(text, d)
}

// Check tells how an answer is other than described; nil if it is as described. What is at no path that is described, or is asked for by
// another method than its path takes, has to be an error.
func (d *Description) Check(method, path string, status int, kind string, body []byte) error {
	responses := d.Paths[d.pattern(path)][strings.ToLower(method)].Responses
	if responses == nil {
		if status < 400 {
			return fmt.Errorf("it is not described, and answers %d", status)
		}
		_, err := d.checkError(body)
		return err
	}
	response, isThere := responses[fmt.Sprint(status)]
	if !isThere {
		return fmt.Errorf("the status %d is not described: %.200s", status, body)
	}
	if status >= 400 {
		code, err := d.checkError(body)
		if err == nil && !contains(response.Codes, code) {
			err = fmt.Errorf("the code %s is not one of %v", code, response.Codes)
		}
		return err
	}
	bare, _, err := mime.ParseMediaType(kind)
	content, isThere := response.Content[bare]
	if err != nil || !isThere {
		return fmt.Errorf("the type %q is not described", kind)
	}
	if bare != "application/json" {
		return nil
	}
	return checkJSON(content.Schema, body)
}

// pattern is that of a path: the words of a pattern count more than its names.
func (d *Description) pattern(path string) (found string) {
	patterns := []string{}
	for pattern := range d.Paths {
		patterns = append(patterns, pattern)
	}
	sort.Slice(patterns, func(i, j int) bool {
		return strings.Count(patterns[i], "{") < strings.Count(patterns[j], "{") || patterns[i] < patterns[j]
	})
	words := strings.Split(path, "/")
	for _, pattern := range patterns {
		wanted := strings.Split(pattern, "/")
		isAlike := len(words) == len(wanted)
		for i := 0; isAlike && i < len(wanted); i++ {
			isAlike = words[i] == wanted[i] || strings.HasPrefix(wanted[i], "{")
		}
		if isAlike {
			return pattern
		}
	}
	return ""
}

func (d *Description) checkError(body []byte) (code string, err error) {
	var told struct{ Code string }
	if err := json.Unmarshal(body, &told); err != nil {
		return "", fmt.Errorf("the error is no object: %.200s", body)
	}
	return told.Code, checkJSON(d.Components.Schemas["Error"], body)
}

func contains(words []string, word string) bool {
	for _, it := range words {
		if it == word {
			return true
		}
	}
	return false
}

func checkJSON(of schema, body []byte) error {
	decoder := json.NewDecoder(bytes.NewReader(body))
	decoder.UseNumber()
	var value interface{}
	if err := decoder.Decode(&value); err != nil {
		return err
	}
	return validate(of, value, "the answer")
}

// validate holds a value against that subset of JSON Schema in which this package writes.
func validate(of schema, value interface{}, where string) error {
	kind := kindOf(value)
	if !isOfKind(of["type"], kind) {
		return fmt.Errorf("%s is a %s, and not %v", where, kind, of["type"])
	}
	switch value := value.(type) {
	case []interface{}:
		items, _ := asSchema(of["items"])
		for i, item := range value {
			if err := validate(items, item, fmt.Sprintf("%s[%d]", where, i)); err != nil {
				return err
			}
		}
	case map[string]interface{}:
		return validateObject(of, value, where)
	}
	return nil
}

func validateObject(of schema, object map[string]interface{}, where string) error {
	required, _ := of["required"].([]interface{})
	for _, name := range required {
		if _, isThere := object[name.(string)]; !isThere {
			return fmt.Errorf("%s lacks %s", where, name)
		}
	}
	properties, _ := asSchema(of["properties"])
	for name, value := range object {
		field, isKnown := asSchema(properties[name])
		if !isKnown {
			if field, isKnown = asSchema(of["additionalProperties"]); !isKnown {
				return fmt.Errorf("%s has %s, which is not described", where, name)
			}
		}
		if err := validate(field, value, where+"."+name); err != nil {
			return err
		}
	}
	return nil
}

func asSchema(value interface{}) (schema, bool) {
	found, is := value.(map[string]interface{})
	return found, is
}

// isOfKind tells whether a value of a kind is of a type, or of one of several; of none: it may be anything.
func isOfKind(wanted interface{}, kind string) bool {
	switch wanted := wanted.(type) {
	case string:
		return wanted == kind
	case []interface{}:
		for _, it := range wanted {
			if it == kind {
				return true
			}
		}
		return false
	}
	return true
}

func kindOf(value interface{}) string {
	switch value := value.(type) {
	case nil:
		return "null"
	case bool:
		return "boolean"
	case string:
		return "string"
	case json.Number:
		if strings.ContainsAny(value.String(), ".eE") {
			return "number"
		}
		return "integer"
	case []interface{}:
		return "array"
	}
	return "object"
}
