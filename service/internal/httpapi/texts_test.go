package httpapi

import (
	"encoding/json"
	"net/http"
	"strings"
	"testing"
)

func TestTextsAreTakenOutOfABody(t *testing.T) {
	for _, text := range []string{"", "a", "\"\\/\b\f\n\r\t", "é€😀", "\u2028<&>", strings.Repeat("x\n", 1000)} {
		body, err := json.MarshalIndent(map[string]string{"nodes": text, "image": text + "end"}, " ", "\t")
		if err != nil {
			t.Fatal(err)
		}
		found, err := textsOf(body, "nodes", "image")
		if err != nil || string(found["nodes"]) != text || string(found["image"]) != text+"end" {
			t.Errorf("%q: %q %v", text, found, err)
		}
	}
	for body, words := range map[string]string{
		`{"nodes":"x"}`:                        `the field "image" is missing`,
		`{"nodes":"x","image":""}`:             `the field "image" is missing`,
		`{"nodes":"x","image":"y","more":1}`:   `there is no field "more"`,
		`{"nodes":"x","image":"y","nodes":""}`: `the field "nodes" comes twice`,
		`{"nodes":1,"image":"y"}`:              `the field "nodes" has to be a string`,
		`{"nodes":null,"image":"y"}`:           `the field "nodes" has to be a string`,
		`{"nodes":["x"],"image":"y"}`:          `the field "nodes" has to be a string`,
		`["nodes"]`:                            "the body is not a JSON object",
		`null`:                                 "the body is not a JSON object",
		`"nodes"`:                              "the body is not a JSON object",
		`{"nodes":"x"`:                         "the body is not JSON",
		`{"nodes":"x\q"}`:                      "the body is not JSON",
		"{\"nodes\":\"\xff\"}":                 "not UTF-8",
		"":                                     "the body is not a JSON object",
		"{} {}":                                "the body is not JSON",
	} {
		_, err := createOf([]byte(body), "p0", true)
		if fail := failureOf(err); err == nil || fail.Status != http.StatusBadRequest || !strings.Contains(fail.Words, words) {
			t.Errorf("%q: %v", body, err)
		}
	}
}

// FuzzTexts compares with package json, which copies.
func FuzzTexts(f *testing.F) {
	for _, text := range []string{`{"nodes":"a\u00e9\ud83d\ude00\ud800","image":"\udc00\ud800\u0041\\\""}`, ` { "image" : "\t" , "nodes":"" } `, `{}`, `{"nodes":"\u`,
		`{"image":"\ud83d\ud83d\ude00\/"}`, `{"\u006eodes":"x"}`} {
		f.Add([]byte(text))
	}
	f.Fuzz(func(t *testing.T, text []byte) {
		var want struct {
			Nodes *string `json:"nodes"`
			Image *string `json:"image"`
		}
		right := decode(text, &want)
		found, err := textsOf(append([]byte(nil), text...), "nodes", "image")
		if right != nil && err == nil {
			t.Fatalf("%q is taken: %v", text, right)
		}
		if err != nil { // (null is no text here)
			if right == nil && !strings.Contains(err.Error(), "has to be a string") {
				t.Fatalf("%q is refused: %v", text, err)
			}
			return
		}
		for name, it := range map[string]*string{"nodes": want.Nodes, "image": want.Image} {
			got, isThere := found[name]
			if isThere != (it != nil) || isThere && string(got) != *it {
				t.Fatalf("%q: %s is %q", text, name, got)
			}
		}
	})
}
