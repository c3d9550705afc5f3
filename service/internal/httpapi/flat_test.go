package httpapi

import (
	"math/rand"
	"net/http"
	"net/http/httptest"
	"reflect"
	"strings"
	"testing"
	"unicode/utf8"
)

const plainCall = `{"session":1,"command":"tick","key":"c0ffee-17","since":123}`

// flatSeeds are bodies that are read in one pass, and such as are nearly so.
var flatSeeds = []string{
	plainCall, `{}`, ` { } `,
	"\t{ \"session\" : 8 ,\r\n\"command\":\"done 1 2 3\" , \"worker\":\"w\" } \n",
	``, ` `, `[]`, `null`, `"a"`, `1`,
	`{"at":0,"opens":18446744073709551615}`, `{"opens":18446744073709551616}`, `{"at":01}`, `{"at":-1}`, `{"at":1.0}`,
	`{"at":1e2}`, `{"at":}`, `{"at":"1"}`, `{"at":null}`, `{"at":1 "opens":2}`, `{"at":1`, `{"at`, `{'at':1}`, "\ufeff{}",
	`{"rules":2,"form":3}`, `{"peer":"a:1","client":"b:2","learner":true}`, `{"learner":false}`, `{"learner":truefalse}`,
	`{"learner":null,"peer":null}`, `{"learner":1}`, `{"command":"a\u0062\n"}`, `{"c\u006fmmand":"tick"}`, `{"command":"é😀"}`,
	"{\"command\":\"\xff\"}", "{\"command\":\"\x01\x7f\"}", `{"command":7}`, `{"Command":"tick"}`,
	`{"command":"a","command":"b"}`, `{"command":"a"}x`, `{"command":"a"}{}`, `{"command":"a",}`, `{,}`, `{"command"}`,
	`{"command":["a"]}`, `{"command":{"a":1}}`, `{"other":1}`, `{"":1}`, `{"odd":1}`, `{"odd,omitempty":1}`, `{"-":"a"}`,
	`{"many":[1]}`,
}

// An oddBody has fields that are not read in one pass.
type oddBody struct {
	Odd  *uint64 `json:"odd,omitempty"`
	Left string  `json:"-"`
	None string
	Many []int   `json:"many"`
	At   *uint64 `json:"at"`
}

// checkAlike compares what is read in one pass with what package json reads: the same struct, or the same words.
func checkAlike(t *testing.T, text []byte) {
	for _, kind := range []interface{}{callBody{}, memberBody{}, positionBody{}, rulesBody{}, oddBody{}} {
		got, want := reflect.New(reflect.TypeOf(kind)), reflect.New(reflect.TypeOf(kind))
		err, wrong := decode(text, got.Interface()), bad("the body is not UTF-8")
		if utf8.Valid(text) {
			wrong = decodeAny(text, want.Interface())
		}
		if (err == nil) != (wrong == nil) || err != nil && !reflect.DeepEqual(err, wrong) {
			t.Fatalf("%T of %q: %v, and not %v", kind, text, err, wrong)
		}
		if err == nil && !reflect.DeepEqual(got.Interface(), want.Interface()) {
			t.Fatalf("%T of %q: %+v, and not %+v", kind, text, got.Elem(), want.Elem())
		}
	}
}

// mutated is a body with a few bytes that are other, gone, or come of another body.
func mutated(r *rand.Rand, text []byte) []byte {
	const marks = "{}[]\":,\\ \n\x00\xc3\xa9tfn0918.-eE"
	text = append([]byte(nil), text...)
	for left := 1 + r.Intn(3); left > 0; left-- {
		at, other := r.Intn(len(text)+1), flatSeeds[r.Intn(len(flatSeeds))]
		behind := append([]byte(nil), text[at:]...)
		switch text = text[:at]; r.Intn(4) {
		case 0:
			text = append(text, marks[r.Intn(len(marks))])
		case 1:
			text = append(text, other[r.Intn(len(other)+1):]...)
		case 2:
			text = append(text, marks[r.Intn(len(marks))])
			fallthrough
		default:
			if len(behind) > 0 {
				behind = behind[1:]
			}
		}
		text = append(text, behind...)
	}
	return text
}

func TestBodiesAreReadInOnePassAsByPackageJSON(t *testing.T) {
	r := rand.New(rand.NewSource(1))
	for _, seed := range flatSeeds {
		checkAlike(t, []byte(seed))
		for i := 0; i < 400; i++ {
			checkAlike(t, mutated(r, []byte(seed)))
		}
	}
}

func TestPlainBodiesAreReadInOnePass(t *testing.T) {
	for _, it := range []struct {
		text string
		into interface{}
	}{{plainCall, &callBody{}}, {" {\n} ", &callBody{}}, {`{"at":0,"opens":18446744073709551615}`, &positionBody{}},
		{` { "learner" : true , "peer" : "é:1" } `, &memberBody{}}} {
		if !readFlat([]byte(it.text), it.into) {
			t.Errorf("%q is left to package json", it.text)
		}
	}
}

func FuzzDecode(f *testing.F) {
	for _, seed := range flatSeeds {
		f.Add([]byte(seed))
	}
	f.Fuzz(func(t *testing.T, text []byte) { checkAlike(t, text) })
}

func BenchmarkDecode(b *testing.B) {
	for name, read := range map[string]func([]byte, interface{}) error{"OnePass": decode, "PackageJSON": decodeAny} {
		b.Run(name, func(b *testing.B) {
			b.ReportAllocs()
			for i := 0; i < b.N; i++ {
				if err := read([]byte(plainCall), &callBody{}); err != nil {
					b.Fatal(err)
				}
			}
		})
	}
}

func BenchmarkCallOf(b *testing.B) {
	b.ReportAllocs()
	for i := 0; i < b.N; i++ {
		if _, err := callOf([]byte(plainCall), "p0"); err != nil {
			b.Fatal(err)
		}
	}
}

// BenchmarkCall is a call whole, without a connection and a log on disk: what package http brings is not in it.
func BenchmarkCall(b *testing.B) {
	s := newService(b, nil)
	b.ReportAllocs()
	b.ResetTimer()
	for i := 0; i < b.N; i++ {
		r := httptest.NewRequest("POST", "/books/p0/call", strings.NewReader(`{"session":1,"command":"tick"}`))
		r.Header.Set("Content-Type", "application/json")
		recorder := httptest.NewRecorder()
		if s.api.ServeHTTP(recorder, r); recorder.Code != http.StatusOK {
			b.Fatal(recorder.Body)
		}
	}
}
