package httpapi

import (
	"encoding/json"
	"strings"
	"testing"
)

// The recipes are those of docs/RULES.md; the global one is that for a stripe that misses 0 and 1.
func TestARecipeNamesSourcesAndHomes(t *testing.T) {
	local := "0,1,0:0\n1,1,1:0\n2,1,2:0\n4,1,4:0\n5,1,5:0\n12,1,16:0\n"
	for _, it := range []struct {
		name    string
		calls   string // with ";" between
		query   string
		missing string
		want    string
	}{
		{"local", "place 1;fail 3;lease 1 3", "stripe=1&fragment=3", "[3]", local},
		{"of what has no lease", "place 1;down 3", "stripe=1&fragment=3&missing=3", "[3]", local},
		{"move", "place 1;drain 5;lease 1 5", "stripe=1&fragment=5", "[]", "5,1,5:0\n"},
		{"damaged", "place 1;drain 3;lease 1 3;undrain 3", "stripe=1&fragment=3&missing=3", "[3]", local},
		{"global", "place 1", "stripe=1&fragment=0&missing=0&missing=1", "[0,1]", "2,244,2:0\n3,2,3:0\n4,246,4:0\n5,247,5:0\n" +
			"6,251,6:0\n7,235,7:0\n8,16,8:0\n9,203,9:0\n10,48,10:0\n11,32,11:0\n12,245,16:0\n14,244,13:0\n"},
		{"global with a lease", "place 1;fail 0;fail 1;lease 1 0", "stripe=1&fragment=0", "[0,1]", "2,244,2:0\n3,2,3:0\n4,246,4:0\n" +
			"5,247,5:0\n6,251,6:0\n7,235,7:0\n8,16,8:0\n9,203,9:0\n10,48,10:0\n11,32,11:0\n12,245,16:0\n14,244,13:0\n"},
		{"narrow", "place6 1", "stripe=1&fragment=1&missing=1", "[1]", "0,1,0:0\n2,1,2:0\n6,1,6:0\n"},
		{"of what is there", "place6 1", "stripe=1&fragment=1&missing=7", "[7]", "1,1,1:0\n"},
	} {
		s := newService(t, nil)
		for _, line := range strings.Split(it.calls, ";") {
			s.call(line)
		}
		path := "/books/p0/recipe?now=1&" + it.query
		s.expect("GET", path+"&format=csv", "", 200, "fragment,coefficient,home\n"+strings.TrimSuffix(it.want, "\n"))
		_, text := s.ask("GET", path, "")
		var told struct {
			N       int
			Missing json.RawMessage `json:"missing_fragments"`
			Rows    []struct{ Home string }
		}
		err := json.Unmarshal([]byte(text), &told)
		if err != nil || told.N != strings.Count(it.calls, ";")+1 || string(told.Missing) != it.missing ||
			len(told.Rows) != strings.Count(it.want, "\n") || told.Rows[0].Home == "" {
			t.Errorf("%s: %s %v", it.name, text, err)
		}
	}
}

func TestARecipeThatThereIsNotIsRefusedByName(t *testing.T) {
	s := newService(t, nil)
	for _, line := range []string{"place 1", "place6 2", "fail 3"} {
		s.call(line)
	}
	for _, it := range []struct {
		query  string
		status int
		words  string
	}{
		{"fragment=3", 400, `the parameter "stripe" is not a number`},
		{"stripe=1", 400, `the parameter "fragment" is not a number`},
		{"stripe=4096&fragment=3", 400, `the parameter "stripe" is out of its range, 0 to 4095`},
		{"stripe=1&fragment=16", 400, `the parameter "fragment" is out of its range, 0 to 15`},
		{"stripe=1&fragment=3&missing=x", 400, `the parameter "missing" is not a number`},
		{"stripe=1&fragment=3&missing=16", 400, `the parameter "missing" is out of its range`},
		{"stripe=1&stripe=2&fragment=3", 400, `the parameter "stripe" comes twice`},
		{"stripe=1&fragment=3&without=4", 400, `there is no parameter "without" here`},
		{"stripe=3&fragment=3", 404, "there is no stripe 3"},
		{"stripe=3&fragment=3&missing=3", 404, "there is no stripe 3"},
		{"stripe=2&fragment=10", 404, "the stripe has no fragment 10"},
		{"stripe=2&fragment=3&missing=15", 404, "the stripe has no fragment 15"},
		{"stripe=1&fragment=3", 404, "there is no live lease of fragment 3"},
		{"stripe=1&fragment=3&missing=0&missing=1&missing=2", 409, "does not determine the fragment"},
	} {
		s.refused("GET", "/books/p0/recipe?"+it.query, "", it.status, it.words)
	}
	for _, line := range []string{"lease 1 3", "down 0", "down 1", "down 2"} {
		s.call(line)
	}
	s.refused("GET", "/books/p0/recipe?stripe=1&fragment=3", "", 409, "does not determine the fragment")
	s.refused("GET", "/books/p1/recipe?stripe=1&fragment=3", "", 404, "there is no such book")
}

// The matrices of docs/RULES.md.
func TestTheMatrixHasARowForEachFragment(t *testing.T) {
	s := newService(t, nil)
	s.expect("GET", "/matrix?code=narrow", "", 200, `{"code":"narrow","rows":[[1,0,0,0,0,0],[0,1,0,0,0,0],[0,0,1,0,0,0],`+
		`[0,0,0,1,0,0],[0,0,0,0,1,0],[0,0,0,0,0,1],[1,1,1,0,0,0],[0,0,0,1,1,1],[1,2,3,16,32,48],[1,4,5,29,116,105]]}`)
	_, text := s.ask("GET", "/matrix?code=wide", "")
	if !strings.HasSuffix(text, `[1,1,1,1,1,1,0,0,0,0,0,0],[0,0,0,0,0,0,1,1,1,1,1,1],[1,2,3,4,5,6,16,32,48,64,80,96],`+
		`[1,4,5,16,17,20,29,116,105,205,208,185]]}`+"\n") || strings.Count(text, "[") != 17 {
		t.Error(text)
	}
	s.refused("GET", "/matrix", "", 400, `the parameter "code" has to be wide or narrow`)
	s.refused("GET", "/matrix?code=wide&code=wide", "", 400, `the parameter "code" comes twice`)
	s.refused("GET", "/matrix?code=other", "", 400, `the parameter "code" has to be wide or narrow`)
}
