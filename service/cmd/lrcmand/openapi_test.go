package main

import (
	"bytes"
	"flag"
	"os"
	"testing"

	"lrcman/service/internal/openapi"
)

var update = flag.Bool("update", false, "writes service/openapi.json anew")

// The description has each route as the table of routes has it. service/go test ./cmd/lrcmand -run Interface -update makes it anew.
func TestTheInterfaceIsDescribed(t *testing.T) {
	api, _ := newAPI(t)
	var routes []openapi.Route
	for _, route := range api.Routes() {
		routes = append(routes, openapi.Route{Method: route.Method, Pattern: route.Pattern, Role: route.Role.String(), Query: route.Query,
			HasBody: route.Most > 0})
	}
	text, err := openapi.Build(routes)
	if err != nil {
		t.Fatal(err)
	}
	const file = "../../openapi.json"
	if *update {
		if err := os.WriteFile(file, text, 0o644); err != nil {
			t.Fatal(err)
		}
	}
	written, err := os.ReadFile(file)
	if err != nil || !bytes.Equal(written, text) {
		t.Errorf("service/openapi.json is not that of the routes: %v", err)
	}
	if _, err := openapi.Build(routes[1:]); err == nil {
		t.Error("a description without a route")
	}
	routes[0].Query += " what"
	if _, err := openapi.Build(routes); err == nil {
		t.Error("a parameter without a description")
	}
	routes[0].Pattern = "/what"
	if _, err := openapi.Build(routes); err == nil {
		t.Error("a route without a description")
	}
}
