package sigv4

import (
	"net/url"
	"slices"
	"strings"
	"testing"
)

// No two queries that are taken have one text that is signed, and each that is refused for &NAME= in a value shares its text with
// another query. All queries are tried of a few names, with values of a few pieces.
func TestResource2(t *testing.T) {
	names := []string{"acl", "response-content-type", "versionId", "versions"}
	pieces := []string{"&", "=", "a", "acl", "versionId", "versions"}
	values := []string{""}
	for from, length := 0, 0; length < 3; length++ {
		to := len(values)
		for _, it := range values[from:to] {
			for _, piece := range pieces {
				values = append(values, it+piece)
			}
		}
		from = to
	}
	taken, refused := map[string]string{}, map[string]url.Values{}
	try := func(query url.Values) {
		text := plain2(query)
		got, err := resource2(query)
		if err != nil {
			refused[query.Encode()] = query
			return
		}
		if got != text {
			t.Fatalf("%q is signed as %q, not %q", query.Encode(), got, text)
		}
		if before, isTwice := taken[text]; isTwice {
			t.Fatalf("%q and %q are both signed as %q", before, query.Encode(), text)
		}
		taken[text] = query.Encode()
	}
	for i, first := range names {
		for _, value := range values {
			try(url.Values{first: {value}})
			for _, second := range names[i+1:] {
				for _, other := range values[:1+len(pieces)+len(pieces)*len(pieces)] {
					try(url.Values{first: {value}, second: {other}})
				}
			}
		}
	}
	for _, query := range refused {
		if strings.Contains(plain2(query), "s&") || strings.Contains(plain2(query), "d&") { // (a name alone)
			continue
		}
		if !isAmbiguous(plain2(query), query) {
			t.Fatalf("%q is refused, and signed as no other query is", query.Encode())
		}
	}
	if len(taken) < 1000 || len(refused) < 1000 {
		t.Fatal(len(taken), "queries are taken,", len(refused), "refused")
	}
}

// plain2 is the text that is signed of a query, whatever its values are.
func plain2(query url.Values) string {
	var all []string
	for _, name := range signedParameters {
		if query.Has(name) {
			if value := query.Get(name); value != "" {
				name += "=" + value
			}
			all = append(all, name)
		}
	}
	return "?" + strings.Join(all, "&")
}

// isAmbiguous returns whether a text is that of another query, too: all ways are tried to cut it at each &. (Of an empty value some
// sign NAME, others NAME=.)
func isAmbiguous(text string, query url.Values) bool {
	cuts := strings.Split(text[1:], "&")
	for set := 0; set < 1<<(len(cuts)-1); set++ {
		items := []string{cuts[0]}
		for i, it := range cuts[1:] {
			if set>>i&1 == 1 {
				items = append(items, it)
			} else {
				items[len(items)-1] += "&" + it
			}
		}
		last, isWell := -1, true
		for _, it := range items {
			name, _, _ := strings.Cut(it, "=")
			at := slices.Index(signedParameters, name)
			isWell, last = isWell && at > last, at
		}
		if isWell && len(items) != len(query) {
			return true
		}
	}
	return false
}
