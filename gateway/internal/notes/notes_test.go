package notes

import (
	"encoding/base64"
	"encoding/json"
	"fmt"
	"math/rand"
	"net/http"
	"strings"
	"testing"

	"bucketd/gateway/internal/host"
	"bucketd/gateway/internal/s3err"
)

// No two versions have their notes at one place, and what is no version's id has none.
func TestPlace(t *testing.T) {
	random := rand.New(rand.NewSource(7))
	const letters = "ab/0.n"
	text := func(most int) string {
		b := make([]byte, 1+random.Intn(most))
		for i := range b {
			b[i] = letters[random.Intn(len(letters))]
		}
		return string(b)
	}
	ids := []string{"", host.NullVersion, "0000000000000001", "000000000000000a", "a/b", "null/a", "0", "NULL", "000000000000000A", "00000000000000011", " null", "null\n"}
	seen := map[host.Object]host.Object{}
	for i := 0; i < 20_000; i++ {
		o := host.Object{Bucket: text(3), Key: text(5), Version: ids[random.Intn(len(ids))]}
		place, err := Place(o)
		isWell := (o.Version == "" || IsVersion(o.Version)) && !strings.Contains(o.Bucket, "/")
		if isWell != (err == nil) {
			t.Fatal(o, err)
		}
		if err != nil {
			continue
		}
		if o.Version == "" {
			o.Version = host.NullVersion
		}
		if other, isThere := seen[place]; isThere && other != o {
			t.Fatal(o, other)
		}
		seen[place] = o
		if !strings.HasPrefix(place.Key, o.Bucket+"/") || place.Bucket != Bucket {
			t.Fatal(place)
		}
	}
}

// A note tells what belongs to bytes by their checksum, and nothing of others.
func TestNoteOf(t *testing.T) {
	n := &Note{Checksum: "new", Metadata: Metadata{"a": "1"}, Before: &Note{Checksum: "old", Metadata: Metadata{"a": "0"}}}
	for _, it := range []struct {
		checksum, want string
		isThere        bool
	}{{"new", "map[a:1]", true}, {"old", "map[a:0]", true}, {"other", "map[]", false}, {"", "map[]", false}} {
		meta, isThere := n.Of(it.checksum)
		if fmt.Sprint(map[string]string(meta)) != it.want || isThere != it.isThere {
			t.Fatal(it, meta, isThere)
		}
		if alone := n.Alone(it.checksum); (alone != nil) != it.isThere || alone != nil && (alone.Before != nil || alone.Checksum != it.checksum) {
			t.Fatal(it, alone)
		}
	}
	if _, isThere := (*Note)(nil).Of("new"); isThere || (*Note)(nil).Size() != 0 {
		t.Fatal("no note has something")
	}
	// Those that were written before there was a second part are read.
	var old Note
	if err := json.Unmarshal([]byte(`{"Checksum":"c","Metadata":{"x-amz-meta-n":"1"}}`), &old); err != nil || old.Before != nil || old.Metadata["x-amz-meta-n"] != "1" {
		t.Fatal(old, err)
	}
}

func TestOf(t *testing.T) {
	for _, it := range []struct {
		name string
		head http.Header
		code string
		want string
	}{
		{"what is kept", http.Header{"X-Amz-Meta-A": {"1", "2"}, "Content-Type": {"t"}, "X-Other": {"x"}}, "", "map[content-type:t x-amz-meta-a:1,2]"},
		{"chunks are no coding", http.Header{"Content-Encoding": {"aws-chunked,br"}}, "", "map[content-encoding:br]"},
		{"nothing", http.Header{"Content-Encoding": {"aws-chunked"}}, "", "map[]"},
		{"too much", http.Header{"X-Amz-Meta-A": {strings.Repeat("a", 2048)}}, "MetadataTooLarge", ""},
		{"a type that is too long", http.Header{"Content-Type": {strings.Repeat("a", 2049)}}, "MetadataTooLarge", ""},
		{"no UTF-8", http.Header{"X-Amz-Meta-A": {"\xff"}}, "InvalidArgument", ""},
		{"a control character", http.Header{"X-Amz-Meta-A": {"a\x01"}}, "InvalidArgument", ""},
		{"a line", http.Header{"Cache-Control": {"a\r\nb"}}, "InvalidArgument", ""},
	} {
		t.Run(it.name, func(t *testing.T) {
			meta, err := Of(it.head)
			if it.code != "" && !s3err.Is(err, it.code) || it.code == "" && (err != nil || fmt.Sprint(map[string]string(meta)) != it.want) {
				t.Fatal(meta, err)
			}
		})
	}
}

// Metadata in an upload's id, which a client may make, has names of fields alone.
func TestInUpload(t *testing.T) {
	for text, want := range map[string]string{`{"X-Amz-Meta-N":"1"}`: "map[x-amz-meta-n:1]", `{"x-amz-meta-a b":"1"}`: "map[]", `{"x-amz-meta-a\r\nset-cookie":"1"}`: "map[]",
		`{"x-amz-meta-a:":"1"}`: "map[]", `{"":"1"}`: "map[]", `{`: "map[]", `[]`: "map[]"} {
		meta, err := InUpload("0000000000000001." + base64.RawURLEncoding.EncodeToString([]byte(text)))
		if found := fmt.Sprint(map[string]string(meta)); err != nil || found != want {
			t.Errorf("%s: %s %v", text, found, err)
		}
	}
	if meta, err := InUpload("0000000000000001"); meta != nil || err != nil {
		t.Error(meta, err)
	}
}
