package s3

import (
	"fmt"
	"io"
	"net"
	"net/http"
	"net/http/httptest"
	"strings"
	"sync"
	"sync/atomic"
	"testing"
	"time"

	"bucketd/gateway/internal/host"
	"bucketd/gateway/internal/notes"
)

// fuse passes connections on to a host, and nothing any more when so many have gone through: as if the gateway before it were killed
// then.
type fuse struct {
	listener net.Listener
	left     atomic.Int64
	blown    chan struct{}
}

func newFuse(t *testing.T, to string, count int) *fuse {
	t.Helper()
	listener, err := net.Listen("tcp", "127.0.0.1:0")
	if err != nil {
		t.Fatal(err)
	}
	f := &fuse{listener: listener, blown: make(chan struct{})}
	t.Cleanup(func() { listener.Close() })
	f.left.Store(int64(count))
	go func() {
		for {
			conn, err := listener.Accept()
			if err != nil {
				return
			}
			if f.left.Add(-1) < 0 {
				listener.Close()
				conn.Close()
				close(f.blown)
				return
			}
			go pass(conn, to)
		}
	}()
	return f
}

func pass(conn net.Conn, to string) {
	defer conn.Close()
	onward, err := net.Dial("tcp", to)
	if err != nil {
		return
	}
	defer onward.Close()
	go io.Copy(onward, conn)
	io.Copy(conn, onward)
}

// before returns a client of a further gateway before a host at an address.
func before(t *testing.T, like *Server, address string) signer {
	s := &Server{Options: like.Options, Verifier: like.Verifier, Spool: like.Spool, Host: host.New(host.TCP(address), 4)}
	web := httptest.NewUnstartedServer(s)
	web.Config = s.Web()
	web.Start()
	t.Cleanup(func() { web.CloseClientConnections() })
	return signer{base: web.URL, id: "green$k1", secret: "greensecret", region: "us-east-1"}
}

// whole is what a reader sees of an object.
func whole(a answered) string {
	return fmt.Sprintf("%d %q n=%s type=%s", a.status, a.body, strings.Join(a.head["X-Amz-Meta-N"], ""), a.head.Get("Content-Type"))
}

func versioningTo(state string) []byte {
	return []byte("<VersioningConfiguration><Status>" + state + "</Status></VersioningConfiguration>")
}

// write is one of a key in a bucket.
type write struct {
	name   string
	body   string
	fields []string
}

// Whenever a gateway is killed within a write, the next one reads the object as it was or as it was to be, with its own metadata
// and never without; versions that were there before keep theirs; and so it is after a further write.
func TestKilled(t *testing.T) {
	noted := func(name, body, n string, fields ...string) write {
		return write{name, body, append([]string{"x-amz-meta-n", n, "Content-Type", "text/own"}, fields...)}
	}
	writes := []write{noted("other bytes", "new", "2"), noted("the same bytes", "old", "2"), {"no metadata", "new", nil}, {"the same bytes without metadata", "old", nil},
		noted("a great body", strings.Repeat("g", 200000), "2"),
		{"a copy", "", []string{"x-amz-copy-source", "/plans/source"}},
		{"a copy with metadata of its own", "", []string{"x-amz-copy-source", "/plans/source", "x-amz-metadata-directive", "REPLACE", "x-amz-meta-n", "4"}}}
	for _, state := range []string{"", "Enabled", "Suspended"} {
		for _, it := range writes {
			for count := 0; ; count++ {
				if isOver := killedAt(t, state, it, count); isOver {
					if count < 2 {
						t.Fatal("no write was cut")
					}
					break
				}
			}
		}
	}
}

// killedAt kills a gateway after so many requests to the host, and returns whether the write had no more.
func killedAt(t *testing.T, state string, it write, count int) bool {
	s, stand, green, _ := newGateway(t, nil)
	address := stand.listener.Addr().String()
	expect(t, green.do("PUT", "/plans", nil), 200, "")
	expect(t, green.do("PUT", "/plans/source", []byte("source"), "x-amz-meta-n", "3"), 200, "")
	expect(t, green.do("PUT", "/plans/x", []byte("first"), "x-amz-meta-n", "0"), 200, "")
	if state != "" {
		expect(t, green.do("PUT", "/plans?versioning", versioningTo("Enabled")), 200, "")
		expect(t, green.do("PUT", "/plans/x", []byte("numbered"), "x-amz-meta-n", "1"), 200, "")
		expect(t, green.do("PUT", "/plans?versioning", versioningTo(state)), 200, "")
	}
	expect(t, green.do("PUT", "/plans/x", []byte("old"), "x-amz-meta-n", "1"), 200, "")
	versions := versionsOf(stand, "x")
	was := map[string]string{}
	for _, id := range versions {
		was[id] = whole(green.do("GET", "/plans/x?versionId="+id, nil))
	}
	old := whole(green.do("GET", "/plans/x", nil))
	expect(t, green.do("PUT", "/plans/y", []byte("old"), "x-amz-meta-n", "1"), 200, "")
	expect(t, green.do("PUT", "/plans/y", []byte(it.body), it.fields...), 200, "")
	wanted := whole(green.do("GET", "/plans/y", nil))
	cut := newFuse(t, address, count)
	answer := make(chan answered, 1)
	doomed := before(t, s, cut.listener.Addr().String())
	go func() { answer <- doomed.do("PUT", "/plans/x", []byte(it.body), it.fields...) }()
	isAnswered := false
	select {
	case a := <-answer:
		isAnswered = a.status == 200
	case <-cut.blown:
	}
	next := before(t, s, address)
	got := whole(next.do("GET", "/plans/x", nil))
	if got != wanted && (got != old || isAnswered) {
		t.Fatalf("%s, %q, killed after %d: %.90s, neither %.90s nor %.90s", it.name, state, count, got, old, wanted)
	}
	check := func(when string) {
		for id, want := range was {
			if got := whole(next.do("GET", "/plans/x?versionId="+id, nil)); got != want && id != host.NullVersion {
				t.Fatalf("%s, %q, killed after %d, %s: version %s is %s, was %s", it.name, state, count, when, id, got, want)
			}
		}
	}
	check("then")
	for _, id := range versionsOf(stand, "x") {
		if id != host.NullVersion {
			was[id] = whole(next.do("GET", "/plans/x?versionId="+id, nil))
		}
	}
	expect(t, next.do("PUT", "/plans/x", []byte("third"), "x-amz-meta-n", "5"), 200, "")
	check("after a further write")
	expect(t, next.do("PUT", "/plans/x", []byte("fourth")), 200, "")
	check("after one without metadata")
	if got := whole(next.do("GET", "/plans/x", nil)); got != `200 "fourth" n= type=binary/octet-stream` {
		t.Fatal(it.name, state, count, got)
	}
	return isAnswered
}

func versionsOf(stand *standin, key string) (ids []string) {
	stand.set(func() {
		for _, it := range stand.tenants["green"].buckets["plans"].keys[key] {
			if !it.marker {
				ids = append(ids, it.id)
			}
		}
	})
	return ids
}

// The metadata of a version that stays can't be taken away by an id that is none, in a query, in a document or in a copy's source.
func TestVersionIDs(t *testing.T) {
	_, stand, green, _ := newGateway(t, nil)
	expect(t, green.do("PUT", "/vault", nil, locked, "true"), 200, "")
	expect(t, green.do("PUT", "/plans", nil), 200, "")
	expect(t, green.do("PUT", "/plans/a/b", []byte("plain"), "x-amz-meta-n", "8"), 200, "")
	kept := expect(t, green.do("PUT", "/vault/a/b", []byte("evidence"), "x-amz-object-lock-mode", "COMPLIANCE", until, "2091-08-01T00:00:00Z",
		"x-amz-meta-n", "7", "Content-Type", "application/evidence"), 200, "").head.Get("x-amz-version-id")
	expect(t, green.do("DELETE", "/vault/a/b?versionId="+kept, nil), 403, "AccessDenied")
	asked := stand.requests
	for _, id := range []string{kept + "%2Fa", "null%2Fa", "", "0", strings.ToUpper("000000000000000a"), kept + "0", "Null", "..", "%00", "a%0D%0Ab"} {
		for _, it := range [][]string{{"DELETE", "/vault/b?versionId=" + id}, {"DELETE", "/plans/b?versionId=" + id}, {"GET", "/vault/b?versionId=" + id},
			{"HEAD", "/vault/b?versionId=" + id}, {"GET", "/vault/b?retention&versionId=" + id}, {"GET", "/vault/b?acl&versionId=" + id}} {
			if a := green.do(it[0], it[1], nil); a.status != 400 || a.code != "InvalidArgument" && it[0] != "HEAD" {
				t.Fatal(it, a.status, a.code)
			}
		}
		if id != "" {
			expect(t, green.do("PUT", "/plans/c", nil, "x-amz-copy-source", "/vault/b?versionId="+id), 400, "InvalidArgument")
		}
	}
	if stand.requests != asked {
		t.Fatal("the host was asked for them")
	}
	for _, it := range [][]string{{"vault", kept + "/a"}, {"plans", "null/a"}} {
		a := expect(t, green.do("POST", "/"+it[0]+"?delete", []byte("<Delete><Object><Key>b</Key><VersionId>"+it[1]+"</VersionId></Object></Delete>")), 200, "")
		if !strings.Contains(a.body, "<Code>InvalidArgument</Code>") {
			t.Fatal(a.body)
		}
	}
	// An id of the form that isn't there takes nothing away either.
	expect(t, green.do("DELETE", "/vault/a/b?versionId=0000000000000777", nil), 204, "")
	expect(t, green.do("DELETE", "/vault/a/b?versionId=null", nil), 204, "")
	expect(t, green.do("DELETE", "/plans/a/b?versionId=0000000000000001", nil), 204, "")
	for target, want := range map[string]string{"/vault/a/b": `200 "evidence" n=7 type=application/evidence`, "/plans/a/b": `200 "plain" n=8 type=binary/octet-stream`} {
		if got := whole(green.do("GET", target, nil)); got != want {
			t.Fatal(got)
		}
	}
}

// A note goes with its version, and no other does.
func TestNotesGo(t *testing.T) {
	_, stand, green, _ := newGateway(t, nil)
	count := func() (n int) {
		stand.set(func() { n = len(stand.tenants["green"].buckets[notes.Bucket].keys) })
		return n
	}
	expect(t, green.do("PUT", "/plans", nil), 200, "")
	expect(t, green.do("PUT", "/plans/x", []byte("null"), "x-amz-meta-n", "0"), 200, "")
	expect(t, green.do("PUT", "/plans?versioning", versioningTo("Enabled")), 200, "")
	one := expect(t, green.do("PUT", "/plans/x", []byte("one"), "x-amz-meta-n", "1"), 200, "").head.Get("x-amz-version-id")
	if n := count(); n != 2 {
		t.Fatal(n, "notes")
	}
	expect(t, green.do("DELETE", "/plans/x", nil), 204, "") // (a marker)
	for _, it := range []struct {
		version string
		left    int
	}{{one, 1}, {host.NullVersion, 0}} {
		expect(t, green.do("DELETE", "/plans/x?versionId="+it.version, nil), 204, "")
		if n := count(); n != it.left {
			t.Fatal(it.version, n, "notes")
		}
	}
}

// Where metadata finds no room the old object stays with its own, and the client reads why.
func TestNoRoomForNotes(t *testing.T) {
	for _, state := range []string{"", "Enabled"} {
		_, stand, green, _ := newGateway(t, nil)
		expect(t, green.do("PUT", "/plans", nil), 200, "")
		if state != "" {
			expect(t, green.do("PUT", "/plans?versioning", versioningTo(state)), 200, "")
		}
		expect(t, green.do("PUT", "/plans/o", []byte("old"), "x-amz-meta-n", "1"), 200, "")
		for refused := 1; refused <= 2; refused++ {
			seen := 0
			stand.set(func() {
				stand.refusal = func(r *http.Request) int {
					if r.Method != "PUT" || !strings.Contains(r.RequestURI, notes.Bucket) {
						return 0
					}
					if seen++; seen == refused {
						return host.RefusalQuota
					}
					return 0
				}
			})
			if state == "" && refused == 2 {
				break // (there is one note to put)
			}
			expect(t, green.do("PUT", "/plans/o", []byte("new"), "x-amz-meta-n", strings.Repeat("m", 900)), 403, "QuotaExceeded")
			stand.set(func() { stand.refusal = nil })
			if got := whole(green.do("GET", "/plans/o", nil)); got != `200 "old" n=1 type=binary/octet-stream` {
				t.Fatal(state, refused, got)
			}
		}
	}
}

// A copy has the bytes and the metadata of one moment, though its source is overwritten all the time.
func TestCopiesUnderWrites(t *testing.T) {
	_, _, green, _ := newGateway(t, nil)
	expect(t, green.do("PUT", "/plans", nil), 200, "")
	expect(t, green.do("PUT", "/plans/x", []byte("0"), "x-amz-meta-n", "0"), 200, "")
	var done atomic.Bool
	var all sync.WaitGroup
	all.Add(1)
	go func() {
		defer all.Done()
		for i := 1; !done.Load(); i++ {
			green.do("PUT", "/plans/x", []byte(fmt.Sprint(i)), "x-amz-meta-n", fmt.Sprint(i))
		}
	}()
	for i := 0; i < 40; i++ {
		target := fmt.Sprintf("/plans/copy%d", i%3)
		if a := green.do("PUT", target, nil, "x-amz-copy-source", "/plans/x"); a.status != 200 {
			t.Error(a.status, a.code)
		}
		if a := green.do("GET", target, nil); a.status != 200 || strings.Join(a.head["X-Amz-Meta-N"], "") != a.body {
			t.Error(a.status, a.body, a.head)
		}
	}
	done.Store(true)
	all.Wait()
}

// Readers beside a writer never see bytes without their metadata.
func TestReadersUnderWrites(t *testing.T) {
	for _, state := range []string{"", "Enabled"} {
		_, _, green, _ := newGateway(t, nil)
		expect(t, green.do("PUT", "/plans", nil), 200, "")
		if state != "" {
			expect(t, green.do("PUT", "/plans?versioning", versioningTo(state)), 200, "")
		}
		expect(t, green.do("PUT", "/plans/x", []byte("0"), "x-amz-meta-n", "0"), 200, "")
		var done atomic.Bool
		var all sync.WaitGroup
		for i := 0; i < 3; i++ {
			all.Add(1)
			go func() {
				defer all.Done()
				for !done.Load() {
					a := green.do("GET", "/plans/x", nil)
					if a.status == 200 && strings.Join(a.head["X-Amz-Meta-N"], "") != a.body {
						t.Error(state, a.body, a.head)
					}
				}
			}()
		}
		for begun, i := time.Now(), 1; time.Since(begun) < 500*time.Millisecond; i++ {
			expect(t, green.do("PUT", "/plans/x", []byte(fmt.Sprint(i)), "x-amz-meta-n", fmt.Sprint(i)), 200, "")
		}
		done.Store(true)
		all.Wait()
	}
}
