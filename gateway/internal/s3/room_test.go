package s3

import (
	"bytes"
	"context"
	"encoding/json"
	"errors"
	"fmt"
	"io"
	"net"
	"net/http"
	"net/http/httptest"
	"net/url"
	"os"
	"os/exec"
	"strings"
	"sync/atomic"
	"syscall"
	"testing"
	"time"

	"bucketd/gateway/internal/host"
	"bucketd/gateway/internal/limits"
	"bucketd/gateway/internal/notes"
	"bucketd/gateway/internal/s3err"
	"bucketd/gateway/internal/sigv4"
)

// begin sends a request's head and the first bytes of its body.
func begin(t *testing.T, r *http.Request, length int, first string) net.Conn {
	t.Helper()
	conn, err := net.Dial("tcp", r.URL.Host)
	if err != nil {
		t.Fatal(err)
	}
	t.Cleanup(func() { conn.Close() })
	conn.SetDeadline(time.Now().Add(20 * time.Second))
	fmt.Fprintf(conn, "%s %s HTTP/1.1\r\nHost: %s\r\nContent-Length: %d\r\n", r.Method, r.URL.RequestURI(), r.URL.Host, length)
	for name := range r.Header {
		fmt.Fprintf(conn, "%s: %s\r\n", name, r.Header.Get(name))
	}
	io.WriteString(conn, "\r\n"+first)
	return conn
}

// answerOf reads the beginning of an answer.
func answerOf(t *testing.T, conn net.Conn) string {
	t.Helper()
	text := make([]byte, 4096)
	n, err := conn.Read(text)
	if err != nil {
		t.Fatal(err)
	}
	more, _ := io.ReadAll(io.LimitReader(conn, 1000))
	return string(text[:n]) + string(more)
}

// Bucket and quota are known before a body is: of one that isn't let in no byte is waited for.
func TestRefusedBeforeTheBody(t *testing.T) {
	_, stand, green, _ := newGateway(t, func(o *options) { o.Piece, o.MaxPart = 1<<20, 1<<20 })
	expect(t, green.do("PUT", "/plans", nil), 200, "")
	expect(t, green.do("PUT", "/plans/old", make([]byte, 200_000)), 200, "")
	begun := expect(t, green.do("POST", "/plans/up?uploads", nil), 200, "").body
	_, begun, _ = strings.Cut(begun, "<UploadId>")
	id, _, _ := strings.Cut(begun, "<")
	expect(t, green.do("PUT", "/plans/up?partNumber=3&uploadId="+id, make([]byte, 100_000)), 200, "")
	stand.set(func() { stand.tenants["green"].quota = 350_000 })
	for _, it := range []struct {
		target string
		size   int
		code   string
	}{
		{"/nothing/x", 100_000, "NoSuchBucket"},
		{"/plans/x", 100_000, "QuotaExceeded"},
		{"/plans/x", 2 << 20, "QuotaExceeded"},
		{"/plans/old", 300_000, "QuotaExceeded"},
		{"/plans/up?partNumber=1&uploadId=" + id, 100_000, "QuotaExceeded"},
		{"/plans/up?partNumber=3&uploadId=" + id, 200_000, "QuotaExceeded"},
	} {
		r := green.request("PUT", it.target, nil, map[string]string{"x-amz-content-sha256": sigv4.UnsignedPayload})
		if text := answerOf(t, begin(t, r, it.size, "")); !strings.Contains(text, "<Code>"+it.code) {
			t.Fatal(it, text)
		}
	}
	// What fits in the room of what it replaces is let in.
	expect(t, green.do("PUT", "/plans/old", make([]byte, 240_000)), 200, "")
	expect(t, green.do("PUT", "/plans/up?partNumber=3&uploadId="+id, make([]byte, 105_000)), 200, "")
}

// Who still sends a body that is refused by its head finds the answer, and no broken connection.
func TestRefusedWhileSending(t *testing.T) {
	_, _, green, _ := newGateway(t, nil)
	wrong := green
	wrong.secret = "x"
	for code, it := range map[string]signer{"NoSuchBucket": green, "SignatureDoesNotMatch": wrong} {
		told := ""
		for i := 0; told == "" && i < 10; i++ { // (on a busy machine the while may be over)
			r := it.request("PUT", "/nothing/x", nil, map[string]string{"x-amz-content-sha256": sigv4.UnsignedPayload})
			conn := begin(t, r, 200_000, strings.Repeat("a", 100_000))
			time.Sleep(50 * time.Millisecond)
			if _, err := io.WriteString(conn, strings.Repeat("a", 50_000)); err != nil {
				continue
			}
			time.Sleep(50 * time.Millisecond)
			if _, err := io.WriteString(conn, strings.Repeat("a", 50_000)); err == nil {
				told = answerOf(t, conn)
			}
		}
		if !strings.Contains(told, "<Code>"+code) {
			t.Errorf("%s: %q", code, told)
		}
	}
}

// A body of more pieces than an upload has parts is refused by its head.
func TestTooManyPieces(t *testing.T) {
	_, _, green, _ := newGateway(t, nil)
	expect(t, green.do("PUT", "/plans", nil), 200, "")
	unsigned := map[string]string{"x-amz-content-sha256": sigv4.UnsignedPayload}
	if text := answerOf(t, begin(t, green.request("PUT", "/plans/x", nil, unsigned), 10000*65536+1, "abc")); !strings.Contains(text, "<Code>EntityTooLarge") {
		t.Fatal(text)
	}
}

// Bodies that wait have a bound in all and of a tenant, and those that are refused take none.
func TestSpoolRoom(t *testing.T) {
	s, _, green, blue := newGateway(t, func(o *options) { o.Piece, o.MaxPart = 4<<20, 4<<20 })
	room := limits.NewSpool(5<<20, 3<<20)
	s.Spool.Room = room
	for _, it := range []signer{green, blue} {
		expect(t, it.do("PUT", "/plans", nil), 200, "")
	}
	unsigned := map[string]string{"x-amz-content-sha256": sigv4.UnsignedPayload}
	first := begin(t, green.request("PUT", "/plans/x", nil, unsigned), 2<<20, "a")
	for begun := time.Now(); room.Taken() == 0 && time.Since(begun) < 10*time.Second; {
		time.Sleep(5 * time.Millisecond)
	}
	expect(t, green.do("PUT", "/plans/y", make([]byte, 2<<20)), 503, "SlowDown")
	expect(t, blue.do("PUT", "/plans/y", make([]byte, 2<<20)), 200, "")
	expect(t, blue.do("PUT", "/plans/y", make([]byte, 4<<20)), 503, "SlowDown")
	expect(t, green.do("PUT", "/plans/small", make([]byte, 1<<20)), 200, "")
	first.Close()
	for begun := time.Now(); room.Taken() != 0 && time.Since(begun) < 10*time.Second; {
		time.Sleep(5 * time.Millisecond)
	}
	expect(t, green.do("PUT", "/plans/y", make([]byte, 2<<20)), 200, "")
	if n := room.Taken(); n != 0 {
		t.Fatal(n)
	}
}

// A full disk is no fault of the client's.
func TestFullDisk(t *testing.T) {
	full := &os.PathError{Op: "write", Path: "spool", Err: syscall.ENOSPC}
	if err := spoolError(full); !s3err.Is(err, "SlowDown") {
		t.Fatal(err)
	}
	if err := spoolError(io.EOF); !errors.Is(err, sigv4.ErrIncomplete) {
		t.Fatal(err)
	}
}

// A body that comes a byte at a time is ended, however patient its sender is.
func TestLeastRate(t *testing.T) {
	_, _, green, _ := newGateway(t, func(o *options) { o.LeastRate = limits.Rate{Bytes: 1000, Grace: 200 * time.Millisecond} })
	expect(t, green.do("PUT", "/plans", nil), 200, "")
	conn := begin(t, green.request("PUT", "/plans/x", nil, map[string]string{"x-amz-content-sha256": sigv4.UnsignedPayload}), 1000, "a")
	for i := 0; i < 100; i++ {
		time.Sleep(20 * time.Millisecond)
		if _, err := io.WriteString(conn, "a"); err != nil {
			break
		}
	}
	if text := answerOf(t, conn); !strings.Contains(text, "<Code>RequestTimeout") {
		t.Fatal(text)
	}
	expect(t, green.do("GET", "/plans/x", nil), 404, "NoSuchKey")
}

func uploadsLeft(stand *standin) (count, notesLeft int) {
	stand.set(func() {
		count = len(stand.tenants["green"].buckets["plans"].uploads)
		if hidden := stand.tenants["green"].buckets[notes.Bucket]; hidden != nil {
			for key := range hidden.keys {
				if strings.HasPrefix(key, marks) {
					notesLeft++
				}
			}
		}
	})
	return count, notesLeft
}

// A great body goes on piece by piece, and leaves nothing where its signature turns out wrong, it is cut, or a piece is refused.
func TestPiecesGo(t *testing.T) {
	s, stand, green, _ := newGateway(t, nil)
	expect(t, green.do("PUT", "/plans", nil), 200, "")
	expect(t, green.do("PUT", "/plans/x", []byte("old"), "x-amz-meta-n", "1"), 200, "")
	great := bytes.Repeat([]byte("a"), 300_000)
	expect(t, green.do("PUT", "/plans/x", great, "x-amz-content-sha256", emptySHA256), 400, "XAmzContentSHA256Mismatch")
	expect(t, green.do("PUT", "/plans/x", great, "x-amz-checksum-crc32", "AAAAAA=="), 400, "BadDigest")
	expect(t, green.do("PUT", "/plans/x", great, "If-None-Match", "*"), 412, "PreconditionFailed")
	half := begin(t, green.request("PUT", "/plans/x", nil, map[string]string{"x-amz-content-sha256": sigv4.UnsignedPayload}), 300_000, string(great[:200_000]))
	for begun, isPut := time.Now(), false; !isPut && time.Since(begun) < 15*time.Second; {
		stand.set(func() {
			for _, it := range stand.tenants["green"].buckets["plans"].uploads {
				isPut = len(it.parts) == 3
			}
		})
	}
	if count, marked := uploadsLeft(stand); count != 1 || marked != 1 || s.Spool.InMemory() > 65536 {
		t.Fatal(count, marked, s.Spool.InMemory())
	}
	half.Close()
	for begun := time.Now(); time.Since(begun) < 10*time.Second; time.Sleep(5 * time.Millisecond) {
		if count, marked := uploadsLeft(stand); count == 0 && marked == 0 {
			break
		}
	}
	if count, marked := uploadsLeft(stand); count != 0 || marked != 0 {
		t.Fatal(count, marked)
	}
	if got := whole(green.do("GET", "/plans/x", nil)); got != `200 "old" n=1 type=binary/octet-stream` {
		t.Fatal(got)
	}
	expect(t, green.do("PUT", "/plans/x", great), 200, "")
	if count, marked := uploadsLeft(stand); count != 0 || marked != 0 {
		t.Fatal(count, marked)
	}
}

func sweep(t *testing.T, s *Server) {
	t.Helper()
	caller, err := s.Verifier.Caller("green$k1")
	if err == nil {
		err = s.Sweep(context.Background(), caller)
	}
	if err != nil {
		t.Fatal(err)
	}
}

// bury makes the gateway of all marks, which is this process, one that ran before.
func bury(stand *standin) {
	stand.set(func() {
		for key, it := range stand.tenants["green"].buckets[notes.Bucket].keys {
			if strings.HasPrefix(key, marks) {
				it[0].data = []byte(strings.Replace(string(it[0].data), fmt.Sprint(os.Getpid(), " "), "1 9", 1))
			}
		}
	})
}

// An upload that a killed gateway left is aborted by the next, whenever it was killed; one of a gateway that runs is left alone, and
// so are a client's own.
func TestSweep(t *testing.T) {
	great, lefts, isWhole := bytes.Repeat([]byte("a"), 200_000), 0, false
	for count := 0; !isWhole; count++ {
		s, stand, green, _ := newGateway(t, nil)
		expect(t, green.do("PUT", "/plans", nil), 200, "")
		expect(t, green.do("PUT", "/plans/x", []byte("old"), "x-amz-meta-n", "1"), 200, "")
		owns := []string{begunUpload(t, green, "/plans/own"), begunUpload(t, green, "/plans/x")}
		cut, answer := newFuse(t, stand.listener.Addr().String(), count), make(chan answered, 1)
		doomed := before(t, s, cut.listener.Addr().String())
		go func() { answer <- doomed.do("PUT", "/plans/x", great) }()
		select {
		case a := <-answer:
			isWhole = a.status == 200
		case <-cut.blown:
		}
		left, marked := uploadsLeft(stand)
		sweep(t, s)
		if count, now := uploadsLeft(stand); count != left || now != marked {
			t.Fatal("what a gateway has that runs is gone:", count, now)
		}
		bury(stand)
		// A gateway that comes after lets no upload begin before it looked for those that are left.
		next := before(t, s, stand.listener.Addr().String())
		owns = append(owns, begunUpload(t, next, "/plans/x"))
		if left > 2 {
			lefts++
		}
		if now, marked := uploadsLeft(stand); now != len(owns) || marked != 0 {
			t.Fatalf("killed after %d requests: %d uploads and %d marks are left, not the clients' %d", count, now, marked, len(owns))
		}
		for _, id := range owns[1:] {
			expect(t, green.do("PUT", "/plans/x?partNumber=1&uploadId="+id, []byte("a")), 200, "")
		}
		sweep(t, s)
		if now, _ := uploadsLeft(stand); now != len(owns) {
			t.Fatal(now, "uploads")
		}
		if a := expect(t, green.do("GET", "/plans/x", nil), 200, ""); a.body != string(great) && (isWhole || whole(a) != `200 "old" n=1 type=binary/octet-stream`) {
			t.Fatalf("killed after %d requests: %.90s", count, whole(a))
		}
	}
	if lefts < 4 {
		t.Fatal("an upload was left", lefts, "times")
	}
}

// A mark without an id means no upload that has a part, or that another mark has, and none while a gateway that runs begins one.
func TestSweepUnknown(t *testing.T) {
	s, stand, green, _ := newGateway(t, nil)
	expect(t, green.do("PUT", "/plans", nil), 200, "")
	first := begunUpload(t, green, "/plans/x")
	var ids []string
	for i := 0; i < 4; i++ {
		ids = append(ids, begunUpload(t, green, "/plans/x"))
	}
	longer := begunUpload(t, green, "/plans/xx")
	expect(t, green.do("PUT", "/plans/x?partNumber=1&uploadId="+ids[0], []byte("a")), 200, "")
	own, err := ownName()
	if err != nil {
		t.Fatal(err)
	}
	put := func(name string, m mark) {
		text, err := json.Marshal(m)
		if err != nil {
			t.Fatal(err)
		}
		stand.set(func() {
			b := stand.tenants["green"].buckets[notes.Bucket]
			if b == nil {
				b = &storedBucket{keys: map[string][]*storedVersion{}, uploads: map[string]*storedUpload{}}
				stand.tenants["green"].buckets[notes.Bucket] = b
			}
			b.keys[marks+"plans/"+name] = []*storedVersion{{id: host.NullVersion, data: text}}
		})
	}
	want := func(ids ...string) {
		t.Helper()
		sweep(t, s)
		stand.set(func() {
			uploads := stand.tenants["green"].buckets["plans"].uploads
			for _, id := range ids {
				if uploads[id] == nil {
					t.Error(id, "is gone")
				}
			}
			if len(uploads) != len(ids) {
				t.Error(len(uploads), "uploads, not", len(ids))
			}
		})
	}
	put("dead", mark{Bucket: "plans", Key: "x", After: first, Process: "1 1 a"})
	put("begins", mark{Bucket: "plans", Key: "x", After: first, Process: own})
	put("none", mark{Bucket: "other", Key: "x", Process: "1 1 a"}) // (not where it belongs)
	want(first, ids[0], ids[1], ids[2], ids[3], longer)
	put("begins", mark{Bucket: "plans", Key: "x", UploadId: ids[2], Process: own})
	want(first, ids[0], ids[2], longer)
	// (more of them than a page has)
	put("dead", mark{Bucket: "plans", Key: "x", After: first, Process: "1 1 a"})
	stand.set(func() {
		for i := 0x1000; i < 0x1000+1200; i++ {
			id := fmt.Sprintf("%016x", i)
			stand.tenants["green"].buckets["plans"].uploads[id] = &storedUpload{id: id, key: "x", parts: map[int]*storedVersion{}}
		}
	})
	want(first, ids[0], ids[2], longer)
}

// The upload of a put whose beginning got no answer is aborted before another one begins.
func TestBeginningWithoutAnswer(t *testing.T) {
	s, stand, green, _ := newGateway(t, nil)
	expect(t, green.do("PUT", "/plans", nil), 200, "")
	link := newDeaf(t, stand.listener.Addr().String(), "POST /plans/x?uploads")
	cut := before(t, s, link.Addr().String())
	expect(t, cut.do("PUT", "/plans/x", bytes.Repeat([]byte("a"), 200_000)), 503, "SlowDown")
	for begun := time.Now(); time.Since(begun) < 10*time.Second; time.Sleep(5 * time.Millisecond) {
		if count, marked := uploadsLeft(stand); count == 0 && marked == 0 {
			return
		}
	}
	count, marked := uploadsLeft(stand)
	t.Fatal(count, marked)
}

// A mark that can't be taken away goes before the next upload begins, which so isn't taken for the one that it means.
func TestMarkStays(t *testing.T) {
	_, stand, green, _ := newGateway(t, nil)
	expect(t, green.do("PUT", "/plans", nil), 200, "")
	for name, it := range map[string]struct {
		refused string // the request that is
		status  int
	}{"of a put that is over": {"DELETE /" + notes.Bucket + "/" + marks, 200}, "of one that isn't begun": {"POST /plans/x?uploads", 403}} {
		stand.set(func() {
			stand.refusal = func(r *http.Request) int {
				path, err := url.PathUnescape(r.RequestURI)
				isMark := r.Method == "DELETE" && strings.HasPrefix(path, "/"+notes.Bucket+"/"+marks)
				if err == nil && (isMark || strings.HasPrefix(r.Method+" "+path, it.refused)) {
					return 5
				}
				return 0
			}
		})
		if a := green.do("PUT", "/plans/x", bytes.Repeat([]byte("a"), 200_000)); a.status != it.status {
			t.Fatal(name, a.status, a.code)
		}
		if a := green.do("POST", "/plans/x?uploads", nil); a.status == 200 {
			t.Fatal(name, "an upload has begun")
		}
		if _, marked := uploadsLeft(stand); marked != 1 {
			t.Fatal(name, marked, "marks")
		}
		stand.set(func() { stand.refusal = nil })
		own := begunUpload(t, green, "/plans/x")
		if count, marked := uploadsLeft(stand); count != 1 || marked != 0 {
			t.Fatal(name, count, marked)
		}
		expect(t, green.do("DELETE", "/plans/x?uploadId="+own, nil), 204, "")
	}
}

// newDeaf passes connections on to a host, but not the answer of the first request that begins so.
func newDeaf(t *testing.T, to, request string) net.Listener {
	t.Helper()
	listener, err := net.Listen("tcp", "127.0.0.1:0")
	if err != nil {
		t.Fatal(err)
	}
	t.Cleanup(func() { listener.Close() })
	isOver := false
	go func() {
		for {
			conn, err := listener.Accept()
			if err != nil {
				return
			}
			first := make([]byte, 4096)
			n, _ := conn.Read(first)
			onward, err := net.Dial("tcp", to)
			if err != nil {
				return
			}
			onward.Write(first[:n])
			if strings.HasPrefix(string(first[:n]), request) && !isOver {
				isOver = true
				io.Copy(io.Discard, onward)
				conn.Close()
				continue
			}
			go io.Copy(onward, conn)
			go func() {
				io.Copy(conn, onward)
				conn.Close()
				onward.Close()
			}()
		}
	}()
	return listener
}

func TestProcesses(t *testing.T) {
	own, err := ownName()
	if err != nil || !isRunning(own) {
		t.Fatal(own, err)
	}
	start, err := startOf(os.Getppid())
	if parent := fmt.Sprint(os.Getppid(), " ", start, " x"); err == nil && (!isRunning(parent) || isRunning(strings.Replace(parent, " x", "0 x", 1))) {
		t.Fatal(parent)
	}
	for _, it := range []string{"", "x", "a b c", own + "0", "0" + own, strings.Replace(own, fmt.Sprint(os.Getpid()), "999999999", 1), own[:len(own)-1]} {
		if isRunning(it) {
			t.Fatal(it)
		}
	}
}

// Where a unit hides all of /proc but processes, as the gateway's does, its own are known all the same.
func TestProcessesInUnit(t *testing.T) {
	const mount = "mount -t proc -o subset=pid,hidepid=invisible proc /proc"
	if os.Geteuid() != 0 || exec.Command("unshare", "-m", "sh", "-c", mount).Run() != nil {
		t.Skip("it wants root, and a /proc of its own")
	}
	hidden := exec.Command("unshare", "-m", "sh", "-c", mount+` && exec "$0" -test.run '^(TestProcesses|TestSweep|TestPiecesGo)$'`, os.Args[0])
	if out, err := hidden.CombinedOutput(); err != nil || !strings.Contains(string(out), "PASS") {
		t.Fatalf("%v: %.2000s", err, out)
	}
}

// A client that goes takes its waiting call with it: nothing is put for it.
func TestClientGoes(t *testing.T) {
	s, stand, green, _ := newGateway(t, func(o *options) { o.ahead = 1 })
	expect(t, green.do("PUT", "/plans", nil), 200, "")
	var calls atomic.Int64
	entered, release, answered := make(chan struct{}), make(chan struct{}), make(chan struct{})
	web := httptest.NewUnstartedServer(nil)
	web.Config = s.Web()
	answering := web.Config.Handler
	web.Config.Handler = http.HandlerFunc(func(w http.ResponseWriter, r *http.Request) {
		calls.Add(1)
		defer calls.Add(-1)
		answering.ServeHTTP(w, r)
	})
	web.Start()
	defer web.Close()
	green.base = web.URL
	until := func(count int64) {
		t.Helper()
		for begun := time.Now(); calls.Load() != count; time.Sleep(time.Millisecond) {
			if time.Since(begun) > 10*time.Second {
				close(release)
				t.Fatal(calls.Load(), "calls, not", count)
			}
		}
	}
	stand.set(func() {
		stand.before = func(r *http.Request) {
			if strings.Contains(r.RequestURI, "versioning") {
				close(entered)
				<-release
			}
		}
	})
	go func() {
		defer close(answered)
		green.do("GET", "/plans?versioning", nil)
	}()
	<-entered
	waiting := begin(t, green.request("PUT", "/plans/x", []byte("abc"), nil), 3, "abc")
	until(2)
	time.Sleep(20 * time.Millisecond) // (it may wait by now)
	waiting.Close()
	until(1)
	close(release)
	<-answered
	stand.set(func() { stand.before = nil })
	expect(t, green.do("GET", "/plans/x", nil), 404, "NoSuchKey")
}
