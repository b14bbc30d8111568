package status

import (
	"bufio"
	"context"
	"errors"
	"fmt"
	"io"
	"net"
	"net/http"
	"net/http/httptest"
	"strings"
	"sync/atomic"
	"testing"
	"time"

	"bucketd/gateway/internal/host"
	"bucketd/gateway/internal/hosttest"
	"bucketd/gateway/internal/limits"
)

// answers reads a head, and answers that the key isn't known.
func answers(conn net.Conn) {
	if _, err := http.ReadRequest(bufio.NewReader(conn)); err == nil {
		io.WriteString(conn, "HTTP/1.1 403 X\r\ncontent-length: 0\r\nx-refusal: 6 InvalidAccessKeyId\r\n\r\n")
	}
}

func stalls(conn net.Conn) {
	conn.SetReadDeadline(time.Now().Add(20 * time.Second))
	io.Copy(io.Discard, conn)
}

// operators answers lines with those of a map, and counts them.
func operators(count *atomic.Int64, lines map[string]string) func(net.Conn) {
	return func(conn net.Conn) {
		line, _ := bufio.NewReader(conn).ReadString('\n')
		count.Add(1)
		io.WriteString(conn, lines[strings.TrimSpace(line)])
	}
}

func sources(h *host.Host) Sources {
	return Sources{Host: h, Connections: func() int { return 3 }, MaxConnections: 1024, Spool: limits.NewSpool(1<<32, 1<<31)}
}

// get asks a status server.
func get(server *http.Server, method, path string) *httptest.ResponseRecorder {
	w := httptest.NewRecorder()
	server.Handler.ServeHTTP(w, httptest.NewRequest(method, path, nil))
	return w
}

func TestPaths(t *testing.T) {
	server := Server(NewMetrics(), sources(host.New(host.Socket(hosttest.Listen(t, answers)), 1)))
	metrics := http.StatusOK
	if !HasMetrics {
		metrics = http.StatusNotImplemented
	}
	for _, it := range []struct {
		method, path string
		status       int
	}{
		{"GET", "/healthz", 200}, {"HEAD", "/healthz", 200}, {"POST", "/healthz", 405}, {"GET", "/metrics", metrics}, {"PUT", "/metrics", 405},
		{"GET", "/", 404}, {"GET", "/debug/pprof/", 404}, {"GET", "/debug/vars", 404}, {"GET", "/healthz/", 404}, {"GET", "/metrics/../healthz", 404},
	} {
		if w := get(server, it.method, it.path); w.Code != it.status || w.Header().Get("Cache-Control") != "no-store" {
			t.Errorf("%s %s: %d, not %d", it.method, it.path, w.Code, it.status)
		}
	}
}

// One line tells whether the host answers within two seconds, and else why it doesn't.
func TestHealth(t *testing.T) {
	for _, it := range []struct {
		name   string
		place  host.Place
		status int
		has    string
	}{
		{"up", host.Socket(hosttest.Listen(t, answers)), 200, "ok\n"},
		{"down", host.Socket("/none/socket"), 503, "no such file"},
		{"not started", host.Place{}, 503, "isn't running"},
		{"stalled", host.Socket(hosttest.Listen(t, stalls)), 503, "no answer within 2s"},
	} {
		begun := time.Now()
		w := get(Server(NewMetrics(), sources(host.New(it.place, 1))), "GET", "/healthz")
		text := w.Body.String()
		if w.Code != it.status || !strings.Contains(text, it.has) || strings.Count(text, "\n") != 1 || !strings.HasSuffix(text, "\n") {
			t.Errorf("%s: %d %q", it.name, w.Code, text)
		}
		if took := time.Since(begun); took > 15*time.Second {
			t.Errorf("%s: it took %v", it.name, took)
		}
	}
	if text := oneLine("a\nb\x1b[1m"); text != "a b [1m" {
		t.Errorf("%q", text)
	}
}

// However often the health is asked for, the host is asked once a second.
func TestHealthIsKept(t *testing.T) {
	count := 0
	h := &health{check: func(context.Context) error { count++; return errors.New("x") }}
	for i := 0; i < 1000; i++ {
		if h.now() == nil {
			t.Fatal("it is well")
		}
	}
	if count > 1+int(time.Since(h.asked)/believedFor) {
		t.Errorf("it was asked %d times", count)
	}
	h.asked = time.Now().Add(-2 * believedFor)
	h.check = func(context.Context) error { return nil }
	if err := h.now(); err != nil {
		t.Error(err)
	}
}

const (
	tenantsLine = `{"op":"tenants"}`
	reportLine  = `{"op":"report"}`
	goodTenants = "tenants 2 blue bytes 0 quota 0 keys 0 bytes bytes 5 quota 8 keys 2\n"
	goodReport  = "blocks 2 stored 8 referred 18446744073709551616 clashes 0\n"
)

func newAsker(t *testing.T, each func(net.Conn)) *asker {
	return &asker{operators: host.New(host.Place{}, 1).Operators(host.Socket(hosttest.Listen(t, each))), clock: time.Now}
}

// What operators are told is read word by word; anything else is a failure, and what was known stays.
func TestAnswers(t *testing.T) {
	many := "tenants 1500"
	for i := 0; i < 1500; i++ {
		many += fmt.Sprintf(" t%04d bytes %d quota 2 keys 1", i, i)
	}
	for _, it := range []struct {
		name, tenants, report string
		isWell                bool
	}{
		{"two", goodTenants, goodReport, true},
		{"none", "tenants 0", "blocks 0 stored 0 referred 0 clashes 0", true},
		{"many", many, goodReport, true},
		{"more in the report", goodTenants, "blocks 2 stored 8 referred 9 clashes 0 packs 7\n", true},
		{"a refusal", "30 ClockOutOfRange\n", goodReport, false},
		{"a bad line", goodTenants, "bad line\n", false},
		{"nothing", "", goodReport, false},
		{"fewer than it says", "tenants 2 blue bytes 0 quota 0 keys 0", goodReport, false},
		{"another order", "tenants 1 blue quota 0 bytes 0 keys 0", goodReport, false},
		{"no number", "tenants 1 blue bytes x quota 0 keys 0", goodReport, false},
		{"below nothing", "tenants 1 blue bytes -1 quota 0 keys 0", goodReport, false},
		{"NaN", "tenants 1 blue bytes NaN quota 0 keys 0", goodReport, false},
		{"no name", "tenants 1 Blue bytes 1 quota 0 keys 0", goodReport, false},
		{"a name twice", "tenants 2 blue bytes 1 quota 0 keys 0 blue bytes 1 quota 0 keys 0", goodReport, false},
		{"a long name", "tenants 1 " + strings.Repeat("b", 33) + " bytes 1 quota 0 keys 0", goodReport, false},
		{"no report", goodTenants, "", false},
	} {
		var count atomic.Int64
		a := newAsker(t, operators(&count, map[string]string{tenantsLine: it.tenants, reportLine: it.report}))
		found, failed := a.now()
		if isWell := !found.at.IsZero() && failed == 0; isWell != it.isWell || found.at.IsZero() && failed != 1 {
			t.Errorf("%s: %.200v, failed %v", it.name, found, failed)
		}
		if it.name == "many" && (len(found.tenants) != mostTenants || found.count != 1500 || found.tenants[999] != tenant{"t0999", 999, 2, 1}) {
			t.Errorf("of many there are %d, %v", len(found.tenants), found.count)
		}
		if it.name == "two" && (found.tenants[1] != tenant{"bytes", 5, 8, 2} || found.report["referred"] != 18446744073709551616 || found.report["blocks"] != 2) {
			t.Errorf("%+v", found)
		}
	}
}

// However often it is asked for, the host is asked once in 15 seconds, and less often where it takes long; what it said stays.
func TestAskedSeldom(t *testing.T) {
	var count, took atomic.Int64
	start := time.Now()
	a := newAsker(t, operators(&count, map[string]string{tenantsLine: goodTenants, reportLine: goodReport}))
	var seconds atomic.Int64
	a.clock = func() time.Time { // (a question takes as long as it is told)
		return start.Add(time.Duration(seconds.Load()+took.Load()*(count.Load()%2)) * time.Second)
	}
	for _, it := range []struct{ at, lines int64 }{{0, 2}, {0, 2}, {14, 2}, {16, 4}, {17, 4}, {30, 4}, {32, 6}} {
		seconds.Store(it.at)
		for i := 0; i < 50; i++ {
			if found, failed := a.now(); found.at.IsZero() || failed != 0 {
				t.Fatalf("%d: %+v %v", it.at, found, failed)
			}
		}
		if n := count.Load(); n != it.lines {
			t.Errorf("after %d seconds %d lines were told, not %d", it.at, n, it.lines)
		}
	}
	for _, it := range []struct{ took, pause time.Duration }{
		{0, leastPause}, {10 * time.Millisecond, leastPause}, {time.Second, 100 * time.Second}, {linePatience, longestPause},
	} {
		now := start
		a := newAsker(t, operators(&count, map[string]string{tenantsLine: goodTenants, reportLine: goodReport}))
		times := []time.Time{now, now.Add(it.took)}
		a.running = make(chan struct{})
		a.clock = func() time.Time { it := times[0]; times = times[1:]; return it }
		if a.ask(); a.next.Sub(now.Add(it.took)) != it.pause {
			t.Errorf("after %v it pauses for %v, not %v", it.took, a.next.Sub(now.Add(it.took)), it.pause)
		}
	}
}

// A host that stalls keeps no page waiting for long, and what was known stays.
func TestStalledOperators(t *testing.T) {
	var isStalled atomic.Bool
	var count atomic.Int64
	answered := operators(&count, map[string]string{tenantsLine: goodTenants, reportLine: goodReport})
	a := newAsker(t, func(conn net.Conn) {
		if isStalled.Load() {
			stalls(conn)
		} else {
			answered(conn)
		}
	})
	if found, _ := a.now(); found.at.IsZero() {
		t.Fatal("no answer")
	}
	isStalled.Store(true)
	a.mu.Lock()
	a.next = time.Time{}
	a.mu.Unlock()
	begun := time.Now()
	found, _ := a.now()
	if took := time.Since(begun); took < pagePatience || took > linePatience-time.Second || len(found.tenants) != 2 {
		t.Errorf("after %v: %+v", took, found)
	}
	a.mu.Lock()
	running := a.running
	a.mu.Unlock()
	<-running
	if found, failed := a.now(); failed != 1 || len(found.tenants) != 2 {
		t.Errorf("%+v %v", found, failed)
	}
}
