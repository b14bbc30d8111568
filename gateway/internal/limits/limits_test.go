package limits

import (
	"bufio"
	"bytes"
	"errors"
	"fmt"
	"io"
	"log/slog"
	"net"
	"net/http"
	"strings"
	"sync"
	"testing"
	"time"
)

// guarded is a buffer for several writers.
type guarded struct {
	mu   sync.Mutex
	text bytes.Buffer
}

func (g *guarded) Write(b []byte) (int, error) {
	g.mu.Lock()
	defer g.mu.Unlock()
	return g.text.Write(b)
}

func (g *guarded) String() string {
	g.mu.Lock()
	defer g.mu.Unlock()
	return g.text.String()
}

// logged has what is logged in a test.
func logged(t *testing.T) *guarded {
	text, before := &guarded{}, slog.Default()
	slog.SetDefault(slog.New(slog.NewTextHandler(text, nil)))
	t.Cleanup(func() { slog.SetDefault(before) })
	return text
}

// counted has how often each limit was met.
type counted struct {
	mu sync.Mutex
	n  map[string]int
}

func (c *counted) add(option string) {
	c.mu.Lock()
	defer c.mu.Unlock()
	if c.n == nil {
		c.n = map[string]int{}
	}
	c.n[option]++
}

func (c *counted) of(option string) int {
	c.mu.Lock()
	defer c.mu.Unlock()
	return c.n[option]
}

// Of a spool it is counted which room was met.
func TestSpoolMet(t *testing.T) {
	var met counted
	s := NewSpool(10, 4)
	s.Met = met.add
	for _, it := range []struct {
		tenant string
		bytes  int64
	}{{"a", 5}, {"a", 4}, {"b", 4}, {"c", 3}, {"c", 2}, {"c", 1}} {
		s.Reserve(it.tenant, it.bytes)
	}
	if met.of(SpoolRoom) != 2 || met.of(TenantSpoolRoom) != 1 || s.Taken() != 10 || s.Most() != 10 {
		t.Errorf("%v, %d taken", met.n, s.Taken())
	}
}

// slow is closed when requests of /slow are answered.
var slow chan struct{}

// web serves "hello" within places, and returns the listener with its address.
func web(t *testing.T, places Places) (*Listener, string) {
	t.Helper()
	inner, err := net.Listen("tcp", "127.0.0.1:0")
	if err != nil {
		t.Fatal(err)
	}
	l, err := Listen(inner, places)
	if err != nil {
		t.Fatal(err)
	}
	server := &http.Server{ConnState: l.State, ReadHeaderTimeout: 20 * time.Second, Handler: http.HandlerFunc(func(w http.ResponseWriter, r *http.Request) {
		if r.URL.Path == "/slow" {
			<-slow
		}
		io.WriteString(w, "hello")
	})}
	go server.Serve(l)
	t.Cleanup(func() { server.Close() })
	return l, inner.Addr().String()
}

// dial connects from an address of this machine.
func dial(t *testing.T, to, from string) net.Conn {
	t.Helper()
	conn, err := (&net.Dialer{LocalAddr: &net.TCPAddr{IP: net.ParseIP(from)}, Timeout: 30 * time.Second}).Dial("tcp", to)
	if err != nil {
		t.Fatal(err)
	}
	t.Cleanup(func() { conn.Close() })
	conn.SetDeadline(time.Now().Add(30 * time.Second))
	return conn
}

// asks sends a request, and returns whether it is answered.
func asks(conn net.Conn, path string) error {
	if _, err := fmt.Fprintf(conn, "GET %s HTTP/1.1\r\nHost: h\r\n\r\n", path); err != nil {
		return err
	}
	answer, err := http.ReadResponse(bufio.NewReader(conn), nil)
	if err != nil {
		return err
	}
	defer answer.Body.Close()
	if text, err := io.ReadAll(answer.Body); err != nil || string(text) != "hello" {
		return fmt.Errorf("%q %v", text, err)
	}
	return nil
}

// isOpen returns whether the other side has kept a connection on which nothing is sent.
func isOpen(conn net.Conn) bool {
	conn.SetReadDeadline(time.Now().Add(time.Millisecond))
	_, err := conn.Read(make([]byte, 1))
	var late net.Error
	return errors.As(err, &late) && late.Timeout()
}

func count(conns []net.Conn) (open int) {
	for _, it := range conns {
		if isOpen(it) {
			open++
		}
	}
	return open
}

// eventually waits for a state, on a busy machine for long.
func eventually(t *testing.T, what string, is func() bool) {
	t.Helper()
	for i := 0; i < 2000; i++ {
		if is() {
			return
		}
		time.Sleep(10 * time.Millisecond)
	}
	t.Error(what)
}

// Whoever takes all places and says nothing, or says half a head, or has been answered, shuts nobody out.
func TestIdleConnections(t *testing.T) {
	for name, begin := range map[string]func(conn net.Conn) error{
		"silent":   func(net.Conn) error { return nil },
		"half":     func(conn net.Conn) error { _, err := io.WriteString(conn, "GET / HTT"); return err },
		"answered": func(conn net.Conn) error { return asks(conn, "/") },
	} {
		text := logged(t)
		var met counted
		l, address := web(t, Places{All: 64, Address: 16, Served: 1024, Silence: time.Minute, Short: time.Minute, Met: met.add})
		var conns []net.Conn
		for i := 0; i < 80; i++ { // from five addresses
			conn := dial(t, address, fmt.Sprintf("127.0.0.%d", 2+i%5))
			if err := begin(conn); err != nil {
				t.Errorf("%s: connection %d: %v", name, i, err)
			}
			conns = append(conns, conn)
		}
		eventually(t, name+": not all places are taken", func() bool { return l.Taken() == 64 && count(conns) == 64 })
		for i := 0; i < 20; i++ {
			begun := time.Now()
			if err := asks(dial(t, address, "127.0.1.1"), "/"); err != nil || time.Since(begun) > 10*time.Second {
				t.Errorf("%s: a good client waited %v: %v", name, time.Since(begun), err)
			}
		}
		if lines := strings.Count(text.String(), "all places are taken"); lines != 1 {
			t.Errorf("%s: %d lines in the log:\n%s", name, lines, text)
		}
		if n := met.of(Connections); n < 20 {
			t.Errorf("%s: %d connections gave way", name, n)
		}
	}
}

// A quarter of the places is what one address has: beyond it its own connections that wait give way, and not others'.
func TestShareOfAnAddress(t *testing.T) {
	logged(t)
	var met counted
	places := NewPlaces(64, 0)
	places.Met = met.add
	l, address := web(t, places)
	other := dial(t, address, "127.0.0.3")
	var conns []net.Conn
	for i := 0; i < 100; i++ {
		conns = append(conns, dial(t, address, "127.0.0.2"))
	}
	eventually(t, "one address has another number than 16 of 64", func() bool { return l.Taken() == 17 && count(conns) == 16 })
	if !isOpen(other) {
		t.Error("another address's connection was closed")
	}
	if err := asks(dial(t, address, "127.0.0.2"), "/"); err != nil {
		t.Errorf("the address shuts itself out: %v", err)
	}
	if of, all := met.of(AddressConnections), met.of(Connections); of < 84 || all != 0 {
		t.Errorf("%d of the address gave way, %d of all", of, all)
	}
}

// A connection with a request isn't closed for a new one: that waits.
func TestBusyConnectionsStay(t *testing.T) {
	logged(t)
	slow = make(chan struct{})
	l, address := web(t, Places{All: 4, Address: 4, Served: 1024, Silence: time.Minute, Short: time.Minute})
	var busy []net.Conn
	for i := 0; i < 4; i++ {
		conn := dial(t, address, "127.0.0.2")
		fmt.Fprint(conn, "GET /slow HTTP/1.1\r\nHost: h\r\nConnection: close\r\n\r\n")
		busy = append(busy, conn)
	}
	eventually(t, "a request isn't read", func() bool {
		l.mu.Lock()
		defer l.mu.Unlock()
		return l.taken == 4 && l.silent.Len()+l.begun.Len() == 0
	})
	for i := 0; i < 8; i++ {
		dial(t, address, "127.0.0.2")
	}
	time.Sleep(100 * time.Millisecond) // (a new one has been taken by now)
	close(slow)
	for _, conn := range busy {
		if text, err := io.ReadAll(conn); err != nil || !strings.HasSuffix(string(text), "hello") {
			t.Errorf("a request was cut: %q %v", text, err)
		}
	}
}

// Connections that wait are closed after a while, sooner where more than half of the places are taken.
func TestSilence(t *testing.T) {
	logged(t)
	l, address := web(t, Places{All: 40, Address: 40, Served: 1024, Silence: 8 * time.Second, Short: 200 * time.Millisecond})
	var conns []net.Conn
	for i := 0; i < 20; i++ {
		conns = append(conns, dial(t, address, "127.0.0.2"))
	}
	time.Sleep(1200 * time.Millisecond)
	if open := count(conns); open != 20 || l.Taken() != 20 {
		t.Errorf("%d are open, %d taken where no more than half of the places are", open, l.Taken())
	}
	conns = append(conns, dial(t, address, "127.0.0.2"))
	eventually(t, "more than half of the places stay taken", func() bool { return l.Taken() <= 20 })
	eventually(t, "some stay open after their time", func() bool { return count(conns) == 0 && l.Taken() == 0 })
}

// The server's own connections, which have buffers, are bounded beneath the places.
func TestServed(t *testing.T) {
	logged(t)
	l, address := web(t, Places{All: 100, Address: 100, Served: 10, Silence: time.Minute, Short: time.Minute})
	var silent, begun []net.Conn
	for i := 0; i < 30; i++ {
		silent = append(silent, dial(t, address, "127.0.0.2"))
		conn := dial(t, address, "127.0.0.2")
		io.WriteString(conn, "GET / HTT")
		begun = append(begun, conn)
	}
	eventually(t, "another number of connections is served", func() bool { return count(begun) == 10 })
	if open := count(silent); open != 30 || l.Taken() != 40 {
		t.Errorf("%d silent ones are open, %d taken", open, l.Taken())
	}
	if err := asks(begun[29], "P/1.1"); err == nil {
		t.Error("a head that is none was answered")
	}
}

// A client that goes without a word frees its place, and so do all when the server ends.
func TestPlacesAreFreed(t *testing.T) {
	logged(t)
	l, address := web(t, NewPlaces(64, 64))
	for i := 0; i < 50; i++ {
		conn := dial(t, address, "127.0.0.2")
		if i%2 == 0 {
			if err := asks(conn, "/"); err != nil {
				t.Error(err)
			}
		}
		conn.Close()
	}
	eventually(t, "places stay taken", func() bool { return l.Taken() == 0 })
	conn := dial(t, address, "127.0.0.2")
	eventually(t, "no place is taken", func() bool { return l.Taken() == 1 })
	l.Close()
	eventually(t, "a place stays taken at the end", func() bool { return l.Taken() == 0 && !isOpen(conn) })
	if _, err := l.Accept(); !errors.Is(err, net.ErrClosed) {
		t.Errorf("Accept after the end: %v", err)
	}
	if len(l.poll.conns) != 0 || len(l.shares) != 0 {
		t.Errorf("something is left: %v %v", l.poll.conns, l.shares)
	}
}

// An event of a connection that is gone doesn't end another one that has got its file's number and is silent yet.
func TestLateEvent(t *testing.T) {
	logged(t)
	l, address := web(t, NewPlaces(64, 64))
	conn := dial(t, address, "127.0.0.2")
	number := int32(0)
	eventually(t, "the connection isn't waited for", func() bool {
		l.poll.mu.Lock()
		defer l.poll.mu.Unlock()
		for number = range l.poll.conns {
		}
		return number != 0
	})
	if c := l.poll.ready(number); c != nil || l.Taken() != 1 || !isOpen(conn) {
		t.Fatalf("the silent one is %v, %d are taken", c, l.Taken())
	}
	conn.SetDeadline(time.Now().Add(30 * time.Second))
	if err := asks(conn, "/"); err != nil {
		t.Error(err)
	}
}

// A connection that was served stays where strangers take all places.
func TestServedBeforeStrangers(t *testing.T) {
	logged(t)
	l, address := web(t, Places{All: 20, Address: 20, Served: 10, Silence: time.Minute, Short: time.Minute})
	good := dial(t, address, "127.0.0.2")
	if err := asks(good, "/"); err != nil {
		t.Fatal(err)
	}
	for i := 0; i < 60; i++ {
		conn := dial(t, address, "127.0.0.3")
		if i%2 == 0 {
			io.WriteString(conn, "GET / HTT")
		}
	}
	eventually(t, "strangers have another number of places", func() bool { return l.Taken() >= 10 })
	time.Sleep(50 * time.Millisecond)
	if err := asks(good, "/"); err != nil {
		t.Errorf("it was closed for strangers: %v", err)
	}
}

func TestNetwork(t *testing.T) {
	for _, it := range []struct{ address, want string }{
		{"192.0.2.7:80", "192.0.2.7/32"}, {"[::ffff:192.0.2.7]:80", "192.0.2.7/32"},
		{"[2001:db8:1:2:3:4:5:6]:80", "2001:db8:1:2::/64"}, {"[fe80::1%eth0]:80", "fe80::/64"},
	} {
		address, err := net.ResolveTCPAddr("tcp", strings.Replace(it.address, "%eth0", "", 1))
		if err != nil {
			t.Fatal(err)
		}
		if found := network(address).String(); found != it.want {
			t.Errorf("%s: %s, not %s", it.address, found, it.want)
		}
	}
}

func TestSpool(t *testing.T) {
	s := NewSpool(100, 60)
	for i, it := range []struct {
		tenant string
		bytes  int64 // released where it is below zero
		err    error
	}{
		{"green", 60, nil}, {"green", 1, ErrSpool}, {"blue", 40, nil}, {"red", 1, ErrSpool}, {"red", 0, nil}, {"green", -20, nil},
		{"blue", 20, nil}, {"red", 1, ErrSpool}, {"green", -40, nil}, {"blue", 1, ErrSpool}, {"green", 1 << 62, ErrSpool}, {"green", 40, nil},
	} {
		if it.bytes < 0 {
			s.Release(it.tenant, -it.bytes)
		} else if err := s.Reserve(it.tenant, it.bytes); err != it.err {
			t.Errorf("%d, %s %d: %v, not %v", i, it.tenant, it.bytes, err, it.err)
		}
	}
	if s.Reserve("green", -1) != ErrSpool {
		t.Error("less than nothing was reserved")
	}
	s.Release("green", 40)
	s.Release("blue", 60)
	if s.Taken() != 0 || len(s.of) != 0 {
		t.Errorf("%d bytes are left, %v", s.Taken(), s.of)
	}
}

// drip gives so many bytes with each read, each of which takes a while by a clock of its own.
type drip struct {
	left, bytes int
	now         time.Time
	wait        time.Duration
}

func (d *drip) Read(b []byte) (int, error) {
	d.now = d.now.Add(d.wait)
	n := min(d.left, d.bytes, len(b))
	if d.left -= n; n == 0 {
		return 0, io.EOF
	}
	return n, nil
}

func TestRate(t *testing.T) {
	for _, it := range []struct {
		name        string
		size, bytes int
		wait        time.Duration
		most        time.Duration // that it is taken; 0 where the body is read to its end
	}{
		{"a body at once", 1 << 20, 1 << 20, time.Millisecond, 0},
		{"a small body within the grace", 30, 1, time.Second, 0},
		{"a byte every two seconds", 1 << 20, 1, 2 * time.Second, 32 * time.Second},
		{"just below the rate", 1 << 20, 10239, time.Second, 31 * time.Second},
		{"just above it", 1 << 20, 10500, time.Second, 0},
		{"fast and then nothing", 400 << 10, 400 << 10, 35 * time.Second, 0},
	} {
		in := &drip{left: it.size, bytes: it.bytes, wait: it.wait}
		r := Rate{10 << 10, 30 * time.Second}.Reader(in).(*rateReader)
		r.now = func() time.Time { return in.now }
		begun, buffer, n := in.now, make([]byte, 1<<20), 0
		var err error
		for more := 0; err == nil; n += more {
			more, err = r.Read(buffer)
		}
		if isSlow := errors.Is(err, ErrSlow); isSlow != (it.most > 0) || !isSlow && (err != io.EOF || n != it.size) {
			t.Errorf("%s: %d bytes, %v", it.name, n, err)
		} else if took := in.now.Sub(begun); isSlow && took > it.most {
			t.Errorf("%s: it was taken for %v", it.name, took)
		}
	}
}

func TestSeldom(t *testing.T) {
	text, s := logged(t), &Seldom{}
	for i := 0; i < 100; i++ {
		s.Say("one")
		s.Say("two", "a", i)
	}
	if lines := strings.Count(text.String(), "\n"); lines != 2 {
		t.Errorf("%d lines:\n%s", lines, text)
	}
	s.last["one"] = time.Now().Add(-time.Hour)
	s.Say("one")
	if !strings.Contains(text.String(), "before=99") {
		t.Errorf("what was left out isn't told:\n%s", text)
	}
}
