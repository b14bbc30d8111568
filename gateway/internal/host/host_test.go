package host

import (
	"bufio"
	"context"
	"errors"
	"fmt"
	"io"
	"net"
	"net/http"
	"net/netip"
	"os"
	"os/signal"
	"path/filepath"
	"regexp"
	"strconv"
	"strings"
	"sync/atomic"
	"syscall"
	"testing"
	"time"

	"bucketd/gateway/internal/hosttest"
)

// The program of the tests is bucketd, too, where the environment says so.
func TestMain(m *testing.M) {
	if folder := os.Getenv("BUCKETD_FOLDER"); folder != "" {
		pretend(folder)
		return
	}
	os.Exit(m.Run())
}

// isThere returns whether a folder has a file.
func isThere(folder, name string) bool {
	_, err := os.Stat(filepath.Join(folder, name))
	return err == nil
}

// pretend serves as bucketd does, with empty answers. Files in a folder say how: it begins when `wait` isn't there, it knows of
// sockets where `sockets` is there, and it ends by nothing but a kill where `stubborn` is.
func pretend(folder string) {
	if os.Args[1] == "help" {
		fmt.Println("Usage: bucketd serve --file F [--port P]\n\n  --file F      a host\n  --port P      a port")
		if isThere(folder, "sockets") {
			fmt.Println("  --socket PATH            a socket\n  --operator-socket PATH   another")
		}
		return
	}
	if isThere(folder, "stubborn") {
		signal.Ignore(syscall.SIGTERM)
	}
	fmt.Fprintln(os.Stderr, strings.Repeat("x", 8192)+"listening on 127.0.0.1:1")
	fmt.Fprintln(os.Stderr, "a line that says: listening on 127.0.0.1:1")
	os.WriteFile(filepath.Join(folder, "pid"), []byte(fmt.Sprint(os.Getpid())), 0o600)
	for isThere(folder, "wait") {
		time.Sleep(5 * time.Millisecond)
	}
	web := &http.Server{Handler: http.HandlerFunc(func(w http.ResponseWriter, r *http.Request) {
		os.WriteFile(filepath.Join(folder, "begun"), nil, 0o600)
		if r.Header.Get("x-slow") != "" {
			time.Sleep(2 * time.Second)
		}
		w.Header().Set("x-asked", strings.Join(os.Args[1:], " "))
		w.Header().Set("content-length", "0")
	})}
	network, address := "tcp", "127.0.0.1:0"
	if word := wordOf("--socket"); word != "" {
		network, address = "unix", word
		pretendOperators(folder, web)
	}
	listener, err := net.Listen(network, address)
	if err != nil {
		os.Exit(1)
	}
	fmt.Fprintln(os.Stderr, "listening on "+listener.Addr().String())
	fmt.Fprintln(os.Stderr, "listening on 127.0.0.1:1")
	web.Serve(listener)
	<-pretendsEnd // (the request at hand is answered)
}

// wordOf returns the word behind an option.
func wordOf(option string) string {
	for i, word := range os.Args[:len(os.Args)-1] {
		if word == option {
			return os.Args[i+1]
		}
	}
	return ""
}

var pretendsEnd = make(chan struct{})

// pretendOperators takes lines at the operators' socket, of which it knows one.
func pretendOperators(folder string, web *http.Server) {
	os.Remove(wordOf("--operator-socket"))
	listener, err := net.Listen("unix", wordOf("--operator-socket"))
	if err != nil {
		os.Exit(1)
	}
	os.Remove(wordOf("--socket"))
	go func() {
		for {
			conn, err := listener.Accept()
			if err != nil {
				return
			}
			line, _ := bufio.NewReader(conn).ReadString('\n')
			os.WriteFile(filepath.Join(folder, "told"), []byte(line), 0o600)
			if line != stopLine+"\n" {
				io.WriteString(conn, "bad line\n")
			} else if io.WriteString(conn, "stop\n"); !isThere(folder, "stubborn") {
				go func() {
					web.Shutdown(context.Background())
					close(pretendsEnd)
				}()
			}
			conn.Close()
		}
	}()
}

// thief listens at an address, and counts the bytes that it is told.
func thief(t *testing.T, address string) (*atomic.Int64, net.Listener) {
	t.Helper()
	var told atomic.Int64
	listener := hosttest.Serve(t, "tcp", address, func(conn net.Conn) {
		conn.SetDeadline(time.Now().Add(time.Second))
		first := make([]byte, 4096)
		n, _ := conn.Read(first)
		told.Add(int64(n))
		io.WriteString(conn, "HTTP/1.1 200 X\r\ncontent-length: 0\r\n\r\n")
	})
	return &told, listener
}

// served runs a bucketd that pretends, with some files in its folder, and returns what ends it, too.
func served(t *testing.T, files ...string) (h *Host, folder string, end func()) {
	t.Helper()
	folder = t.TempDir()
	t.Setenv("BUCKETD_FOLDER", folder)
	t.Setenv("RUNTIME_DIRECTORY", hosttest.Folder(t))
	for _, name := range files {
		if err := os.WriteFile(filepath.Join(folder, name), nil, 0o600); err != nil {
			t.Fatal(err)
		}
	}
	program, err := os.Executable()
	if err != nil {
		t.Fatal(err)
	}
	h = New(TCP("127.0.0.1:9"), 4)
	ctx, cancel := context.WithCancel(context.Background())
	over, err := h.Serve(ctx, program, "host")
	if err != nil {
		t.Fatal(err)
	}
	end = func() { cancel(); <-over }
	t.Cleanup(end)
	return h, folder, end
}

func ask(h *Host) (*Response, error) {
	return h.Client("green", "green$k1", "greensecret").Ask(context.Background(), Object{}.Request("GET"))
}

// bucketd chooses its port, and only its own line that begins so is believed.
func TestServe(t *testing.T) {
	h, _, _ := served(t)
	r, err := ask(h)
	if err != nil || !strings.HasPrefix(r.Header.Get("x-asked"), "serve --file host --port 0 ") {
		t.Fatal(err, r)
	}
	if h.Operators(Place{}).IsThere() {
		t.Fatal("it has operators")
	}
}

// A bucketd that knows of sockets has them in a folder that the gateway's user alone may enter, and that goes with it.
func TestServeSockets(t *testing.T) {
	h, folder, end := served(t, "sockets")
	r, err := ask(h)
	if err != nil {
		t.Fatal(err)
	}
	at := h.at.Load()
	sockets := filepath.Dir(at.clients.address)
	if want := "serve --file host --socket " + at.clients.address + " --operator-socket " + at.operators.address + " --clock-leap 366"; r.Header.Get("x-asked") != want {
		t.Errorf("the words are %q, not %q", r.Header.Get("x-asked"), want)
	}
	if info, err := os.Stat(sockets); err != nil || info.Mode() != os.ModeDir|0o700 || filepath.Dir(sockets) != os.Getenv("RUNTIME_DIRECTORY") {
		t.Errorf("the folder %s: %v %v", sockets, info, err)
	}
	// It comes back at the same place when it was killed.
	pid, err := strconv.Atoi(content(t, folder, "pid"))
	if err != nil || syscall.Kill(pid, syscall.SIGKILL) != nil {
		t.Fatal("no kill", err)
	}
	r, err = ask(h)
	for i := 0; errors.Is(err, ErrNoAnswer) && i < 10; i++ {
		r, err = ask(h)
	}
	if err != nil || content(t, folder, "pid") == fmt.Sprint(pid) {
		t.Errorf("it doesn't come back: %v %v", err, r)
	}
	end()
	if isThere(sockets, "") || content(t, folder, "told") != stopLine+"\n" {
		t.Errorf("its folder stays, or it was told %q", content(t, folder, "told"))
	}
}

func content(t *testing.T, folder, name string) string {
	t.Helper()
	text, err := os.ReadFile(filepath.Join(folder, name))
	if err != nil {
		t.Error(err)
	}
	return string(text)
}

// bucketd ends after the request at hand where it has a socket for operators, and by SIGTERM or a kill at last.
func TestServeEnds(t *testing.T) {
	stop, term := stopPatience, termPatience
	t.Cleanup(func() { stopPatience, termPatience = stop, term })
	for _, it := range []struct {
		name       string
		files      []string
		stop, term time.Duration
		isAnswered bool
	}{
		{"by a stop", []string{"sockets"}, time.Minute, time.Minute, true},
		{"by SIGTERM", nil, time.Minute, time.Minute, false},
		{"by a kill", []string{"stubborn"}, time.Minute, 50 * time.Millisecond, false},
		{"by a kill after a stop", []string{"sockets", "stubborn"}, 50 * time.Millisecond, 50 * time.Millisecond, false},
	} {
		t.Run(it.name, func(t *testing.T) {
			stopPatience, termPatience = it.stop, it.term
			h, folder, end := served(t, it.files...)
			answered := make(chan error, 1)
			go func() {
				q := Object{}.Request("PUT")
				q.Fields = []string{"x-slow: 1"}
				_, err := h.Client("green", "green$k1", "greensecret").Ask(context.Background(), q)
				answered <- err
			}()
			for i := 0; !isThere(folder, "begun") && i < 1000; i++ {
				time.Sleep(10 * time.Millisecond)
			}
			begun := time.Now()
			end()
			if took := time.Since(begun); took > 30*time.Second {
				t.Errorf("it took %v", took)
			}
			if err := <-answered; (err == nil) != it.isAnswered {
				t.Errorf("the request at hand: %v", err)
			}
			if isThere("/proc", content(t, folder, "pid")) {
				t.Error("it goes on")
			}
		})
	}
}

// A bucketd that opens its file yet is ended, too.
func TestServeEndsBeforeItListens(t *testing.T) {
	folder := t.TempDir()
	t.Setenv("BUCKETD_FOLDER", folder)
	os.WriteFile(filepath.Join(folder, "wait"), nil, 0o600)
	program, err := os.Executable()
	if err != nil {
		t.Fatal(err)
	}
	ctx, end := context.WithTimeout(context.Background(), 200*time.Millisecond)
	defer end()
	if _, err := New(Place{}, 1).Serve(ctx, program, "host"); err == nil {
		t.Error("it serves")
	}
}

// A folder that can't have sockets is passed over for another one.
func TestSocketFolder(t *testing.T) {
	long := filepath.Join(t.TempDir(), strings.Repeat("x", 100))
	if err := os.Mkdir(long, 0o700); err != nil {
		t.Fatal(err)
	}
	short := hosttest.Folder(t)
	for _, it := range []struct{ runtime, session, want string }{
		{short, "", short}, {short + ":/none", "", short}, {"", short, short}, {long, short, short}, {"/none", short, short}, {"", "", os.TempDir()}, {long, long, os.TempDir()},
	} {
		t.Setenv("RUNTIME_DIRECTORY", it.runtime)
		t.Setenv("XDG_RUNTIME_DIR", it.session)
		folder, err := socketFolder()
		if err != nil || filepath.Dir(folder) != it.want {
			t.Errorf("%q, %q: %s %v", it.runtime, it.session, folder, err)
		}
		os.Remove(folder)
		if left, _ := os.ReadDir(long); len(left) > 0 {
			t.Errorf("left: %v", left)
		}
	}
}

// bucketd's allocator is told to give back large blocks at once, unless the gateway's own environment says otherwise.
func TestServeEnvironment(t *testing.T) {
	for _, it := range []struct{ own, want string }{{"", "MALLOC_MMAP_THRESHOLD_=65536"}, {"131072", "MALLOC_MMAP_THRESHOLD_=131072"}} {
		t.Run("own "+it.own, func(t *testing.T) {
			if it.own != "" {
				t.Setenv("MALLOC_MMAP_THRESHOLD_", it.own)
			}
			_, folder, _ := served(t)
			pid, err := os.ReadFile(filepath.Join(folder, "pid"))
			if err != nil {
				t.Fatal(err)
			}
			text, err := os.ReadFile(filepath.Join("/proc", string(pid), "environ"))
			if found := regexp.MustCompile(`MALLOC_MMAP_THRESHOLD_=\d+`).FindAllString(string(text), -1); err != nil || len(found) != 1 || found[0] != it.want {
				t.Errorf("%q, not %s, %v", found, it.want, err)
			}
		})
	}
}

func TestServeFails(t *testing.T) {
	if _, err := New(Place{}, 1).Serve(context.Background(), "/bin/false", "host"); err == nil {
		t.Fatal("a program that ends is served")
	}
	if _, err := New(Place{}, 1).Serve(context.Background(), "/nonexistent", "host"); err == nil {
		t.Fatal("no program is served")
	}
}

// When bucketd has ended its port may be anybody's: who takes it is sent nothing, though bucketd is slow to come back.
func TestPortIsTaken(t *testing.T) {
	h, folder, _ := served(t)
	address := h.at.Load().clients.address
	wait := filepath.Join(folder, "wait")
	os.WriteFile(wait, nil, 0o600)
	text, err := os.ReadFile(filepath.Join(folder, "pid"))
	if err != nil {
		t.Fatal(err)
	}
	var pid int
	fmt.Sscan(string(text), &pid)
	if err := syscall.Kill(pid, syscall.SIGKILL); err != nil {
		t.Fatal(err)
	}
	for begun := time.Now(); h.at.Load().clients.address != "" && time.Since(begun) < 10*time.Second; {
		time.Sleep(time.Millisecond)
	}
	told, _ := thief(t, address)
	time.AfterFunc(time.Second, func() { os.Remove(wait) })
	r, err := ask(h)
	for i := 0; errors.Is(err, ErrNoAnswer) && i < 10; i++ { // (on a busy machine it takes a while to start)
		r, err = ask(h)
	}
	if err != nil || r.Header.Get("x-asked") == "" {
		t.Fatal(err, r)
	}
	if n := told.Load(); n != 0 {
		t.Fatal("the thief was told", n, "bytes")
	}
}

// Who listens has to be of the user that is trusted; before that is known no byte is sent.
func TestTrust(t *testing.T) {
	told, listener := thief(t, "127.0.0.1:0")
	h := New(TCP(listener.Addr().String()), 4)
	if _, err := ask(h); err != nil || told.Load() == 0 {
		t.Fatal(err, told.Load())
	}
	h.Trust(uint32(os.Geteuid()))
	if _, err := ask(h); err != nil {
		t.Fatal(err)
	}
	told.Store(0)
	h.Trust(uint32(os.Geteuid() + 1))
	if _, err := ask(h); !errors.Is(err, ErrNoAnswer) || told.Load() != 0 {
		t.Fatal(err, told.Load())
	}
}

// Both ways to know a socket's user agree, and know that there is none.
func TestUserOf(t *testing.T) {
	listener, err := net.Listen("tcp", "127.0.0.1:0")
	if err != nil {
		t.Fatal(err)
	}
	defer listener.Close()
	conn, err := net.Dial("tcp", listener.Addr().String())
	if err != nil {
		t.Fatal(err)
	}
	defer conn.Close()
	accepted, err := listener.Accept()
	if err != nil {
		t.Fatal(err)
	}
	defer accepted.Close()
	own, peer, err := ends(conn)
	if err != nil {
		t.Fatal(err)
	}
	none := netip.AddrPortFrom(netip.IPv4Unspecified(), 0)
	free := netip.AddrPortFrom(peer.Addr(), 1)
	for _, it := range []struct {
		name        string
		here, there netip.AddrPort
		state       byte
		err         error
	}{
		{"a listener", peer, none, tcpListen, nil},
		{"a connection", peer, own, tcpEstablished, nil},
		{"its other end", own, peer, tcpEstablished, nil},
		{"nobody", free, none, tcpListen, errNoSocket},
	} {
		for name, way := range map[string]func() (uint32, error){
			"the kernel": func() (uint32, error) { return askKernel(it.here, it.there) },
			"the table":  func() (uint32, error) { return readTable(it.here, it.there, it.state) },
		} {
			user, err := way()
			if !errors.Is(err, it.err) || err == nil && user != uint32(os.Geteuid()) {
				t.Fatal(it.name, name, user, err)
			}
		}
	}
}

// A call that waits ends with its context, in the queue and before an answer.
func TestWaitingEnds(t *testing.T) {
	listener, err := net.Listen("tcp", "127.0.0.1:0")
	if err != nil {
		t.Fatal(err)
	}
	defer listener.Close() // (it accepts nobody)
	h := New(TCP(listener.Addr().String()), 1)
	client := h.Client("green", "k", "s")
	first, endFirst := context.WithCancel(context.Background())
	done := make(chan error, 2)
	go func() { _, err := client.Ask(first, Object{}.Request("GET")); done <- err }()
	time.Sleep(50 * time.Millisecond)
	second, endSecond := context.WithCancel(context.Background())
	go func() { _, err := client.Ask(second, Object{}.Request("GET")); done <- err }()
	time.Sleep(50 * time.Millisecond)
	for _, end := range []func(){endSecond, endFirst} {
		begun := time.Now()
		end()
		if err := <-done; !errors.Is(err, context.Canceled) || time.Since(begun) > 20*time.Second { // (without it five minutes)
			t.Fatal(err, time.Since(begun))
		}
	}
}

// No line of a head is made of two.
func TestHeadLines(t *testing.T) {
	for _, q := range []*Request{
		{Object: Object{Bucket: "a\r\nx: y"}, Method: "GET"},
		{Object: Object{Bucket: "a"}, Method: "GET\n"},
		{Object: Object{Bucket: "a"}, Method: "GET", Fields: []string{"a: b\rc"}},
		{Object: Object{Bucket: "a"}, Method: "GET", Fields: []string{"a: b\x00"}},
	} {
		if text, err := q.head("k", "s"); err == nil {
			t.Fatalf("%q", text)
		}
	}
	text, err := (&Request{Object: Object{Bucket: "a", Key: "k\r\n?"}, Method: "GET"}).head("k", "s")
	if err != nil {
		t.Fatal(err)
	}
	r, err := http.ReadRequest(bufio.NewReader(strings.NewReader(text)))
	if err != nil || r.URL.Path != "/a/k\r\n?" || len(r.Header) != 2 {
		t.Fatal(err, r)
	}
}

func BenchmarkCheckPeer(b *testing.B) {
	listener, err := net.Listen("tcp", "127.0.0.1:0")
	if err != nil {
		b.Fatal(err)
	}
	defer listener.Close()
	conn, err := net.Dial("tcp", listener.Addr().String())
	if err != nil {
		b.Fatal(err)
	}
	defer conn.Close()
	for i := 0; i < b.N; i++ {
		if err := checkPeer(conn, uint32(os.Geteuid())); err != nil {
			b.Fatal(err)
		}
	}
}
