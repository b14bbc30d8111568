package host

import (
	"bufio"
	"context"
	"io"
	"net"
	"net/http"
	"os"
	"path/filepath"
	"strings"
	"testing"
	"time"

	"bucketd/gateway/internal/hosttest"
)

// answer reads a head and answers it by a line.
func answer(status string, fields ...string) func(net.Conn) {
	return func(conn net.Conn) {
		if r, err := http.ReadRequest(bufio.NewReader(conn)); err == nil {
			io.Copy(io.Discard, r.Body)
			io.WriteString(conn, "HTTP/1.1 "+status+"\r\ncontent-length: 0\r\n"+strings.Join(append(fields, "\r\n"), "\r\n"))
		}
	}
}

// silence reads and answers nothing, for a while.
func silence(conn net.Conn) {
	conn.SetReadDeadline(time.Now().Add(20 * time.Second))
	io.Copy(io.Discard, conn)
}

// A host is well where it answers anything but that nothing goes.
func TestCheck(t *testing.T) {
	for _, it := range []struct {
		name string
		each func(net.Conn)
		has  string // of the error; empty where there is none
	}{
		{"a refusal", answer("403 X", "x-refusal: 6 InvalidAccessKeyId"), ""},
		{"a shut host", answer("503 X", "x-refusal: 31 ServiceUnavailable"), `503 "31 ServiceUnavailable"`},
		{"a clock", answer("500 X", "x-refusal: 30 ClockOutOfRange"), `500 "30 ClockOutOfRange"`},
		{"silence", silence, "timeout"},
		{"nothing", func(conn net.Conn) { conn.Read(make([]byte, 1000)) }, "EOF"},
		{"no HTTP", func(conn net.Conn) { conn.Read(make([]byte, 1000)); io.WriteString(conn, "hello\r\n\r\n") }, "malformed"},
	} {
		ctx, end := context.WithTimeout(context.Background(), time.Second)
		err := New(Socket(hosttest.Listen(t, it.each)), 1).Check(ctx)
		if end(); it.has == "" && err != nil || it.has != "" && (err == nil || !strings.Contains(err.Error(), it.has)) {
			t.Errorf("%s: %v", it.name, err)
		}
	}
	for name, place := range map[string]Place{"nowhere": {}, "no socket": Socket("/none/socket"), "no port": TCP("127.0.0.1:1")} {
		if err := New(place, 1).Check(context.Background()); err == nil {
			t.Error(name)
		}
	}
}

// A request goes to a socket as to a port, and only if the user who listens is trusted.
func TestSocket(t *testing.T) {
	h := New(Socket(hosttest.Listen(t, answer("200 X"))), 4)
	for _, it := range []struct {
		user   int
		isWell bool
	}{{anyone, true}, {os.Geteuid(), true}, {os.Geteuid() + 1, false}} {
		h.user.Store(int64(it.user))
		if _, err := ask(h); (err == nil) != it.isWell {
			t.Errorf("user %d: %v", it.user, err)
		}
	}
}

// An operator's line goes behind the secret, to nobody but the user who is trusted, and not for ever.
func TestTell(t *testing.T) {
	told := make(chan string, 10)
	path := hosttest.Listen(t, func(conn net.Conn) {
		line, _ := bufio.NewReader(conn).ReadString('\n')
		if line == "" {
			return // it went without a word
		}
		told <- line
		io.WriteString(conn, "done\n")
	})
	secret := filepath.Join(t.TempDir(), "secret")
	h := New(Place{}, 1)
	for _, it := range []struct {
		name, secret string
		mode         os.FileMode
		user         int
		want         string // empty where nothing is sent
	}{
		{"no secret", "", 0, anyone, "{}\n"},
		{"a secret", "operatorsecret\nmore", 0o600, os.Geteuid(), "operatorsecret {}\n"},
		{"read only", "operatorsecret", 0o400, anyone, "operatorsecret {}\n"},
		{"others may read it", "operatorsecret", 0o640, anyone, ""},
		{"too short", "secret", 0o600, anyone, ""},
		{"too long", strings.Repeat("s", 65), 0o600, anyone, ""},
		{"a blank", "operator secret", 0o600, anyone, ""},
		{"another user listens", "operatorsecret", 0o600, os.Geteuid() + 1, ""},
	} {
		o := h.Operators(Socket(path))
		if it.secret != "" {
			o.Secret = secret
			os.Remove(secret)
			if err := os.WriteFile(secret, []byte(it.secret), it.mode); err != nil {
				t.Fatal(err)
			}
		}
		h.user.Store(int64(it.user))
		text := ""
		err := o.Tell(context.Background(), "{}", func(in io.Reader) error {
			all, err := io.ReadAll(in)
			text = string(all)
			return err
		})
		found := ""
		if it.want != "" {
			found = <-told
		}
		if (err == nil) != (it.want != "") || found != it.want || err == nil && text != "done\n" || err != nil && strings.Contains(err.Error(), "operatorsecret") {
			t.Errorf("%s: %q %q %v", it.name, found, text, err)
		}
	}
	if len(told) > 0 {
		t.Errorf("more was told: %q", <-told)
	}
	ctx, end := context.WithTimeout(context.Background(), 100*time.Millisecond)
	defer end()
	h.user.Store(anyone)
	read := func(in io.Reader) error { _, err := io.ReadAll(in); return err }
	if err := h.Operators(Socket(hosttest.Listen(t, silence))).Tell(ctx, "{}", read); err == nil {
		t.Error("silence is an answer")
	}
	if err := h.Operators(Place{}).Tell(context.Background(), "{}", read); err == nil || h.Operators(Place{}).IsThere() {
		t.Error("there is no place")
	}
}

// noted is a watch that keeps what it is told.
type noted struct {
	waited int
	tried  []string
}

func (n *noted) Waited(time.Duration) { n.waited++ }

func (n *noted) Tried(o Outcome, refusal string, _ time.Duration) {
	n.tried = append(n.tried, strings.TrimSpace(string(o)+" "+refusal))
}

// A watch is told of each request that is sent, and of what came of it.
func TestWatch(t *testing.T) {
	for _, it := range []struct {
		each    func(net.Conn)
		method  string
		outcome string
	}{
		{answer("200 X"), "GET", "2xx"}, {answer("404 X", "x-refusal: 12 NoSuchBucket"), "GET", "4xx NoSuchBucket"},
		{answer("503 X", "x-refusal: 31 ServiceUnavailable"), "PUT", "5xx ServiceUnavailable"}, {func(net.Conn) {}, "PUT", "none"}, {silence, "GET", "left"},
	} {
		watch := &noted{}
		h := New(Socket(hosttest.Listen(t, it.each)), 1)
		h.Watch = watch
		ctx, end := context.WithTimeout(context.Background(), 500*time.Millisecond)
		h.Client("green", "k", "s").Ask(ctx, Object{}.Request(it.method))
		if end(); len(watch.tried) != 1 || watch.tried[0] != it.outcome || watch.waited != 1 || h.Waiting() != 0 {
			t.Errorf("%s: %+v", it.outcome, watch)
		}
	}
}
