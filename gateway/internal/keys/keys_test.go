package keys

import (
	"bytes"
	"fmt"
	"log/slog"
	"os"
	"path/filepath"
	"runtime"
	"strings"
	"sync"
	"testing"
	"time"
)

// logged has what is logged in a test.
func logged(t *testing.T) *bytes.Buffer {
	var text bytes.Buffer
	before := slog.Default()
	slog.SetDefault(slog.New(slog.NewTextHandler(&text, nil)))
	t.Cleanup(func() { slog.SetDefault(before) })
	return &text
}

func write(t *testing.T, name, text string) {
	t.Helper()
	if err := os.WriteFile(name, []byte(text), 0o600); err != nil {
		t.Fatal(err)
	}
}

// file opens a key file that was written long ago, by a clock that the test sets.
func file(t *testing.T, text string) (f *File, name string, wait func(time.Duration)) {
	t.Helper()
	name = filepath.Join(t.TempDir(), "keys")
	write(t, name, text)
	now := time.Now().Add(time.Hour)
	f = &File{name: name, pause: usualPause, now: func() time.Time { return now }}
	if err := f.load(); err != nil {
		t.Fatal(err)
	}
	return f, name, func(d time.Duration) { now = now.Add(d) }
}

func has(t *testing.T, f *File, id, want string) {
	t.Helper()
	if secret, ok := f.Secret(id); secret != want || ok != (want != "") {
		t.Errorf("%s has %q, not %q", id, secret, want)
	}
}

func TestLines(t *testing.T) {
	for _, it := range []struct {
		name, text string
		want       map[string]string // nil where the file is refused
		dropped    int
	}{
		{"two keys", "green$k1 one\nblue$k2 two\n", map[string]string{"green$k1": "one", "blue$k2": "two"}, 0},
		{"a comment, blanks, CRLF", "# all\r\n\r\n  green$k1\t one \r\n", map[string]string{"green$k1": "one"}, 0},
		{"bad lines between", "green one\ngreen$k1 one more\ngreen$k2\n$k3 x\ngreen$ x\ngreen$k4 \x01\nblue$k5 two", map[string]string{"blue$k5": "two"}, 6},
		{"nothing", "", nil, 0},
		{"comments alone", "# green$k1 one\n", nil, 0},
		{"bad lines alone", "green one\n", nil, 1},
	} {
		text, name := logged(t), filepath.Join(t.TempDir(), "keys")
		write(t, name, it.text)
		f, err := Open(name)
		if (err != nil) != (it.want == nil) {
			t.Errorf("%s: %v", it.name, err)
		}
		for id, secret := range it.want {
			has(t, f, id, secret)
		}
		has(t, f, "green$none", "")
		if found := strings.Count(text.String(), "is passed over"); found != it.dropped {
			t.Errorf("%s: %d lines were told to be passed over, not %d:\n%s", it.name, found, it.dropped, text)
		}
	}
}

func TestOpenRefuses(t *testing.T) {
	folder := t.TempDir()
	open := filepath.Join(folder, "open")
	write(t, open, "green$k1 one\n")
	if err := os.Chmod(open, 0o640); err != nil {
		t.Fatal(err)
	}
	for _, name := range []string{open, folder, filepath.Join(folder, "none")} {
		if _, err := Open(name); err == nil {
			t.Errorf("%s was opened", name)
		}
	}
}

// A file that changes within the grain of its clock, to the same size, is read again, since it was young when it was read.
func TestChangeWithinTheGrain(t *testing.T) {
	logged(t)
	name := filepath.Join(t.TempDir(), "keys")
	for try := 0; try < 200; try++ {
		write(t, name, "green$k1 one\n")
		f, err := Open(name)
		if err != nil {
			t.Fatal(err)
		}
		write(t, name, "green$k1 two\n")
		if found, _ := stateOf(os.Stat(name)); found != f.state {
			continue // (the clock has gone on)
		}
		time.Sleep(usualPause + 5*time.Millisecond)
		has(t, f, "green$k1", "two")
		return
	}
	t.Skip("no two writes had one time")
}

// A file that is rewritten in place while it is asked for is never left half read. As often as not both halves are written within the
// grain of the file system's clock, and the file is read between them.
func TestRewrittenInPlace(t *testing.T) {
	logged(t)
	const count = 500
	name := filepath.Join(t.TempDir(), "keys")
	write(t, name, "green$k0 x\n")
	f, err := Open(name)
	if err != nil {
		t.Fatal(err)
	}
	f.pause = time.Millisecond / 4
	ended, all := make(chan struct{}), sync.WaitGroup{}
	for i := 0; i < 2; i++ {
		all.Add(1)
		go func() {
			defer all.Done()
			for {
				select {
				case <-ended:
					return
				default:
					f.Secret("nobody$k")
				}
			}
		}()
	}
	defer all.Wait()
	defer close(ended)
	stuck := 0
	for i := 0; i < count; i++ {
		id := fmt.Sprintf("green$k%d", i)
		text := strings.Repeat("blue$k secret\n", i%50) + id + " secret\n"
		out, err := os.OpenFile(name, os.O_WRONLY|os.O_TRUNC, 0)
		if err != nil {
			t.Fatal(err)
		}
		for _, half := range []string{text[:len(text)/2], text[len(text)/2:]} {
			if _, err := out.WriteString(half); err != nil {
				t.Fatal(err)
			}
			runtime.Gosched()
		}
		out.Close()
		time.Sleep(2 * f.pause)
		if _, ok := f.Secret(id); !ok {
			stuck++
		}
	}
	if stuck > 0 {
		t.Errorf("a file that was whole was read half %d times of %d", stuck, count)
	}
}

// What changes in a file besides its time is seen, too.
func TestChanges(t *testing.T) {
	logged(t)
	f, name, wait := file(t, "green$k1 one\n")
	info, err := os.Stat(name)
	if err != nil {
		t.Fatal(err)
	}
	same := func(name string) {
		t.Helper()
		if err := os.Chtimes(name, info.ModTime(), info.ModTime()); err != nil {
			t.Fatal(err)
		}
	}
	write(t, name, "green$k1 longer\n")
	same(name)
	has(t, f, "green$k1", "longer")
	write(t, name+".new", "green$k1 others\n")
	same(name + ".new")
	if err := os.Rename(name+".new", name); err != nil {
		t.Fatal(err)
	}
	wait(time.Second)
	has(t, f, "green$k1", "others")
}

// SIGHUP has a file read that seems as it was.
func TestReread(t *testing.T) {
	logged(t)
	f, name, _ := file(t, "green$k1 one\n")
	write(t, name, "green$k1 two\n")
	f.state, _ = stateOf(os.Stat(name))
	has(t, f, "green$k1", "one")
	f.Reread()
	has(t, f, "green$k1", "two")
}

// A file that can't be read revokes nobody for five minutes and then everybody, and comes back; each change is one line of the log.
func TestUnreadable(t *testing.T) {
	for name, spoil := range map[string]func(name string) error{
		"removed": os.Remove,
		"open":    func(name string) error { return os.Chmod(name, 0o644) },
		"empty":   func(name string) error { return os.Truncate(name, 0) },
		"a bad line alone": func(name string) error {
			return os.WriteFile(name, []byte("green k1\n"), 0o600)
		},
	} {
		text := logged(t)
		f, at, wait := file(t, "green$k1 one\n")
		if err := spoil(at); err != nil {
			t.Fatal(err)
		}
		for i := 0; i < 299; i++ {
			has(t, f, "green$k1", "one")
			wait(time.Second)
		}
		for i := 0; i < 100; i++ {
			wait(time.Second)
			has(t, f, "green$k1", "")
		}
		if lines := strings.Count(text.String(), "level=ERROR"); lines != 2 {
			t.Errorf("%s: %d lines of errors:\n%s", name, lines, text)
		}
		os.Remove(at)
		write(t, at, "green$k1 two\n")
		has(t, f, "green$k1", "two")
		if !strings.Contains(text.String(), "can be read again") {
			t.Errorf("%s: no line tells that it is well:\n%s", name, text)
		}
		if strings.Contains(text.String(), "one") || strings.Contains(text.String(), "two") {
			t.Errorf("%s: a secret stands in the log:\n%s", name, text)
		}
	}
}
