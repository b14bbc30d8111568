// Package keys holds the access keys of a file.
package keys

import (
	"errors"
	"fmt"
	"io"
	"log/slog"
	"os"
	"strings"
	"sync"
	"syscall"
	"time"
)

const (
	// A change within the grain of a file system's clock doesn't show in the file's time: a file that is younger than this when it is
	// read is read again.
	young = 2 * time.Second
	// How long that isn't done: else each request would read it.
	usualPause = 20 * time.Millisecond
	// How long the keys are believed of a file that can't be read any more.
	patience = 5 * time.Minute
)

// A File has access keys, a line each: 'tenant$name secret'. It is read again where it has changed. Where it can't be read, the keys
// that were read last are believed for five minutes, and then none. A file without a single key is one that can't be read.
type File struct {
	name   string
	pause  time.Duration // how long a young file isn't read again
	now    func() time.Time
	mu     sync.Mutex
	state  state     // of the file when it was read last
	read   time.Time // when that was
	failed error     // why it had no keys then
	isDue  bool      // it is to be read again, changed or not
	keys   map[string]string
	since  time.Time // from when on it can't be read; zero where it can
	told   string    // the error that stands in the log
	isOut  bool      // all keys are refused
}

// state is what a change of a file shows in.
type state struct {
	device, inode, size  int64
	modified, attributes time.Time
}

// Open reads a key file. An error where it has no key, or others than its owner may read or write it.
func Open(name string) (*File, error) {
	f := &File{name: name, pause: usualPause, now: time.Now}
	return f, f.load()
}

// Reread has the file read at the next question, whether or not it has changed.
func (f *File) Reread() {
	f.mu.Lock()
	defer f.mu.Unlock()
	f.isDue = true
}

// Secret returns the secret of an access key, and whether there is such a key.
func (f *File) Secret(id string) (secret string, ok bool) {
	f.mu.Lock()
	defer f.mu.Unlock()
	f.refresh()
	if f.isOut {
		return "", false
	}
	secret, ok = f.keys[id]
	return secret, ok
}

// refresh reads the file again where that is wanted, and logs what is wrong with it: once, not with each request.
func (f *File) refresh() {
	err := f.load()
	if err == nil {
		if f.told != "" {
			slog.Info("the key file can be read again", "file", f.name)
		}
		f.since, f.told, f.isOut = time.Time{}, "", false
		return
	}
	if f.since.IsZero() {
		f.since = f.now()
	}
	if text := err.Error(); text != f.told {
		slog.Error("the key file can't be read: its keys are believed for five minutes", "error", text)
		f.told = text
	}
	if isOut := f.now().Sub(f.since) >= patience; isOut && !f.isOut {
		slog.Error("the key file can't be read since five minutes: all keys are refused", "file", f.name)
		f.isOut = true
	}
}

// load reads the file, if it isn't known to be as it was.
func (f *File) load() error {
	found, err := stateOf(os.Stat(f.name))
	if err != nil {
		return err
	}
	isSettled := f.read.Sub(found.modified) >= young || f.now().Sub(f.read) < f.pause
	if found == f.state && isSettled && !f.isDue {
		return f.failed
	}
	file, err := os.Open(f.name)
	if err != nil {
		return err
	}
	defer file.Close()
	if found, err = stateOf(file.Stat()); err != nil {
		return err
	}
	isNew := found != f.state
	f.state, f.read, f.isDue = found, f.now(), false
	text, err := io.ReadAll(file)
	if err == nil {
		err = f.take(string(text), isNew)
	}
	f.failed = err
	return err
}

// take has the keys of a text. A line that is of another form is dropped alone, and told in the log where the file has changed.
func (f *File) take(text string, isNew bool) error {
	keys := map[string]string{}
	for number, line := range strings.Split(text, "\n") {
		words := strings.Fields(line)
		if len(words) == 0 || words[0][0] == '#' {
			continue
		}
		if isKey(words) {
			keys[words[0]] = words[1]
		} else if isNew {
			slog.Warn("a line of the key file is passed over: it isn't 'tenant$name secret'", "file", f.name, "line", number+1)
		}
	}
	if len(keys) == 0 {
		return fmt.Errorf("%s: no key stands in it", f.name)
	}
	f.keys = keys
	return nil
}

// isKey returns whether the words of a line are a key. They become fields of requests to bucketd.
func isKey(words []string) bool {
	if len(words) != 2 {
		return false
	}
	tenant, name, _ := strings.Cut(words[0], "$")
	isPrintable := strings.IndexFunc(words[0]+words[1], func(r rune) bool { return r <= ' ' || r > '~' }) < 0
	return tenant != "" && name != "" && isPrintable
}

// stateOf returns the state of a file, and an error where it may not be read for keys.
func stateOf(info os.FileInfo, err error) (state, error) {
	if err != nil {
		return state{}, err
	}
	if !info.Mode().IsRegular() {
		return state{}, fmt.Errorf("%s: it isn't a file", info.Name())
	}
	if info.Mode().Perm()&0o077 != 0 {
		return state{}, fmt.Errorf("%s: others may read or write it: chmod 600", info.Name())
	}
	it, ok := info.Sys().(*syscall.Stat_t)
	if !ok {
		return state{}, errors.New("the system tells no inode")
	}
	return state{int64(it.Dev), int64(it.Ino), it.Size, info.ModTime(), time.Unix(it.Ctim.Unix())}, nil
}
