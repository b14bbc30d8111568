package spool

import (
	"errors"
	"io"
	"os"
	"strings"
	"syscall"
	"testing"
)

var errFull = errors.New("full")

// room counts what is reserved, up to a bound.
type room struct{ taken, most int64 }

func (r *room) Reserve(_ string, bytes int64) error {
	if r.taken+bytes > r.most {
		return errFull
	}
	r.taken += bytes
	return nil
}

func (r *room) Release(_ string, bytes int64) { r.taken -= bytes }

// Short bodies lie in memory, others in files without a name; what they take is given back, once.
func TestBodies(t *testing.T) {
	r := &room{most: 3 << 20}
	s := &Spool{Folder: t.TempDir(), Room: r}
	for _, size := range []int64{0, 5, GreatestInMemory, GreatestInMemory + 1} {
		b, err := s.New("green", size)
		if err != nil {
			t.Fatal(err)
		}
		text := strings.Repeat("a", int(size))
		if _, err := io.WriteString(b, text); err != nil {
			t.Fatal(err)
		}
		_, isInMemory := b.InMemory()
		if isInMemory != (size <= GreatestInMemory) || isInMemory != (r.taken == 0) || isInMemory && s.InMemory() != size {
			t.Fatal(size, isInMemory, r.taken, s.InMemory())
		}
		got, err := io.ReadAll(b.Reader())
		if err != nil || string(got) != text {
			t.Fatal(size, len(got), err)
		}
		b.Free()
		b.Free()
		if r.taken != 0 || s.InMemory() != 0 {
			t.Fatal(size, r.taken, s.InMemory())
		}
	}
	if names, err := os.ReadDir(s.Folder); err != nil || len(names) != 0 {
		t.Fatal(names, err)
	}
}

// Where all memory is taken, short bodies go to files; where there is no room or no folder, nothing is taken.
func TestNoRoom(t *testing.T) {
	r := &room{most: 3 << 20}
	s := &Spool{Folder: t.TempDir(), Room: r}
	s.inMemory.Store(allInMemory)
	b, err := s.New("green", 5)
	if err != nil {
		t.Fatal(err)
	}
	if _, isInMemory := b.InMemory(); isInMemory || r.taken != 5 {
		t.Fatal(isInMemory, r.taken)
	}
	b.Free()
	if _, err := s.New("green", 4<<20); !errors.Is(err, errFull) || r.taken != 0 {
		t.Fatal(err, r.taken)
	}
	s.Folder = "/nonexistent"
	if _, err := s.New("green", 2<<20); !errors.Is(err, os.ErrNotExist) || r.taken != 0 || s.InMemory() != allInMemory {
		t.Fatal(err, r.taken)
	}
}

func TestChecksum(t *testing.T) {
	const ofABC = "ungWv48Bz+pBQUDeXa4iI7ADYaOWF3qctBD/YfIAFa0="
	b := Text([]byte("abc"))
	if sum, err := b.Checksum(); err != nil || sum != ofABC {
		t.Fatal(sum, err)
	}
	b.SHA256 = "promised"
	if sum, err := b.Checksum(); err != nil || sum != "promised" {
		t.Fatal(sum, err)
	}
}

func TestIsFull(t *testing.T) {
	for err, want := range map[error]bool{&os.PathError{Err: syscall.ENOSPC}: true, syscall.EDQUOT: true, io.EOF: false, os.ErrNotExist: false} {
		if IsFull(err) != want {
			t.Fatal(err)
		}
	}
}
