// Package spool keeps bodies of requests until the host has them: short ones in memory, others in files without a name.
package spool

import (
	"bytes"
	"crypto/sha256"
	"encoding/base64"
	"errors"
	"io"
	"os"
	"sync/atomic"
	"syscall"

	"bucketd/gateway/internal/buffer"
)

// The most bytes in memory, of one body and of all.
const (
	GreatestInMemory = 1 << 20
	allInMemory      = 16 << 20
)

// Spool makes bodies. Its folder has those that memory hasn't, as many as the room lets in.
type Spool struct {
	Folder   string
	Room     Room // nil is as much as the disk has
	inMemory atomic.Int64
}

// Room counts the bytes of bodies in files.
type Room interface {
	// Reserve takes room for bytes of a tenant, or returns an error and takes none.
	Reserve(tenant string, bytes int64) error
	// Release gives room back that was reserved.
	Release(tenant string, bytes int64)
}

// Body is written, and read when it has come whole.
type Body struct {
	io.Writer
	Size   int64
	SHA256 string // base64, for bucketd to compare; empty where nothing was promised, or it was compared already
	memory *bytes.Buffer
	file   *os.File
	free   func()
}

// New returns an empty body for some bytes of a tenant, which is freed by Free. The error is that of the room, or of the folder.
func (s *Spool) New(tenant string, size int64) (*Body, error) {
	if size <= GreatestInMemory {
		if s.inMemory.Add(size) <= allInMemory {
			memory := buffer.Get()
			buffer.SetRoom(memory, size)
			free := func() {
				s.inMemory.Add(-size)
				buffer.Put(memory)
			}
			return &Body{Writer: memory, memory: memory, Size: size, free: free}, nil
		}
		s.inMemory.Add(-size)
	}
	if s.Room == nil {
		return s.inFile(size, func() {})
	}
	if err := s.Room.Reserve(tenant, size); err != nil {
		return nil, err
	}
	b, err := s.inFile(size, func() { s.Room.Release(tenant, size) })
	if err != nil {
		s.Room.Release(tenant, size)
	}
	return b, err
}

// inFile returns a body in a file without a name.
func (s *Spool) inFile(size int64, release func()) (*Body, error) {
	file, err := os.CreateTemp(s.Folder, "gateway-")
	if err != nil {
		return nil, err
	}
	if err := os.Remove(file.Name()); err != nil {
		file.Close()
		return nil, err
	}
	free := func() {
		file.Close()
		release()
	}
	return &Body{Writer: file, file: file, Size: size, free: free}, nil
}

// Text returns the body of bytes that are in memory already.
func Text(text []byte) *Body { return &Body{memory: bytes.NewBuffer(text), Size: int64(len(text))} }

// Free gives back the room that a body takes.
func (b *Body) Free() {
	if b.free != nil {
		b.free()
		b.free = nil
	}
}

// Checksum returns the body's SHA-256 in base64: that which was promised, or its own.
func (b *Body) Checksum() (string, error) {
	if b.SHA256 != "" {
		return b.SHA256, nil
	}
	sum := sha256.New()
	_, err := io.Copy(sum, b.Reader())
	return base64.StdEncoding.EncodeToString(sum.Sum(nil)), err
}

// InMemory returns the body's bytes where they are in memory.
func (b *Body) InMemory() ([]byte, bool) {
	if b.file != nil {
		return nil, false
	}
	return b.memory.Bytes(), true
}

// Reader reads the body from its first byte.
func (b *Body) Reader() io.Reader {
	if b.file == nil {
		return bytes.NewReader(b.memory.Bytes())
	}
	return io.NewSectionReader(b.file, 0, b.Size)
}

// InMemory returns how many bytes of memory bodies take.
func (s *Spool) InMemory() int64 { return s.inMemory.Load() }

// IsFull returns whether a body couldn't be kept since its disk has no room.
func IsFull(err error) bool {
	return errors.Is(err, syscall.ENOSPC) || errors.Is(err, syscall.EDQUOT) || errors.Is(err, syscall.EFBIG)
}
