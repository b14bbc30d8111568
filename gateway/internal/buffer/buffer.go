// Package buffer keeps buffers of bodies and pieces for the next that need one.
package buffer

import (
	"bytes"
	"sync"
)

var pool = sync.Pool{New: func() any { return &bytes.Buffer{} }}

// Get returns a buffer, whose bytes may be those of its last use.
func Get() *bytes.Buffer { return pool.Get().(*bytes.Buffer) }

// Put takes a buffer back.
func Put(b *bytes.Buffer) { pool.Put(b) }

// SetRoom empties a buffer and makes room in it for some bytes: no more than that, where Grow would double what was there.
func SetRoom(b *bytes.Buffer, size int64) {
	if room := int(size) + bytes.MinRead; b.Cap() < room {
		*b = *bytes.NewBuffer(make([]byte, 0, room))
	}
	b.Reset()
}
