package limits

import (
	"errors"
	"sync"
)

// ErrSpool is that of bytes that find no room: S3's SlowDown.
var ErrSpool = errors.New("the bodies that wait have as many bytes as they may have")

// A Spool counts the bytes of bodies that wait on the gateway's disk, of all tenants and of each.
type Spool struct {
	Met Count // is told of what found no room

	all, tenant int64
	mu          sync.Mutex
	taken       int64
	of          map[string]int64
}

// NewSpool returns a spool of at most so many bytes in all, and of a tenant.
func NewSpool(all, tenant int64) *Spool {
	return &Spool{all: all, tenant: tenant, of: map[string]int64{}}
}

// Reserve takes room for bytes of a tenant, or returns ErrSpool and takes none. It is released by as many bytes.
func (s *Spool) Reserve(tenant string, bytes int64) error {
	s.mu.Lock()
	defer s.mu.Unlock()
	switch {
	case bytes < 0 || bytes > s.all-s.taken:
		s.Met.Add(SpoolRoom)
		return ErrSpool
	case bytes > s.tenant-s.of[tenant]:
		s.Met.Add(TenantSpoolRoom)
		return ErrSpool
	}
	if bytes > 0 {
		s.taken += bytes
		s.of[tenant] += bytes
	}
	return nil
}

// Release gives room back that was reserved.
func (s *Spool) Release(tenant string, bytes int64) {
	s.mu.Lock()
	defer s.mu.Unlock()
	s.taken -= bytes
	if s.of[tenant] -= bytes; s.of[tenant] <= 0 {
		delete(s.of, tenant)
	}
}

// Most returns how many bytes may wait.
func (s *Spool) Most() int64 { return s.all }

// Taken returns how many bytes wait.
func (s *Spool) Taken() int64 {
	s.mu.Lock()
	defer s.mu.Unlock()
	return s.taken
}
