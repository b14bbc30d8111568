package s3

import (
	"context"
	"hash/maphash"
	"sync"
	"sync/atomic"
	"time"

	"bucketd/gateway/internal/host"
	"bucketd/gateway/internal/notes"
)

// What was found of a version beside its bytes is remembered, so that bucketd is asked for those alone when they are read again.
// Its answer then says whether it is that version still. Of one with a number and a note all of this stays as it is. Of `null`,
// which is overwritten, and of one without a note, which may come yet, it is remembered only where no one writes but through this
// gateway (Options.Alone), until a write begins.

// How many versions are remembered of all tenants, each of which has an equal share, and how great a key with metadata may be.
const (
	mostKnown     = 8192
	greatestKnown = 1024
)

// details are what is told of a version beside its bytes.
type details struct {
	checksum, version string
	modified          time.Time  // zero where it isn't told, or not known
	note              notes.Note // empty where there is none; it may be of other bytes
}

func (d *details) metadata() notes.Metadata {
	meta, _ := d.note.Of(d.checksum)
	return meta
}

// tenant has the locks of one tenant, and what is known of its objects.
type tenant struct {
	buckets passage // held alone where a bucket goes with its notes
	keys    [64]keyLock
	mu      sync.Mutex
	known   map[host.Object]*details
	most    atomic.Int64
	listed  map[host.Object]host.Entry // versions with a number, which stay as they are

	beginnings beginnings
}

// tenants has those that have asked.
type tenants struct {
	mu    sync.Mutex
	names map[string]*tenant
}

func (s *tenants) of(name string) *tenant {
	s.mu.Lock()
	defer s.mu.Unlock()
	if s.names == nil {
		s.names = map[string]*tenant{}
	}
	t := s.names[name]
	if t == nil {
		t = &tenant{known: map[host.Object]*details{}, listed: map[host.Object]host.Entry{}, beginnings: beginnings{place: make(chan struct{}, 1)}}
		for i := range t.keys {
			t.keys[i].place = make(chan struct{}, 1)
		}
		s.names[name] = t
	}
	t.most.Store(mostKnown / int64(len(s.names)))
	return t
}

// keyLock is that of the keys with one hash: how often a write of one began or ended is odd while one is on its way.
type keyLock struct {
	place  chan struct{} // (a mutex can't be waited for until a client goes)
	writes atomic.Int64
}

func (k *keyLock) lock(ctx context.Context) error {
	select {
	case k.place <- struct{}{}:
		return nil
	case <-ctx.Done():
		return ctx.Err()
	}
}

func (k *keyLock) unlock() { <-k.place }

var hashSeed = maphash.MakeSeed()

func (t *tenant) lockOf(o host.Object) *keyLock {
	return &t.keys[maphash.String(hashSeed, o.Bucket+"/"+o.Key)%uint64(len(t.keys))]
}

// hold takes the lock of a key, so that what is asked meanwhile is asked of one state, if all writers of the key come through the
// gateway, and of keys beside it that are only read; what was known of it is forgotten, but by the call. It returns what frees them.
func (c *call) hold(o host.Object, beside ...host.Object) (release func(), err error) {
	o.Version = ""
	t, own := c.own, c.own.lockOf(o)
	locks := t.locksOf(append(beside, o))
	leave, err := t.buckets.enter(c.r.Context(), false)
	if err != nil {
		return nil, err
	}
	free := func() {
		for _, it := range locks {
			it.unlock()
		}
		leave()
	}
	for i, it := range locks {
		if err := it.lock(c.r.Context()); err != nil {
			locks = locks[:i]
			free()
			return nil, err
		}
	}
	own.writes.Add(1)
	c.was, _ = t.recall(o)
	c.isHolding = true
	t.forget(o)
	return func() {
		c.isHolding = false
		own.writes.Add(1)
		free()
	}, nil
}

// locksOf returns the locks of keys, each once, in an order that all calls keep.
func (t *tenant) locksOf(objects []host.Object) (locks []*keyLock) {
	wanted := map[*keyLock]bool{}
	for _, o := range objects {
		wanted[t.lockOf(o)] = true
	}
	for i := range t.keys {
		if it := &t.keys[i]; wanted[it] {
			locks = append(locks, it)
		}
	}
	return locks
}

// recall returns what is known of a version, and the writes until now of its key.
func (t *tenant) recall(o host.Object) (*details, int64) {
	t.mu.Lock()
	defer t.mu.Unlock()
	return t.known[o], t.lockOf(o).writes.Load()
}

// remember keeps what was found of a version, if no write began since: `writes` is from before.
func (t *tenant) remember(o host.Object, d *details, writes int64) {
	t.mu.Lock()
	defer t.mu.Unlock()
	if len(o.Key)+d.note.Size() > greatestKnown || t.lockOf(o).writes.Load() != writes {
		return
	}
	if int64(len(t.known)) >= t.most.Load() {
		t.known = map[host.Object]*details{}
	}
	t.known[o] = d
}

// forget forgets the newest version of a key, that of `null`, and one that is named.
func (t *tenant) forget(o host.Object) {
	t.mu.Lock()
	defer t.mu.Unlock()
	for _, version := range []string{"", host.NullVersion, o.Version} {
		delete(t.known, host.Object{Bucket: o.Bucket, Key: o.Key, Version: version})
	}
	delete(t.listed, o)
}

// entry returns a version as a listing had it, and whether that is remembered.
func (t *tenant) entry(o host.Object) (host.Entry, bool) {
	t.mu.Lock()
	defer t.mu.Unlock()
	it, isThere := t.listed[o]
	return it, isThere
}

// rememberEntries keeps entries of a key that have a number. Who reads an old version so finds the others without a listing.
func (t *tenant) rememberEntries(o host.Object, entries []host.Entry) {
	t.mu.Lock()
	defer t.mu.Unlock()
	for _, it := range entries {
		if it.Key != o.Key || it.VersionId == host.NullVersion {
			continue
		}
		if int64(len(t.listed)) >= t.most.Load() {
			t.listed = map[host.Object]host.Entry{}
		}
		it.Key, o.Version = o.Key, it.VersionId // (one text of the key for all of them)
		t.listed[o] = it
	}
}
