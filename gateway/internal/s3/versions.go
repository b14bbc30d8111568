package s3

import (
	"encoding/json"
	"errors"
	"fmt"
	"log"

	"bucketd/gateway/internal/host"
	"bucketd/gateway/internal/notes"
	"bucketd/gateway/internal/s3err"
)

// A version and its metadata are two writes, and the one that counts is the version's: first the key's note gets the metadata by the
// checksum of the bytes that come, beside that of the bytes that are there; then these bytes come. A kill between them leaves a note
// too many. A version with a number has a note of its own after that, and the key's note is as it was before.

// readNote returns the note at a version's place; nil where there is none.
func (c *call) readNote(o host.Object) (*notes.Note, error) {
	place, err := notes.Place(o)
	if err != nil {
		return nil, err
	}
	r, err := c.ask(place.Request(get))
	if err != nil || r.Refusal != 0 {
		return nil, err
	}
	n := &notes.Note{}
	if json.Unmarshal(r.Body.Bytes(), n) != nil || n.Checksum == "" { // (the gateway wrote none of that form)
		return nil, nil
	}
	return n, nil
}

// writeNote puts a note at a version's place, or takes it away where it is nil.
func (c *call) writeNote(o host.Object, n *notes.Note) error {
	place, err := notes.Place(o)
	if err != nil {
		return err
	}
	if n == nil {
		return c.dropHidden(place)
	}
	return c.putHidden(place, n)
}

// putHidden puts a document into the hidden bucket, which it makes where that isn't there.
func (c *call) putHidden(place host.Object, document any) error {
	q, err := place.Request(put).With(document)
	if err != nil {
		return err
	}
	r, err := c.ask(q)
	if err == nil && r.Refusal == host.RefusalBucket {
		if _, err = c.ask(host.Object{Bucket: notes.Bucket}.Request(put)); err == nil {
			r, err = c.ask(q)
		}
	}
	if err != nil {
		return err
	}
	return c.refusalOf(r)
}

// dropHidden takes a document out of the hidden bucket.
func (c *call) dropHidden(place host.Object) error {
	r, err := c.ask(place.Request(remove))
	if err != nil || r.Refusal == host.RefusalBucket {
		return err
	}
	return c.refusalOf(r)
}

// note returns the note of a version of some bytes, an empty one where there is none.
func (c *call) note(o host.Object, checksum string) (notes.Note, error) {
	if !c.server.Meta {
		return notes.Note{}, nil
	}
	n, err := c.readNote(o)
	if err == nil && n == nil && o.Version != host.NullVersion {
		n, err = c.pendingNote(o, checksum)
	}
	if err != nil || n == nil {
		return notes.Note{}, err
	}
	return *n, nil
}

// pendingNote returns the note of a version with a number whose write didn't come to its end: the key's note has it, unless that is
// the note of `null`.
func (c *call) pendingNote(o host.Object, checksum string) (*notes.Note, error) {
	o.Version = ""
	n, err := c.readNote(o)
	if err != nil || n == nil || n.Checksum != checksum {
		return nil, err
	}
	null, err := c.headNull(o)
	if err != nil || null.Refusal == 0 && null.Checksum() == checksum {
		return nil, err
	}
	return n.Alone(checksum), nil
}

func (c *call) headNull(o host.Object) (*host.Response, error) {
	o.Version = host.NullVersion
	return c.ask(o.Request(head))
}

// keyNote returns the note that a key has, and what that has for the bytes of its version `null`; each is nil where there is none.
func (c *call) keyNote(key host.Object) (stored, current *notes.Note, err error) {
	if c.server.Alone && c.was != nil && c.was.version == host.NullVersion {
		if c.was.note.Checksum == "" {
			return nil, nil, nil
		}
		return &c.was.note, c.was.note.Alone(c.was.checksum), nil
	}
	if stored, err = c.readNote(key); err != nil || stored == nil {
		return nil, nil, err
	}
	current, err = c.settle(key, stored)
	return stored, current, err
}

// settle returns what a key's note has for the version `null`. Where the note of a version with a number was left in it, that version
// gets its own.
func (c *call) settle(key host.Object, stored *notes.Note) (*notes.Note, error) {
	newest, err := c.ask(key.Request(head))
	if err != nil {
		return nil, err
	}
	isNumbered := newest.Refusal == 0 && newest.Version() != host.NullVersion
	if isNumbered && newest.Checksum() == stored.Checksum && len(stored.Metadata) > 0 {
		o := key
		o.Version = newest.Version()
		own, err := c.readNote(o)
		if err == nil && own == nil {
			err = c.writeNote(o, stored.Alone(stored.Checksum))
		}
		if err != nil {
			return nil, err
		}
	}
	if isNumbered || newest.Refusal != 0 {
		if newest, err = c.headNull(key); err != nil {
			return nil, err
		}
	}
	if newest.Refusal != 0 {
		return nil, nil
	}
	return stored.Alone(newest.Checksum()), nil
}

// version is one that is to be made.
type version struct {
	request  *host.Request
	checksum func() (string, error) // of the bytes that come
	source   string                 // that checksum, of a copy: what is copied may have become another object
	meta     notes.Metadata
}

// errOtherBytes is the error of a version whose bytes aren't those that were named.
var errOtherBytes = s3err.New("SlowDown", "the source was overwritten meanwhile")

// makeVersion makes a version with its metadata, under the key's lock, and tells its ETag and id.
func (c *call) makeVersion(v version) (*host.Response, error) {
	key := host.Object{Bucket: c.target.Bucket, Key: c.target.Key}
	if len(v.meta) == 1 && v.meta["content-type"] == contentType(key.Key) { // (that is told without a note)
		v.meta = nil
	}
	if !c.server.Meta {
		r, _, err := c.putBytes(v)
		return r, err
	}
	stored, current, err := c.keyNote(key)
	if err != nil {
		return nil, err
	}
	if stored == nil && len(v.meta) == 0 {
		r, checksum, err := c.putBytes(v)
		if err == nil {
			c.rememberVersion(r, &details{checksum: checksum, version: r.Version()})
		}
		return r, err
	}
	checksum, err := v.checksum()
	if err != nil {
		return nil, err
	}
	w := noted{c, key, &notes.Note{Checksum: checksum, Metadata: v.meta, Before: current}, false}
	if _, isTaken := stored.Of(checksum); isTaken || len(v.meta) > 0 {
		if err := c.writeNote(key, w.note); err != nil {
			return nil, err
		}
		w.isWritten = true
		defer c.detach()()
	}
	return w.put(v)
}

// putBytes asks for a version, tells its ETag and id, and returns its checksum.
func (c *call) putBytes(v version) (*host.Response, string, error) {
	r, err := c.need(v.request)
	if err != nil {
		return nil, "", err
	}
	checksum := r.Checksum()
	if checksum == "" { // (of a joined or copied object its document tells it)
		made, err := r.Document()
		if err != nil {
			return nil, "", err
		}
		checksum = made.ChecksumSHA256
	}
	if v.source != "" && v.source != checksum {
		return nil, "", errOtherBytes
	}
	c.tellVersion(r, checksum)
	return r, checksum, nil
}

// rememberVersion remembers a version that was just made, where nobody else could have written it since.
func (c *call) rememberVersion(r *host.Response, d *details) {
	o := host.Object{Bucket: c.target.Bucket, Key: c.target.Key}
	if c.server.Alone && d.version == host.NullVersion {
		_, writes := c.own.recall(o)
		c.own.remember(o, d, writes)
	}
}

// noted is a version of a key that has a note, before or after.
type noted struct {
	c         *call
	key       host.Object
	note      *notes.Note // of the bytes that come, and of those of `null` that are there
	isWritten bool        // it is the key's
}

// put puts the bytes, and then what their version's number or its lack of metadata asks for.
func (w noted) put(v version) (*host.Response, error) {
	r, checksum, err := w.c.putBytes(v)
	defer w.c.detach()()
	if _, isRefused := s3err.Of(err); isRefused && w.isWritten && !errors.Is(err, errOtherBytes) {
		w.tidy(w.note.Before)
	}
	if err != nil {
		return nil, err
	}
	if checksum != w.note.Checksum {
		return nil, fmt.Errorf("bucketd has %s of other bytes than it was sent", checksum)
	}
	if r.Version() != host.NullVersion {
		return r, w.number(r.Version())
	}
	d := &details{checksum: checksum, version: host.NullVersion, note: *w.note}
	if len(w.note.Metadata) == 0 {
		if d.note = (notes.Note{}); !w.tidy(nil) {
			return r, nil
		}
	}
	w.c.rememberVersion(r, d)
	return r, nil
}

// number gives a version with a number its note. Where that finds no room the version goes again, unless a date holds it: then the
// key's note goes on to have what is its.
func (w noted) number(id string) error {
	o, before := w.key, w.note.Before
	o.Version = id
	if len(w.note.Metadata) > 0 || before != nil && before.Checksum == w.note.Checksum {
		own := &notes.Note{Checksum: w.note.Checksum, Metadata: w.note.Metadata}
		if err := w.c.writeNote(o, own); err != nil {
			gone, undone := w.c.ask(o.Request(remove))
			if undone != nil || gone.Refusal != 0 {
				log.Printf("%s: a version of %q has no note of its own: %v", w.c.Tenant, w.key.Bucket, err)
				return nil
			}
			w.tidy(before)
			return err
		}
	}
	if w.isWritten {
		w.tidy(before)
	}
	return nil
}

// tidy puts the key's note as it is to be, and returns whether it is so. One that stays is passed over by who reads.
func (w noted) tidy(n *notes.Note) bool {
	err := w.c.writeNote(w.key, n)
	if err != nil {
		log.Printf("%s: a note of %q is left: %v", w.c.Tenant, w.key.Bucket, err)
	}
	return err == nil
}

// forgetNote takes away the note of a version that bucketd says is gone. One that stays is passed over by who reads.
func (c *call) forgetNote(o host.Object, r *host.Response) {
	if !c.server.Meta {
		return
	}
	if err := c.dropNote(o, r); err != nil {
		log.Printf("%s: a note of %q is left: %v", c.Tenant, o.Bucket, err)
	}
}

func (c *call) dropNote(o host.Object, r *host.Response) error {
	key, told := host.Object{Bucket: o.Bucket, Key: o.Key}, r.VersionTold()
	switch {
	case o.Version != "" && o.Version != host.NullVersion:
		if told != o.Version || r.IsMarker() {
			return nil
		}
		return c.writeNote(o, nil)
	case told != "" && told != host.NullVersion: // (a marker came)
		return nil
	case told == host.NullVersion || o.Version == host.NullVersion: // (the bucket has versions, or may have)
		stored, err := c.readNote(key)
		if err == nil && stored != nil {
			_, err = c.settle(key, stored)
		}
		if err != nil || stored == nil {
			return err
		}
	case c.server.Alone && c.was != nil && c.was.version == host.NullVersion && c.was.note.Checksum == "":
		return nil // (there is none)
	}
	return c.writeNote(key, nil)
}
