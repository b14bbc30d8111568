package s3

import (
	"bytes"
	"context"
	"fmt"
	"io"
	"log"
	"net/http"
	"path"
	"runtime/debug"
	"strings"
	"time"

	"bucketd/gateway/internal/buffer"
	"bucketd/gateway/internal/host"
	"bucketd/gateway/internal/notes"
	"bucketd/gateway/internal/s3err"
)

// Objects are read in pieces, so that neither a great one nor a slow client holds bucketd. Each reader has two pieces in memory.
const (
	readMemory    = 8 << 20 // of all readers, but for leastPiece of each
	greatestPiece = 2 << 20
	leastPiece    = 64 << 10
)

func (s *Server) pieceSize() int64 {
	return min(greatestPiece, leastPiece+readMemory/2/(1+s.readers.Load()))
}

var contentTypes = map[string]string{".css": "text/css", ".csv": "text/csv", ".gif": "image/gif", ".html": "text/html",
	".jpg": "image/jpeg", ".json": "application/json", ".pdf": "application/pdf", ".png": "image/png", ".svg": "image/svg+xml",
	".txt": "text/plain", ".zip": "application/zip"}

// contentType returns the type of an object of which no note tells one.
func contentType(key string) string {
	if name, isThere := contentTypes[path.Ext(key)]; isThere {
		return name
	}
	return "binary/octet-stream"
}

var errOverwritten = s3err.New("SlowDown", "the object is overwritten all the time")

// How often a read is begun anew beside writes of its key. The last time they wait for it.
const mostLooks = 4

// look asks for an object, and then when it was put and what is kept of it, where that isn't known: again where it was overwritten
// in between.
func (c *call) look(o host.Object, ask *host.Request, isRanged bool) (*details, *host.Response, error) {
	for turn := 1; turn <= mostLooks; turn++ {
		if lock := c.own.lockOf(o); turn == mostLooks && !c.isHolding {
			if err := lock.lock(c.r.Context()); err != nil {
				return nil, nil, err
			}
			defer lock.unlock()
		}
		d, writes := c.own.recall(o)
		isKnown := d != nil
		r, err := c.askObject(o, ask, isRanged)
		if err != nil {
			return nil, nil, err
		}
		if d == nil || c.server.LastModified && d.modified.IsZero() {
			if d, err = c.find(o, r, d); err != nil {
				return nil, nil, err
			}
		}
		if d.checksum != r.Checksum() || d.version != r.Version() {
			c.own.forget(host.Object{Bucket: o.Bucket, Key: o.Key, Version: r.Version()})
			continue
		}
		_, now := c.own.recall(o)
		isCalm := writes%2 == 0 && now == writes
		// (what a write left of a note meanwhile may be that of the bytes that come)
		if _, isNoted := d.note.Of(d.checksum); c.server.Meta && !isNoted && !isCalm && !isKnown && turn < mostLooks && !c.isHolding {
			continue
		}
		isFixed := d.version != host.NullVersion && (d.note.Checksum != "" || !c.server.Meta)
		if isCalm && (isFixed || c.server.Alone) {
			c.own.remember(o, d, writes)
		}
		return d, r, nil
	}
	return nil, nil, errOverwritten
}

// askObject asks for an object that has to be there.
func (c *call) askObject(o host.Object, ask *host.Request, isRanged bool) (*host.Response, error) {
	r, err := c.ask(ask)
	if err == nil && r.Refusal == host.RefusalRange && !isRanged {
		r, err = c.ask(o.Request(head)) // it is empty
	}
	if err == nil {
		err = c.refusalOf(r)
	}
	return r, err
}

// find returns the details of a version that was answered, of which the note may be known.
func (c *call) find(o host.Object, r *host.Response, known *details) (*details, error) {
	d := &details{checksum: r.Checksum(), version: r.Version()}
	if c.server.LastModified {
		listed, err := c.entryOf(o, d.version)
		if err != nil {
			return nil, err
		}
		d.checksum, d.version = listed.ChecksumSHA256, listed.VersionId
		if at, err := time.Parse(time.RFC3339, listed.LastModified); err == nil {
			d.modified = at
		}
	}
	if known != nil && known.version == d.version {
		d.note = known.note
		return d, nil
	}
	o.Version = d.version
	var err error
	d.note, err = c.note(o, d.checksum)
	return d, err
}

// entryOf returns a version as a listing has it, as no other answer tells when it was put; an empty one where it isn't there. A
// listing of an old version has all newer ones before it, so what it has of them is remembered.
func (c *call) entryOf(o host.Object, told string) (host.Entry, error) {
	if it, isThere := c.own.entry(host.Object{Bucket: o.Bucket, Key: o.Key, Version: told}); isThere {
		return it, nil
	}
	q := host.Object{Bucket: o.Bucket}.Request(get, "versions", "", "prefix", o.Key)
	if o.Version == "" {
		q.Query.Set("max-keys", "1") // a key is the first name of its own prefix, and its newest version the first of it
	}
	for {
		r, err := c.ask(q)
		if err != nil || r.Refusal != 0 {
			return host.Entry{}, err // the object's own answer tells why it is refused
		}
		d, err := r.Document()
		if err != nil {
			return host.Entry{}, err
		}
		c.own.rememberEntries(o, d.Versions)
		for _, it := range d.Versions {
			if it.Key == o.Key && (o.Version == "" || o.Version == it.VersionId) {
				return it, nil
			}
		}
		if o.Version == "" || d.NextVersionIdMarker == "" || d.NextKeyMarker != o.Key {
			return host.Entry{}, nil
		}
		q.Query.Set("key-marker", o.Key)
		q.Query.Set("version-id-marker", d.NextVersionIdMarker)
	}
}

// getObject answers GetObject and HeadObject.
func (c *call) getObject() error {
	c.server.readers.Add(1)
	defer c.server.readers.Add(-1)
	for name := range notes.Kept {
		if !notes.IsText(c.query.Get("response-" + name)) {
			return s3err.New("InvalidArgument", "the value of response-"+name+" is no UTF-8, or has a control character")
		}
	}
	o, h, isHead := c.target, c.r.Header, c.r.Method == head
	if isHead {
		h.Del("Range")
	}
	asked, ask := parseRange(h.Get("Range")), o.Request(head)
	// (under a condition no bytes are read before it is met, and the last bytes are known by the size alone)
	if !isHead && asked.first >= 0 && !isConditional(h) {
		ask = pieceOf(o, asked.first, min(asked.last-asked.first, c.server.pieceSize()-1))
	}
	d, r, err := c.look(o, ask, asked.isAsked)
	if err != nil {
		return err
	}
	c.tellVersion(r, d.checksum)
	if err := c.checkConditions("", d, s3err.New("NotModified", "the client has the object")); err != nil {
		return err
	}
	if isRangeOff(h, d.checksum, d.modified) {
		asked = allBytes
	}
	if asked.isAsked {
		c.tell("Content-Range", fmt.Sprint("bytes */", r.Size()))
	}
	first, last, err := asked.of(r.Size())
	if err != nil {
		return err
	}
	if d.version != host.NullVersion {
		o.Version = d.version // the version that was begun, as its id stays its own
	}
	begin := func() { c.beginObject(d, r, first, last, asked.isAsked) }
	if isHead || first > last {
		begin()
		return nil
	}
	return c.writePieces(c, o, r, first, last, begin)
}

// beginObject answers the head of bytes of an object.
func (c *call) beginObject(d *details, r *host.Response, first, last int64, isRanged bool) {
	c.tellObject(d, isRanged)
	c.tell("Content-Length", fmt.Sprint(last-first+1))
	status := http.StatusOK
	if isRanged {
		c.tell("Content-Range", fmt.Sprintf("bytes %d-%d/%d", first, last, r.Size()))
		status = http.StatusPartialContent
	}
	c.begin(status)
}

// tellObject tells what the head of an answer has of an object.
func (c *call) tellObject(d *details, isRanged bool) {
	c.tell("Accept-Ranges", "bytes", "Content-Type", contentType(c.target.Key))
	if !d.modified.IsZero() {
		c.tell("Last-Modified", d.modified.UTC().Format(http.TimeFormat))
	}
	for name, value := range d.metadata() {
		c.tell(name, value)
	}
	for name := range notes.Kept {
		c.tell(name, c.query.Get("response-"+name))
	}
	// (of a range bucketd tells the whole object's, which clients would compare with the range)
	if c.r.Header.Get("x-amz-checksum-mode") != "" && !isRanged {
		c.tell(sha256Field, d.checksum, "x-amz-checksum-type", "FULL_OBJECT")
		if strings.Contains(d.checksum, "-") {
			c.tell("x-amz-checksum-type", "COMPOSITE")
		}
	}
}

// pieceOf asks for a piece of an object: its first byte, and how many follow.
func pieceOf(o host.Object, first, more int64) *host.Request {
	q := o.Request(get)
	q.Fields = []string{fmt.Sprintf("range: bytes=%d-%d", first, first+more)}
	q.Buffer = buffer.Get()
	return q
}

// askPiece asks for a piece in a goroutine of its own. The channel gives its bytes, and is closed without any where the object is
// another one by then.
func (c *call) askPiece(ctx context.Context, q *host.Request, checksum string, size int64) chan *bytes.Buffer {
	answer, client := make(chan *bytes.Buffer, 1), c.client
	go func() {
		defer close(answer)
		defer logDefect("a piece")
		r, err := client.Ask(ctx, q)
		if err == nil && r.Refusal == 0 && r.Checksum() == checksum && int64(r.Body.Len()) == size {
			answer <- r.Body
		}
	}()
	return answer
}

// logDefect logs a panic of a goroutine, which would end the gateway.
func logDefect(what string) {
	if it := recover(); it != nil {
		log.Printf("%s: %v\n%s", what, it, debug.Stack())
	}
}

// writePieces writes bytes of an object piece by piece, after `begin` where the first is there; that may have come with the object's
// answer. An error where the object was overwritten or deleted since then. While one is waited for, another has been asked for, so
// that bucketd needn't wait for the gateway.
func (c *call) writePieces(w io.Writer, o host.Object, known *host.Response, first, last int64, begin func()) error {
	ctx, stop := context.WithCancel(c.r.Context())
	defer stop()
	var asked []chan *bytes.Buffer
	if come := known.Body.Len(); come > 0 {
		asked = append(asked, make(chan *bytes.Buffer, 1))
		asked[0] <- known.Body
		first += int64(come)
	}
	for isBegun := false; first <= last || len(asked) > 0; isBegun = true {
		for first <= last && len(asked) < 2 {
			more := min(last-first, c.server.pieceSize()-1)
			asked = append(asked, c.askPiece(ctx, pieceOf(o, first, more), known.Checksum(), more+1))
			first += more + 1
		}
		piece := <-asked[0]
		asked = asked[1:]
		if piece == nil {
			return s3err.New("SlowDown", "the object was overwritten meanwhile")
		}
		if !isBegun {
			begin()
		}
		if _, err := w.Write(piece.Bytes()); err != nil {
			return err
		}
		if int64(piece.Cap()) <= 2*c.server.pieceSize() { // (where there are more readers by now, pieces are smaller)
			buffer.Put(piece)
		}
	}
	return nil
}
