package s3

import (
	"bufio"
	"crypto/md5"
	"crypto/sha1"
	"crypto/sha256"
	"encoding/base64"
	"encoding/hex"
	"errors"
	"fmt"
	"hash"
	"hash/crc32"
	"hash/crc64"
	"io"
	"log"
	"strings"

	"bucketd/gateway/internal/host"
	"bucketd/gateway/internal/limits"
	"bucketd/gateway/internal/s3err"
	"bucketd/gateway/internal/sigv4"
	"bucketd/gateway/internal/spool"
	"bucketd/gateway/internal/xmlio"
)

const (
	md5Field      = "content-md5"
	checksumField = "x-amz-checksum-"
	sha256Field   = host.ChecksumField
)

// The digests that a body may be promised to have, by the fields that tell them in base64.
var digests = map[string]func() hash.Hash{
	md5Field:                    md5.New,
	checksumField + "crc32":     func() hash.Hash { return crc32.NewIEEE() },
	checksumField + "crc32c":    func() hash.Hash { return crc32.New(crc32.MakeTable(crc32.Castagnoli)) },
	checksumField + "crc64nvme": func() hash.Hash { return crc64.New(crc64NVME) },
	checksumField + "sha1":      sha1.New,
	sha256Field:                 sha256.New,
}

var crc64NVME = crc64.MakeTable(0x9a6c9329ac4bc9b5)

// Fields that are named like a checksum's, and tell none.
var noChecksums = map[string]bool{checksumField + "algorithm": true, checksumField + "type": true, checksumField + "mode": true}

// isDigest returns whether a text is a digest of a field's kind.
func isDigest(field, text string) bool {
	newDigest := digests[field]
	sum, err := base64.StdEncoding.Strict().DecodeString(text)
	return newDigest != nil && err == nil && len(sum) == newDigest().Size()
}

// promises returns the digests that a request's head promises of its body, by field; the signed SHA-256 as if its field told it.
func (c *call) promises() (map[string]string, error) {
	promised := map[string]string{}
	for field, values := range c.r.Header {
		name := strings.ToLower(field)
		// (a completion's checksum is that of the object, not of its document)
		isChecksum := strings.HasPrefix(name, checksumField) && !noChecksums[name] && (c.r.Method != post || c.target.Key == "")
		if !isChecksum && name != md5Field {
			continue
		}
		if isDigest(name, values[0]) {
			promised[name] = values[0]
		} else if name == md5Field {
			return nil, s3err.New("InvalidDigest", "Content-MD5 is of another form")
		} else {
			return nil, s3err.New("InvalidRequest", "the value of "+name+" is invalid")
		}
	}
	if err := c.promisePayload(promised); err != nil {
		return nil, err
	}
	return promised, c.promiseTrailer(promised)
}

// promisePayload adds the SHA-256 that was signed.
func (c *call) promisePayload(promised map[string]string) error {
	if c.isChunked() || c.Payload == sigv4.UnsignedPayload {
		return nil
	}
	sum, err := hex.DecodeString(c.Payload)
	if err != nil || len(sum) != sha256.Size {
		return s3err.New("InvalidArgument", "x-amz-content-sha256 is of another form")
	}
	text := base64.StdEncoding.EncodeToString(sum)
	if other := promised[sha256Field]; other != "" && other != text {
		return s3err.New("BadDigest", sha256Field+" is another one than x-amz-content-sha256")
	}
	promised[sha256Field] = text
	return nil
}

// promiseTrailer adds the digests that a trailer is to have, which are not known yet.
func (c *call) promiseTrailer(promised map[string]string) error {
	names := strings.FieldsFunc(strings.ToLower(c.r.Header.Get("x-amz-trailer")), func(r rune) bool { return r == ',' || r == ' ' })
	for _, name := range names {
		if digests[name] == nil || name == md5Field || promised[name] != "" || !strings.HasSuffix(c.Payload, "-TRAILER") {
			return s3err.New("InvalidRequest", "the value of x-amz-trailer is invalid")
		}
		promised[name] = ""
	}
	return nil
}

func (c *call) isChunked() bool { return strings.HasPrefix(c.Payload, "STREAMING-") }

// badDigest returns the code of a body that isn't what was promised: of its SHA-256, where that was told for the signature alone,
// another one.
func (c *call) badDigest(field string) string {
	if field == sha256Field && c.r.Header.Get(field) == "" && c.Payload != sigv4.UnsignedPayload {
		return "XAmzContentSHA256Mismatch"
	}
	return "BadDigest"
}

// arrival is a body that comes: bytes of it count when its end has been checked.
type arrival struct {
	c        *call
	size     int64
	payload  io.Reader
	chunks   *sigv4.Chunks // of a body that comes in chunks
	promised map[string]string
	hashes   map[string]hash.Hash
	sums     map[string]string // those that were compared here, when it has come
	watch    io.Writer         // looks at the bytes as they come; nil where nobody does
}

// arriving looks at the head of a request with a body of at most some bytes.
func (c *call) arriving(limit int64) (*arrival, error) {
	in := c.server.LeastRate.Reader(c)
	a := &arrival{c: c, size: c.r.ContentLength, payload: in, hashes: map[string]hash.Hash{}, sums: map[string]string{}}
	if c.isChunked() {
		a.size = number(c.r.Header.Get("x-amz-decoded-content-length"))
	}
	if a.size < 0 {
		return nil, s3err.New("MissingContentLength", "the length of the body is missing")
	}
	if a.size > limit {
		return nil, s3err.New("EntityTooLarge", fmt.Sprint("the body has more bytes than are allowed: ", limit))
	}
	if c.isChunked() {
		chunks, err := c.Chunks(bufio.NewReaderSize(in, 64<<10), a.size)
		if err != nil {
			return nil, err
		}
		a.chunks, a.payload = chunks, chunks
	}
	var err error
	a.promised, err = c.promises()
	return a, err
}

// Read reads payload. An error of the connection is told as a body that is cut.
func (a *arrival) Read(b []byte) (int, error) {
	n, err := a.payload.Read(b)
	if err == nil || errors.Is(err, io.EOF) {
		return n, err
	}
	if errors.Is(err, limits.ErrSlow) {
		a.c.server.Met.Add(limits.LeastRate)
		return n, s3err.New("RequestTimeout", err.Error())
	}
	if _, isThere := s3err.Of(err); isThere {
		return n, err
	}
	return n, sigv4.ErrIncomplete
}

// take reads the next bytes into a body.
func (a *arrival) take(into *spool.Body) error {
	sinks := []io.Writer{into.Writer}
	if a.watch != nil {
		sinks = append(sinks, a.watch)
	}
	for _, it := range a.hashes {
		sinks = append(sinks, it)
	}
	sink := sinks[0]
	if len(sinks) > 1 {
		sink = io.MultiWriter(sinks...)
	}
	_, err := io.CopyN(sink, a, into.Size)
	return spoolError(err)
}

// spoolError returns the error of a body that couldn't be taken: what is no fault of the client is logged.
func spoolError(err error) error {
	switch {
	case err == nil:
		return nil
	case errors.Is(err, io.EOF):
		return sigv4.ErrIncomplete
	case errors.Is(err, limits.ErrSpool):
		return s3err.New("SlowDown", err.Error())
	case spool.IsFull(err):
		log.Print(err)
		return s3err.New("SlowDown", "there is no room for the body")
	}
	return err
}

// promise begins to count the digests that are compared here.
func (a *arrival) promise() {
	for name := range a.promised {
		a.hashes[name] = digests[name]()
	}
}

// end compares what was promised, when all bytes have been taken.
func (a *arrival) end() error {
	trailer := map[string]string{}
	if a.chunks != nil {
		if n, err := io.ReadFull(a, make([]byte, 1)); n > 0 {
			return sigv4.ErrIncomplete
		} else if !errors.Is(err, io.EOF) {
			return err
		}
		trailer = a.chunks.Trailer()
	}
	for name, want := range a.promised {
		if want == "" {
			want = trailer[name]
		}
		if want == "" {
			return s3err.New("MalformedTrailerError", "the trailer has no "+name)
		}
		if sum := base64.StdEncoding.EncodeToString(a.hashes[name].Sum(nil)); sum != want {
			return s3err.New(a.c.badDigest(name), "the body has another "+name)
		}
		a.sums[name] = want
		if name != md5Field {
			a.c.tell(name, want) // (the client is told the checksum that it gave)
		}
	}
	return a.c.endReading()
}

// whole reads a body to its end, and frees it when the call ends. Where the SHA-256 is passed on, bucketd compares it.
func (a *arrival) whole(isPassed bool) (*spool.Body, error) {
	b, err := a.c.newBody(a.size)
	if err != nil {
		return nil, err
	}
	if sum := a.promised[sha256Field]; isPassed && sum != "" { // (a trailer's is known at the end)
		b.SHA256 = sum
		delete(a.promised, sha256Field)
	}
	a.promise()
	if err := a.take(b); err != nil {
		return nil, err
	}
	return b, a.end()
}

// newBody returns a body that is freed when the call ends.
func (c *call) newBody(size int64) (*spool.Body, error) {
	b, err := c.server.Spool.New(c.Tenant, size)
	if err != nil {
		return nil, spoolError(err)
	}
	c.atEnd(b.Free)
	return b, nil
}

// readDocument reads a document of a form. Few are read at once, of a tenant one.
func (c *call) readDocument(form xmlio.Form, read func(in io.Reader) error) error {
	a, err := c.arriving(form.Bytes)
	if err != nil {
		return err
	}
	a.watch = form.Bound()
	b, err := a.whole(false)
	if err != nil {
		return err
	}
	leave, err := c.server.documents.Enter(c.r.Context(), c.Tenant)
	if err != nil {
		return err
	}
	defer leave()
	return read(b.Reader())
}
