package s3

import (
	"crypto/sha256"
	"encoding/base64"
	"fmt"
	"log"
	"net/http"
	"strconv"

	"bucketd/gateway/internal/host"
	"bucketd/gateway/internal/notes"
	"bucketd/gateway/internal/xmlio"
)

func (c *call) putObject() error {
	meta, err := notes.Of(c.r.Header)
	if err != nil {
		return err
	}
	date, err := c.date()
	if err != nil {
		return err
	}
	most := min(c.server.MaxPut, xmlio.MostParts*c.server.Piece)
	if date != nil { // (what bucketd puts as an upload has none)
		most = c.server.MaxPart
	}
	body, err := c.arriving(most)
	if err != nil {
		return err
	}
	v := version{}
	if body.size > c.server.Piece && date == nil {
		v, err = c.putPieces(body)
	} else {
		v, err = c.putWhole(body, date)
	}
	if err != nil {
		return err
	}
	v.meta = meta
	if _, err := c.putVersion(v); err != nil {
		return err
	}
	c.send(http.StatusOK, nil)
	return nil
}

// putVersion makes a version where the conditions on the key are met, under its lock.
func (c *call) putVersion(v version) (*host.Response, error) {
	release, err := c.hold(c.target)
	if err != nil {
		return nil, err
	}
	defer release()
	if err := c.checkWrite(c.target); err != nil {
		return nil, err
	}
	return c.makeVersion(v)
}

// putWhole takes a body that bucketd is sent at once; it returns the version that it makes.
func (c *call) putWhole(body *arrival, date []string) (version, error) {
	if err := c.checkRoom(body.size, c.oldSize); err != nil {
		return version{}, err
	}
	b, err := body.whole(true)
	if err != nil {
		return version{}, err
	}
	q := c.request(put).Sending(b)
	q.Fields = append(q.Fields, date...)
	return version{request: q, checksum: b.Checksum}, nil
}

// putPieces puts a body of more than a piece as the parts of an upload, each as it comes; it returns the version that they make.
func (c *call) putPieces(body *arrival) (version, error) {
	if err := c.checkRoom(body.size, none); err != nil {
		return version{}, err
	}
	m, err := c.beginPieces()
	if err != nil {
		return version{}, err
	}
	body.promise()
	var parts []completedPart
	for left := body.size; left > 0; left -= c.server.Piece {
		checksum, err := c.putPiece(body, m.UploadId, len(parts)+1, min(left, c.server.Piece))
		if err != nil {
			return version{}, err
		}
		parts = append(parts, completedPart{ChecksumSHA256: checksum, PartNumber: len(parts) + 1})
	}
	if err := body.end(); err != nil {
		return version{}, err
	}
	return c.completion(m.UploadId, parts)
}

// beginPieces begins an upload, with its mark. At the call's end it is aborted where it wasn't completed, and the mark goes.
func (c *call) beginPieces() (*mark, error) {
	release, err := c.beginning()
	if err != nil {
		return nil, err
	}
	defer release()
	m, err := c.newMark()
	if err != nil {
		return nil, err
	}
	c.atEnd(func() { c.endPieces(m) })
	if err = c.putMark(m); err == nil {
		m.UploadId, err = c.newUpload()
	}
	if err != nil { // (it may have begun, without an answer)
		c.own.beginnings.left = append(c.own.beginnings.left, m)
		return nil, err
	}
	return m, c.putMark(m)
}

// newUpload begins an upload, and returns its id.
func (c *call) newUpload() (string, error) {
	r, err := c.need(c.request(post, "uploads", ""))
	if err != nil {
		return "", err
	}
	d, err := r.Document()
	return d.UploadId, err
}

// endPieces aborts an upload that wasn't completed, and takes its mark away.
func (c *call) endPieces(m *mark) {
	defer c.detach()()
	err := c.endMark(m)
	if err == nil {
		return
	}
	log.Printf("%s: an upload of %q, or its mark, is left: %v", c.Tenant, c.target.Bucket, err)
	if m.UploadId != "" {
		c.own.beginnings.leave(m)
	}
}

func (c *call) endMark(m *mark) error {
	switch {
	case c.status < 300 && c.status > 0:
		return c.dropMark(m)
	case m.UploadId != "":
		return c.settleMark(m)
	}
	release, err := c.beginning() // (that takes away what is left, as this one)
	if err == nil {
		release()
	}
	return err
}

// putPiece takes the next bytes of a body, and puts them as a part; it returns the part's checksum.
func (c *call) putPiece(body *arrival, upload string, number int, size int64) (string, error) {
	b, err := c.server.Spool.New(c.Tenant, size)
	if err != nil {
		return "", spoolError(err)
	}
	defer b.Free()
	if err := body.take(b); err != nil {
		return "", err
	}
	r, err := c.need(c.request(put, "uploadId", upload, "partNumber", strconv.Itoa(number)).Sending(b))
	if err != nil {
		return "", err
	}
	return r.Checksum(), nil
}

// completedPart is a part that an upload is completed with, as bucketd has it.
type completedPart struct {
	ChecksumSHA256 string
	PartNumber     int
}

// completion returns the version that an upload's parts make.
func (c *call) completion(upload string, parts []completedPart) (version, error) {
	q, err := c.request(post, "uploadId", upload).With(xmlio.Document{"Parts": parts})
	return version{request: q, checksum: func() (string, error) { return joined(parts) }}, err
}

// joined returns the checksum of an object of parts: that of their digests one after another, with their number.
func joined(parts []completedPart) (string, error) {
	sum := sha256.New()
	for _, it := range parts {
		digest, err := base64.StdEncoding.DecodeString(it.ChecksumSHA256)
		if err != nil {
			return "", err
		}
		sum.Write(digest)
	}
	return fmt.Sprintf("%s-%d", base64.StdEncoding.EncodeToString(sum.Sum(nil)), len(parts)), nil
}
