package s3

import (
	"encoding/json"
	"io"
	"log"
	"math"
	"net/http"
	"time"

	"bucketd/gateway/internal/host"
	"bucketd/gateway/internal/notes"
	"bucketd/gateway/internal/s3err"
	"bucketd/gateway/internal/spool"
	"bucketd/gateway/internal/xmlio"
)

func (c *call) beginUpload() error {
	meta, err := notes.Of(c.r.Header)
	if err != nil {
		return err
	}
	leave, err := c.own.buckets.enter(c.r.Context(), false) // (its metadata isn't to go with those of a bucket before)
	if err != nil {
		return err
	}
	defer leave()
	release, err := c.beginning()
	if err != nil {
		return err
	}
	r, err := c.need(c.request(post, "uploads", ""))
	release()
	if err != nil {
		return err
	}
	if at, err := time.Parse(time.RFC3339, r.Header.Get("x-amz-abort-date")); err == nil {
		c.tell("x-amz-abort-date", at.Format(http.TimeFormat), "x-amz-abort-rule-id", xmlio.UploadsRule)
	}
	members, err := c.translated(r)
	if err != nil {
		return err
	}
	if id, isText := members["UploadId"].(string); isText {
		if err := c.keepForUpload(id, meta); err != nil {
			return err
		}
	}
	return c.sendDocument("InitiateMultipartUploadResult", members)
}

// keepForUpload keeps the metadata that an upload's object is to have. Where it finds no room the upload isn't begun.
func (c *call) keepForUpload(id string, meta notes.Metadata) error {
	place, isThere := notes.PlaceOfUpload(c.target.Bucket, id)
	if !isThere || !c.server.Meta || len(meta) == 0 {
		return nil
	}
	defer c.detach()()
	err := c.putHidden(place, notes.Note{Metadata: meta})
	if err == nil {
		return nil
	}
	if _, failed := c.ask(c.request(remove, "uploadId", id)); failed != nil {
		log.Printf("%s: an upload of %q is left: %v", c.Tenant, c.target.Bucket, failed)
	}
	return err
}

// metaOfUpload returns the metadata that an upload's object is to have, and what takes away the place where it waited.
func (c *call) metaOfUpload() (notes.Metadata, func(), error) {
	id := c.query.Get("uploadId")
	place, isThere := notes.PlaceOfUpload(c.target.Bucket, id)
	if !isThere || !c.server.Meta {
		meta, err := notes.InUpload(id)
		return meta, func() {}, err
	}
	r, err := c.ask(place.Request(get))
	if err != nil || r.Refusal != 0 {
		return nil, func() {}, err
	}
	var n notes.Note
	if json.Unmarshal(r.Body.Bytes(), &n) != nil { // (the gateway wrote none of that form)
		return nil, func() {}, nil
	}
	return n.Metadata, func() { c.tidyUpload(place) }, nil
}

// tidyUpload takes away the metadata of an upload that is over. What stays is in nobody's way, and goes with the bucket.
func (c *call) tidyUpload(place host.Object) {
	if err := c.dropHidden(place); err != nil {
		log.Printf("%s: the metadata of an upload is left: %v", c.Tenant, err)
	}
}

// upload returns the id that bucketd has of the call's upload.
func (c *call) upload() string { return notes.PlainUpload(c.query.Get("uploadId")) }

func (c *call) abortUpload() error {
	if _, err := c.need(c.request(remove, "uploadId", c.upload())); err != nil {
		return err
	}
	defer c.detach()()
	if place, isThere := notes.PlaceOfUpload(c.target.Bucket, c.upload()); isThere && c.server.Meta {
		c.tidyUpload(place)
	}
	c.tidySums()
	c.send(http.StatusNoContent, nil)
	return nil
}

// partOf returns the request that puts a body as the call's part.
func (c *call) partOf(b *spool.Body) *host.Request {
	return c.request(put, "uploadId", c.upload(), "partNumber", c.query.Get("partNumber")).Sending(b)
}

func (c *call) putPart() error {
	body, err := c.arriving(c.server.MaxPart)
	if err != nil {
		return err
	}
	if err := c.checkRoom(body.size, c.oldPart); err != nil {
		return err
	}
	b, err := body.whole(true)
	if err != nil {
		return err
	}
	r, err := c.need(c.partOf(b))
	if err != nil {
		return err
	}
	if err := c.keepSums(body, r.Checksum()); err != nil {
		return err
	}
	c.tellVersion(r, r.Checksum())
	c.send(http.StatusOK, nil)
	return nil
}

func (c *call) listParts() error {
	members, err := c.needDocument(c.page("uploadId", c.upload()))
	if err != nil {
		return err
	}
	members["UploadId"] = c.query.Get("uploadId")
	return c.sendDocument("ListPartsResult", members)
}

// namedParts reads the parts that a completion names.
func (c *call) namedParts() ([]completedPart, error) {
	var named []xmlio.Part
	err := c.readDocument(xmlio.CompletionForm, func(in io.Reader) (err error) { named, err = xmlio.ReadCompletion(in); return err })
	if err != nil {
		return nil, err
	}
	var parts []completedPart
	for _, it := range named {
		checksum := checksumOf(it.ETag)
		if checksum == "" {
			return nil, s3err.New("InvalidPart", "an ETag is that of no part here")
		}
		if err := c.checkNamed(it, checksum); err != nil {
			return nil, err
		}
		parts = append(parts, completedPart{checksum, it.Number})
	}
	return parts, c.checkWhole(parts)
}

func (c *call) completeUpload() error {
	parts, err := c.namedParts()
	if err != nil {
		return err
	}
	meta, tidy, err := c.metaOfUpload()
	if err != nil {
		return err
	}
	v, err := c.completion(c.upload(), parts)
	if err != nil {
		return err
	}
	v.meta = meta
	r, err := c.putVersion(v)
	if err != nil {
		return err
	}
	c.server.parts.drop(c.part(0), parts)
	c.tidySums()
	tidy()
	members, err := c.translated(r)
	if err != nil {
		return err
	}
	members["Location"] = c.target.Path()
	return c.sendDocument("CompleteMultipartUploadResult", members)
}

// copyPart puts a part that is another object or a range of one.
func (c *call) copyPart() error {
	o, err := c.source()
	if err != nil {
		return err
	}
	wanted := c.r.Header.Get("x-amz-copy-source-range")
	asked := parseRange(wanted)
	if wanted != "" && (!asked.isAsked || asked.first < 0 || asked.last == math.MaxInt64) {
		return s3err.New("InvalidArgument", "x-amz-copy-source-range is not bytes=FIRST-LAST")
	}
	_, r, err := c.lookAtSource(o)
	if err != nil {
		return err
	}
	first, last, err := asked.of(r.Size())
	if err != nil {
		return err
	}
	if last-first >= c.server.MaxPart {
		return s3err.New("EntityTooLarge", "a part that is copied has more bytes than bucketd takes at once")
	}
	if err := c.checkRoom(last-first+1, c.oldPart); err != nil {
		return err
	}
	b, err := c.newBody(last - first + 1)
	if err != nil {
		return err
	}
	if err := c.writePieces(b, o, r, first, last, func() {}); err != nil {
		return err
	}
	if r, err = c.need(c.partOf(b)); err != nil {
		return err
	}
	now := time.Now().UTC().Format(time.RFC3339)
	return c.sendDocument("CopyPartResult", xmlio.Document{"LastModified": now, "ChecksumSHA256": r.Checksum()})
}
