package s3

import (
	"strconv"

	"bucketd/gateway/internal/host"
	"bucketd/gateway/internal/s3err"
)

// askedFirst is the size in bytes above which a body isn't waited for before bucket and quota are known. A shorter one costs less
// than to ask, and bucketd refuses it itself.
const askedFirst = 64 << 10

// checkRoom refuses a body that has no bucket, or no room in the tenant's quota; `freed` returns the bytes that it replaces.
func (c *call) checkRoom(size int64, freed func() (int64, error)) error {
	if size <= askedFirst {
		return nil
	}
	if _, err := c.need(host.Object{Bucket: c.target.Bucket}.Request(head)); err != nil {
		return err
	}
	r, err := c.ask(host.Object{}.Request(get, "usage", ""))
	if err != nil || r.Refusal != 0 { // (then bucketd refuses what has no room when it comes)
		return err
	}
	used, err := r.Usage()
	if err != nil {
		return err
	}
	room := used.Quota - used.Bytes
	if size <= room {
		return nil
	}
	old, err := freed()
	if err != nil {
		return err
	}
	if size <= room+old || size <= old {
		return nil
	}
	return s3err.New("QuotaExceeded", "the body has more bytes than the quota lets in")
}

// oldSize returns the size in bytes of the object that a put replaces.
func (c *call) oldSize() (int64, error) {
	r, err := c.ask(c.request(head))
	if err != nil || r.Refusal != 0 {
		return 0, err
	}
	return r.Size(), nil
}

// oldPart returns the size in bytes of the part that a part replaces.
func (c *call) oldPart() (int64, error) {
	number, err := strconv.Atoi(c.query.Get("partNumber"))
	if err != nil {
		return 0, nil // (bucketd refuses it)
	}
	r, err := c.ask(c.request(get, "uploadId", c.upload(), "part-number-marker", strconv.Itoa(number-1), "max-parts", "1"))
	if err != nil || r.Refusal != 0 {
		return 0, err
	}
	listed, err := r.Document()
	for _, it := range listed.Parts {
		if it.PartNumber == number {
			return it.Size, err
		}
	}
	return 0, err
}

// none returns no bytes: what a put of many parts replaces goes only when all of them are there.
func none() (int64, error) { return 0, nil }
