package s3

import (
	"io"
	"net/http"
	"unicode/utf8"

	"bucketd/gateway/internal/host"
	"bucketd/gateway/internal/notes"
	"bucketd/gateway/internal/s3err"
	"bucketd/gateway/internal/xmlio"
)

func (c *call) deleteObject() error {
	r, err := c.deleteOne(xmlio.Identifier{Key: c.target.Key, VersionId: c.target.Version})
	if err != nil {
		return err
	}
	c.tellVersion(r, "")
	c.send(http.StatusNoContent, nil)
	return nil
}

// deleteObjects deletes up to 1000 objects or versions; each has an error of its own.
func (c *call) deleteObjects() error {
	var v *xmlio.Delete
	err := c.readDocument(xmlio.DeleteForm, func(in io.Reader) (err error) { v, err = xmlio.ReadDelete(in); return err })
	if err != nil {
		return err
	}
	if _, err := c.need(c.request(head)); err != nil {
		return err
	}
	var deleted, failed []any
	for _, it := range v.Objects {
		entry := xmlio.Document{"Key": it.Key, "VersionId": it.VersionId}
		r, err := c.deleteOne(it)
		if err != nil {
			e := told(err)
			entry["Code"], entry["Message"] = e.Code, e.Message
			failed = append(failed, entry)
			continue
		}
		if r.IsMarker() {
			entry["DeleteMarker"], entry["DeleteMarkerVersionId"] = true, r.Version()
		}
		if !v.Quiet {
			deleted = append(deleted, entry)
		}
	}
	return c.sendDocument("DeleteResult", xmlio.Document{"Deleted": deleted, "Error": failed})
}

// deleteOne deletes an object or a version, with its note.
func (c *call) deleteOne(it xmlio.Identifier) (*host.Response, error) {
	if len(it.Key) > longestKey {
		return nil, s3err.New("KeyTooLongError", "a key has at most 1024 bytes")
	}
	if it.Key == "" || !utf8.ValidString(it.Key) {
		return nil, s3err.New("InvalidArgument", "there can be no such key")
	}
	if it.VersionId != "" && !notes.IsVersion(it.VersionId) {
		return nil, errVersion
	}
	if it.Size+it.LastModifiedTime != "" {
		return nil, s3err.New("NotImplemented", "a condition but ETag is not there")
	}
	o := host.Object{Bucket: c.target.Bucket, Key: it.Key, Version: it.VersionId}
	release, err := c.hold(o)
	if err != nil {
		return nil, err
	}
	defer release()
	if err := c.checkDelete(o, it.ETag); err != nil {
		return nil, err
	}
	r, err := c.need(o.Request(remove))
	if err != nil {
		return nil, err
	}
	defer c.detach()()
	if o.Version != "" {
		c.own.forget(o)
	}
	c.forgetNote(o, r)
	return r, nil
}

// checkDelete checks the conditions of a request's head, or of one object of its document.
func (c *call) checkDelete(o host.Object, tag string) error {
	if c.target.Key != "" {
		return c.checkWrite(o)
	}
	if tag == "" {
		return nil
	}
	r, err := c.need(o.Request(head))
	if err == nil && !hasTag(tag, r.Checksum()) {
		err = errCondition
	}
	return err
}
