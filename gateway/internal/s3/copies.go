package s3

import (
	"errors"
	"net/url"
	"strings"
	"unicode/utf8"

	"bucketd/gateway/internal/host"
	"bucketd/gateway/internal/notes"
	"bucketd/gateway/internal/s3err"
	"bucketd/gateway/internal/uri"
)

// source returns what x-amz-copy-source names: a bucket and a key, percent-encoded together or each, and perhaps a version.
func (c *call) source() (host.Object, error) {
	text, version, isVersioned := strings.Cut(strings.TrimPrefix(c.r.Header.Get("x-amz-copy-source"), "/"), "?versionId=")
	path, err := url.PathUnescape(text)
	bucket, key, _ := strings.Cut(strings.TrimPrefix(path, "/"), "/")
	isWell := err == nil && isBucketName(bucket) && key != "" && len(key) <= longestKey && utf8.ValidString(key)
	if isVersioned && !notes.IsVersion(version) {
		return host.Object{}, errVersion
	}
	if !isWell {
		return host.Object{}, s3err.New("InvalidArgument", "x-amz-copy-source is of another form")
	}
	return host.Object{Bucket: bucket, Key: key, Version: version}, nil
}

// lookAtSource looks at the source of a copy, and at the conditions on it.
func (c *call) lookAtSource(o host.Object) (*details, *host.Response, error) {
	d, r, err := c.look(o, o.Request(head), false)
	if s3err.Is(err, "MethodNotAllowed") {
		err = s3err.New("InvalidRequest", "the source is a delete marker")
	}
	if err != nil {
		return nil, nil, err
	}
	return d, r, c.checkConditions("X-Amz-Copy-Source-", d, errCondition)
}

func (c *call) copyObject() error {
	o, err := c.source()
	if err != nil {
		return err
	}
	meta, err := notes.Of(c.r.Header)
	if err != nil {
		return err
	}
	date, err := c.date()
	if err != nil {
		return err
	}
	release, err := c.hold(c.target, o)
	if err != nil {
		return err
	}
	defer release()
	if err := c.checkWrite(c.target); err != nil {
		return err
	}
	for turn := 0; turn < 4; turn++ {
		r, err := c.copyOnce(o, meta, date)
		if errors.Is(err, errOtherBytes) { // (by who writes past this gateway, as the source is held)
			c.was = nil
			continue
		}
		if err != nil {
			return err
		}
		members, err := c.translated(r)
		if err != nil {
			return err
		}
		return c.sendDocument("CopyObjectResult", members)
	}
	return errOtherBytes
}

// copyOnce looks at a source and copies it: a version with a number by its id, which stays its own.
func (c *call) copyOnce(o host.Object, meta notes.Metadata, date []string) (*host.Response, error) {
	d, _, err := c.lookAtSource(o)
	if err != nil {
		return nil, err
	}
	if !strings.EqualFold(c.r.Header.Get("x-amz-metadata-directive"), "REPLACE") {
		meta = d.metadata()
	}
	from := o.Path()
	if d.version != host.NullVersion {
		o.Version = d.version
	}
	if o.Version != "" {
		from += "?versionId=" + uri.Encode(o.Version)
		c.tell("x-amz-copy-source-version-id", o.Version)
	}
	q := c.request(put)
	q.Fields = append(append([]string{}, date...), "x-amz-copy-source: "+from)
	return c.makeVersion(version{request: q, checksum: func() (string, error) { return d.checksum, nil }, source: d.checksum, meta: meta})
}
