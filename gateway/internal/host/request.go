package host

import (
	"bytes"
	"encoding/json"
	"fmt"
	"net/http"
	"net/url"
	"strconv"
	"strings"

	"bucketd/gateway/internal/spool"
	"bucketd/gateway/internal/uri"
)

// ChecksumField is the field of a head with a SHA-256 in base64.
const ChecksumField = "x-amz-checksum-sha256"

// NullVersion is the id of a version that was made while its bucket kept none.
const NullVersion = "null"

// Object names an object, or a version of one; a bucket where it has no key, and all buckets where it has no bucket.
type Object struct{ Bucket, Key, Version string }

// Path returns the target of an object or a bucket, percent-encoded.
func (o Object) Path() string {
	if o.Key == "" {
		return "/" + o.Bucket
	}
	return "/" + o.Bucket + "/" + uri.Encode(o.Key)
}

// Request is all that a request to bucketd is made of.
type Request struct {
	Object
	Method string
	Query  url.Values
	Fields []string // of the head, 'name: value'
	Body   *spool.Body
	Buffer *bytes.Buffer // for the answer's body
}

// Request returns a request about an object, a bucket or all buckets, with parameters by name and value.
func (o Object) Request(method string, pairs ...string) *Request {
	q := &Request{Object: o, Method: method, Query: url.Values{}, Buffer: &bytes.Buffer{}}
	if o.Version != "" {
		q.Query.Set("versionId", o.Version)
	}
	for i := 0; i < len(pairs); i += 2 {
		q.Query.Set(pairs[i], pairs[i+1])
	}
	return q
}

// Sending adds a body, whose SHA-256 bucketd compares where it was promised.
func (q *Request) Sending(b *spool.Body) *Request {
	q.Body = b
	if b.SHA256 != "" {
		q.Fields = append(q.Fields, ChecksumField+": "+b.SHA256)
	}
	return q
}

// With adds a document as the body.
func (q *Request) With(document any) (*Request, error) {
	text, err := json.Marshal(document)
	if err != nil {
		return nil, err
	}
	return q.Sending(spool.Text(text)), nil
}

func (q *Request) isRead() bool { return q.Method == http.MethodGet || q.Method == http.MethodHead }

// head writes the request's head. A line that isn't one line is an error, whoever made it.
func (q *Request) head(id, secret string) (string, error) {
	target := q.Path()
	if len(q.Query) > 0 {
		target += "?" + q.Query.Encode()
	}
	lines := append([]string{q.Method + " " + target + " HTTP/1.1", "host: gateway", "x-access-key: " + id, "x-secret-key: " + secret}, q.Fields...)
	if q.Method == http.MethodPut || q.Method == http.MethodPost {
		lines = append(lines, fmt.Sprint("content-length: ", q.size()))
	}
	for _, line := range lines {
		if strings.ContainsAny(line, "\r\n\x00") {
			return "", fmt.Errorf("a line of a head to bucketd is no line: %q", line)
		}
	}
	return strings.Join(lines, "\r\n") + "\r\n\r\n", nil
}

func (q *Request) size() int64 {
	if q.Body == nil {
		return 0
	}
	return q.Body.Size
}

// Response is bucketd's answer.
type Response struct {
	*http.Response
	Body    *bytes.Buffer
	Refusal int    // its number; 0 where the request was carried out
	Code    string // of the refusal
}

// bucketd's refusals by number that are asked for.
const (
	RefusalArgument = 10
	RefusalBucket   = 12
	RefusalKey      = 13
	RefusalUpload   = 15
	RefusalQuota    = 24
	RefusalRange    = 25
	RefusalRequest  = 28
)

// Checksum returns the SHA-256 of the object or part in base64.
func (r *Response) Checksum() string { return r.Header.Get(ChecksumField) }

// VersionTold returns the id of the version that was answered; empty where bucketd told none, as of a bucket without versions.
func (r *Response) VersionTold() string { return r.Header.Get("x-amz-version-id") }

// Version returns the id of the version that was answered, null of a bucket without versions.
func (r *Response) Version() string {
	if told := r.VersionTold(); told != "" {
		return told
	}
	return NullVersion
}

// IsMarker returns whether the version that was answered is a delete marker.
func (r *Response) IsMarker() bool { return r.Header.Get("x-amz-delete-marker") != "" }

// Size returns the size of the object in bytes, also where a range of it was answered; -1 where none is told.
func (r *Response) Size() int64 {
	_, total, isRange := strings.Cut(r.Header.Get("content-range"), "/")
	if !isRange {
		total = r.Header.Get("content-length")
	}
	if n, err := strconv.ParseUint(total, 10, 63); err == nil {
		return int64(n)
	}
	return -1
}

// Document has those members of bucketd's documents that are read; others are only translated.
type Document struct {
	ChecksumSHA256, NextKeyMarker, NextVersionIdMarker, NextUploadIdMarker, NextContinuationToken, UploadId, Status string
	Contents, Versions                                                                                              []Entry
	Uploads                                                                                                         []Upload
	Parts                                                                                                           []Part
	NextPartNumberMarker                                                                                            int
}

// Upload is an upload in a listing.
type Upload struct{ Key, UploadId string }

// Entry is a version in a listing.
type Entry struct {
	ChecksumSHA256, Key, LastModified, VersionId string
	DeleteMarker                                 bool
}

// Part is a part of an upload in a listing.
type Part struct {
	PartNumber     int
	ChecksumSHA256 string
	Size           int64
}

// Usage is what a tenant uses, in bytes.
type Usage struct{ Bytes, Quota int64 }

// Usage reads the answer's document of what a tenant uses.
func (r *Response) Usage() (u Usage, err error) {
	err = json.Unmarshal(r.Body.Bytes(), &u)
	return u, err
}

// Document reads the answer's document.
func (r *Response) Document() (d Document, err error) {
	err = json.Unmarshal(r.Body.Bytes(), &d)
	return d, err
}
