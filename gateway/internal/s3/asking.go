package s3

import (
	"bytes"
	"encoding/json"
	"fmt"
	"net/http"
	"strings"

	"bucketd/gateway/internal/host"
	"bucketd/gateway/internal/s3err"
	"bucketd/gateway/internal/xmlio"
)

// S3's names of bucketd's refusals, where they are other ones.
var renamed = map[int]string{1: "InvalidRequest", 11: "MalformedXML", 29: "InternalError", 30: "InternalError"}

// ask asks bucketd; a refusal is an answer.
func (c *call) ask(q *host.Request) (*host.Response, error) { return c.client.Ask(c.r.Context(), q) }

// need asks bucketd, and takes a refusal for an error.
func (c *call) need(q *host.Request) (*host.Response, error) {
	r, err := c.ask(q)
	if err != nil {
		return nil, err
	}
	return r, c.refusalOf(r)
}

// refusalOf returns a refusal as an error of its own code and status, but for a few; nil where there is none.
func (c *call) refusalOf(r *host.Response) error {
	if r.Refusal == 0 {
		return nil
	}
	e := &s3err.Error{Code: r.Code, Status: r.StatusCode, Message: fmt.Sprintf("the host's refusal %d %s", r.Refusal, r.Code)}
	if name, isOther := renamed[r.Refusal]; isOther {
		e.Code = name
	}
	if e.Code == "BadDigest" {
		e.Code = c.badDigest(host.ChecksumField)
	}
	c.pass(r, "x-amz-delete-marker", "x-amz-version-id", "content-range", "allow")
	return e
}

// pass tells fields of bucketd's head as they are.
func (c *call) pass(r *host.Response, names ...string) {
	for _, name := range names {
		c.tell(name, r.Header.Get(name))
	}
}

// done asks bucketd, and tells no more than that it was done.
func (c *call) done(status int, q *host.Request) error {
	r, err := c.need(q)
	if err != nil {
		return err
	}
	c.tellVersion(r, r.Checksum())
	c.send(status, nil)
	return nil
}

// tellVersion tells the version that was answered, and the ETag of a checksum where there is one.
func (c *call) tellVersion(r *host.Response, checksum string) {
	c.pass(r, "x-amz-version-id", "x-amz-delete-marker")
	if checksum != "" {
		c.tell("ETag", xmlio.ETag(checksum))
	}
}

// The parameters of listings that are told again, as elements named alike.
var echoed = []string{"delimiter", "key-marker", "marker", "start-after", "continuation-token", "encoding-type", "part-number-marker",
	"upload-id-marker", "version-id-marker"}

// translated returns bucketd's document, with what the request says of itself beside it.
func (c *call) translated(r *host.Response) (members xmlio.Document, err error) {
	decoder := json.NewDecoder(bytes.NewReader(r.Body.Bytes()))
	decoder.UseNumber()
	if err := decoder.Decode(&members); err != nil {
		return nil, err
	}
	for _, name := range echoed {
		if c.query.Has(name) {
			members[strings.ReplaceAll(http.CanonicalHeaderKey(name), "-", "")] = c.query.Get(name)
		}
	}
	return members, nil
}

// needDocument asks bucketd for a document that is translated.
func (c *call) needDocument(q *host.Request) (xmlio.Document, error) {
	r, err := c.need(q)
	if err != nil {
		return nil, err
	}
	return c.translated(r)
}
