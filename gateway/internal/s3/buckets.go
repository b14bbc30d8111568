package s3

import (
	"encoding/hex"
	"io"
	"log"
	"net/http"
	"slices"
	"strings"

	"bucketd/gateway/internal/host"
	"bucketd/gateway/internal/notes"
	"bucketd/gateway/internal/s3err"
	"bucketd/gateway/internal/xmlio"
)

func (c *call) createBucket() error {
	var region string
	err := c.readDocument(xmlio.OtherForm, func(in io.Reader) (err error) { region, err = xmlio.ReadCreateBucket(in); return err })
	if err != nil {
		return err
	}
	if region != "" && c.server.Region != "" && region != c.server.Region {
		return s3err.New("IllegalLocationConstraintException", "the region is "+c.server.Region)
	}
	fields, err := c.lock()
	if err != nil {
		return err
	}
	if err := c.checkHost(); err != nil {
		return err
	}
	q := c.request(put)
	q.Fields = fields
	c.tell("Location", q.Path())
	return c.done(http.StatusOK, q)
}

func (c *call) headBucket() error {
	c.tell("x-amz-bucket-region", c.server.Region)
	return c.done(http.StatusOK, c.request(head))
}

// deleteBucket deletes a bucket, and the notes that crashes left of it.
func (c *call) deleteBucket() error {
	if err := c.checkHost(); err != nil {
		return err
	}
	leave, err := c.own.buckets.enter(c.r.Context(), true)
	if err != nil {
		return err
	}
	defer leave()
	if _, err := c.need(c.request(remove)); err != nil {
		return err
	}
	defer c.detach()()
	for isLeft := c.server.Meta; isLeft; {
		var err error
		if isLeft, err = c.deleteNotes(); err != nil { // (the bucket is gone, whatever is left of notes)
			log.Printf("%s: notes of %q are left: %v", c.Tenant, c.target.Bucket, err)
			break
		}
	}
	c.send(http.StatusNoContent, nil)
	return nil
}

// deleteNotes deletes a page of notes of the call's bucket, and returns whether there was one.
func (c *call) deleteNotes() (bool, error) {
	r, err := c.ask(host.Object{Bucket: notes.Bucket}.Request(get, "list-type", "2", "prefix", c.target.Bucket+"/"))
	if err != nil || r.Refusal != 0 {
		return false, err
	}
	page, err := r.Document()
	if err != nil {
		return false, err
	}
	for _, it := range page.Contents {
		if _, err := c.need(host.Object{Bucket: notes.Bucket, Key: it.Key}.Request(remove)); err != nil {
			return false, err
		}
	}
	return len(page.Contents) > 0, nil
}

func (c *call) getLocation() error {
	if _, err := c.need(c.request(head)); err != nil {
		return err
	}
	var name any = c.server.Region
	if name == "us-east-1" { // S3's first region has no name there
		name = xmlio.Document{}
	}
	return c.sendDocument("LocationConstraint", name)
}

// listBuckets tells all buckets on one page, or those that begin so; all are of the gateway's region.
func (c *call) listBuckets() error {
	members, err := c.needDocument(c.request(get))
	if err != nil {
		return err
	}
	prefix, region := c.query.Get("prefix"), c.query.Get("bucket-region")
	isElsewhere := region != "" && c.server.Region != "" && region != c.server.Region
	all, _ := members["Buckets"].([]any)
	told := slices.DeleteFunc(all, func(it any) bool {
		bucket, _ := it.(xmlio.Document)
		name, _ := bucket["Name"].(string)
		return isElsewhere || !strings.HasPrefix(name, prefix)
	})
	members["Buckets"], members["Owner"] = xmlio.Document{"Buckets": told}, c.writer().OwnerOf()
	if prefix != "" {
		members["Prefix"] = prefix
	}
	return c.sendDocument("ListAllMyBucketsResult", members)
}

// getACL answers that a bucket and its objects are their tenant's alone.
func (c *call) getACL() error {
	if _, err := c.need(c.target.Request(head)); err != nil {
		return err
	}
	const grantee = `Grantee xmlns:xsi="http://www.w3.org/2001/XMLSchema-instance" xsi:type="CanonicalUser"`
	owner := c.writer().OwnerOf()
	grant := xmlio.Document{grantee: owner, "Permission": "FULL_CONTROL"}
	return c.sendDocument("AccessControlPolicy", xmlio.Document{"Owner": owner, "AccessControlList": xmlio.Document{"Grant": grant}})
}

// getTagging answers that an object has no tags.
func (c *call) getTagging() error {
	if _, err := c.need(c.target.Request(head)); err != nil {
		return err
	}
	return c.sendDocument("Tagging", xmlio.Document{"TagSet": xmlio.Document{}})
}

func (c *call) getVersioning() error { return c.sendListing("VersioningConfiguration", "versioning") }

func (c *call) putVersioning() error {
	var v *xmlio.Versioning
	if err := c.readDocument(xmlio.OtherForm, func(in io.Reader) (err error) { v, err = xmlio.ReadVersioning(in); return err }); err != nil {
		return err
	}
	if v.MfaDelete == "Enabled" {
		return s3err.New("NotImplemented", "MfaDelete is not there")
	}
	q, err := c.request(put, "versioning", "").With(xmlio.Document{"Status": v.Status})
	if err != nil {
		return err
	}
	return c.done(http.StatusOK, q)
}

func (c *call) getLifecycle() error { return c.sendListing("LifecycleConfiguration", "lifecycle") }

// putLifecycle puts a bucket's rule for uploads that are left unfinished, which is all that is there of lifecycles.
func (c *call) putLifecycle() error {
	var rule *xmlio.Rule
	if err := c.readDocument(xmlio.OtherForm, func(in io.Reader) (err error) { rule, err = xmlio.ReadLifecycle(in); return err }); err != nil {
		return err
	}
	days := xmlio.Document{"DaysAfterInitiation": rule.DaysAfterInitiation}
	rules := []any{xmlio.Document{"AbortIncompleteMultipartUpload": days, "Status": rule.Status}}
	q, err := c.request(put, "lifecycle", "").With(xmlio.Document{"Rules": rules})
	if err != nil {
		return err
	}
	return c.done(http.StatusOK, q)
}

func (c *call) deleteLifecycle() error {
	return c.done(http.StatusNoContent, c.request(remove, "lifecycle", ""))
}

// Parameters of listings that bucketd takes under the same names.
var pageParameters = []string{"prefix", "delimiter", "max-keys", "max-uploads", "max-parts", "key-marker", "version-id-marker",
	"upload-id-marker", "part-number-marker"}

// page returns a listing's request.
func (c *call) page(selector, value string) *host.Request {
	q := c.request(get, selector, value)
	for _, name := range pageParameters {
		if text := c.query.Get(name); text != "" {
			q.Query.Set(name, text)
		}
	}
	if id := c.query.Get("upload-id-marker"); id != "" {
		q.Query.Set("upload-id-marker", notes.PlainUpload(id))
	}
	return q
}

func (c *call) sendListing(root, selector string) error {
	members, err := c.needDocument(c.page(selector, ""))
	if err != nil {
		return err
	}
	return c.sendDocument(root, members)
}

func (c *call) listUploads() error { return c.sendListing("ListMultipartUploadsResult", "uploads") }

func (c *call) listVersions() error { return c.sendListing("ListVersionsResult", "versions") }

// listObjects lists objects as both versions of ListObjects: bucketd's token is the name that a page begins after, in hexadecimal.
func (c *call) listObjects() error {
	q, isFirst := c.page("list-type", "2"), c.query.Get("list-type") != "2"
	token := c.query.Get("continuation-token")
	if isFirst {
		token = hex.EncodeToString([]byte(c.query.Get("marker")))
	} else if token == "" {
		token = hex.EncodeToString([]byte(c.query.Get("start-after")))
	}
	q.Query.Set("continuation-token", token)
	members, err := c.needDocument(q)
	if err != nil {
		return err
	}
	if next, isThere := members["NextContinuationToken"].(string); isThere && isFirst {
		name, err := hex.DecodeString(next)
		if err != nil {
			return err
		}
		members["NextMarker"] = string(name)
		delete(members, "NextContinuationToken")
	}
	return c.sendDocument("ListBucketResult", members)
}
