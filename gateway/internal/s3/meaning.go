package s3

import (
	"mime"
	"net/netip"
	"regexp"
	"slices"
	"strings"

	"bucketd/gateway/internal/host"
	"bucketd/gateway/internal/s3err"
)

// A client may name its bucket in the host's name. Where the gateway isn't told of that name by --domain, it reads the first part of
// such a client's key as the bucket: an object's put or delete would make or delete a bucket. A host's name alone doesn't show that,
// since any may be the gateway's own. What else a request says of itself does, and so does a bucket with which the name begins.

// objectFields are fields that no call of a bucket has.
var objectFields = regexp.MustCompile("^(X-Amz-(Meta-.*|Copy-Source.*|Metadata-Directive|Storage-Class|Trailer|Decoded-Content-Length)|" +
	"If-Match|If-None-Match|If-Modified-Since|If-Unmodified-Since|Cache-Control|Content-Disposition|Content-Encoding|Content-Language|Expires)$")

// bodyFields are those that a bucket's call has with a document alone.
var bodyFields = regexp.MustCompile("^(X-Amz-Checksum-.*|X-Amz-Sdk-Checksum-Algorithm|Content-Md5)$")

// Types of an empty body that some clients tell whatever they ask for.
var emptyTypes = []string{"", "application/xml", "text/xml", "application/octet-stream", "binary/octet-stream", "application/x-www-form-urlencoded"}

// checkMeaning refuses a request that says that it is another call than the one that its target and method make of it.
func (c *call) checkMeaning(it operation) error {
	name := c.query.Get("x-id")
	if name != "" && !slices.Contains(strings.Fields(it.names), name) {
		return c.errMeaning("its x-id is another call's")
	}
	isRead := c.r.Method == get || c.r.Method == head
	if isRead || c.route.scope != ofBucket || c.route.subresource != "" {
		return nil
	}
	for field := range c.r.Header {
		if objectFields.MatchString(field) || c.r.ContentLength == 0 && bodyFields.MatchString(field) {
			return c.errMeaning("it has " + field)
		}
	}
	kind, _, _ := mime.ParseMediaType(c.r.Header.Get("Content-Type"))
	if c.r.ContentLength == 0 && !slices.Contains(emptyTypes, kind) {
		return c.errMeaning("it has a Content-Type")
	}
	return nil
}

// hostName returns the host's name that the client used. Where that has the domain, it is known, and a bucket may stand before it.
func (c *call) hostName() (name, bucket string, isKnown bool) {
	name, _, _ = strings.Cut(strings.ToLower(c.r.Host), ":")
	name = strings.TrimSuffix(name, ".")
	domain := strings.ToLower(c.server.Domain)
	if domain == "" || name == domain {
		return name, "", domain != ""
	}
	bucket, isKnown = strings.CutSuffix(name, "."+domain)
	if !isKnown {
		bucket = ""
	}
	return name, bucket, isKnown
}

// checkHost refuses to make or delete a bucket for who uses a host's name that isn't known and begins with a bucket of theirs.
func (c *call) checkHost() error {
	name, _, isKnown := c.hostName()
	if _, err := netip.ParseAddr(name); err == nil || isKnown {
		return nil
	}
	for at, it := range name {
		if it != '.' || !isBucketName(name[:at]) {
			continue
		}
		r, err := c.ask(host.Object{Bucket: name[:at]}.Request(head))
		if err != nil {
			return err
		}
		if r.Refusal == 0 {
			return c.errMeaning("the host's name begins with that of the bucket " + name[:at])
		}
	}
	return nil
}

func (c *call) errMeaning(why string) error {
	message := "the target and the method are those of " + c.names + ", but " + why
	if c.server.Domain == "" && c.route.scope != ofObject {
		message += ": buckets are named in the path, or in the host's name by a gateway with --domain"
	}
	return s3err.New("InvalidRequest", message)
}
