package s3

import (
	"fmt"
	"net/http"
	"net/url"
	"regexp"
	"slices"
	"strings"

	"bucketd/gateway/internal/host"
	"bucketd/gateway/internal/notes"
	"bucketd/gateway/internal/s3err"
)

const longestKey = 1024 // bytes

// errVersion is the error of a version id of another form. A note is found by the id and the key together, so no part of a key may
// pass for an id.
var errVersion = s3err.New("InvalidArgument", "a version id is null, or has 16 hexadecimal digits")

// scope is what a call is about.
type scope int

const (
	ofAll scope = iota // all buckets
	ofBucket
	ofObject
	ofCopy // an object that is put from a source
)

// route is what finds a call: its scope, its method and its sub-resource, which may be empty.
type route struct {
	scope               scope
	method, subresource string
}

// The names of scopes; a bucket's and an object's stand before the method.
var scopes = map[scope]string{ofAll: "", ofBucket: "bucket ", ofObject: "object ", ofCopy: "copy "}

// String returns the call's name in the log.
func (r route) String() string {
	return strings.TrimSpace(scopes[r.scope] + r.method + " " + r.subresource)
}

// operation is a call with its names in S3's API, the parameters that it takes beside its sub-resource, and the fields of Object Lock.
type operation struct {
	names      string // with a blank between
	act        func(c *call) error
	parameters []string
	lockFields []string
}

const (
	get    = http.MethodGet
	put    = http.MethodPut
	post   = http.MethodPost
	head   = http.MethodHead
	remove = http.MethodDelete
)

func takes(names string, act func(c *call) error, parameters ...string) operation {
	return operation{names: names, act: act, parameters: parameters}
}

// name returns the one name in S3's API that a query is meant by.
func (o operation) name(query url.Values) string {
	first, second, isTwo := strings.Cut(o.names, " ")
	if isTwo && query.Has("list-type") {
		return second
	}
	return first
}

func (o operation) withLock(fields ...string) operation {
	o.lockFields = fields
	return o
}

// operations has all calls that are there.
var operations = newOperations(objectOperations(), bucketOperations())

func newOperations(parts ...map[route]operation) map[route]operation {
	all := map[route]operation{}
	for _, part := range parts {
		for way, it := range part {
			all[way] = it
		}
	}
	return all
}

// objectOperations has the calls of one object.
func objectOperations() map[route]operation {
	shown := []string{"versionId", "response-content-type", "response-content-language", "response-expires", "response-cache-control",
		"response-content-disposition", "response-content-encoding"}
	return map[route]operation{
		{ofObject, get, "acl"}:         takes("GetObjectAcl", (*call).getACL, "versionId"),
		{ofObject, put, "acl"}:         takes("PutObjectAcl", notThere("an acl but private"), "versionId"),
		{ofObject, get, "tagging"}:     takes("GetObjectTagging", (*call).getTagging, "versionId"),
		{ofObject, post, "uploads"}:    takes("CreateMultipartUpload", (*call).beginUpload),
		{ofObject, get, "retention"}:   takes("GetObjectRetention", (*call).getRetention, "versionId"),
		{ofObject, put, "retention"}:   takes("PutObjectRetention", (*call).putRetention, "versionId"),
		{ofObject, put, "uploadId"}:    takes("UploadPart", (*call).putPart, "partNumber"),
		{ofCopy, put, "uploadId"}:      takes("UploadPartCopy", (*call).copyPart, "partNumber"),
		{ofObject, post, "uploadId"}:   takes("CompleteMultipartUpload", (*call).completeUpload),
		{ofObject, get, "uploadId"}:    takes("ListParts", (*call).listParts, "max-parts", "part-number-marker", "encoding-type"),
		{ofObject, remove, "uploadId"}: takes("AbortMultipartUpload", (*call).abortUpload),
		{ofObject, put, ""}:            takes("PutObject", (*call).putObject).withLock(modeField, untilField),
		{ofCopy, put, ""}:              takes("CopyObject", (*call).copyObject).withLock(modeField, untilField),
		{ofObject, get, ""}:            takes("GetObject", (*call).getObject, shown...),
		{ofObject, head, ""}:           takes("HeadObject", (*call).getObject, shown...),
		{ofObject, remove, ""}:         takes("DeleteObject", (*call).deleteObject, "versionId"),
	}
}

// bucketOperations has the calls of a bucket, and of all buckets.
func bucketOperations() map[route]operation {
	listed := []string{"prefix", "delimiter", "max-keys", "encoding-type"}
	return map[route]operation{
		{ofBucket, get, "acl"}:          takes("GetBucketAcl", (*call).getACL),
		{ofBucket, put, "acl"}:          takes("PutBucketAcl", notThere("an acl but private")),
		{ofBucket, get, "versioning"}:   takes("GetBucketVersioning", (*call).getVersioning),
		{ofBucket, put, "versioning"}:   takes("PutBucketVersioning", (*call).putVersioning),
		{ofBucket, get, "lifecycle"}:    takes("GetBucketLifecycleConfiguration", (*call).getLifecycle),
		{ofBucket, put, "lifecycle"}:    takes("PutBucketLifecycleConfiguration", (*call).putLifecycle),
		{ofBucket, remove, "lifecycle"}: takes("DeleteBucketLifecycle", (*call).deleteLifecycle),
		{ofBucket, get, "location"}:     takes("GetBucketLocation", (*call).getLocation),
		{ofBucket, get, "object-lock"}:  takes("GetObjectLockConfiguration", (*call).getObjectLock),
		{ofBucket, get, "uploads"}:      takes("ListMultipartUploads", (*call).listUploads, "prefix", "delimiter", "max-uploads", "key-marker", "upload-id-marker", "encoding-type"),
		{ofBucket, get, "versions"}:     takes("ListObjectVersions", (*call).listVersions, append([]string{"key-marker", "version-id-marker"}, listed...)...),
		{ofBucket, get, ""}: takes("ListObjects ListObjectsV2", (*call).listObjects, append([]string{"list-type", "marker", "start-after", "continuation-token",
			"fetch-owner"}, listed...)...),
		{ofBucket, post, "delete"}: takes("DeleteObjects", (*call).deleteObjects),
		{ofBucket, post, ""}:       takes("PostObject", notThere("an upload by a form")),
		{ofBucket, put, ""}:        takes("CreateBucket", (*call).createBucket).withLock(enabledField),
		{ofBucket, head, ""}:       takes("HeadBucket", (*call).headBucket),
		{ofBucket, remove, ""}:     takes("DeleteBucket", (*call).deleteBucket),

		{ofAll, get, ""}: takes("ListBuckets", (*call).listBuckets, "prefix", "max-buckets", "continuation-token", "bucket-region"),
	}
}

func notThere(what string) func(*call) error {
	return func(*call) error { return s3err.New("NotImplemented", what+" is not there") }
}

var subresources = []string{"acl", "tagging", "versioning", "lifecycle", "uploadId", "uploads", "location", "versions", "delete", "retention", "object-lock"}

// Parameters that each call takes: those of its signature, and the name that SDKs give it, which is compared elsewhere.
var everywhere = map[string]bool{"x-id": true, "X-Amz-Algorithm": true, "X-Amz-Credential": true, "X-Amz-Date": true, "X-Amz-Expires": true,
	"X-Amz-SignedHeaders": true, "X-Amz-Signature": true, "X-Amz-Content-Sha256": true, "AWSAccessKeyId": true, "Signature": true, "Expires": true}

// routeOf returns the way to the call in the table.
func (c *call) routeOf() route {
	way := route{ofAll, c.r.Method, ""}
	switch {
	case c.target.Key != "" && way.method == put && c.r.Header.Get("x-amz-copy-source") != "":
		way.scope = ofCopy
	case c.target.Key != "":
		way.scope = ofObject
	case c.target.Bucket != "":
		way.scope = ofBucket
	}
	for _, it := range subresources {
		if c.query.Has(it) {
			way.subresource = it
			break
		}
	}
	return way
}

// Sub-resources that nothing here has, and S3's codes for what is not set, which a GET is answered.
var unset = map[string]string{
	"policy": "NoSuchBucketPolicy", "cors": "NoSuchCORSConfiguration", "website": "NoSuchWebsiteConfiguration", "tagging": "NoSuchTagSet",
	"encryption": "ServerSideEncryptionConfigurationNotFoundError", "replication": "ReplicationConfigurationNotFoundError",
	"publicAccessBlock": "NoSuchPublicAccessBlockConfiguration", "ownershipControls": "OwnershipControlsNotFoundError",
	"accelerate": "", "analytics": "", "append": "", "attributes": "",
	"intelligent-tiering": "", "inventory": "", "legal-hold": "", "logging": "", "metrics": "", "notification": "", "object-lock": "",
	"partNumber": "", "policyStatus": "", "requestPayment": "", "restore": "", "retention": "", "select": "", "torrent": "",
}

// findOperation returns the call's own function, and refuses what no call here does.
func (c *call) findOperation() (func(c *call) error, error) {
	if c.target.Bucket != "" && !isBucketName(c.target.Bucket) {
		return nil, s3err.New("InvalidBucketName", "there is no such name of a bucket")
	}
	if len(c.target.Key) > longestKey {
		return nil, s3err.New("KeyTooLongError", "a key has at most 1024 bytes")
	}
	if c.target.Version = c.query.Get("versionId"); c.query.Has("versionId") && !notes.IsVersion(c.target.Version) {
		return nil, errVersion
	}
	c.route = c.routeOf()
	c.line.Call = c.route.String()
	it, isThere := operations[c.route]
	c.names = it.names
	c.line.Operation = it.name(c.query)
	for name := range c.query {
		if err := c.checkParameter(it, isThere, name); err != nil {
			return nil, err
		}
	}
	if err := c.checkFields(it); err != nil {
		return nil, err
	}
	if !isThere {
		return nil, s3err.New("MethodNotAllowed", "there is no such call")
	}
	return it.act, c.checkMeaning(it)
}

// checkParameter refuses a parameter that the call doesn't take: S3 may have a sub-resource of that name, and what it does there is
// not done by passing it over. Of reads only those are refused that S3 is known to have.
func (c *call) checkParameter(it operation, isThere bool, name string) error {
	if isThere && (name == c.route.subresource || everywhere[name]) {
		return nil
	}
	for _, known := range it.parameters {
		if name == known {
			return nil
		}
	}
	isRead := c.r.Method == get || c.r.Method == head
	code, isUnset := unset[name]
	switch {
	case isUnset && code != "" && c.r.Method == get:
		if _, err := c.need(c.target.Request(head)); err != nil {
			return err
		}
		return s3err.NotSet(code, "nothing is set")
	case isUnset, isThere && !isRead, name != "" && c.query.Get(name) == "" && c.r.Method == get && !slices.Contains(pageParameters, name):
		return s3err.New("NotImplemented", name+" is not there")
	}
	return nil
}

// Beginnings of fields whose being passed over would be taken for a promise.
var unknownFields = regexp.MustCompile("^X-Amz-(Bucket-Object-Lock-|Object-Lock-|Server-Side-Encryption|Grant-|Tagging|If-Match-|" +
	"Website-Redirect-Location|Write-Offset-Bytes|Copy-Source-Server-Side-Encryption|Rename-Source)")

// Fields beside those of Amazon's that are read once, so that nobody between can split one that was signed.
var onceFields = map[string]bool{"Authorization": true, "Content-Md5": true, "Content-Type": true, "Date": true, "Range": true, "If-Match": true,
	"If-None-Match": true, "If-Modified-Since": true, "If-Unmodified-Since": true, "If-Range": true, "Expires": true}

// What fields may say, where S3 has more.
var known = map[string]struct {
	values []string
	code   string
}{
	"X-Amz-Storage-Class":      {[]string{"STANDARD"}, "NotImplemented"},
	"X-Amz-Metadata-Directive": {[]string{"COPY", "REPLACE"}, "InvalidArgument"},
	"X-Amz-Tagging-Directive":  {[]string{"COPY", "REPLACE"}, "InvalidArgument"},
	"X-Amz-Checksum-Mode":      {[]string{"ENABLED"}, "InvalidArgument"},
	"X-Amz-Acl":                {[]string{"private", "bucket-owner-full-control", "bucket-owner-read"}, "NotImplemented"},
}

// checkFields refuses fields of the head that are told twice, or ask for what isn't there.
func (c *call) checkFields(it operation) error {
	for field, values := range c.r.Header {
		isAmazon := strings.HasPrefix(field, "X-Amz-") && !strings.HasPrefix(field, "X-Amz-Meta-")
		if len(values) > 1 && (isAmazon || onceFields[field]) {
			return s3err.New("InvalidArgument", "a field stands twice: "+field)
		}
		if unknownFields.MatchString(field) && field != "X-Amz-Tagging-Directive" && !slices.Contains(it.lockFields, field) {
			return s3err.New("NotImplemented", field+" is not there")
		}
		if allowed, isThere := known[field]; isThere && !slices.Contains(allowed.values, values[0]) {
			return s3err.New(allowed.code, fmt.Sprintf("%s: %s is not there", field, values[0]))
		}
	}
	if token := "X-Amz-Security-Token"; c.r.Header.Get(token) != "" || c.query.Has(token) || c.query.Has(strings.ToLower(token)) {
		return s3err.New("InvalidToken", "there are no tokens")
	}
	return c.checkOwners()
}

// checkOwners refuses a call that names another owner of a bucket.
func (c *call) checkOwners() error {
	for _, field := range []string{"x-amz-expected-bucket-owner", "x-amz-source-expected-bucket-owner"} {
		if owner := c.r.Header.Get(field); owner != "" && owner != c.Tenant {
			return s3err.New("AccessDenied", "the bucket has another owner")
		}
	}
	return nil
}

var bucketNames = regexp.MustCompile("^[a-z0-9.-]{3,63}$")

// isBucketName returns whether clients may use a bucket's name: the hidden bucket's is none.
func isBucketName(name string) bool { return bucketNames.MatchString(name) && name != notes.Bucket }

// request asks about the object or bucket that the call names.
func (c *call) request(method string, pairs ...string) *host.Request {
	return host.Object{Bucket: c.target.Bucket, Key: c.target.Key}.Request(method, pairs...)
}
