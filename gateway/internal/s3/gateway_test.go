package s3

import (
	"bufio"
	"bytes"
	"encoding/base64"
	"encoding/xml"
	"fmt"
	"hash/crc32"
	"io"
	"net"
	"net/http"
	"os"
	"strconv"
	"strings"
	"sync"
	"sync/atomic"
	"testing"
	"time"

	"bucketd/gateway/internal/host"
	"bucketd/gateway/internal/notes"
	"bucketd/gateway/internal/sigv4"
)

func TestCalls(t *testing.T) {
	_, _, green, blue := newGateway(t, nil)
	long := strings.Repeat("k", 1024)
	parts := func(tag string) string {
		return "<CompleteMultipartUpload><Part><PartNumber>1</PartNumber><ETag>" + tag + "</ETag></Part></CompleteMultipartUpload>"
	}
	other := signer{base: green.base, id: green.id, secret: green.secret, region: "eu-west-1"}
	behind, ahead := green, green
	behind.skew, ahead.skew = -16*time.Minute, 16*time.Minute
	unknown, wrong := green, green
	unknown.id, wrong.secret = "green$k2", "greensecreT"
	cases := []struct {
		name           string
		client         signer
		method, target string
		body           string
		fields         []string
		status         int
		code, has      string
	}{
		{"a bucket", green, "PUT", "/plans", "<CreateBucketConfiguration/>", nil, 200, "", ""},
		{"the same bucket", green, "PUT", "/plans", "", nil, 409, "BucketAlreadyOwnedByYou", ""},
		{"a bucket by a slash", green, "HEAD", "/plans/", "", nil, 200, "", ""},
		{"another tenant's bucket", blue, "GET", "/plans/x", "", nil, 404, "NoSuchBucket", ""},
		{"another tenant's name before a bucket's", blue, "GET", "/green%3Aplans/x", "", nil, 400, "InvalidBucketName", ""},
		{"the hidden bucket", green, "GET", "/bucketd.meta?list-type=2", "", nil, 400, "InvalidBucketName", ""},
		{"a put", green, "PUT", "/plans/x", "abcdef", nil, 200, "", ""},
		{"a get", green, "GET", "/plans/x", "", nil, 200, "", "abcdef"},
		{"a range", green, "GET", "/plans/x", "", []string{"Range", "bytes=1-3"}, 206, "", "bcd"},
		{"a range to the end", green, "GET", "/plans/x", "", []string{"Range", "bytes=4-"}, 206, "", "ef"},
		{"a range of the last", green, "GET", "/plans/x", "", []string{"Range", "bytes=-2"}, 206, "", "ef"},
		{"more of the last than there are", green, "GET", "/plans/x", "", []string{"Range", "bytes=-9"}, 206, "", "abcdef"},
		{"none of the last", green, "GET", "/plans/x", "", []string{"Range", "bytes=-0"}, 416, "InvalidRange", ""},
		{"a range beyond", green, "GET", "/plans/x", "", []string{"Range", "bytes=6-"}, 416, "InvalidRange", ""},
		{"a range that is none", green, "GET", "/plans/x", "", []string{"Range", "bytes=3-1"}, 200, "", "abcdef"},
		{"another hash than that of the body", green, "PUT", "/plans/w", "abc", []string{"x-amz-content-sha256", emptySHA256}, 400, "XAmzContentSHA256Mismatch", ""},
		{"a hash that is none", green, "PUT", "/plans/w", "abc", []string{"x-amz-content-sha256", "abc"}, 400, "InvalidArgument", ""},
		{"another MD5", green, "PUT", "/plans/w", "abc", []string{"Content-MD5", "AAAAAAAAAAAAAAAAAAAAAA=="}, 400, "BadDigest", ""},
		{"an MD5 that is none", green, "PUT", "/plans/w", "abc", []string{"Content-MD5", "AAAA"}, 400, "InvalidDigest", ""},
		{"another CRC32", green, "PUT", "/plans/w", "abc", []string{"x-amz-checksum-crc32", "AAAAAA=="}, 400, "BadDigest", ""},
		{"a CRC32 that is none", green, "PUT", "/plans/w", "abc", []string{"x-amz-checksum-crc32", "A"}, 400, "InvalidRequest", ""},
		{"an unknown checksum", green, "PUT", "/plans/w", "abc", []string{"x-amz-checksum-xxhash", "AAAAAA=="}, 400, "InvalidRequest", ""},
		{"another SHA-256 beside it", green, "PUT", "/plans/w", "abc", []string{"x-amz-checksum-sha256", "47DEQpj8HBSa+/TImW+5JCeuQeRkm5NMpJWZG3hSuFU="}, 400, "BadDigest", ""},
		{"nothing was put by those", green, "GET", "/plans/w", "", nil, 404, "NoSuchKey", ""},
		{"a clock 16 minutes behind", behind, "GET", "/plans/x", "", nil, 403, "RequestTimeTooSkewed", ""},
		{"a clock 16 minutes ahead", ahead, "GET", "/plans/x", "", nil, 403, "RequestTimeTooSkewed", ""},
		{"another region", other, "GET", "/plans/x", "", nil, 400, "AuthorizationHeaderMalformed", "<Region>us-east-1</Region>"},
		{"an unknown key", unknown, "GET", "/plans/x", "", nil, 403, "InvalidAccessKeyId", ""},
		{"another secret", wrong, "GET", "/plans/x", "", nil, 403, "SignatureDoesNotMatch", ""},
		{"a key of 1024 bytes", green, "PUT", "/plans/" + long, "", nil, 200, "", ""},
		{"a key of 1025 bytes", green, "PUT", "/plans/k" + long, "", nil, 400, "KeyTooLongError", ""},
		{"no UTF-8", green, "GET", "/plans/%FF", "", nil, 400, "InvalidURI", ""},
		{"a parameter twice", green, "GET", "/plans?prefix=a&prefix=b", "", nil, 400, "InvalidArgument", ""},
		{"a lock's hold", green, "PUT", "/plans/l", "", []string{"x-amz-object-lock-legal-hold", "ON"}, 501, "NotImplemented", ""},
		{"a key of the client's own", green, "PUT", "/plans/l", "", []string{"x-amz-server-side-encryption-customer-key", "x"}, 501, "NotImplemented", ""},
		{"a public object", green, "PUT", "/plans/l", "", []string{"x-amz-acl", "public-read"}, 501, "NotImplemented", ""},
		{"tags", green, "PUT", "/plans/l", "", []string{"x-amz-tagging", "a=b"}, 501, "NotImplemented", ""},
		{"another owner", green, "GET", "/plans/x", "", []string{"x-amz-expected-bucket-owner", "blue"}, 403, "AccessDenied", ""},
		{"a part of an object", green, "GET", "/plans/x?partNumber=1", "", nil, 501, "NotImplemented", ""},
		{"a policy", green, "GET", "/plans?policy", "", nil, 404, "NoSuchBucketPolicy", ""},
		{"a policy to be", green, "PUT", "/plans?policy", "{}", nil, 501, "NotImplemented", ""},
		{"a location", green, "GET", "/plans?location", "", nil, 200, "", "<LocationConstraint"},
		{"an acl", green, "GET", "/plans/x?acl", "", nil, 200, "", "FULL_CONTROL"},
		{"the tags of an object", green, "GET", "/plans/x?tagging", "", nil, 200, "", "<TagSet></TagSet>"},
		{"a call that isn't there", green, "PATCH", "/plans/x", "", nil, 405, "MethodNotAllowed", ""},
		{"none of a host", green, "DELETE", "/", "", nil, 405, "MethodNotAllowed", ""},
		{"a form", green, "POST", "/plans", "", nil, 501, "NotImplemented", ""},
		{"a bucket that isn't empty", green, "DELETE", "/plans", "", nil, 409, "BucketNotEmpty", ""},
		{"metadata above 2048 bytes", green, "PUT", "/plans/l", "", []string{"x-amz-meta-a", strings.Repeat("a", 2048)}, 400, "MetadataTooLarge", ""},
		{"If-Match of another", green, "GET", "/plans/x", "", []string{"If-Match", `"abc"`}, 412, "PreconditionFailed", ""},
		{"If-Match of any", green, "GET", "/plans/x", "", []string{"If-Match", "*"}, 200, "", "abcdef"},
		{"If-None-Match of any", green, "GET", "/plans/x", "", []string{"If-None-Match", "*"}, 304, "", ""},
		{"If-Modified-Since of long ago", green, "GET", "/plans/x", "", []string{"If-Modified-Since", "Mon, 01 Jan 2001 00:00:00 GMT"}, 200, "", "abcdef"},
		{"If-Unmodified-Since of long ago", green, "GET", "/plans/x", "", []string{"If-Unmodified-Since", "Mon, 01 Jan 2001 00:00:00 GMT"}, 412, "PreconditionFailed", ""},
		{"If-Range of another", green, "GET", "/plans/x", "", []string{"If-Range", `"abc"`, "Range", "bytes=0-1"}, 200, "", "abcdef"},
		{"a put where there is none", green, "PUT", "/plans/x", "zz", []string{"If-None-Match", "*"}, 412, "PreconditionFailed", ""},
		{"a put over another", green, "PUT", "/plans/x", "zz", []string{"If-Match", `"abc"`}, 412, "PreconditionFailed", ""},
		{"a put over nothing", green, "PUT", "/plans/y", "zz", []string{"If-Match", `"abc"`}, 404, "NoSuchKey", ""},
		{"a delete of another", green, "DELETE", "/plans/x", "", []string{"If-Match", `"abc"`}, 412, "PreconditionFailed", ""},
		{"a copy of another", green, "PUT", "/plans/y", "", []string{"x-amz-copy-source", "/plans/x", "x-amz-copy-source-if-match", `"abc"`}, 412, "PreconditionFailed", ""},
		{"a copy of nothing", green, "PUT", "/plans/y", "", []string{"x-amz-copy-source", "/plans/nothing"}, 404, "NoSuchKey", ""},
		{"a copy of a note", green, "PUT", "/plans/y", "", []string{"x-amz-copy-source", "/bucketd.meta/x"}, 400, "InvalidArgument", ""},
		{"a copy by lines", green, "PUT", "/plans/y", "", []string{"x-amz-copy-source", "/plans/x%0d%0ax-evil: 1"}, 404, "NoSuchKey", ""},
		{"no part", green, "POST", "/plans/up?uploadId=0000000000000001", "<CompleteMultipartUpload></CompleteMultipartUpload>", nil, 400, "MalformedXML", ""},
		{"a part of another form", green, "POST", "/plans/up?uploadId=0000000000000001", parts("abc"), nil, 400, "InvalidPart", ""},
		{"no such upload", green, "POST", "/plans/up?uploadId=0000000000000001", parts(strings.Repeat("0", 64) + "-0"), nil, 404, "NoSuchUpload", ""},
		{"a part of more than goes at once", green, "PUT", "/plans/up?uploadId=0000000000000001&partNumber=1", strings.Repeat("a", 131073), nil, 400, "EntityTooLarge", ""},
		{"a copied part without an end", green, "PUT", "/plans/up?uploadId=1&partNumber=1", "", []string{"x-amz-copy-source", "/plans/x", "x-amz-copy-source-range", "bytes=1-"}, 400, "InvalidArgument", ""},
		{"a document type", green, "POST", "/plans?delete", `<!DOCTYPE a [<!ENTITY b "c">]><Delete><Object><Key>&b;</Key></Object></Delete>`, nil, 400, "MalformedXML", ""},
		{"an unknown entity", green, "POST", "/plans?delete", "<Delete><Object><Key>&b;</Key></Object></Delete>", nil, 400, "MalformedXML", ""},
		{"another document", green, "POST", "/plans?delete", "<Deleted></Deleted>", nil, 400, "MalformedXML", ""},
		{"a state that is none", green, "PUT", "/plans?versioning", "<VersioningConfiguration><Status>Off</Status></VersioningConfiguration>", nil, 400, "MalformedXML", ""},
		{"an expiry", green, "PUT", "/plans?lifecycle", "<LifecycleConfiguration><Rule><Status>Enabled</Status><Expiration><Days>1</Days></Expiration></Rule></LifecycleConfiguration>", nil, 501, "NotImplemented", ""},
		{"a rule for uploads", green, "PUT", "/plans?lifecycle", "<LifecycleConfiguration><Rule><ID>u</ID><Filter><Prefix/></Filter><Status>Enabled</Status><AbortIncompleteMultipartUpload><DaysAfterInitiation>3</DaysAfterInitiation></AbortIncompleteMultipartUpload></Rule></LifecycleConfiguration>", nil, 200, "", ""},
		{"the rule", green, "GET", "/plans?lifecycle", "", nil, 200, "", "<DaysAfterInitiation>3</DaysAfterInitiation>"},
		{"no version of that id", green, "GET", "/plans/x?versionId=0000000000000007", "", nil, 404, "NoSuchVersion", ""},
		{"deletes, one of them wrong", green, "POST", "/plans?delete", "<Delete><Object><Key>x</Key></Object><Object><Key>k" + long + "</Key></Object></Delete>", nil, 200, "", "<Code>KeyTooLongError</Code>"},
		{"it is deleted", green, "HEAD", "/plans/x", "", nil, 404, "", ""},
	}
	for _, it := range cases {
		t.Run(it.name, func(t *testing.T) {
			a := expect(t, it.client.do(it.method, it.target, []byte(it.body), it.fields...), it.status, it.code)
			if !strings.Contains(a.body, it.has) {
				t.Fatalf("%q isn't in %q", it.has, a.body)
			}
		})
	}
}

func TestKeys(t *testing.T) {
	_, _, green, _ := newGateway(t, nil)
	expect(t, green.do("PUT", "/plans", nil), 200, "")
	for _, key := range []string{"../x", "a//b", ".", "a/../../b", "/", "é ü+%&?#=;:@,$'()*!", "\u2028\x7f", "\x01\x1f", "a b", "a+b", "%41"} {
		expect(t, green.do("PUT", "/plans/"+escaped(key), []byte(key)), 200, "")
		if a := expect(t, green.do("GET", "/plans/"+escaped(key), nil), 200, ""); a.body != key {
			t.Fatalf("%q: %q", key, a.body)
		}
		a := expect(t, green.do("GET", "/plans?list-type=2&encoding-type=url&prefix="+strings.ReplaceAll(escaped(key), "/", "%2F"), nil), 200, "")
		if !strings.Contains(a.body, "<Key>"+strings.ReplaceAll(escaped(key), "~", "%7E")+"</Key>") {
			t.Fatalf("%q: %s", key, a.body)
		}
	}
}

func TestListings(t *testing.T) {
	_, _, green, _ := newGateway(t, nil)
	expect(t, green.do("PUT", "/plans", nil), 200, "")
	for i := 0; i < 25; i++ {
		expect(t, green.do("PUT", fmt.Sprintf("/plans/many/%03d", i), []byte("x")), 200, "")
	}
	between := func(text, from, to string) string {
		_, text, _ = strings.Cut(text, from)
		text, _, _ = strings.Cut(text, to)
		return text
	}
	for _, it := range []struct{ query, next, name string }{
		{"&list-type=2", "continuation-token", "NextContinuationToken"},
		{"", "marker", "NextMarker"},
		{"&versions=", "key-marker", "NextKeyMarker"},
	} {
		count, after := 0, ""
		for pages := 1; ; pages++ {
			query := "max-keys=7&prefix=many%2F" + it.query
			if after != "" {
				query += "&" + it.next + "=" + strings.ReplaceAll(escaped(after), "/", "%2F")
			}
			a := expect(t, green.do("GET", "/plans?"+query, nil), 200, "")
			count += strings.Count(a.body, "<ETag>")
			if after = between(a.body, "<"+it.name+">", "</"); after == "" || pages > 4 {
				if pages != 4 || count != 25 {
					t.Fatal(it.query, pages, count)
				}
				break
			}
		}
	}
	a := expect(t, green.do("GET", "/plans?list-type=2&start-after=many%2F022&fetch-owner=true", nil), 200, "")
	if strings.Count(a.body, "<Key>") != 2 || strings.Count(a.body, "<Owner>") != 2 {
		t.Fatal(a.body)
	}
	a = expect(t, green.do("GET", "/plans?delimiter=%2F", nil), 200, "")
	if !strings.Contains(a.body, "<CommonPrefixes><Prefix>many/</Prefix></CommonPrefixes>") {
		t.Fatal(a.body)
	}
	if a = expect(t, green.do("GET", "/", nil), 200, ""); !strings.Contains(a.body, "<Buckets><Bucket>") || strings.Contains(a.body, notes.Bucket) {
		t.Fatal(a.body)
	}
}

// A name with characters that XML 1.0 doesn't have is told by their numbers or percent-encoded, and never as another name; where the
// client names it itself, the answer is one that it can read.
func TestListedNames(t *testing.T) {
	_, _, green, _ := newGateway(t, nil)
	expect(t, green.do("PUT", "/plans", nil), 200, "")
	for _, key := range []string{"a%01b%1F/c", "a%02b", "%EF%BF%BDtrue%0A%09%0D%7F"} {
		expect(t, green.do("PUT", "/plans/"+key, []byte("x")), 200, "")
		begunUpload(t, green, "/plans/"+key)
	}
	for _, query := range []string{"list-type=2", "versions", "uploads", "max-keys=100"} {
		a := expect(t, green.do("GET", "/plans?"+query, nil), 200, "")
		for _, name := range []string{"a&#x1;b&#x1F;/c", "a&#x2;b", "\ufffdtrue&#xA;&#x9;&#xD;\x7f"} {
			if !strings.Contains(a.body, "<Key>"+name+"</Key>") {
				t.Errorf("%s: %q is not in %q", query, name, a.body)
			}
		}
		a = expect(t, green.do("GET", "/plans?encoding-type=url&prefix=a%01&delimiter=%2F&"+query, nil), 200, "")
		if !strings.Contains(a.body, "<CommonPrefixes><Prefix>a%01b%1F/</Prefix></CommonPrefixes>") || !strings.Contains(a.body, "<Prefix>a%01</Prefix>") {
			t.Errorf("%s: %q", query, a.body)
		}
	}
	for _, a := range []answered{green.do("POST", "/plans/a%01b?uploads", nil), green.do("GET", "/plans/%02", nil)} {
		if err := xml.Unmarshal([]byte(a.body), &struct{}{}); err != nil || !strings.Contains(a.body, "\ufffd") {
			t.Errorf("%q: %v", a.body, err)
		}
	}
}

// A listing is walked through once for the old versions of a key: whoever reads another one of them needs none.
func TestOldVersions(t *testing.T) {
	_, stand, green, _ := newGateway(t, nil)
	expect(t, green.do("PUT", "/plans", nil), 200, "")
	expect(t, green.do("PUT", "/plans?versioning", versioningTo("Enabled")), 200, "")
	const count = 2100
	var ids []string
	listings := 0
	stand.set(func() {
		var all []*storedVersion
		for i := 1; i <= count; i++ {
			id, text := fmt.Sprintf("%016x", i), []byte(fmt.Sprint(i))
			at := time.Date(2020, 1, 1, 0, 0, i, 0, time.UTC).Format("2006-01-02T15:04:05Z")
			all, ids = append([]*storedVersion{{id: id, at: at, data: text, sum: sum(text)}}, all...), append(ids, id)
		}
		tenant := stand.tenants["green"]
		tenant.versions, tenant.buckets["plans"].keys["x"] = count, all
		stand.before = func(r *http.Request) {
			if strings.Contains(r.RequestURI, "versions") {
				listings++
			}
		}
	})
	read := func(i int) {
		t.Helper()
		a := expect(t, green.do("GET", "/plans/x?versionId="+ids[i-1], nil), 200, "")
		at := time.Date(2020, 1, 1, 0, 0, i, 0, time.UTC).Format(http.TimeFormat)
		if a.body != fmt.Sprint(i) || a.head.Get("Last-Modified") != at {
			t.Fatalf("version %d is %q of %s, not of %s", i, a.body, a.head.Get("Last-Modified"), at)
		}
	}
	read(1)
	if listings != 3 {
		t.Fatal(listings, "pages of a listing for the oldest version")
	}
	for i := 1; i <= count; i += 70 {
		read(i)
	}
	if listings != 3 {
		t.Fatal(listings, "pages of a listing")
	}
	// A host that was brought back from an older copy gives a number anew: what was remembered of it doesn't hold.
	stand.set(func() {
		it := stand.tenants["green"].buckets["plans"].keys["x"][count-1]
		it.data, it.sum = []byte("other"), sum([]byte("other"))
	})
	if a := expect(t, green.do("GET", "/plans/x?versionId="+ids[0], nil), 200, ""); a.body != "other" {
		t.Fatal(a.body)
	}
	expect(t, green.do("DELETE", "/plans/x?versionId="+ids[70], nil), 204, "")
	expect(t, green.do("GET", "/plans/x?versionId="+ids[70], nil), 404, "NoSuchVersion")
}

// A bucket in the host's name, another region, and fields of heads that an SDK asks for.
func TestHosts(t *testing.T) {
	_, _, green, _ := newGateway(t, func(o *options) { o.Domain, o.Region = "s3.example", "eu-west-1" })
	green.region, green.host = "eu-west-1", "plans.s3.example:9000"
	expect(t, green.do("PUT", "/", nil), 200, "")
	expect(t, green.do("PUT", "/plans/x", []byte("abc"), "Content-Encoding", "aws-chunked,br"), 200, "")
	big := bytes.Repeat([]byte("a"), 65537)
	expect(t, green.do("PUT", "/big", big), 200, "")
	green.host = "s3.example:9000"
	for _, it := range []struct {
		target, spanned        string
		status                 int
		has, field, value, sum string
	}{
		{"/plans/plans/x", "", 200, "abc", "Content-Encoding", "br", "FULL_OBJECT"},
		{"/plans/plans/x", "bytes=0-1", 206, "ab", "Content-Range", "bytes 0-1/3", ""},
		{"/plans/big", "", 200, "a", "Content-Length", "65537", "COMPOSITE"},
		{"/plans/plans/x?response-content-type=text%2Fown", "", 200, "abc", "Content-Type", "text/own", "FULL_OBJECT"},
		{"/plans?location", "", 200, ">eu-west-1</LocationConstraint>", "Content-Type", "application/xml", ""},
		{"/", "", 200, "<Name>plans</Name>", "Content-Type", "application/xml", ""},
	} {
		t.Run(it.target, func(t *testing.T) {
			a := expect(t, green.do("GET", it.target, nil, "x-amz-checksum-mode", "ENABLED", "Range", it.spanned), it.status, "")
			if !strings.Contains(a.body, it.has) || a.head.Get(it.field) != it.value || a.head.Get("x-amz-checksum-type") != it.sum || (a.head.Get("x-amz-checksum-sha256") == "") != (it.sum == "") {
				t.Fatal(a.head, a.body)
			}
		})
	}
	expect(t, green.do("PUT", "/plans?versioning", []byte("<VersioningConfiguration><Status>Enabled</Status></VersioningConfiguration>")), 200, "")
	a := expect(t, green.do("POST", "/plans?delete", []byte("<Delete><Object><Key>big</Key></Object></Delete>")), 200, "")
	if !strings.Contains(a.body, "<DeleteMarker>true</DeleteMarker><DeleteMarkerVersionId>") {
		t.Fatal(a.body)
	}
}

// All pages of a great bucket show each key once and in order; KEYS in the environment says how many there are.
func TestManyKeys(t *testing.T) {
	count := 3000
	if text := os.Getenv("KEYS"); text != "" {
		count, _ = strconv.Atoi(text)
	}
	_, stand, green, _ := newGateway(t, nil)
	expect(t, green.do("PUT", "/plans", nil), 200, "")
	stand.mu.Lock()
	for i := 0; i < count; i++ {
		it := &storedVersion{id: "null", at: "2026-01-01T00:00:00Z", sum: sum(nil)}
		stand.tenants["green"].buckets["plans"].keys[fmt.Sprintf("%08d", i)] = []*storedVersion{it}
	}
	stand.mu.Unlock()
	seen, query := 0, "list-type=2"
	for begun := time.Now(); query != ""; {
		var page struct {
			Contents              []struct{ Key string }
			NextContinuationToken string
		}
		a := expect(t, green.do("GET", "/plans?"+query, nil), 200, "")
		if err := xml.Unmarshal([]byte(a.body), &page); err != nil {
			t.Fatal(err)
		}
		for _, it := range page.Contents {
			if it.Key != fmt.Sprintf("%08d", seen) {
				t.Fatal(it.Key, seen)
			}
			seen++
		}
		if query = ""; page.NextContinuationToken != "" {
			query = "continuation-token=" + page.NextContinuationToken + "&list-type=2"
		} else if seen != count {
			t.Fatal(seen)
		} else {
			t.Logf("%d keys in %v", seen, time.Since(begun))
		}
	}
}

func TestVersionsAndNotes(t *testing.T) {
	_, stand, green, _ := newGateway(t, nil)
	meta := func(a answered) string {
		return strings.Join(a.head["X-Amz-Meta-N"], "") + " " + a.head.Get("Content-Type")
	}
	put := func(body, n string) answered {
		return expect(t, green.do("PUT", "/plans/v", []byte(body), "x-amz-meta-n", n, "Content-Type", "text/own"), 200, "")
	}
	get := func(target, body, want string) answered {
		t.Helper()
		a := expect(t, green.do("GET", target, nil), 200, "")
		if a.body != body || meta(a) != want {
			t.Fatalf("%s: %q, %q", target, a.body, meta(a))
		}
		return a
	}
	expect(t, green.do("PUT", "/plans", nil), 200, "")
	put("zero", "0")
	get("/plans/v", "zero", "0 text/own")
	expect(t, green.do("PUT", "/plans/v", []byte("zero")), 200, "")
	get("/plans/v", "zero", " binary/octet-stream")
	expect(t, green.do("PUT", "/plans?versioning", []byte("<VersioningConfiguration><Status>Enabled</Status></VersioningConfiguration>")), 200, "")
	one, two := put("one", "1"), put("two", "2")
	get("/plans/v", "two", "2 text/own")
	get("/plans/v?versionId="+one.head.Get("x-amz-version-id"), "one", "1 text/own")
	gone := expect(t, green.do("DELETE", "/plans/v", nil), 204, "")
	expect(t, green.do("GET", "/plans/v", nil), 404, "NoSuchKey")
	expect(t, green.do("GET", "/plans/v?versionId="+gone.head.Get("x-amz-version-id"), nil), 405, "MethodNotAllowed")
	expect(t, green.do("PUT", "/plans/c", nil, "x-amz-copy-source", "plans/v?versionId="+two.head.Get("x-amz-version-id")), 200, "")
	get("/plans/c", "two", "2 text/own")
	expect(t, green.do("PUT", "/plans/c", nil, "x-amz-copy-source", "plans/c", "x-amz-metadata-directive", "REPLACE", "x-amz-meta-n", "9"), 200, "")
	get("/plans/c", "two", "9 binary/octet-stream")
	a := expect(t, green.do("GET", "/plans?versions", nil), 200, "")
	if strings.Count(a.body, "<Version>") != 5 || strings.Count(a.body, "<DeleteMarker>") != 1 {
		t.Fatal(a.body)
	}
	// A crash between the object and its note: the note of other bytes is passed over.
	expect(t, green.do("PUT", "/plain", nil), 200, "")
	expect(t, green.do("PUT", "/plain/x", []byte("old"), "x-amz-meta-n", "old"), 200, "")
	stand.mu.Lock()
	stand.tenants["green"].buckets["plain"].keys["x"][0] = &storedVersion{id: "null", at: "2026-01-01T00:00:00Z", sum: sum([]byte("new")), data: []byte("new")}
	stand.mu.Unlock()
	get("/plain/x", "new", " binary/octet-stream")
	// A note goes with its object.
	expect(t, green.do("DELETE", "/plain/x", nil), 204, "")
	expect(t, green.do("PUT", "/plain/x", []byte("old")), 200, "")
	get("/plain/x", "old", " binary/octet-stream")
	expect(t, green.do("PUT", "/plain/y", []byte("y"), "x-amz-meta-n", "y"), 200, "")
	stand.mu.Lock()
	delete(stand.tenants["green"].buckets["plain"].keys, "y")
	stand.mu.Unlock()
	expect(t, green.do("DELETE", "/plain/x", nil), 204, "")
	expect(t, green.do("DELETE", "/plain", nil), 204, "")
	stand.mu.Lock()
	defer stand.mu.Unlock()
	for key := range stand.tenants["green"].buckets[notes.Bucket].keys {
		if strings.HasPrefix(key, "plain/") {
			t.Fatal("a note is left of a bucket that is gone")
		}
	}
}

// What is known of an object isn't asked again, until it is written; what others may write meanwhile is.
func TestKnown(t *testing.T) {
	for _, isAlone := range []bool{true, false} {
		_, stand, green, _ := newGateway(t, func(o *options) { o.Alone = isAlone })
		asked := func(count int, act func()) {
			t.Helper()
			stand.mu.Lock()
			before := stand.requests
			stand.mu.Unlock()
			act()
			stand.mu.Lock()
			defer stand.mu.Unlock()
			if got := stand.requests - before; got != count {
				t.Fatal(isAlone, got, "requests, not", count)
			}
		}
		get := func(target, body, n string) func() {
			return func() {
				t.Helper()
				a := expect(t, green.do("GET", target, nil), 200, "")
				if a.body != body || strings.Join(a.head["X-Amz-Meta-N"], "") != n || a.head.Get("Last-Modified") == "" {
					t.Fatal(isAlone, target, a.body, a.head)
				}
			}
		}
		put := func(body string, pairs ...string) func() {
			return func() { t.Helper(); expect(t, green.do("PUT", "/plans/x", []byte(body), pairs...), 200, "") }
		}
		// Of a put: whether the key has a note, what is there, its note, the hidden bucket twice, the bytes, the note again.
		first, again, known, begun, other, none := 3, 2, 3, 5, 4, 5
		if isAlone { // (of what was put through this gateway the note is known)
			first, again, known, begun, other, none = 2, 1, 1, 4, 2, 3
		}
		expect(t, green.do("PUT", "/plans", nil), 200, "")
		asked(2, put("a"))
		asked(again, put("a"))
		asked(first, get("/plans/x", "a", ""))
		asked(known, get("/plans/x", "a", ""))
		asked(begun, put("a", "x-amz-meta-n", "1"))
		asked(first, get("/plans/x", "a", "1"))
		asked(known, get("/plans/x", "a", "1"))
		asked(other, put("a", "x-amz-meta-n", "2"))
		asked(first, get("/plans/x", "a", "2"))
		asked(none, put("a"))
		asked(first, get("/plans/x", "a", ""))
		// Other bytes, put by another: never with what was known of the old ones.
		stand.mu.Lock()
		stand.tenants["green"].buckets["plans"].keys["x"][0] = &storedVersion{id: "null", at: "2026-01-01T00:00:00Z", sum: sum([]byte("b")), data: []byte("b")}
		stand.mu.Unlock()
		get("/plans/x", "b", "")()
		expect(t, green.do("DELETE", "/plans/x", nil), 204, "")
		expect(t, green.do("GET", "/plans/x", nil), 404, "NoSuchKey")
		// A version with a number and a note stays what it is, whoever writes.
		expect(t, green.do("PUT", "/plans?versioning", []byte("<VersioningConfiguration><Status>Enabled</Status></VersioningConfiguration>")), 200, "")
		put("c", "x-amz-meta-n", "3")()
		asked(3, get("/plans/x", "c", "3"))
		asked(1, get("/plans/x", "c", "3"))
		one := expect(t, green.do("HEAD", "/plans/x", nil), 200, "").head.Get("x-amz-version-id")
		put("c")()
		asked(4, get("/plans/x", "c", "")) // (neither the version nor the key has a note)
		if isAlone {
			asked(1, get("/plans/x", "c", ""))
		} else {
			asked(3, get("/plans/x", "c", "")) // (of a number it is known when it was put)
		}
		asked(2, get("/plans/x?versionId="+one, "c", "3"))
		asked(1, get("/plans/x?versionId="+one, "c", "3"))
	}
}

// Of puts of the same bytes with other metadata a reader never sees one that was before its request began.
func TestKnownUnderWrites(t *testing.T) {
	_, _, green, _ := newGateway(t, func(o *options) { o.Alone = true })
	expect(t, green.do("PUT", "/plans", nil), 200, "")
	expect(t, green.do("PUT", "/plans/x", []byte("x"), "x-amz-meta-n", "0"), 200, "")
	var done atomic.Int64
	var all sync.WaitGroup
	for i := 0; i < 4; i++ {
		all.Add(1)
		go func() {
			defer all.Done()
			for done.Load() < 60 {
				least := done.Load()
				a := green.do("GET", "/plans/x", nil)
				if n, _ := strconv.Atoi(strings.Join(a.head["X-Amz-Meta-N"], "")); a.status != 200 || int64(n) < least {
					t.Error(a.status, n, least)
				}
			}
		}()
	}
	for i := int64(1); i <= 60; i++ {
		expect(t, green.do("PUT", "/plans/x", []byte("x"), "x-amz-meta-n", fmt.Sprint(i)), 200, "")
		done.Store(i)
		time.Sleep(2 * time.Millisecond)
	}
	all.Wait()
}

func TestUploads(t *testing.T) {
	s, stand, green, _ := newGateway(t, nil)
	big := bytes.Repeat([]byte("0123456789abcdef"), 20000) // 5 pieces
	expect(t, green.do("PUT", "/plans", nil), 200, "")
	a := expect(t, green.do("PUT", "/plans/big", big, "x-amz-meta-n", "1"), 200, "")
	if tag := a.head.Get("ETag"); !strings.HasSuffix(tag, `-5"`) {
		t.Fatal(tag)
	}
	for _, it := range []struct{ field, want string }{{"", string(big)}, {"bytes=65000-199999", string(big[65000:200000])}, {"bytes=-70000", string(big[len(big)-70000:])}} {
		a := green.do("GET", "/plans/big", nil, "Range", it.field)
		if a.body != it.want || a.err != nil {
			t.Fatal(it.field, a.status, len(a.body), a.err)
		}
	}
	expect(t, green.do("PUT", "/plans/big", big, "If-None-Match", "*"), 412, "PreconditionFailed")
	begun := expect(t, green.do("POST", "/plans/up?uploads", nil, "x-amz-meta-n", "2"), 200, "").body
	_, begun, _ = strings.Cut(begun, "<UploadId>")
	id, _, _ := strings.Cut(begun, "<")
	part := expect(t, green.do("PUT", "/plans/up?partNumber=1&uploadId="+id, []byte("one")), 200, "").head.Get("ETag")
	copied := expect(t, green.do("PUT", "/plans/up?partNumber=2&uploadId="+id, nil, "x-amz-copy-source", "/plans/big", "x-amz-copy-source-range", "bytes=1-4"), 200, "").body
	expect(t, green.do("PUT", "/plans/up?partNumber=3&uploadId="+id, nil, "x-amz-copy-source", "/plans/big"), 400, "EntityTooLarge")
	_, copied, _ = strings.Cut(copied, "<ETag>&#34;")
	copied, _, _ = strings.Cut(copied, "&#34;")
	listed := expect(t, green.do("GET", "/plans/up?uploadId="+id, nil), 200, "").body
	if strings.Count(listed, "<Part>") != 2 || !strings.Contains(listed, id) {
		t.Fatal(listed)
	}
	document := "<CompleteMultipartUpload><Part><PartNumber>1</PartNumber><ETag>" + part + "</ETag></Part><Part><PartNumber>2</PartNumber><ETag>" + copied + "</ETag></Part></CompleteMultipartUpload>"
	expect(t, green.do("POST", "/plans/up?uploadId="+id, []byte(document)), 200, "")
	if a := expect(t, green.do("GET", "/plans/up", nil), 200, ""); a.body != "one1234" || a.head.Get("x-amz-meta-n") != "2" {
		t.Fatal(a.body, a.head)
	}
	stand.mu.Lock()
	if left := len(stand.tenants["green"].buckets["plans"].uploads); left != 0 {
		t.Fatal(left, "uploads are left")
	}
	// Overwritten while it is read: the answer breaks off.
	reads := 0
	stand.before = func(r *http.Request) {
		if strings.HasPrefix(r.RequestURI, "/plans/big") && r.Header.Get("range") != "" {
			if reads++; reads == 2 {
				stand.tenants["green"].buckets["plans"].keys["big"][0] = &storedVersion{id: "null", at: "2026-01-01T00:00:00Z", sum: sum([]byte("new")), data: bytes.Repeat([]byte("X"), len(big))}
			}
		}
	}
	stand.mu.Unlock()
	s.readers.Add(1000) // (so pieces are small)
	if a := green.do("GET", "/plans/big", nil); a.err == nil || strings.Contains(a.body, "X") || !bytes.HasPrefix(big, []byte(a.body)) {
		t.Fatal(a.status, len(a.body), a.err)
	}
}

// What a client doesn't finish, or sends more of, changes nothing.
func TestBodies(t *testing.T) {
	_, _, green, _ := newGateway(t, nil)
	expect(t, green.do("PUT", "/plans", nil), 200, "")
	send := func(r *http.Request, length int, body string) string {
		conn, err := net.Dial("tcp", r.URL.Host)
		if err != nil {
			t.Fatal(err)
		}
		defer conn.Close()
		fmt.Fprintf(conn, "PUT %s HTTP/1.1\r\nHost: %s\r\nContent-Length: %d\r\n", r.URL.Path, r.URL.Host, length)
		for name := range r.Header {
			fmt.Fprintf(conn, "%s: %s\r\n", name, r.Header.Get(name))
		}
		io.WriteString(conn, "\r\n"+body)
		if len(body) < length { // (who has closed is one that goes: the call would end)
			conn.(*net.TCPConn).CloseWrite()
		}
		text, _ := io.ReadAll(bufio.NewReader(conn))
		return string(text)
	}
	r := green.request("PUT", "/plans/half", []byte("abcdef"), nil)
	if text := send(r, 6, "abc"); !strings.Contains(text, "IncompleteBody") {
		t.Fatal(text)
	}
	expect(t, green.do("GET", "/plans/half", nil), 404, "NoSuchKey")
	r = green.request("PUT", "/plans/more", []byte("abc"), nil)
	if text := send(r, 3, "abcdefGET / HTTP/1.1\r\n\r\n"); !strings.HasPrefix(text, "HTTP/1.1 200") || !strings.Contains(text, "400 Bad Request") {
		t.Fatal(text)
	}
	if a := expect(t, green.do("GET", "/plans/more", nil), 200, ""); a.body != "abc" {
		t.Fatal(a.body)
	}
	for _, it := range []struct{ name, length, trailer, text, code string }{
		{"well", "5", "x-amz-checksum-crc32", "", ""},
		{"more bytes than said", "4", "x-amz-checksum-crc32", "", "IncompleteBody"},
		{"fewer bytes than said", "6", "x-amz-checksum-crc32", "", "IncompleteBody"},
		{"no length", "", "x-amz-checksum-crc32", "", "MissingContentLength"},
		{"another sum", "5", "x-amz-checksum-crc32", "AAAAAA==", "BadDigest"},
		{"another trailer than said", "5", "x-amz-checksum-crc64nvme", "", "MalformedTrailerError"},
		{"an unknown trailer", "5", "x-amz-checksum-xxhash", "", "InvalidRequest"},
	} {
		t.Run(it.name, func(t *testing.T) {
			sum := crc32.ChecksumIEEE([]byte("abcde"))
			text := base64.StdEncoding.EncodeToString([]byte{byte(sum >> 24), byte(sum >> 16), byte(sum >> 8), byte(sum)})
			if it.text != "" {
				text = it.text
			}
			body := "3\r\nabc\r\n2\r\nde\r\n0\r\nx-amz-checksum-crc32:" + text + "\r\n\r\n"
			a := green.do("PUT", "/plans/chunks", []byte(body), "x-amz-content-sha256", sigv4.UnsignedChunksTrailer, "x-amz-decoded-content-length", it.length, "x-amz-trailer", it.trailer)
			if a.code != it.code {
				t.Fatal(a.status, a.body)
			}
		})
	}
}

// What one tenant does shows in no byte of another's answers, but in when they come.
func TestTenantsApart(t *testing.T) {
	moment := time.Now()
	clock = func() time.Time { return moment }
	defer func() { clock = time.Now }()
	script := func(isBusy bool) string {
		_, _, green, blue := newGateway(t, nil)
		green.host = "gateway.example"
		text := ""
		for i, it := range [][]string{{"PUT", "/plans", ""}, {"PUT", "/plans/x", "abc"}, {"GET", "/plans/x", ""}, {"GET", "/plans?versions", ""},
			{"POST", "/plans/u?uploads", ""}, {"GET", "/plans?uploads", ""}, {"DELETE", "/plans/x", ""}, {"GET", "/plans/x", ""}, {"GET", "/", ""}} {
			if isBusy {
				blue.do("PUT", "/plans", nil)
				blue.do("PUT", fmt.Sprintf("/plans/%d", i), []byte("blue"), "x-amz-meta-n", "blue")
				blue.do("POST", "/plans/u?uploads", nil)
			}
			a := green.do(it[0], it[1], []byte(it[2]))
			a.head.Del("Date")
			// (an id is random: it tells nothing)
			id := a.head.Get("x-amz-request-id")
			a.head.Set("x-amz-request-id", fmt.Sprint(len(id)))
			text += fmt.Sprint(a.status, a.head, strings.ReplaceAll(a.body, id, ""), "\n")
		}
		return text
	}
	if alone, beside := script(false), script(true); alone != beside || !strings.Contains(alone, "X-Amz-Request-Id") || strings.Contains(beside, "blue") {
		t.Fatalf("alone:\n%s\nbeside:\n%s", alone, beside)
	}
}

// No byte of a client's head goes on as it came.
func TestHeads(t *testing.T) {
	_, stand, green, _ := newGateway(t, nil)
	expect(t, green.do("PUT", "/plans", nil), 200, "")
	var heads strings.Builder
	stand.mu.Lock()
	stand.before = func(r *http.Request) { fmt.Fprintln(&heads, r.RequestURI, r.Host, r.Header) }
	stand.mu.Unlock()
	const canary = "canary7"
	fields := []string{"User-Agent", canary, "Cookie", canary, "x-access-key", canary, "x-secret-key", canary, "Referer", canary, "Content-Type", canary,
		"x-amz-meta-n", canary, "x-amz-website", canary, "Forwarded", canary}
	expect(t, green.do("PUT", "/plans/x", []byte("abc"), fields...), 200, "")
	expect(t, green.do("GET", "/plans/x?x-amz="+canary, nil, append(fields, "Range", "bytes=0-1")...), 206, "")
	expect(t, green.do("PUT", "/plans/y", nil, append(fields, "x-amz-copy-source", "/plans/x")...), 200, "")
	expect(t, green.do("GET", "/plans?list-type=2&"+canary+"="+canary, nil, fields...), 200, "")
	stand.mu.Lock()
	defer stand.mu.Unlock()
	if text := heads.String(); strings.Contains(text, canary) || !strings.Contains(text, "gateway") {
		t.Fatal(text)
	}
}

func TestHostGone(t *testing.T) {
	s, stand, green, _ := newGateway(t, func(o *options) { o.Meta, o.LastModified = false, false })
	expect(t, green.do("PUT", "/plans", nil), 200, "")
	address := stand.listener.Addr().String()
	stand.listener.Close()
	back := time.AfterFunc(time.Second, func() { stand.listen(address) })
	expect(t, green.do("PUT", "/plans/x", []byte("abc")), 200, "")
	back.Stop()
	stand.listener.Close()
	begun := time.Now()
	expect(t, green.do("GET", "/plans/x", nil), 503, "SlowDown")
	if took := time.Since(begun); took > 14*time.Second {
		t.Fatal(took)
	}
	// A read that got no answer is asked again; a write isn't.
	broken, err := net.Listen("tcp", "127.0.0.1:0")
	if err != nil {
		t.Fatal(err)
	}
	defer broken.Close()
	var asked atomic.Int64
	go func() {
		for {
			conn, err := broken.Accept()
			if err != nil {
				return
			}
			asked.Add(1)
			bufio.NewReader(conn).ReadString('\n')
			conn.Close()
		}
	}()
	s.Host = host.New(host.TCP(broken.Addr().String()), 4)
	expect(t, green.do("DELETE", "/plans/x?uploadId=1", nil), 503, "SlowDown")
	if n := asked.Load(); n != 1 {
		t.Fatal(n)
	}
	expect(t, green.do("GET", "/plans?location", nil), 503, "SlowDown")
	if n := asked.Load(); n < 4 {
		t.Fatal(n)
	}
}

// A tenant with 40 clients and one with 2: the second is not put behind the first.
func TestTurns(t *testing.T) {
	_, stand, green, blue := newGateway(t, func(o *options) { o.Meta = false; o.ahead = 2 })
	expect(t, green.do("PUT", "/plans", nil), 200, "")
	expect(t, blue.do("PUT", "/plans", nil), 200, "")
	stand.mu.Lock()
	stand.before = func(*http.Request) { time.Sleep(25 * time.Millisecond) }
	stand.mu.Unlock()
	var counts [2]atomic.Int64
	const enough = 160 // requests, of which the clients' first are few
	var all sync.WaitGroup
	for i := 0; i < 42; i++ {
		all.Add(1)
		client, which := green, 0
		if i >= 40 {
			client, which = blue, 1
		}
		go func(i int) {
			defer all.Done()
			for counts[0].Load()+counts[1].Load() < enough {
				client.do("PUT", fmt.Sprintf("/plans/%d", i), []byte("x"))
				counts[which].Add(1)
			}
		}(i)
	}
	all.Wait()
	many, few := counts[0].Load(), counts[1].Load()
	t.Logf("40 clients: %d, 2 clients: %d", many, few)
	if few*3 < many {
		t.Fatalf("40 clients of one tenant got %d requests, 2 of another %d", many, few)
	}
}

func TestRanges(t *testing.T) {
	for text, want := range map[string][2]int64{"bytes=0-4": {0, 4}, "bytes=5-": {5, 9}, "bytes=-3": {7, 9}, "Bytes=0-99": {0, 9}, "bytes=-99": {0, 9}} {
		asked := parseRange(text)
		if first, last, err := asked.of(10); err != nil || !asked.isAsked || [2]int64{first, last} != want {
			t.Fatal(text, first, last)
		}
	}
	for _, text := range []string{"", "bytes", "bytes=", "bytes=-", "bytes=3-1", "bytes=1-2,4-5", "lines=1-2", "bytes=+1-2", "bytes=1-99999999999999999999"} {
		if asked := parseRange(text); asked != allBytes {
			t.Fatal(text)
		}
	}
}
