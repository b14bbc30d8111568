package s3

import (
	"strings"
	"testing"
)

// A client that names its bucket in the host's name, to a gateway that isn't told of that name, makes and deletes no bucket of its
// key's name: whatever shows that it means an object has it refused.
func TestBucketInHost(t *testing.T) {
	_, _, green, _ := newGateway(t, nil)
	expect(t, green.do("PUT", "/plans", nil), 200, "")
	hosted := green
	hosted.host = "plans.files.example"
	const sum = "47DEQpj8HBSa+/TImW+5JCeuQeRkm5NMpJWZG3hSuFU="
	for _, it := range [][]string{
		{"x-amz-meta-n", "1"}, {"x-amz-storage-class", "STANDARD"}, {"x-amz-copy-source", "/plans/x"}, {"x-amz-checksum-sha256", sum}, {"x-amz-sdk-checksum-algorithm", "CRC32"},
		{"Content-MD5", "1B2M2Y8AsgTpgAmY7PhCfg=="}, {"Content-Type", "text/plain"}, {"Content-Type", "image/png"}, {"Content-Encoding", "gzip"}, {"Cache-Control", "no-store"},
		{"Content-Disposition", "inline"}, {"Content-Language", "de"}, {"Expires", "0"}, {"If-None-Match", "*"}, {"If-Match", "*"},
		{"x-amz-metadata-directive", "COPY"}, {"x-amz-trailer", "x-amz-checksum-crc32"}, {"x-amz-decoded-content-length", "0"},
	} {
		if a := expect(t, hosted.do("PUT", "/notes.txt", nil, it...), 400, "InvalidRequest"); !strings.Contains(a.body, "--domain") || !strings.Contains(strings.ToLower(a.body), strings.ToLower(it[0])) {
			t.Errorf("a put with %s is refused by %s", it[0], a.body)
		}
	}
	for _, it := range []string{"x-amz-object-lock-mode", "x-amz-tagging"} {
		expect(t, hosted.do("PUT", "/notes.txt", nil, it, "x"), 501, "NotImplemented")
	}
	for _, it := range []string{"PUT /notes.txt?x-id=PutObject", "PUT /notes.txt?x-id=UploadPart", "GET /plans?x-id=GetObject", "DELETE /plans?x-id=DeleteObject"} {
		method, target, _ := strings.Cut(it, " ")
		expect(t, hosted.do(method, target, nil), 400, "InvalidRequest")
	}
	expect(t, hosted.do("DELETE", "/plans", nil, "If-Match", "*"), 400, "InvalidRequest")
	// What shows nothing of it comes by a name that begins with a bucket.
	expect(t, green.do("PUT", "/old.plans", nil), 200, "")
	for _, name := range []string{"plans.files.example", "PLANS.files.example.:9000", "old.plans.files.example", "plans.localhost"} {
		hosted.host = name
		for _, it := range []string{"PUT /notes.txt", "DELETE /plans", "DELETE /old.plans"} {
			method, target, _ := strings.Cut(it, " ")
			if a := expect(t, hosted.do(method, target, nil), 400, "InvalidRequest"); !strings.Contains(a.body, "--domain") {
				t.Error(a.body)
			}
		}
	}
	expect(t, green.do("HEAD", "/plans", nil), 200, "")
	expect(t, green.do("HEAD", "/notes.txt", nil), 404, "")
}

// What clients say of themselves who do make a bucket is taken.
func TestBucketsAsClientsMakeThem(t *testing.T) {
	_, _, green, _ := newGateway(t, nil)
	expect(t, green.do("PUT", "/255.1", nil), 200, "")
	const document = "<CreateBucketConfiguration><LocationConstraint>us-east-1</LocationConstraint></CreateBucketConfiguration>"
	for i, it := range []struct {
		body   string
		fields []string
	}{
		{"", nil}, {"", []string{"Content-Type", "application/xml; charset=utf-8"}}, {"", []string{"Content-Type", "application/octet-stream"}},
		{"", []string{"Content-Type", "application/x-www-form-urlencoded"}}, {"", []string{"x-amz-acl", "private", "x-amz-object-ownership", "BucketOwnerEnforced"}},
		{"", []string{"x-amz-bucket-object-lock-enabled", "true"}}, {document, []string{"Content-Type", "text/plain"}},
		{document, []string{"Content-MD5", "apNSBUUb/b90OJHsIFYRng==", "x-amz-sdk-checksum-algorithm", "CRC32"}},
	} {
		target := "/made" + string(rune('a'+i))
		if i%2 == 0 {
			target += "?x-id=CreateBucket"
		}
		expect(t, green.do("PUT", target, []byte(it.body), it.fields...), 200, "")
	}
	for _, it := range []string{"files.example:9000", "s3.made.example", "localhost", "[::1]:9000", "127.0.0.1", "255.1.1.1"} {
		named := green
		named.host = it
		expect(t, named.do("PUT", "/named", nil), 200, "")
		expect(t, named.do("DELETE", "/named", nil), 204, "")
	}
	for _, it := range []string{"GET /?x-id=ListBuckets", "GET /madea?x-id=ListObjectsV2&list-type=2", "GET /madea?x-id=ListObjects", "GET /madea?versioning&x-id=GetBucketVersioning"} {
		method, target, _ := strings.Cut(it, " ")
		expect(t, green.do(method, target, nil), 200, "")
	}
}

// With a domain both ways name a bucket.
func TestBucketInDomain(t *testing.T) {
	_, _, green, _ := newGateway(t, func(o *options) { o.Domain = "files.example" })
	expect(t, green.do("PUT", "/plans", nil), 200, "")
	hosted := green
	hosted.host = "plans.files.example"
	expect(t, hosted.do("PUT", "/notes.txt?x-id=PutObject", nil, "x-amz-meta-n", "1"), 200, "")
	if a := expect(t, green.do("HEAD", "/plans/notes.txt", nil), 200, ""); a.head.Get("x-amz-meta-n") != "1" {
		t.Fatal(a.head)
	}
	expect(t, hosted.do("PUT", "/notes.txt?x-id=CopyObject", nil), 400, "InvalidRequest")
	expect(t, hosted.do("DELETE", "/notes.txt?x-id=DeleteObject", nil), 204, "")
	expect(t, hosted.do("GET", "/?x-id=ListObjectsV2&list-type=2", nil), 200, "")
	expect(t, hosted.do("DELETE", "/", nil), 204, "")
	expect(t, hosted.do("PUT", "/", nil), 200, "")
	hosted.host = "files.example"
	expect(t, hosted.do("DELETE", "/plans", nil), 204, "")
}
