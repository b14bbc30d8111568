package s3

import (
	"crypto/sha256"
	"encoding/base64"
	"fmt"
	"net/http"
	"net/url"
	"strings"
	"testing"
	"time"

	"bucketd/gateway/internal/notes"
	"bucketd/gateway/internal/sigv4"
)

// What a call doesn't take is refused and not passed over, and nothing is changed by it.
func TestSubresources(t *testing.T) {
	_, stand, green, _ := newGateway(t, nil)
	expect(t, green.do("PUT", "/plans", nil), 200, "")
	expect(t, green.do("PUT", "/empty", nil), 200, "")
	expect(t, green.do("PUT", "/plans/obj", []byte("abc"), "x-amz-meta-n", "1"), 200, "")
	for _, it := range []string{"DELETE /empty?metadataConfiguration", "DELETE /empty?metadataTable", "DELETE /empty?intelligent-tiering&id=a", "DELETE /empty?abac",
		"PUT /newb?metadataTable", "PUT /newb?x-amz-acl=public-read", "PUT /plans?abac", "PUT /plans/obj?renameObject", "PUT /plans/obj?annotation=a",
		"DELETE /plans/obj?annotation", "DELETE /plans/obj?annotation=x", "POST /plans/obj?uploads&annotation", "POST /plans?delete&force=true", "PUT /plans/obj?versionId=0000000000000001",
		"GET /plans?session", "GET /plans?metadataTable", "GET /plans/obj?annotation", "PUT /plans/obj?x-amz-checksum-crc32=AAAAAA%3D%3D", "PUT /plans/obj?restore",
		"DELETE /plans/obj?X-Amz-Security-Token=a", "PUT /plans/obj?partNumber=1", "DELETE /plans/obj?uploadid=1"} {
		method, target, _ := strings.Cut(it, " ")
		expect(t, green.do(method, target, nil), 501, "NotImplemented")
	}
	expect(t, green.do("HEAD", "/empty", nil), 200, "")
	expect(t, green.do("HEAD", "/newb", nil), 404, "")
	if got := whole(green.do("GET", "/plans/obj", nil)); got != `200 "abc" n=1 type=binary/octet-stream` {
		t.Fatal(got)
	}
	// Of what isn't there nothing is said to be unset.
	for target, code := range map[string]string{"/nosuch?cors": "NoSuchBucket", "/nosuch/none?tagging": "NoSuchBucket", "/plans/none?tagging": "NoSuchKey",
		"/plans?cors": "NoSuchCORSConfiguration", "/nosuch?policy": "NoSuchBucket"} {
		expect(t, green.do("GET", target, nil), 404, code)
	}
	stand.set(func() {
		if n := len(stand.tenants["green"].buckets["plans"].uploads); n != 0 {
			t.Fatal(n, "uploads")
		}
	})
}

// Promises of fields are kept or refused.
func TestFieldPromises(t *testing.T) {
	_, _, green, _ := newGateway(t, nil)
	expect(t, green.do("PUT", "/plans", nil), 200, "")
	expect(t, green.do("PUT", "/plans/x", []byte("abc"), "x-amz-storage-class", "STANDARD"), 200, "")
	copied := func(fields ...string) []string { return append([]string{"x-amz-copy-source", "/plans/x"}, fields...) }
	for _, it := range []struct {
		name   string
		fields []string
		status int
		code   string
	}{
		{"a class", []string{"x-amz-storage-class", "GLACIER"}, 501, "NotImplemented"},
		{"a token", []string{"x-amz-security-token", "bogus"}, 400, "InvalidToken"},
		{"an owner", []string{"x-amz-expected-bucket-owner", "blue"}, 403, "AccessDenied"},
		{"a source's owner", copied("x-amz-source-expected-bucket-owner", "blue"), 403, "AccessDenied"},
		{"a directive that is none", copied("x-amz-metadata-directive", "replacee"), 400, "InvalidArgument"},
		{"a tagging directive that is none", copied("x-amz-tagging-directive", "x"), 400, "InvalidArgument"},
		{"a field of a lock cut short", []string{"x-amz-object-lock-m", "COMPLIANCE"}, 501, "NotImplemented"},
		{"metadata of no UTF-8", []string{"x-amz-meta-n", "\xff"}, 400, "InvalidArgument"},
		{"a type of no UTF-8", []string{"Content-Type", "a\xff"}, 400, "InvalidArgument"},
	} {
		t.Run(it.name, func(t *testing.T) {
			expect(t, green.do("PUT", "/plans/y", []byte("abc"), it.fields...), it.status, it.code)
		})
	}
	expect(t, green.do("GET", "/plans/y", nil), 404, "NoSuchKey")
	for _, it := range []string{"X-Amz-Security-Token", "x-amz-security-token"} {
		expect(t, green.do("GET", "/plans/x?"+it+"=bogus", nil), 400, "InvalidToken")
	}
}

// A page of buckets has those that begin so, of that region, and no others.
func TestListedBuckets(t *testing.T) {
	_, _, green, _ := newGateway(t, nil)
	for _, it := range []string{"/plans", "/plants", "/seeds"} {
		expect(t, green.do("PUT", it, nil), 200, "")
	}
	for query, want := range map[string]string{"": "plans plants seeds", "?prefix=pla": "plans plants", "?prefix=plant&max-buckets=7": "plants", "?prefix=none": "",
		"?bucket-region=us-east-1": "plans plants seeds", "?bucket-region=eu-west-1": ""} {
		text := expect(t, green.do("GET", "/"+query, nil), 200, "").body
		var names []string
		for _, it := range strings.Split(text, "<Name>")[1:] {
			name, _, _ := strings.Cut(it, "<")
			names = append(names, name)
		}
		if found := strings.Join(names, " "); found != want || strings.Contains(text, "<Prefix>") != strings.Contains(query, "prefix") {
			t.Errorf("%q: %s", query, text)
		}
	}
}

// What a link wants answered brings no control byte into a head.
func TestAnsweredFields(t *testing.T) {
	_, _, green, _ := newGateway(t, nil)
	expect(t, green.do("PUT", "/plans", nil), 200, "")
	expect(t, green.do("PUT", "/plans/x", []byte("abc")), 200, "")
	for _, value := range []string{"a%00b", "a%01", "%7F", "a%0D%0Ab%3A%20c", "%FF"} {
		for _, field := range []string{"response-content-type", "response-content-disposition", "response-expires"} {
			expect(t, green.do("GET", "/plans/x?"+field+"="+value, nil), 400, "InvalidArgument")
		}
	}
	a := expect(t, green.do("GET", "/plans/x?response-content-disposition="+escaped(`inline; filename="é.txt"`), nil), 200, "")
	if found := a.head.Get("Content-Disposition"); found != `inline; filename="é.txt"` {
		t.Fatal(found)
	}
}

// A field that is read once and stands twice is refused, though its text is what was signed.
func TestFieldTwice(t *testing.T) {
	_, _, green, _ := newGateway(t, nil)
	expect(t, green.do("PUT", "/plans", nil), 200, "")
	expect(t, green.do("PUT", "/plans/o", []byte("abc")), 200, "")
	for field, values := range map[string][]string{
		"X-Amz-Copy-Source": {"/plans/o", "/plans/nothing"}, "X-Amz-Storage-Class": {"STANDARD", "STANDARD"}, "X-Amz-Checksum-Crc32": {"AAAAAA==", "AAAAAA=="},
		"If-Match": {`"a"`, "*"}, "Content-Type": {"a", "b"}, "Range": {"bytes=0-0", "bytes=1-1"},
	} {
		r := green.request("PUT", "/plans/p", nil, map[string]string{field: strings.Join(values, ",")})
		r.Header[field] = values
		expect(t, send(r), 400, "InvalidArgument")
	}
	r := green.request("PUT", "/plans/p", nil, map[string]string{"X-Amz-Meta-N": "a,b"})
	r.Header["X-Amz-Meta-N"] = []string{"a", "b"}
	expect(t, send(r), 200, "")
}

// Conditions of objects that are deleted together are kept, or refused for that one alone.
func TestDeleteConditions(t *testing.T) {
	_, _, green, _ := newGateway(t, nil)
	expect(t, green.do("PUT", "/plans", nil), 200, "")
	tag := strings.Trim(expect(t, green.do("PUT", "/plans/a", []byte("a")), 200, "").head.Get("ETag"), `"`)
	for _, key := range []string{"b", "c", "d"} {
		expect(t, green.do("PUT", "/plans/"+key, []byte("b")), 200, "")
	}
	object := func(key, more string) string { return "<Object><Key>" + key + "</Key>" + more + "</Object>" }
	text := "<Delete>" + object("a", "<ETag>&quot;"+tag+"&quot;</ETag>") + object("b", "<ETag>&quot;0000&quot;</ETag>") + object("c", "<Size>1</Size>") +
		object("d", "<LastModifiedTime>"+time.Now().UTC().Format(http.TimeFormat)+"</LastModifiedTime>") + object("none", "<ETag>x</ETag>") + "</Delete>"
	a := expect(t, green.do("POST", "/plans?delete", []byte(text)), 200, "")
	if !strings.Contains(a.body, "<Deleted><Key>a</Key></Deleted>") || strings.Count(a.body, "<Code>PreconditionFailed</Code>") != 1 ||
		strings.Count(a.body, "<Code>NotImplemented</Code>") != 2 || strings.Count(a.body, "<Code>NoSuchKey</Code>") != 1 {
		t.Fatal(a.body)
	}
	expect(t, green.do("GET", "/plans/a", nil), 404, "NoSuchKey")
	for _, key := range []string{"b", "c", "d"} {
		expect(t, green.do("GET", "/plans/"+key, nil), 200, "")
	}
	// The condition of a version is on that version.
	expect(t, green.do("PUT", "/plans?versioning", versioningTo("Enabled")), 200, "")
	one := expect(t, green.do("PUT", "/plans/v", []byte("one")), 200, "")
	expect(t, green.do("PUT", "/plans/v", []byte("two")), 200, "")
	id := one.head.Get("x-amz-version-id")
	expect(t, green.do("DELETE", "/plans/v?versionId="+id, nil, "If-Match", `"0000"`), 412, "PreconditionFailed")
	expect(t, green.do("DELETE", "/plans/v?versionId="+id, nil, "If-Match", one.head.Get("ETag")), 204, "")
}

// A URL of version 2 for one version can't be made one for the newest.
func TestRecutLinks(t *testing.T) {
	s, _, green, _ := newGateway(t, nil)
	expect(t, green.do("PUT", "/v2v", nil), 200, "")
	expect(t, green.do("PUT", "/v2v?versioning", versioningTo("Enabled")), 200, "")
	one := expect(t, green.do("PUT", "/v2v/o", []byte("public old")), 200, "").head.Get("x-amz-version-id")
	expect(t, green.do("PUT", "/v2v/o", []byte("SECRET new")), 200, "")
	until := fmt.Sprint(time.Now().Add(time.Hour).Unix())
	link := func(resource string, parameters string) string {
		text := "GET\n\n\n" + until + "\n/v2v/o" + resource
		return "/v2v/o?AWSAccessKeyId=green%24k1&Expires=" + until + "&Signature=" + url.QueryEscape(mac1(green.secret, text)) + "&" + parameters
	}
	fetch := func(target string) answered {
		r, err := http.NewRequest("GET", green.base+target, nil)
		if err != nil {
			t.Fatal(err)
		}
		return send(r)
	}
	signed := "?response-content-type=text/plain&versionId=" + one
	if a := expect(t, fetch(link(signed, "response-content-type=text%2Fplain&versionId="+one)), 200, ""); a.body != "public old" {
		t.Fatal(a.body)
	}
	for _, cut := range []string{"response-content-type=text%2Fplain%26versionId=" + one, "response-content-type=text%2Fplain%26versionId%3D" + one} {
		expect(t, fetch(link(signed, cut)), 403, "SignatureDoesNotMatch")
	}
	for _, value := range []string{"a&versionId=" + one, "a&versions", "&uploadId=&b", "a&torrent&", "a\nb", "a\x7f", "a\u0085"} {
		expect(t, fetch(link("?response-content-type="+value, "response-content-type="+url.QueryEscape(value))), 403, "SignatureDoesNotMatch")
	}
	// What can be read as nothing else is told as it was signed.
	for _, value := range []string{"a=", "a", "a?b", "a&b", `attachment; filename="x"`, `a; b="Tom & versionId=1"`, "a&versionIds=1", "versionId=1", "a&acl", "é=ü"} {
		a := expect(t, fetch(link("?response-content-disposition="+value, "response-content-disposition="+url.QueryEscape(value))), 200, "")
		if got := a.head.Get("Content-Disposition"); got != value {
			t.Errorf("%q is told as %q", value, got)
		}
	}
	// A value that ends in = is another one than without it.
	expect(t, fetch(link("?response-content-type=a", "response-content-type=a%3D")), 403, "SignatureDoesNotMatch")
	s.Verifier.NoVersion2 = true
	expect(t, fetch(link(signed, "response-content-type=text%2Fplain&versionId="+one)), 400, "InvalidRequest")
	expect(t, green.do("GET", "/v2v/o", nil, "x-amz-content-sha256", sigv4.UnsignedPayload), 200, "")
}

// What a completion promises of its parts and of the object is compared; what isn't known is refused.
func TestCompletionPromises(t *testing.T) {
	s, stand, green, _ := newGateway(t, nil)
	expect(t, green.do("PUT", "/plans", nil), 200, "")
	begun := expect(t, green.do("POST", "/plans/up?uploads", nil), 200, "").body
	_, begun, _ = strings.Cut(begun, "<UploadId>")
	id, _, _ := strings.Cut(begun, "<")
	crc := func(text string) []byte {
		h := digests["x-amz-checksum-crc32"]()
		h.Write([]byte(text))
		return h.Sum(nil)
	}
	in64 := base64.StdEncoding.EncodeToString
	tags := []string{}
	for i, text := range []string{"one", "three"} {
		a := expect(t, green.do("PUT", fmt.Sprintf("/plans/up?partNumber=%d&uploadId=%s", i+1, id), []byte(text), "x-amz-checksum-crc32", in64(crc(text))), 200, "")
		tags = append(tags, a.head.Get("ETag"))
	}
	document := func(second string) []byte {
		return []byte("<CompleteMultipartUpload><Part><PartNumber>1</PartNumber><ETag>" + tags[0] + "</ETag></Part><Part><PartNumber>2</PartNumber><ETag>" +
			tags[1] + "</ETag>" + second + "</Part></CompleteMultipartUpload>")
	}
	well := "<ChecksumCRC32>" + in64(crc("three")) + "</ChecksumCRC32>"
	joined := in64(crc(string(crc("one")) + string(crc("three"))))
	both := sha256.New()
	for _, text := range []string{"one", "three"} {
		one := sha256.Sum256([]byte(text))
		both.Write(one[:])
	}
	whole := in64(both.Sum(nil))
	for _, it := range []struct {
		name, second string
		fields       []string
		status       int
		code         string
	}{
		{"another CRC32 of a part", "<ChecksumCRC32>AAAAAA==</ChecksumCRC32>", nil, 400, "InvalidPart"},
		{"another SHA-256 of a part", "<ChecksumSHA256>" + whole + "</ChecksumSHA256>", nil, 400, "InvalidPart"},
		{"a SHA-1 of a part that isn't known", "<ChecksumSHA1>AAAA</ChecksumSHA1>", nil, 501, "NotImplemented"},
		{"another size", "", []string{"x-amz-mp-object-size", "999"}, 400, "InvalidRequest"},
		{"another CRC32", "", []string{"x-amz-checksum-crc32", "AAAAAA=="}, 400, "BadDigest"},
		{"of another number", "", []string{"x-amz-checksum-crc32", joined + "-3"}, 400, "BadDigest"},
		{"another SHA-256", "", []string{"x-amz-checksum-sha256", in64(both.Sum([]byte("x"))[:32])}, 400, "BadDigest"},
		{"a CRC64NVME that isn't known", "", []string{"x-amz-checksum-crc64nvme", "AAAAAAAAAAA="}, 501, "NotImplemented"},
		{"another CRC32 of the whole", "", []string{"x-amz-checksum-crc32", joined, "x-amz-checksum-type", "FULL_OBJECT"}, 400, "BadDigest"},
		{"a SHA-256 of the whole", "", []string{"x-amz-checksum-sha256", whole, "x-amz-checksum-type", "FULL_OBJECT"}, 501, "NotImplemented"},
		{"an unknown checksum", "", []string{"x-amz-checksum-xxhash", "AAAA"}, 400, "InvalidRequest"},
		{"the CRC32 of the whole, of another size", "", []string{"x-amz-checksum-crc32", in64(crc("onethree")), "x-amz-checksum-type", "FULL_OBJECT",
			"x-amz-mp-object-size", "9"}, 400, "InvalidRequest"},
	} {
		t.Run(it.name, func(t *testing.T) {
			expect(t, green.do("POST", "/plans/up?uploadId="+id, document(it.second), it.fields...), it.status, it.code)
		})
	}
	// A gateway that wasn't there when the parts came knows their checksums.
	next := before(t, s, stand.listener.Addr().String())
	expect(t, next.do("POST", "/plans/up?uploadId="+id, document("<ChecksumCRC32>AAAAAA==</ChecksumCRC32>")), 400, "InvalidPart")
	expect(t, next.do("POST", "/plans/up?uploadId="+id, document(""), "x-amz-checksum-crc32", "AAAAAA==", "x-amz-checksum-type", "FULL_OBJECT"), 400, "BadDigest")
	expect(t, next.do("POST", "/plans/up?uploadId="+id, document(well), "x-amz-mp-object-size", "8", "x-amz-checksum-crc32", joined+"-2",
		"x-amz-checksum-sha256", whole, "x-amz-checksum-type", "COMPOSITE"), 200, "")
	if a := expect(t, green.do("GET", "/plans/up", nil), 200, ""); a.body != "onethree" {
		t.Fatal(a.body)
	}
}

// partsKept returns how many parts have checksums in the hidden bucket.
func partsKept(stand *standin) (count int) {
	stand.set(func() {
		for key := range stand.tenants["green"].buckets[notes.Bucket].keys {
			if strings.HasPrefix(key, notes.Parts) {
				count++
			}
		}
	})
	return count
}

// Checksums of parts of each kind are known after a restart, also of a part that was put anew, and go when the upload is over.
func TestChecksumsOfParts(t *testing.T) {
	s, stand, green, _ := newGateway(t, nil)
	expect(t, green.do("PUT", "/plans", nil), 200, "")
	id, other := begunUpload(t, green, "/plans/up"), begunUpload(t, green, "/plans/up")
	tags, named := map[int]string{}, map[int]string{}
	put := func(number int, field, element, text string) {
		h := digests[field]()
		h.Write([]byte(text))
		sum := base64.StdEncoding.EncodeToString(h.Sum(nil))
		tags[number] = expect(t, green.do("PUT", fmt.Sprintf("/plans/up?partNumber=%d&uploadId=%s", number, id), []byte(text), field, sum), 200, "").head.Get("ETag")
		named[number] = "<" + element + ">" + sum + "</" + element + ">"
	}
	put(1, "x-amz-checksum-crc32", "ChecksumCRC32", "old")
	put(1, "x-amz-checksum-crc32", "ChecksumCRC32", "one")
	put(2, "x-amz-checksum-crc32c", "ChecksumCRC32C", "two")
	put(3, "x-amz-checksum-crc64nvme", "ChecksumCRC64NVME", "three")
	put(4, "x-amz-checksum-sha1", "ChecksumSHA1", "four")
	document := func(spoilt int) []byte {
		text := ""
		for number := 1; number <= 4; number++ {
			sums := named[number]
			if number == spoilt {
				sums = strings.Replace(sums, ">", ">AAAA", 1)
			}
			text += fmt.Sprintf("<Part><PartNumber>%d</PartNumber><ETag>%s</ETag>%s</Part>", number, tags[number], sums)
		}
		return []byte("<CompleteMultipartUpload>" + text + "</CompleteMultipartUpload>")
	}
	if n := partsKept(stand); n != 5 {
		t.Fatal(n, "parts have checksums")
	}
	for spoilt := 1; spoilt <= 4; spoilt++ {
		next := before(t, s, stand.listener.Addr().String())
		expect(t, next.do("POST", "/plans/up?uploadId="+id, document(spoilt)), 400, "InvalidPart")
	}
	next := before(t, s, stand.listener.Addr().String())
	expect(t, next.do("POST", "/plans/up?uploadId="+other, document(0)), 501, "NotImplemented") // (of another upload nothing is known)
	expect(t, green.do("POST", "/plans/up?uploadId="+id, document(0)), 200, "")
	s.behind.Wait()
	if n := partsKept(stand); n != 0 || len(s.parts.parts) != 0 {
		t.Fatal(n, "parts have checksums,", len(s.parts.parts), "are remembered")
	}
	// So they do when it is aborted, and at the next start where a gateway was killed before they went.
	id = other
	put(1, "x-amz-checksum-sha1", "ChecksumSHA1", "one")
	expect(t, green.do("DELETE", "/plans/up?uploadId="+other, nil), 204, "")
	s.behind.Wait()
	left := begunUpload(t, green, "/plans/up")
	id = begunUpload(t, green, "/plans/up")
	put(1, "x-amz-checksum-sha1", "ChecksumSHA1", "one")
	id = left
	put(1, "x-amz-checksum-sha1", "ChecksumSHA1", "one")
	stand.set(func() { delete(stand.tenants["green"].buckets["plans"].uploads, left) })
	sweep(t, s)
	if n := partsKept(stand); n != 1 {
		t.Fatal(n, "parts have checksums")
	}
}
