package s3

import (
	"bytes"
	"fmt"
	"io"
	"net"
	"net/http"
	"strconv"
	"strings"
	"testing"
	"time"

	"bucketd/gateway/internal/notes"
	"bucketd/gateway/internal/sigv4"
	"bucketd/gateway/internal/xmlio"
)

// Each refusal of bucketd becomes an error of S3's.
func TestRefusals(t *testing.T) {
	_, stand, green, _ := newGateway(t, nil)
	expect(t, green.do("PUT", "/plans", nil), 200, "")
	others := map[int]string{1: "InvalidRequest", 11: "MalformedXML", 26: "XAmzContentSHA256Mismatch", 29: "InternalError", 30: "InternalError"}
	for number, told := range codes {
		t.Run(fmt.Sprint(number, " ", told[1]), func(t *testing.T) {
			stand.set(func() { stand.refusal = func(*http.Request) int { return number } })
			status, _ := strconv.Atoi(told[0])
			a := expect(t, green.do("GET", "/plans?versioning", nil), status, or(others[number], told[1]))
			if a.head.Get("Content-Type") != "application/xml" || !strings.Contains(a.body, "<RequestId>"+a.head.Get("x-amz-request-id")+"</RequestId>") {
				t.Fatal(a.head, a.body)
			}
			if a.head.Get("Allow") != "GET, HEAD" || a.head.Get("Content-Range") != "bytes */7" || a.head.Get("x-refusal") != "" {
				t.Fatal(a.head)
			}
		})
	}
	// A SHA-256 that was told as a checksum, too, is told as one.
	stand.set(func() { stand.refusal = func(*http.Request) int { return 26 } })
	expect(t, green.do("PUT", "/plans/x", nil, "x-amz-checksum-sha256", "47DEQpj8HBSa+/TImW+5JCeuQeRkm5NMpJWZG3hSuFU="), 400, "BadDigest")
}

// Refusals of documents, names and fields that no other test comes to.
func TestBadCalls(t *testing.T) {
	_, _, green, _ := newGateway(t, nil)
	for _, target := range []string{"/plans", "/plans/x", "/kept", "/plans/empty"} {
		expect(t, green.do("PUT", target, nil), 200, "")
	}
	expect(t, green.do("PUT", "/kept?versioning", []byte("<VersioningConfiguration><Status>Enabled</Status></VersioningConfiguration>")), 200, "")
	expect(t, green.do("PUT", "/kept/x", []byte("abc")), 200, "")
	marker := expect(t, green.do("DELETE", "/kept/x", nil), 204, "").head.Get("x-amz-version-id")
	deletes := func(count int) string {
		return "<Delete>" + strings.Repeat("<Object><Key>k</Key></Object>", count) + "</Delete>"
	}
	lifecycle := func(rules string) string { return "<LifecycleConfiguration>" + rules + "</LifecycleConfiguration>" }
	const days = "<AbortIncompleteMultipartUpload><DaysAfterInitiation>3</DaysAfterInitiation></AbortIncompleteMultipartUpload>"
	const complete = "<CompleteMultipartUpload><Part><PartNumber>1</PartNumber><ETag>" + emptySHA256 + "-0</ETag><ChecksumSHA256>AAAA</ChecksumSHA256></Part></CompleteMultipartUpload>"
	long := strings.Repeat("a", 2049)
	for _, it := range []struct {
		name, method, target string
		body                 string
		fields               []string
		status               int
		code                 string
	}{
		{"MfaDelete", "PUT", "/plans?versioning", "<VersioningConfiguration><Status>Enabled</Status><MfaDelete>Enabled</MfaDelete></VersioningConfiguration>", nil, 501, "NotImplemented"},
		{"no rule", "PUT", "/plans?lifecycle", lifecycle(""), nil, 400, "MalformedXML"},
		{"two rules", "PUT", "/plans?lifecycle", lifecycle(strings.Repeat("<Rule><Status>Enabled</Status>"+days+"</Rule>", 2)), nil, 501, "NotImplemented"},
		{"a rule of a prefix", "PUT", "/plans?lifecycle", lifecycle("<Rule><Prefix>a</Prefix><Status>Enabled</Status>" + days + "</Rule>"), nil, 501, "NotImplemented"},
		{"a rule of a tag", "PUT", "/plans?lifecycle", lifecycle("<Rule><Filter><Tag><Key>a</Key></Tag></Filter><Status>Enabled</Status>" + days + "</Rule>"), nil, 501, "NotImplemented"},
		{"a rule that does more", "PUT", "/plans?lifecycle", lifecycle("<Rule><Status>Enabled</Status>" + days + "<Expiration><Days>1</Days></Expiration></Rule>"), nil, 501, "NotImplemented"},
		{"days that are no number", "PUT", "/plans?lifecycle", lifecycle("<Rule>" + strings.Replace(days, "3", "x", 1) + "</Rule>"), nil, 400, "MalformedXML"},
		{"deletes of nothing", "POST", "/plans?delete", deletes(0), nil, 400, "MalformedXML"},
		{"1000 deletes", "POST", "/plans?delete", deletes(1000), nil, 200, ""},
		{"1001 deletes", "POST", "/plans?delete", deletes(1001), nil, 400, "MalformedXML"},
		{"a document above 2 MiB", "POST", "/plans?delete", strings.Repeat(" ", int(xmlio.DeleteForm.Bytes)+1), nil, 400, "EntityTooLarge"},
		{"a document's MD5, another one", "POST", "/plans?delete", deletes(1), []string{"Content-MD5", "AAAAAAAAAAAAAAAAAAAAAA=="}, 400, "BadDigest"},
		{"deletes in no bucket", "POST", "/nothing?delete", deletes(1), nil, 404, "NoSuchBucket"},
		{"a part with two checksums", "POST", "/plans/up?uploadId=1", complete, nil, 400, "InvalidPart"},
		{"a part of number 0", "PUT", "/plans/up?uploadId=1&partNumber=0", "x", nil, 404, "NoSuchUpload"},
		{"a type above 2048 bytes", "PUT", "/plans/l", "", []string{"Content-Type", long}, 400, "MetadataTooLarge"},
		{"metadata of an upload, too", "POST", "/plans/l?uploads", "", []string{"x-amz-meta-a", long}, 400, "MetadataTooLarge"},
		{"a copy of a marker", "PUT", "/plans/l", "", []string{"x-amz-copy-source", "/kept/x?versionId=" + marker}, 400, "InvalidRequest"},
		{"a copy of what is deleted", "PUT", "/plans/l", "", []string{"x-amz-copy-source", "/kept/x"}, 404, "NoSuchKey"},
		{"a copy without a key", "PUT", "/plans/l", "", []string{"x-amz-copy-source", "/plans"}, 400, "InvalidArgument"},
		{"a copy of no UTF-8", "PUT", "/plans/l", "", []string{"x-amz-copy-source", "/plans/%FF"}, 400, "InvalidArgument"},
		{"a copy of half an escape", "PUT", "/plans/l", "", []string{"x-amz-copy-source", "/plans/%F"}, 400, "InvalidArgument"},
		{"a copy of a key of 1025 bytes", "PUT", "/plans/l", "", []string{"x-amz-copy-source", "/plans/" + long[:1025]}, 400, "InvalidArgument"},
		{"a copied version with a space", "PUT", "/plans/l", "", []string{"x-amz-copy-source", "/plans/x?versionId=1 2"}, 400, "InvalidArgument"},
		{"a copied part beyond its source", "PUT", "/plans/l?uploadId=1&partNumber=1", "", []string{"x-amz-copy-source", "/plans/x", "x-amz-copy-source-range", "bytes=5-9"}, 416, "InvalidRange"},
		{"a copied part of the last bytes", "PUT", "/plans/l?uploadId=1&partNumber=1", "", []string{"x-amz-copy-source", "/plans/x", "x-amz-copy-source-range", "bytes=-9"}, 400, "InvalidArgument"},
		{"a range of an empty object", "GET", "/plans/empty", "", []string{"Range", "bytes=0-1"}, 416, "InvalidRange"},
		{"all of an empty object", "GET", "/plans/empty", "", nil, 200, ""},
		{"a bucket of two letters", "PUT", "/ab", "", nil, 400, "InvalidBucketName"},
		{"a bucket of 64", "PUT", "/" + long[:64], "", nil, 400, "InvalidBucketName"},
		{"a bucket in capitals", "PUT", "/Plans", "", nil, 400, "InvalidBucketName"},
		{"a bucket above all", "GET", "/..", "", nil, 400, "InvalidBucketName"},
		{"the hidden bucket, deleted", "DELETE", "/bucketd.meta", "", nil, 400, "InvalidBucketName"},
		{"the hidden bucket, written", "PUT", "/bucketd.meta/x", "", nil, 400, "InvalidBucketName"},
		{"a parameter that is none", "GET", "/plans?list-type=2&continuation-token=x", "", nil, 400, "InvalidArgument"},
		{"an escape in a parameter that is none", "GET", "/plans?prefix=%zz", "", nil, 400, "InvalidURI"},
		{"half a surrogate", "PUT", "/plans/%ED%A0%80", "", nil, 400, "InvalidURI"},
		{"a longer slash", "PUT", "/plans/%C0%AF", "", nil, 400, "InvalidURI"},
		{"an acl by a document", "PUT", "/plans/x?acl", "<AccessControlPolicy/>", nil, 501, "NotImplemented"},
		{"an acl by a field", "PUT", "/plans/l", "", []string{"x-amz-grant-read", "id=blue"}, 501, "NotImplemented"},
		{"a write where an object has some size", "PUT", "/plans/l", "", []string{"x-amz-write-offset-bytes", "0"}, 501, "NotImplemented"},
		{"a rename", "PUT", "/plans/l?renameObject", "", []string{"x-amz-rename-source", "/plans/x"}, 501, "NotImplemented"},
		{"a hold", "PUT", "/plans/x?legal-hold", "", nil, 501, "NotImplemented"},
		{"a bucket's locks", "GET", "/plans?object-lock", "", nil, 404, "ObjectLockConfigurationNotFoundError"},
		{"a bucket's tags", "GET", "/plans?tagging", "", nil, 404, "NoSuchTagSet"},
		{"tags to be", "PUT", "/plans/x?tagging", "<Tagging/>", nil, 501, "NotImplemented"},
		{"a selection", "POST", "/plans/x?select", "", nil, 501, "NotImplemented"},
		{"chunks in another way", "PUT", "/plans/l", "0\r\n\r\n", []string{"x-amz-content-sha256", "STREAMING-ELSE", "x-amz-decoded-content-length", "0"}, 400, "InvalidArgument"},
		{"chunks of a length below 0", "PUT", "/plans/l", "0\r\n\r\n", []string{"x-amz-content-sha256", sigv4.UnsignedChunksTrailer, "x-amz-decoded-content-length", "-1"}, 411, "MissingContentLength"},
		{"a trailer where none is said", "PUT", "/plans/l", "x", []string{"x-amz-trailer", "x-amz-checksum-crc32"}, 400, "InvalidRequest"},
		{"a checksum told twice", "PUT", "/plans/l", "0\r\n\r\n", []string{"x-amz-content-sha256", sigv4.UnsignedChunksTrailer, "x-amz-decoded-content-length", "0",
			"x-amz-checksum-crc32", "AAAAAA==", "x-amz-trailer", "x-amz-checksum-crc32"}, 400, "InvalidRequest"},
		{"an MD5 as a trailer", "PUT", "/plans/l", "0\r\n\r\n", []string{"x-amz-content-sha256", sigv4.UnsignedChunksTrailer, "x-amz-decoded-content-length", "0", "x-amz-trailer", "content-md5"}, 400, "InvalidRequest"},
		{"another SHA-1", "PUT", "/plans/l", "abc", []string{"x-amz-checksum-sha1", "AAAAAAAAAAAAAAAAAAAAAAAAAAA="}, 400, "BadDigest"},
		{"another CRC32C", "PUT", "/plans/l", "abc", []string{"x-amz-checksum-crc32c", "AAAAAA=="}, 400, "BadDigest"},
		{"another CRC64NVME", "PUT", "/plans/l", "abc", []string{"x-amz-checksum-crc64nvme", "AAAAAAAAAAA="}, 400, "BadDigest"},
		{"another SHA-256 of no signed body", "PUT", "/plans/l", "abc", []string{"x-amz-content-sha256", sigv4.UnsignedPayload, "x-amz-checksum-sha256", "47DEQpj8HBSa+/TImW+5JCeuQeRkm5NMpJWZG3hSuFU="}, 400, "BadDigest"},
		{"another hash of a body above a piece", "PUT", "/plans/l", strings.Repeat("a", 65537), []string{"x-amz-content-sha256", emptySHA256}, 400, "XAmzContentSHA256Mismatch"},
		{"nothing was put by those", "GET", "/plans/l", "", nil, 404, "NoSuchKey"},
	} {
		t.Run(it.name, func(t *testing.T) {
			expect(t, green.do(it.method, it.target, []byte(it.body), it.fields...), it.status, it.code)
		})
	}
}

// What is sent that is no request, or an odd one: the beginning of what is answered; nothing is where the connection is closed.
func TestOddRequests(t *testing.T) {
	s, stand, green, _ := newGateway(t, func(o *options) { o.Silence = 300 * time.Millisecond })
	expect(t, green.do("PUT", "/plans", nil), 200, "")
	address := strings.TrimPrefix(green.base, "http://")
	const end = "Host: h\r\n\r\n"
	for _, it := range []struct{ name, sent, answer string }{
		{"nothing but lines", "\r\n\r\n\r\n", "HTTP/1.1 400"},
		{"no words", "nonsense\r\n" + end, "HTTP/1.1 400"},
		{"a version that is none", "GET / HTTP/9.1\r\n" + end, "HTTP/1.1 505"},
		{"TLS", "\x16\x03\x01\x02\x00\x01\x00\x01\xfc\x03\x03\r\n\r\n", "HTTP/1.1 400"},
		{"no host", "GET / HTTP/1.1\r\n\r\n", "HTTP/1.1 400"},
		{"two hosts", "GET / HTTP/1.1\r\nHost: a\r\n" + end, "HTTP/1.1 400"},
		{"a target without a slash", "GET plans HTTP/1.1\r\n" + end, "HTTP/1.1 400"},
		{"a star", "GET * HTTP/1.1\r\n" + end, "HTTP/1.1 400"},
		{"a tunnel", "CONNECT example.org:443 HTTP/1.1\r\n" + end, "HTTP/1.1 4"},
		{"another host's target", "GET http://example.org/plans HTTP/1.1\r\n" + end, "HTTP/1.1 403"},
		{"half an escape", "GET /plans/%2 HTTP/1.1\r\n" + end, "HTTP/1.1 400"},
		{"a NUL in a target", "GET /plans/\x00 HTTP/1.1\r\n" + end, "HTTP/1.1 400"},
		{"a NUL in a field", "GET / HTTP/1.1\r\nx: a\x00b\r\n" + end, "HTTP/1.1 400"},
		{"a field's name with a space", "GET / HTTP/1.1\r\nx y: a\r\n" + end, "HTTP/1.1 400"},
		{"a folded field", "GET / HTTP/1.1\r\nx: a\r\n b\r\n" + end, "HTTP/1.1 403"},
		{"a head of 64 KiB", "GET / HTTP/1.1\r\nx: " + strings.Repeat("a", 65536) + "\r\n" + end, "HTTP/1.1 431"},
		{"two lengths", "PUT /plans/x HTTP/1.1\r\nContent-Length: 1\r\nContent-Length: 2\r\n" + end, "HTTP/1.1 400"},
		{"a length below 0", "PUT /plans/x HTTP/1.1\r\nContent-Length: -1\r\n" + end, "HTTP/1.1 400"},
		{"a length that is no number", "PUT /plans/x HTTP/1.1\r\nContent-Length: 1x\r\n" + end, "HTTP/1.1 400"},
		{"a way of coding that is none", "PUT /plans/x HTTP/1.1\r\nTransfer-Encoding: gzip\r\n" + end, "HTTP/1.1 501"},
		{"both a length and chunks", "PUT /plans/x HTTP/1.1\r\nContent-Length: 3\r\nTransfer-Encoding: chunked\r\nHost: h\r\n\r\n0\r\n\r\n", "HTTP/1.1 400"},
		{"half a head", "GET / HTTP/1.1\r\nHo", ""},
		{"an expectation that is none", "PUT /plans/x HTTP/1.1\r\nExpect: 200-nothing\r\nContent-Length: 1\r\n" + end, "HTTP/1.1 417"},
		{"not signed, of a method of its own", "NONSENSE / HTTP/1.1\r\n" + end, "HTTP/1.1 403"},
		{"HTTP/1.0", "GET / HTTP/1.0\r\n\r\n", "HTTP/1.0 403"},
	} {
		t.Run(it.name, func(t *testing.T) {
			conn, err := net.Dial("tcp", address)
			if err != nil {
				t.Fatal(err)
			}
			defer conn.Close()
			io.WriteString(conn, it.sent)
			conn.(*net.TCPConn).CloseWrite()
			conn.SetDeadline(time.Now().Add(10 * time.Second))
			text, _ := io.ReadAll(conn)
			if !strings.HasPrefix(string(text), it.answer) || it.answer == "" && strings.HasPrefix(string(text), "HTTP/1.1 200") {
				t.Fatalf("%q", text)
			}
		})
	}
	// A body that is announced and doesn't come is broken off, and so is one that is refused before it is read.
	for _, spoil := range []string{"", "0"} {
		conn, err := net.Dial("tcp", address)
		if err != nil {
			t.Fatal(err)
		}
		defer conn.Close()
		r := green.request("PUT", "/plans/silent", []byte("abc"), nil)
		fmt.Fprintf(conn, "PUT /plans/silent HTTP/1.1\r\nHost: %s\r\nContent-Length: 3\r\n", r.URL.Host)
		for name := range r.Header {
			fmt.Fprintf(conn, "%s: %s\r\n", name, strings.Replace(r.Header.Get(name), "Signature=", "Signature="+spoil, 1))
		}
		io.WriteString(conn, "\r\na")
		conn.SetDeadline(time.Now().Add(10 * time.Second))
		if text, err := io.ReadAll(conn); err != nil || !strings.HasPrefix(string(text), "HTTP/1.1 4") {
			t.Fatalf("%q %v", text, err)
		}
	}
	stand.mu.Lock()
	defer stand.mu.Unlock()
	if it := stand.tenants["green"].buckets["plans"].keys; len(it) != 0 || s.Spool.InMemory() != 0 {
		t.Fatal(it, s.Spool.InMemory())
	}
}

// A request with both a length and chunks is refused, and what follows it is no request: a proxy may have taken it for a body. So it
// is behind another request, and where two come at once.
func TestSmuggled(t *testing.T) {
	_, _, green, _ := newGateway(t, nil)
	const both = "PUT /plans/x HTTP/1.1\r\nHost: h\r\nContent-Length: 30\r\nTransfer-Encoding: chunked\r\n\r\n0\r\n\r\nGET /smuggled HTTP/1.1\r\nHost: h\r\n\r\n"
	for _, it := range []struct {
		name, sent string
		answers    int
		last       string
	}{
		{"alone", both, 1, "400"},
		{"in other letters", strings.Replace(both, "Content-Length", "cONTENT-lENGTH", 1), 1, "400"},
		{"of HTTP/1.0", strings.Replace(both, "HTTP/1.1\r\nHost", "HTTP/1.0\r\nConnection: keep-alive\r\nHost", 1), 1, "400"},
		{"of HTTP/1.0, chunks alone", "PUT /plans/x HTTP/1.0\r\nHost: h\r\nTransfer-Encoding: chunked\r\n\r\n0\r\n\r\n", 1, "400"},
		{"chunks alone", strings.Replace(both, "Content-Length: 30\r\n", "", 1), 1, "403"},
	} {
		t.Run(it.name, func(t *testing.T) {
			conn, err := net.Dial("tcp", strings.TrimPrefix(green.base, "http://"))
			if err != nil {
				t.Fatal(err)
			}
			defer conn.Close()
			conn.SetDeadline(time.Now().Add(10 * time.Second))
			io.WriteString(conn, it.sent)
			text, err := io.ReadAll(conn)
			if err != nil || strings.Count(string(text), "HTTP/1.") != it.answers || !strings.Contains(string(text), " "+it.last+" ") {
				t.Fatalf("%q %v", text, err)
			}
		})
	}
	// On a connection that is kept (a refusal of who asks ends one, so the first is signed), after its answer and beside it.
	expect(t, green.do("PUT", "/plans", nil), 200, "")
	r := green.request("HEAD", "/plans", nil, nil)
	for _, isTogether := range []bool{false, true} {
		conn, err := net.Dial("tcp", r.URL.Host)
		if err != nil {
			t.Fatal(err)
		}
		defer conn.Close()
		conn.SetDeadline(time.Now().Add(10 * time.Second))
		head := "HEAD /plans HTTP/1.1\r\nHost: " + r.URL.Host + "\r\n"
		for name := range r.Header {
			head += name + ": " + r.Header.Get(name) + "\r\n"
		}
		if isTogether {
			io.WriteString(conn, head+"\r\n"+both)
		} else {
			io.WriteString(conn, head+"\r\n")
			time.Sleep(100 * time.Millisecond)
			io.WriteString(conn, both)
		}
		text, err := io.ReadAll(conn)
		if err != nil || strings.Count(string(text), "HTTP/1.1 ") != 2 || !strings.Contains(string(text), "HTTP/1.1 400") {
			t.Fatalf("%v %q %v", isTogether, text, err)
		}
	}
}

// What fails in the middle of a call.
func TestFaults(t *testing.T) {
	s, stand, green, _ := newGateway(t, nil)
	expect(t, green.do("PUT", "/plans", nil), 200, "")
	expect(t, green.do("PUT", "/plans/x", []byte("abc"), "x-amz-meta-n", "1"), 200, "")
	overwritten := 0
	overwrite := func() {
		overwritten++
		data := []byte(fmt.Sprint("other ", overwritten))
		stand.tenants["green"].buckets["plans"].keys["x"][0] = &storedVersion{id: "null", at: "2026-01-01T00:00:00Z", sum: sum(data), data: data}
	}
	for _, it := range []struct {
		name, method, target string
		body                 []byte
		fields               []string
		before               func(r *http.Request)
		refusal              func(r *http.Request) int
		status               int
		code                 string
	}{
		{"a note that has no room", "PUT", "/plans/y", []byte("abc"), []string{"x-amz-meta-n", "2"}, nil, func(r *http.Request) int {
			if r.Method == "PUT" && strings.Contains(r.RequestURI, notes.Bucket) {
				return 24
			}
			return 0
		}, 403, "QuotaExceeded"},
		{"its object isn't there", "GET", "/plans/y", nil, nil, nil, nil, 404, "NoSuchKey"},
		{"an object overwritten at each look", "GET", "/plans/x", nil, nil, func(*http.Request) { overwrite() }, nil, 503, "SlowDown"},
		{"a source overwritten before its copy", "PUT", "/plans/z", nil, []string{"x-amz-copy-source", "/plans/x"}, func(r *http.Request) {
			if r.Method == "PUT" {
				overwrite()
			}
		}, nil, 503, "SlowDown"},
		{"a part that is refused", "PUT", "/plans/parts", bytes.Repeat([]byte("a"), 200000), nil, nil, func(r *http.Request) int {
			if strings.Contains(r.RequestURI, "partNumber=3") {
				return 24
			}
			return 0
		}, 403, "QuotaExceeded"},
		{"a completion that is refused", "PUT", "/plans/parts", bytes.Repeat([]byte("a"), 200000), nil, nil, func(r *http.Request) int {
			if r.Method == "POST" && !strings.Contains(r.RequestURI, "uploads") {
				return 29
			}
			return 0
		}, 500, "InternalError"},
		{"a body above 1 MiB", "PUT", "/plans/spooled", bytes.Repeat([]byte("a"), 2<<20), nil, nil, nil, 200, ""},
		{"nothing is there of those parts", "GET", "/plans/parts", nil, nil, nil, nil, 404, "NoSuchKey"},
	} {
		t.Run(it.name, func(t *testing.T) {
			stand.set(func() { stand.before, stand.refusal = it.before, it.refusal })
			expect(t, green.do(it.method, it.target, it.body, it.fields...), it.status, it.code)
		})
	}
	stand.set(func() {
		if left := len(stand.tenants["green"].buckets["plans"].uploads); left != 0 {
			t.Fatal(left, "uploads are left")
		}
	})
	s.Spool.Folder, s.Piece = "/nonexistent", 4<<20
	expect(t, green.do("PUT", "/plans/spooled", make([]byte, 2<<20)), 500, "InternalError")
}

// A defect of a call is answered as an error, and ends no other call.
func TestDefect(t *testing.T) {
	s, _, green, _ := newGateway(t, nil)
	verifier := s.Verifier
	s.Verifier = nil
	expect(t, green.do("PUT", "/plans", nil), 500, "InternalError")
	s.Verifier = verifier
	expect(t, green.do("PUT", "/plans", nil), 200, "")
	expect(t, green.do("PUT", "/plans?lifecycle", []byte("<LifecycleConfiguration><Rule><Status>Enabled</Status><AbortIncompleteMultipartUpload><DaysAfterInitiation>3"+
		"</DaysAfterInitiation></AbortIncompleteMultipartUpload></Rule></LifecycleConfiguration>")), 200, "")
	expect(t, green.do("DELETE", "/plans?lifecycle", nil), 204, "")
	expect(t, green.do("GET", "/plans?lifecycle", nil), 404, "NoSuchLifecycleConfiguration")
}
