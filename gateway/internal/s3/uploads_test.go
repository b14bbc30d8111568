package s3

import (
	"encoding/base64"
	"net/http"
	"strings"
	"testing"

	"bucketd/gateway/internal/host"
	"bucketd/gateway/internal/notes"
)

func begunUpload(t *testing.T, client signer, target string, fields ...string) string {
	t.Helper()
	_, text, _ := strings.Cut(expect(t, client.do("POST", target+"?uploads", nil, fields...), 200, "").body, "<UploadId>")
	id, _, _ := strings.Cut(text, "<")
	return id
}

func completionOf(tag string) []byte {
	return []byte("<CompleteMultipartUpload><Part><PartNumber>1</PartNumber><ETag>" + tag + "</ETag></Part></CompleteMultipartUpload>")
}

// An upload that is resumed by the id of a listing has its metadata, and none of it stands in the id.
func TestUploadMetadata(t *testing.T) {
	_, stand, green, _ := newGateway(t, nil)
	notesLeft := func() (n int) {
		stand.set(func() {
			for key := range stand.tenants["green"].buckets[notes.Bucket].keys {
				if strings.Contains(key, "upload") {
					n++
				}
			}
		})
		return n
	}
	expect(t, green.do("PUT", "/plans", nil), 200, "")
	told := begunUpload(t, green, "/plans/x", "x-amz-meta-n", "4711", "Content-Type", "text/own")
	_, listed, _ := strings.Cut(expect(t, green.do("GET", "/plans?uploads", nil), 200, "").body, "<UploadId>")
	if listed, _, _ = strings.Cut(listed, "<"); listed != told || len(told) != 16 {
		t.Fatal(listed, told)
	}
	tag := expect(t, green.do("PUT", "/plans/x?partNumber=1&uploadId="+listed, []byte("abc")), 200, "").head.Get("ETag")
	expect(t, green.do("POST", "/plans/x?uploadId="+listed, completionOf(tag)), 200, "")
	if got := whole(green.do("GET", "/plans/x", nil)); got != `200 "abc" n=4711 type=text/own` {
		t.Fatal(got)
	}
	gone := begunUpload(t, green, "/plans/x", "x-amz-meta-n", "1")
	if n := notesLeft(); n != 1 {
		t.Fatal(n)
	}
	expect(t, green.do("DELETE", "/plans/x?uploadId="+gone, nil), 204, "")
	if n := notesLeft(); n != 0 {
		t.Fatal(n)
	}
	// One that finds no room for its metadata isn't begun.
	stand.set(func() {
		stand.refusal = func(r *http.Request) int {
			if r.Method == "PUT" && strings.Contains(r.RequestURI, notes.Bucket) {
				return host.RefusalQuota
			}
			return 0
		}
	})
	expect(t, green.do("POST", "/plans/x?uploads", nil, "x-amz-meta-n", "1"), 403, "QuotaExceeded")
	stand.set(func() {
		stand.refusal = nil
		if n := len(stand.tenants["green"].buckets["plans"].uploads); n != 0 {
			t.Fatal(n, "uploads")
		}
	})
}

// An id of a client's own brings no control byte into an answer.
func TestUploadIDs(t *testing.T) {
	_, _, green, _ := newGateway(t, nil)
	expect(t, green.do("PUT", "/plans", nil), 200, "")
	id := begunUpload(t, green, "/plans/x")
	tag := expect(t, green.do("PUT", "/plans/x?partNumber=1&uploadId="+id, []byte("abc")), 200, "").head.Get("ETag")
	pack := func(text string) string { return id + "." + base64.RawURLEncoding.EncodeToString([]byte(text)) }
	for _, text := range []string{`{"x-amz-meta-a":"v\u0000"}`, `{"x-amz-meta-a":"a\r\nb: c"}`, `{"content-type":"\u007f"}`} {
		expect(t, green.do("POST", "/plans/x?uploadId="+pack(text), completionOf(tag)), 400, "InvalidArgument")
	}
	expect(t, green.do("POST", "/plans/x?uploadId="+pack(`{"x-amz-meta-n":"9"}`), completionOf(tag)), 200, "")
	if got := whole(green.do("GET", "/plans/x", nil)); got != `200 "abc" n=9 type=binary/octet-stream` {
		t.Fatal(got)
	}
}
