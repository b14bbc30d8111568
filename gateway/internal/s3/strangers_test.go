package s3

import (
	"bytes"
	"encoding/json"
	"fmt"
	"io"
	"net/http"
	"runtime"
	"strings"
	"sync"
	"testing"

	"bucketd/gateway/internal/accesslog"
)

// lines takes the log's lines.
type lines chan string

func (l lines) Write(b []byte) (int, error) {
	l <- string(b)
	return len(b), nil
}

// Each request has a line: of its own id, with the tenant and the key where those are known, also where its answer was cut.
func TestLines(t *testing.T) {
	told := make(lines, 100)
	requests, err := accesslog.New(told, "json")
	if err != nil {
		t.Fatal(err)
	}
	_, _, green, _ := newGateway(t, func(o *options) { o.requests, o.Piece = requests, 16<<20 })
	wrong, unknown := green, green
	wrong.secret, unknown.id = "greensecreT", "green$secretinplaceofakey"
	next := func() (found map[string]any) {
		t.Helper()
		text := <-told
		for _, secret := range []string{"greensecret", "greensecreT", "secretinplace", "Signature=", "AWS4"} {
			if strings.Contains(text, secret) {
				t.Errorf("%s stands in a line: %s", secret, text)
			}
		}
		if err := json.Unmarshal([]byte(text), &found); err != nil {
			t.Fatal(err, text)
		}
		return found
	}
	for _, it := range []struct {
		name, method, target, body      string
		client                          signer
		status                          float64
		code, tenant, key, call, bucket string
		in                              float64
	}{
		{"a bucket", "PUT", "/plans", "", green, 200, "", "green", "green$k1", "bucket PUT", "plans", 0},
		{"a put", "PUT", "/plans/x", "abc", green, 200, "", "green", "green$k1", "object PUT", "plans", 3},
		{"a get", "GET", "/plans/x", "", green, 200, "", "green", "green$k1", "object GET", "plans", 0},
		{"a delete", "DELETE", "/plans/x", "", green, 204, "", "green", "green$k1", "object DELETE", "plans", 0},
		{"a sub-resource", "GET", "/plans?versions", "", green, 200, "", "green", "green$k1", "bucket GET versions", "plans", 0},
		{"no such key", "GET", "/plans/none", "", green, 404, "NoSuchKey", "green", "green$k1", "object GET", "plans", 0},
		{"all buckets", "GET", "/", "", green, 200, "", "green", "green$k1", "GET", "", 0},
		{"another secret", "GET", "/plans/x", "", wrong, 403, "SignatureDoesNotMatch", "", "green$k1", "", "", 0},
		{"an unknown key", "GET", "/plans/x", "", unknown, 403, "InvalidAccessKeyId", "", "", "", "", 0},
	} {
		a, found := it.client.do(it.method, it.target, []byte(it.body)), next()
		for name, want := range map[string]any{"status": it.status, "code": it.code, "tenant": it.tenant, "key": it.key, "call": it.call, "bucket": it.bucket,
			"in": it.in, "out": float64(len(a.body)), "address": "127.0.0.1", "cut": false, "id": a.head.Get("x-amz-request-id")} {
			if found[name] != want {
				t.Errorf("%s: %s is %v, not %v", it.name, name, found[name], want)
			}
		}
	}
	// A client that goes cuts its answer.
	expect(t, green.do("PUT", "/plans/great", make([]byte, 16<<20)), 200, "")
	next()
	response, err := http.DefaultClient.Do(green.request("GET", "/plans/great", nil, nil))
	if err != nil {
		t.Fatal(err)
	}
	if _, err := io.CopyN(io.Discard, response.Body, 10); err != nil {
		t.Fatal(err)
	}
	response.Body.Close()
	if found := next(); found["cut"] != true || found["call"] != "object GET" || found["status"] != 200.0 || found["id"] != response.Header.Get("x-amz-request-id") {
		t.Errorf("a GET that was cut has the line %v", found)
	}
}

// Documents of 233,000 objects by one key, 60 MB of them, are refused with next to no memory taken, and another tenant is served
// meanwhile.
func TestHostileDocuments(t *testing.T) {
	_, _, green, blue := newGateway(t, nil)
	expect(t, green.do("PUT", "/plans", nil), 200, "")
	expect(t, blue.do("PUT", "/plans", nil), 200, "")
	for name, text := range map[string][]byte{
		"objects": []byte("<Delete>" + strings.Repeat("<Object/>", 233000) + "</Delete>"), "deep": bytes.Repeat([]byte("<Delete>"), 250000),
		"attributes": []byte("<Delete " + strings.Repeat(`a="" `, 400000) + "/>"),
	} {
		const count = 30
		var requests []*http.Request
		for i := 0; i < count; i++ {
			requests = append(requests, green.request("POST", "/plans?delete", text, nil))
		}
		var all sync.WaitGroup
		var before, after runtime.MemStats
		runtime.ReadMemStats(&before)
		for _, it := range requests {
			all.Add(1)
			go func(r *http.Request) {
				defer all.Done()
				// (who still sends when it is refused may find the connection closed)
				if a := send(r); a.err == nil && a.code != "MalformedXML" {
					t.Errorf("%s: %d %s", name, a.status, a.code)
				}
			}(it)
		}
		for i := 0; i < 10; i++ {
			expect(t, blue.do("HEAD", "/plans", nil), 200, "")
		}
		all.Wait()
		runtime.ReadMemStats(&after)
		if taken := (after.TotalAlloc - before.TotalAlloc) / count; taken > 4<<20 {
			t.Errorf("%s: %d bytes were taken for each document", name, taken)
		}
	}
}

// What is longer than a document may be is refused by its head.
func TestLongDocuments(t *testing.T) {
	_, _, green, _ := newGateway(t, nil)
	expect(t, green.do("PUT", "/plans", nil), 200, "")
	for target, most := range map[string]int{"POST /plans?delete": 2 << 20, "PUT /plans?versioning": 64 << 10, "PUT /plans?lifecycle": 64 << 10, "PUT /other": 64 << 10} {
		method, path, _ := strings.Cut(target, " ")
		if a := green.do(method, path, make([]byte, most+1)); a.code != "EntityTooLarge" {
			t.Errorf("%s with %d bytes: %d %s", target, most+1, a.status, a.code)
		}
		if a := green.do(method, path, make([]byte, most)); a.code != "MalformedXML" {
			t.Errorf("%s with %d bytes: %d %s", target, most, a.status, a.code)
		}
	}
}

func TestRegions(t *testing.T) {
	_, _, green, _ := newGateway(t, nil)
	for i, it := range []struct {
		region string
		status int
		code   string
	}{{"", 200, ""}, {"us-east-1", 200, ""}, {"eu-west-1", 400, "IllegalLocationConstraintException"}} {
		text := "<CreateBucketConfiguration><LocationConstraint>" + it.region + "</LocationConstraint></CreateBucketConfiguration>"
		expect(t, green.do("PUT", fmt.Sprintf("/region%d", i), []byte(text)), it.status, it.code)
	}
}

// A connection ends with a request whose signature is refused, and not with one that is refused for other reasons.
func TestConnectionOfARefused(t *testing.T) {
	_, _, green, _ := newGateway(t, nil)
	wrong, unknown := green, green
	wrong.secret, unknown.id = "x", "green$k9"
	for name, it := range map[string]struct {
		client  signer
		isEnded bool
	}{"a wrong secret": {wrong, true}, "an unknown key": {unknown, true}, "no such bucket": {green, false}} {
		response, err := http.DefaultClient.Do(it.client.request("GET", "/none/x", nil, nil))
		if err != nil {
			t.Fatal(err)
		}
		response.Body.Close()
		if response.Close != it.isEnded {
			t.Errorf("%s: the connection ends: %v", name, response.Close)
		}
	}
}
