package s3

// A stand-in of bucketd in memory: one connection at a time, one request each, the same fields and documents.

import (
	"bufio"
	"bytes"
	"crypto/sha256"
	"encoding/base64"
	"encoding/hex"
	"encoding/json"
	"fmt"
	"io"
	"net"
	"net/http"
	"net/url"
	"sort"
	"strconv"
	"strings"
	"sync"
	"testing"
	"time"
)

type storedVersion struct {
	id     string
	marker bool
	at     string
	sum    string
	data   []byte
	until  string // the date before which it stays
}
type storedUpload struct {
	id, key, at string
	parts       map[int]*storedVersion
}
type storedBucket struct {
	made, state string
	locked      bool
	days        int
	keys        map[string][]*storedVersion // newest first
	uploads     map[string]*storedUpload
}
type storedTenant struct {
	quota    int // 0 is none
	buckets  map[string]*storedBucket
	versions int
	uploads  int
}

// standin has the state of a host; what it does before it answers can be set.
type standin struct {
	t        testing.TB
	listener net.Listener
	mu       sync.Mutex
	tenants  map[string]*storedTenant
	minPart  int
	before   func(r *http.Request)     // called before each request is applied
	refusal  func(r *http.Request) int // where it gives one, the request is refused
	requests int
}

var standinSecrets = map[string]string{"green$k1": "greensecret", "blue$k1": "bluesecret"}

var codes = map[int][2]string{1: {"400", "BadRequest"}, 2: {"501", "NotImplemented"}, 3: {"411", "MissingContentLength"}, 4: {"400", "EntityTooLarge"}, 5: {"403", "AccessDenied"}, 6: {"403", "InvalidAccessKeyId"}, 7: {"400", "InvalidURI"}, 8: {"400", "InvalidBucketName"}, 9: {"400", "KeyTooLongError"}, 10: {"400", "InvalidArgument"}, 11: {"400", "MalformedJSON"}, 12: {"404", "NoSuchBucket"}, 13: {"404", "NoSuchKey"}, 14: {"404", "NoSuchVersion"}, 15: {"404", "NoSuchUpload"}, 16: {"405", "MethodNotAllowed"}, 17: {"409", "BucketAlreadyOwnedByYou"}, 18: {"409", "BucketNotEmpty"}, 19: {"409", "InvalidBucketState"}, 20: {"404", "NoSuchLifecycleConfiguration"}, 21: {"400", "InvalidPart"}, 22: {"400", "InvalidPartOrder"}, 23: {"400", "EntityTooSmall"}, 24: {"403", "QuotaExceeded"}, 25: {"416", "InvalidRange"}, 26: {"400", "BadDigest"}, 27: {"400", "IncompleteBody"}, 28: {"400", "InvalidRequest"}, 29: {"500", "CounterExhausted"}, 30: {"500", "ClockOutOfRange"}, 31: {"503", "ServiceUnavailable"}}

const maxBody = 16 << 20

type standinAnswer struct {
	status int
	fields []string
	body   []byte
	length int
	kind   string
}

func refuse(n int, fields ...string) *standinAnswer {
	s, _ := strconv.Atoi(codes[n][0])
	a := &standinAnswer{status: s, fields: append(fields, fmt.Sprintf("x-refusal: %d %s", n, codes[n][1])), kind: "application/json"}
	a.body = []byte(`{"Code":"` + codes[n][1] + `","Resource":"/"}`)
	a.length = len(a.body)
	return a
}
func doc(v any) *standinAnswer {
	b, _ := json.Marshal(v)
	return &standinAnswer{status: 200, body: b, length: len(b), kind: "application/json"}
}
func empty(status int, fields ...string) *standinAnswer {
	return &standinAnswer{status: status, fields: fields}
}

func sum(b []byte) string {
	s := sha256.Sum256(b)
	return base64.StdEncoding.EncodeToString(s[:])
}

type jsonObject map[string]any

func (t *storedTenant) bytes() (size int) {
	for _, b := range t.buckets {
		for _, vs := range b.keys {
			for _, v := range vs {
				size += len(v.data)
			}
		}
		for _, u := range b.uploads {
			for _, p := range u.parts {
				size += len(p.data)
			}
		}
	}
	return size
}

// isOver returns whether so many bytes more, in place of others, leave more than the quota and more than before.
func (t *storedTenant) isOver(more, old int) bool {
	return t.quota > 0 && more > old && t.bytes()+more-old > t.quota
}

func (s *standin) handle(r *http.Request, body []byte) *standinAnswer {
	id := r.Header.Get("x-access-key")
	if secret, ok := standinSecrets[id]; !ok {
		return refuse(6)
	} else if secret != r.Header.Get("x-secret-key") {
		return refuse(5)
	}
	name, _, _ := strings.Cut(id, "$")
	t := s.tenants[name]
	if t == nil {
		t = &storedTenant{buckets: map[string]*storedBucket{}}
		s.tenants[name] = t
	}
	raw, query, _ := strings.Cut(r.RequestURI, "?")
	path, err := url.PathUnescape(raw)
	if err != nil {
		return refuse(10)
	}
	q, _ := url.ParseQuery(query)
	for _, it := range []string{"acl", "delete", "location", "policy", "start-after", "tagging", "cors", "object-lock", "legal-hold"} {
		if q.Has(it) {
			return refuse(2)
		}
	}
	mode, until := r.Header.Get("x-amz-object-lock-mode"), r.Header.Get("x-amz-object-lock-retain-until-date")
	if r.Method == "POST" && mode+until != "" || r.Header.Get("x-amz-object-lock-legal-hold") != "" {
		return refuse(2)
	}
	bname, key, _ := strings.Cut(strings.TrimPrefix(path, "/"), "/")
	now := clock().UTC().Format("2006-01-02T15:04:05Z")
	if q.Has("usage") {
		quota := t.quota
		if quota == 0 {
			quota = 1 << 40
		}
		return doc(jsonObject{"Buckets": len(t.buckets), "Bytes": t.bytes(), "Markers": 0, "Objects": 0, "PartBytes": 0, "Quota": quota, "Uploads": 0, "VersionBytes": 0, "Versions": 0})
	}
	if bname == "" {
		names := []string{}
		for n := range t.buckets {
			names = append(names, n)
		}
		sort.Strings(names)
		list := []jsonObject{}
		for _, n := range names {
			list = append(list, jsonObject{"Name": n, "CreationDate": t.buckets[n].made})
		}
		return doc(jsonObject{"Buckets": list})
	}
	b := t.buckets[bname]
	m := r.Method
	if key == "" && m == "PUT" && query == "" {
		enabled := r.Header.Get("x-amz-bucket-object-lock-enabled")
		if enabled != "" && enabled != "true" && enabled != "false" {
			return refuse(10)
		}
		if b != nil {
			return refuse(17)
		}
		b = &storedBucket{made: now, keys: map[string][]*storedVersion{}, uploads: map[string]*storedUpload{}}
		if t.buckets[bname] = b; enabled == "true" {
			b.locked, b.state = true, "Enabled"
		}
		return empty(200)
	}
	if b == nil {
		return refuse(12)
	}
	if key == "" {
		switch {
		case m == "HEAD":
			return empty(200)
		case m == "DELETE" && q.Has("lifecycle"):
			b.days = 0
			return empty(204)
		case m == "DELETE":
			if len(b.keys) > 0 || len(b.uploads) > 0 {
				return refuse(18)
			}
			delete(t.buckets, bname)
			return empty(204)
		case q.Has("versioning") && m == "GET":
			if b.state == "" {
				return doc(jsonObject{})
			}
			return doc(jsonObject{"Status": b.state})
		case q.Has("versioning"):
			var v struct{ Status string }
			if json.Unmarshal(body, &v) != nil || v.Status != "Enabled" && v.Status != "Suspended" {
				return refuse(11)
			}
			if b.locked && v.Status == "Suspended" {
				return refuse(19)
			}
			b.state = v.Status
			return empty(200)
		case q.Has("lifecycle") && m == "GET":
			if b.days == 0 {
				return refuse(20)
			}
			return doc(jsonObject{"Rules": []jsonObject{{"AbortIncompleteMultipartUpload": jsonObject{"DaysAfterInitiation": b.days}, "Status": "Enabled"}}})
		case q.Has("lifecycle"):
			var v struct {
				Rules []struct {
					AbortIncompleteMultipartUpload struct{ DaysAfterInitiation int }
				}
			}
			if json.Unmarshal(body, &v) != nil || len(v.Rules) != 1 {
				return refuse(11)
			}
			b.days = v.Rules[0].AbortIncompleteMultipartUpload.DaysAfterInitiation
			return empty(200)
		case m == "GET":
			return list(bname, b, q)
		}
		return refuse(16)
	}
	vs := b.keys[key]
	find := func() (*storedVersion, *standinAnswer) {
		if !q.Has("versionId") {
			if len(vs) == 0 {
				return nil, refuse(13)
			}
			if vs[0].marker {
				return nil, refuse(13, "x-amz-delete-marker: true")
			}
			return vs[0], nil
		}
		for _, v := range vs {
			if v.id == q.Get("versionId") {
				if v.marker {
					return nil, refuse(16, "x-amz-delete-marker: true")
				}
				return v, nil
			}
		}
		return nil, refuse(14)
	}
	drop := func(id string) *storedVersion {
		for i, v := range b.keys[key] {
			if v.id == id {
				b.keys[key] = append(append([]*storedVersion{}, b.keys[key][:i]...), b.keys[key][i+1:]...)
				if len(b.keys[key]) == 0 {
					delete(b.keys, key)
				}
				return v
			}
		}
		return nil
	}
	ids := func(id string) []string {
		if b.state == "" {
			return nil
		}
		return []string{"x-amz-version-id: " + id}
	}
	put := func(v *storedVersion) []string {
		v.at, v.id = now, "null"
		if b.state == "Enabled" {
			t.versions++
			v.id = fmt.Sprintf("%016x", t.versions)
		} else {
			drop("null")
		}
		b.keys[key] = append([]*storedVersion{v}, b.keys[key]...)
		return ids(v.id)
	}
	want := r.Header.Get("x-amz-checksum-sha256")
	// What a date is refused with, of a version that has another one or none.
	refusedDate := func(mode, until, present string) int {
		at, err := time.Parse("2006-01-02T15:04:05Z", until)
		switch {
		case !b.locked:
			return 28
		case mode != "COMPLIANCE" || err != nil || at.Unix() <= clock().Unix():
			return 10
		case until < present:
			return 5
		}
		return 0
	}
	if q.Has("retention") && (m == "GET" || m == "PUT") {
		var v struct{ Mode, RetainUntilDate string }
		if m == "PUT" && (json.Unmarshal(body, &v) != nil || v.Mode == "" || v.RetainUntilDate == "") {
			return refuse(11)
		}
		it, f := find()
		if f != nil {
			return f
		}
		if m == "GET" && it.until == "" {
			return doc(jsonObject{})
		}
		if m == "GET" {
			return doc(jsonObject{"Mode": "COMPLIANCE", "RetainUntilDate": it.until})
		}
		if n := refusedDate(v.Mode, v.RetainUntilDate, it.until); n != 0 {
			return refuse(n)
		}
		it.until = v.RetainUntilDate
		return empty(200)
	}
	if q.Has("uploads") && m == "POST" {
		t.uploads++
		u := &storedUpload{id: fmt.Sprintf("%016x", t.uploads), key: key, at: now, parts: map[int]*storedVersion{}}
		b.uploads[u.id] = u
		return doc(jsonObject{"Bucket": bname, "Key": key, "UploadId": u.id})
	}
	if q.Has("uploadId") {
		u := b.uploads[q.Get("uploadId")]
		if u == nil || u.key != key {
			return refuse(15)
		}
		switch m {
		case "PUT":
			n, _ := strconv.Atoi(q.Get("partNumber"))
			if n < 1 || n > 10000 {
				return refuse(10)
			}
			s := sum(body)
			if want != "" && want != s {
				return refuse(26)
			}
			old := 0
			if p := u.parts[n]; p != nil {
				old = len(p.data)
			}
			if t.isOver(len(body), old) {
				return refuse(24)
			}
			u.parts[n] = &storedVersion{data: body, sum: s, at: now}
			return empty(200, "x-amz-checksum-sha256: "+s)
		case "DELETE":
			delete(b.uploads, u.id)
			return empty(204)
		case "GET":
			max, after := 1000, 0
			if q.Has("max-parts") {
				max, _ = strconv.Atoi(q.Get("max-parts"))
			}
			after, _ = strconv.Atoi(q.Get("part-number-marker"))
			out := []jsonObject{}
			d := jsonObject{"Bucket": bname, "Key": key, "UploadId": u.id, "MaxParts": max, "IsTruncated": false}
			for n := after + 1; n <= 10000; n++ {
				if p := u.parts[n]; p != nil {
					if len(out) == max {
						d["IsTruncated"] = true
						d["NextPartNumberMarker"] = out[len(out)-1]["PartNumber"]
						break
					}
					out = append(out, jsonObject{"ChecksumSHA256": p.sum, "LastModified": p.at, "PartNumber": n, "Size": len(p.data)})
				}
			}
			d["Parts"] = out
			return doc(d)
		}
		var v struct {
			Parts []struct {
				ChecksumSHA256 string
				PartNumber     int
			}
		}
		if json.Unmarshal(body, &v) != nil || len(v.Parts) == 0 {
			return refuse(11)
		}
		var whole, digests []byte
		for i, it := range v.Parts {
			p := u.parts[it.PartNumber]
			if i > 0 && it.PartNumber <= v.Parts[i-1].PartNumber {
				return refuse(22)
			}
			if p == nil || it.ChecksumSHA256 != "" && it.ChecksumSHA256 != p.sum {
				return refuse(21)
			}
			if i < len(v.Parts)-1 && len(p.data) < s.minPart {
				return refuse(23)
			}
			whole = append(whole, p.data...)
			d, _ := base64.StdEncoding.DecodeString(p.sum)
			digests = append(digests, d...)
		}
		delete(b.uploads, u.id)
		n := &storedVersion{data: whole, sum: sum(digests) + "-" + strconv.Itoa(len(v.Parts))}
		fields := put(n)
		a := doc(jsonObject{"Bucket": bname, "ChecksumSHA256": n.sum, "Key": key})
		a.fields = fields
		return a
	}
	switch m {
	case "PUT":
		if src := r.Header.Get("x-amz-copy-source"); src != "" {
			p, id, has := strings.Cut(strings.TrimPrefix(src, "/"), "?versionId=")
			sb, sk, _ := strings.Cut(p, "/")
			sb, _ = url.PathUnescape(sb)
			sk, _ = url.PathUnescape(sk)
			from := t.buckets[sb]
			if from == nil {
				return refuse(12)
			}
			for _, v := range from.keys[sk] {
				if !has && !v.marker || v.id == id && !v.marker {
					n := &storedVersion{data: v.data, sum: v.sum, until: until}
					if it := refusedDate(mode, until, ""); mode+until != "" && it != 0 {
						return refuse(it)
					}
					fields := put(n)
					a := doc(jsonObject{"ChecksumSHA256": n.sum, "LastModified": n.at})
					a.fields = fields
					return a
				}
				if !has {
					break
				}
			}
			if has {
				return refuse(14)
			}
			return refuse(13)
		}
		s := sum(body)
		if want != "" && want != s {
			return refuse(26)
		}
		n, old := &storedVersion{data: body, sum: s, until: until}, 0
		for _, v := range vs {
			if v.id == "null" && b.state != "Enabled" {
				old = len(v.data)
			}
		}
		if t.isOver(len(body), old) {
			return refuse(24)
		}
		if it := refusedDate(mode, until, ""); mode+until != "" && it != 0 {
			return refuse(it)
		}
		fields := put(n)
		return empty(200, append([]string{"x-amz-checksum-sha256: " + s}, fields...)...)
	case "GET", "HEAD":
		v, f := find()
		if f != nil {
			return f
		}
		a := &standinAnswer{status: 200, body: v.data, kind: "application/octet-stream"}
		if text := r.Header.Get("range"); m == "GET" && strings.HasPrefix(text, "bytes=") {
			x, y, _ := strings.Cut(text[6:], "-")
			size := int64(len(v.data))
			first, e1 := strconv.ParseInt(x, 10, 64)
			last, e2 := strconv.ParseInt(y, 10, 64)
			if x == "" {
				first, last = size-last, size-1
			} else if y == "" || last >= size {
				last = size - 1
			}
			if (e1 == nil || x == "") && (e2 == nil || y == "") {
				if first >= size || size == 0 {
					return refuse(25, fmt.Sprintf("content-range: bytes */%d", size))
				}
				if first < 0 {
					first = 0
				}
				a.status, a.body = 206, v.data[first:last+1]
				a.fields = append(a.fields, fmt.Sprintf("content-range: bytes %d-%d/%d", first, last, size))
			}
		}
		a.length = len(a.body)
		a.fields = append(append(a.fields, "accept-ranges: bytes", "x-amz-checksum-sha256: "+v.sum), ids(v.id)...)
		return a
	case "DELETE":
		if q.Has("versionId") {
			for _, v := range vs {
				at, err := time.Parse("2006-01-02T15:04:05Z", v.until)
				if v.id == q.Get("versionId") && err == nil && clock().Unix() < at.Unix() {
					return refuse(5)
				}
			}
			if v := drop(q.Get("versionId")); v != nil {
				f := ids(v.id)
				if v.marker {
					f = append(f, "x-amz-delete-marker: true")
				}
				return empty(204, f...)
			}
			return empty(204)
		}
		if b.state == "" {
			drop("null")
			return empty(204)
		}
		return empty(204, append(put(&storedVersion{marker: true}), "x-amz-delete-marker: true")...)
	}
	return refuse(16)
}

type item struct {
	name, second string
	o            jsonObject
}

func list(bname string, b *storedBucket, q url.Values) *standinAnswer {
	prefix, delimiter := q.Get("prefix"), q.Get("delimiter")
	max := 1000
	for _, n := range []string{"max-keys", "max-uploads"} {
		if q.Has(n) {
			max, _ = strconv.Atoi(q.Get(n))
		}
	}
	if max > 1000 {
		max = 1000
	}
	marker, second := q.Get("key-marker"), q.Get("version-id-marker")
	if q.Has("uploads") {
		second = q.Get("upload-id-marker")
	}
	if q.Has("list-type") {
		t, err := hex.DecodeString(q.Get("continuation-token"))
		if err != nil {
			return refuse(10)
		}
		marker = string(t)
	}
	all := []item{}
	seen := map[string]bool{}
	add := func(key, second string, o jsonObject) {
		if !strings.HasPrefix(key, prefix) {
			return
		}
		if i := strings.Index(key[len(prefix):], delimiter); delimiter != "" && i >= 0 {
			n := key[:len(prefix)+i+len(delimiter)]
			if !seen[n] {
				seen[n] = true
				all = append(all, item{name: n})
			}
			return
		}
		all = append(all, item{key, second, o})
	}
	if q.Has("uploads") {
		for _, u := range b.uploads {
			add(u.key, u.id, jsonObject{"Key": u.key, "UploadId": u.id, "Initiated": u.at})
		}
		sort.Slice(all, func(i, j int) bool {
			return all[i].name < all[j].name || all[i].name == all[j].name && all[i].second < all[j].second
		})
	} else {
		for k, vs := range b.keys {
			for i, v := range vs {
				o := jsonObject{"Key": k, "LastModified": v.at}
				if !v.marker {
					o["Size"], o["ChecksumSHA256"] = len(v.data), v.sum
				}
				if q.Has("versions") {
					o["IsLatest"], o["VersionId"], o["DeleteMarker"] = i == 0, v.id, v.marker
					add(k, v.id, o)
				} else if i == 0 && !v.marker {
					add(k, "", o)
				}
			}
		}
		sort.SliceStable(all, func(i, j int) bool { return all[i].name < all[j].name })
	}
	d := jsonObject{"IsTruncated": false, "Name": bname, "Prefix": prefix}
	page, prefixes, contents, passed := 0, []jsonObject{}, []jsonObject{}, false
	var last item
	for _, it := range all {
		if it.name < marker || it.name == marker && marker != "" {
			if !(it.name == marker && second != "" && it.o != nil) {
				continue
			}
			if q.Has("uploads") && it.second <= second {
				continue
			}
			if q.Has("versions") && !passed {
				passed = it.second == second
				continue
			}
		}
		if page == max {
			d["IsTruncated"] = max > 0
			break
		}
		page++
		last = it
		if it.o == nil {
			prefixes = append(prefixes, jsonObject{"Prefix": it.name})
		} else {
			contents = append(contents, it.o)
		}
	}
	cut := d["IsTruncated"] == true
	d["CommonPrefixes"] = prefixes
	switch {
	case q.Has("uploads"):
		d["Uploads"], d["MaxUploads"], d["Bucket"] = contents, max, bname
		if cut {
			d["NextKeyMarker"] = last.name
			if last.o != nil {
				d["NextUploadIdMarker"] = last.second
			}
		}
	case q.Has("versions"):
		d["Versions"], d["MaxKeys"] = contents, max
		if cut {
			d["NextKeyMarker"] = last.name
			if last.o != nil {
				d["NextVersionIdMarker"] = last.second
			}
		}
	default:
		d["Contents"], d["MaxKeys"], d["KeyCount"] = contents, max, page
		if cut {
			d["NextContinuationToken"] = hex.EncodeToString([]byte(last.name))
		}
	}
	return doc(d)
}

func newStandin(t testing.TB) *standin {
	s := &standin{t: t, tenants: map[string]*storedTenant{}, minPart: 1}
	s.listen("127.0.0.1:0")
	t.Cleanup(func() { s.listener.Close() })
	return s
}

func (s *standin) listen(address string) {
	listener, err := net.Listen("tcp", address)
	for i := 0; err != nil && i < 100; i++ { // (another program may have the port for a moment)
		time.Sleep(20 * time.Millisecond)
		listener, err = net.Listen("tcp", address)
	}
	if err != nil {
		s.t.Error(err)
		return
	}
	s.listener = listener
	go func() {
		for {
			conn, err := listener.Accept()
			if err != nil {
				return
			}
			s.serve(conn)
		}
	}()
}

func (s *standin) serve(conn net.Conn) {
	defer conn.Close()
	conn.SetDeadline(time.Now().Add(30 * time.Second))
	r, err := http.ReadRequest(bufio.NewReader(conn))
	if err != nil {
		return
	}
	var a *standinAnswer
	if (r.Method == "PUT" || r.Method == "POST") && r.Header.Get("Content-Length") == "" {
		a = refuse(3)
	} else if r.ContentLength > maxBody {
		a = refuse(4)
	} else {
		body := make([]byte, r.ContentLength)
		if _, err = io.ReadFull(r.Body, body); err != nil {
			return
		}
		s.mu.Lock()
		s.requests++
		if s.before != nil {
			s.before(r)
		}
		number := 0
		if s.refusal != nil {
			number = s.refusal(r)
		}
		if number != 0 {
			a = refuse(number, "allow: GET, HEAD", "content-range: bytes */7")
		} else {
			a = s.handle(r, body)
		}
		s.mu.Unlock()
	}
	var out bytes.Buffer
	fmt.Fprintf(&out, "HTTP/1.1 %d X\r\n", a.status)
	if a.kind != "" {
		fmt.Fprintf(&out, "content-type: %s\r\n", a.kind)
	}
	if a.status != 204 {
		fmt.Fprintf(&out, "content-length: %d\r\n", a.length)
	}
	for _, f := range a.fields {
		out.WriteString(f + "\r\n")
	}
	out.WriteString("connection: close\r\n\r\n")
	if r.Method != "HEAD" {
		out.Write(a.body)
	}
	conn.Write(out.Bytes())
}

// Changes the stand-in between two requests.
func (s *standin) set(change func()) {
	s.mu.Lock()
	defer s.mu.Unlock()
	change()
}
