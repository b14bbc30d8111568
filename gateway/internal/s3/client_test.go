package s3

import (
	"bytes"
	"crypto/hmac"
	"crypto/sha1"
	"crypto/sha256"
	"encoding/base64"
	"encoding/hex"
	"encoding/xml"
	"errors"
	"io"
	"net/http"
	"net/http/httptest"
	"net/url"
	"sort"
	"strings"
	"syscall"
	"testing"
	"time"

	"bucketd/gateway/internal/accesslog"
	"bucketd/gateway/internal/host"
	"bucketd/gateway/internal/sigv4"
	"bucketd/gateway/internal/spool"
)

var clock = time.Now

const emptySHA256 = "e3b0c44298fc1c149afbf4c8996fb92427ae41e4649b934ca495991b7852b855"

// signer signs requests by itself, with none of the gateway's functions.
type signer struct {
	base, id, secret, region string
	skew                     time.Duration
	host                     string // in place of the base's
}

func sum256(b []byte) string { s := sha256.Sum256(b); return hex.EncodeToString(s[:]) }

func mac256(key []byte, text string) []byte {
	h := hmac.New(sha256.New, key)
	h.Write([]byte(text))
	return h.Sum(nil)
}

// A request of which all fields are signed; the target is percent-encoded as S3 wants it.
func (s signer) request(method, target string, body []byte, fields map[string]string) *http.Request {
	r, err := http.NewRequest(method, s.base+target, bytes.NewReader(body))
	if err != nil {
		panic(err)
	}
	if s.host != "" {
		r.Host = s.host
	}
	now := clock().Add(s.skew).UTC().Format("20060102T150405Z")
	r.Header.Set("x-amz-date", now)
	for name, value := range fields {
		r.Header.Set(name, value)
	}
	if fields["x-amz-content-sha256"] == "" {
		r.Header.Set("x-amz-content-sha256", sum256(body))
	}
	names := []string{"host"}
	for name := range r.Header {
		names = append(names, strings.ToLower(name))
	}
	sort.Strings(names)
	path, query, _ := strings.Cut(target, "?")
	pairs := []string{}
	for _, it := range strings.Split(query, "&") {
		if it != "" && !strings.Contains(it, "=") {
			it += "="
		}
		pairs = append(pairs, it)
	}
	sort.Strings(pairs)
	text := method + "\n" + path + "\n" + strings.Join(pairs, "&") + "\n"
	for _, name := range names {
		value := r.Header.Get(name)
		if name == "host" {
			value = r.Host
		}
		text += name + ":" + value + "\n"
	}
	text += "\n" + strings.Join(names, ";") + "\n" + r.Header.Get("x-amz-content-sha256")
	scope := now[:8] + "/" + s.region + "/s3/aws4_request"
	key := mac256(mac256(mac256(mac256([]byte("AWS4"+s.secret), now[:8]), s.region), "s3"), "aws4_request")
	signature := hex.EncodeToString(mac256(key, "AWS4-HMAC-SHA256\n"+now+"\n"+scope+"\n"+sum256([]byte(text))))
	r.Header.Set("Authorization", "AWS4-HMAC-SHA256 Credential="+s.id+"/"+scope+", SignedHeaders="+strings.Join(names, ";")+", Signature="+signature)
	return r
}

// answered is a response read to its end.
type answered struct {
	status int
	code   string // of an error
	head   http.Header
	body   string
	err    error // where the body was cut
}

func send(r *http.Request) answered {
	response, err := http.DefaultClient.Do(r)
	if err != nil {
		return answered{err: err}
	}
	defer response.Body.Close()
	text, err := io.ReadAll(response.Body)
	a := answered{status: response.StatusCode, head: response.Header, body: string(text), err: err}
	var fault struct{ Code string }
	if response.StatusCode >= 300 && len(text) > 0 && xml.Unmarshal(text, &fault) == nil {
		a.code = fault.Code
	}
	return a
}

func (s signer) do(method, target string, body []byte, pairs ...string) answered {
	fields := map[string]string{}
	for i := 0; i < len(pairs); i += 2 {
		fields[pairs[i]] = pairs[i+1]
	}
	a := answered{err: syscall.EPIPE}
	for i := 0; i < 20 && isUnsent(a); i++ {
		a = send(s.request(method, target, body, fields))
	}
	return a
}

// isUnsent returns whether a request got no answer since its body couldn't be sent: who still sends when it is refused may find the
// connection closed.
func isUnsent(a answered) bool {
	return a.status == 0 && (errors.Is(a.err, syscall.EPIPE) || errors.Is(a.err, syscall.ECONNRESET))
}

// keyring is keys in memory.
type keyring map[string]string

func (k keyring) Secret(id string) (string, bool) {
	secret, isThere := k[id]
	return secret, isThere
}

// options are those of a gateway of a test.
type options struct {
	Options
	ahead    int
	requests *accesslog.Log
	watch    *watched
}

// A gateway before a stand-in, and clients of two tenants.
func newGateway(t testing.TB, change func(o *options)) (*Server, *standin, signer, signer) {
	stand := newStandin(t)
	o := options{ahead: 4, Options: Options{Region: "us-east-1", Silence: 30 * time.Second, Piece: 65536, MaxPut: 5 << 30, MaxPart: 131072, LastModified: true, Meta: true}}
	if change != nil {
		change(&o)
	}
	s := &Server{
		Options:  o.Options,
		Verifier: &sigv4.Verifier{Keys: keyring(standinSecrets), Region: o.Region, Now: func() time.Time { return clock() }},
		Host:     host.New(host.TCP(stand.listener.Addr().String()), o.ahead),
		Spool:    &spool.Spool{Folder: t.TempDir()},
		Requests: o.requests,
	}
	if o.watch != nil {
		s.Watch, s.Met = o.watch, o.watch.met
	}
	web := httptest.NewUnstartedServer(s)
	web.Config = s.Web()
	web.Listener = Heads(web.Listener, web.Config.ErrorLog)
	web.Start()
	t.Cleanup(web.Close)
	client := func(name string) signer {
		return signer{base: web.URL, id: name + "$k1", secret: name + "secret", region: "us-east-1"}
	}
	return s, stand, client("green"), client("blue")
}

// or returns the first of two texts, unless it is empty.
func or(a, b string) string {
	if a == "" {
		return b
	}
	return a
}

func expect(t *testing.T, a answered, status int, code string) answered {
	t.Helper()
	if a.err != nil || a.status != status || a.code != code {
		t.Fatalf("%d %s, not %d %s: %.300s %v", a.status, a.code, status, code, a.body, a.err)
	}
	return a
}

func escaped(key string) string {
	return strings.ReplaceAll(strings.ReplaceAll(url.QueryEscape(key), "+", "%20"), "%2F", "/")
}

// mac1 signs a text by version 2.
func mac1(secret, text string) string {
	h := hmac.New(sha1.New, []byte(secret))
	h.Write([]byte(text))
	return base64.StdEncoding.EncodeToString(h.Sum(nil))
}
