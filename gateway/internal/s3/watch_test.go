package s3

import (
	"os"
	"strings"
	"sync"
	"testing"
	"time"

	"bucketd/gateway/internal/accesslog"
	"bucketd/gateway/internal/limits"
)

// watched keeps what is told of requests and limits.
type watched struct {
	mu     sync.Mutex
	ended  []accesslog.Request
	limits []string
}

func (*watched) Begun() {}

func (w *watched) Ended(r *accesslog.Request, _ time.Duration) {
	w.mu.Lock()
	defer w.mu.Unlock()
	w.ended = append(w.ended, *r)
}

func (w *watched) met(option string) {
	w.mu.Lock()
	defer w.mu.Unlock()
	w.limits = append(w.limits, option)
}

func (w *watched) last() accesslog.Request {
	for i := 0; i < 500; i++ { // (a request ends after its client has the answer)
		w.mu.Lock()
		if n := len(w.ended); n > 0 {
			r := w.ended[n-1]
			w.ended = nil
			w.mu.Unlock()
			return r
		}
		w.mu.Unlock()
		time.Sleep(10 * time.Millisecond)
	}
	return accesslog.Request{Operation: "nothing was told"}
}

// Operations have S3's names, of a bounded number, and a signature that is refused has its cause.
func TestWatched(t *testing.T) {
	w := &watched{}
	_, _, green, _ := newGateway(t, func(o *options) { o.watch = w })
	expect(t, green.do("PUT", "/plans", nil), 200, "")
	w.last()
	wrong, unknown, behind, other := green, green, green, green
	wrong.secret, unknown.id, behind.skew, other.region = "wrong", "green$k9", -time.Hour, "eu-west-1"
	for _, it := range []struct {
		client           signer
		method, target   string
		operation, cause string
	}{
		{green, "PUT", "/plans/a", "PutObject", ""},
		{green, "GET", "/plans/a", "GetObject", ""},
		{green, "GET", "/plans", "ListObjects", ""},
		{green, "GET", "/plans?list-type=2", "ListObjectsV2", ""},
		{green, "GET", "/", "ListBuckets", ""},
		{green, "PATCH", "/plans/a", "", ""},
		{green, "GET", "/plans/%FF", "", ""},
		{wrong, "GET", "/plans/a", "", "SignatureDoesNotMatch"},
		{unknown, "GET", "/plans/a", "", "InvalidAccessKeyId"},
		{behind, "GET", "/plans/a", "", "RequestTimeTooSkewed"},
		{other, "GET", "/plans/a", "", "AuthorizationHeaderMalformed"},
	} {
		it.client.do(it.method, it.target, nil)
		if r := w.last(); r.Operation != it.operation || r.SignatureCause != it.cause {
			t.Errorf("%s %s: %q %q", it.method, it.target, r.Operation, r.SignatureCause)
		}
	}
	for way, it := range operations {
		if names := strings.Fields(it.names); len(names) == 0 || len(names) > 2 || strings.ContainsAny(names[0], "/?&") {
			t.Errorf("%s is named %q", way, it.names)
		}
	}
}

// A client that is silent, or too slow, is counted by the option that ended it.
func TestLimitsMet(t *testing.T) {
	w := &watched{}
	c := &call{server: &Server{Met: w.met}}
	c.noteSilence(nil)
	c.noteSilence(os.ErrDeadlineExceeded)
	a := &arrival{c: c, payload: slow{}}
	if _, err := a.Read(nil); err == nil || len(w.limits) != 2 || w.limits[0] != limits.Silence || w.limits[1] != limits.LeastRate {
		t.Errorf("%v %v", w.limits, err)
	}
}

// slow comes too slowly.
type slow struct{}

func (slow) Read([]byte) (int, error) { return 0, limits.ErrSlow }
