// Package status tells an operator how the gateway is, and the host behind it: in a line at /healthz, and in Prometheus' text format at
// /metrics. Neither has a secret, an access key, or the name of a bucket or an object.
package status

import (
	"context"
	"errors"
	"fmt"
	"io"
	"net/http"
	"strings"
	"sync"
	"time"
	"unicode"

	"bucketd/gateway/internal/accesslog"
	"bucketd/gateway/internal/host"
	"bucketd/gateway/internal/limits"
)

const (
	healthPatience = 2 * time.Second // how long the host may take to answer
	believedFor    = time.Second     // how long its health isn't asked for again
)

// Sources are what is told of, beside the requests.
type Sources struct {
	Host           *host.Host
	Operators      *host.Operators // who are told what is stored; nil where nobody is asked
	Connections    func() int      // of clients
	MaxConnections int
	Spool          *limits.Spool
	Certificates   func() (end time.Time, isThere bool) // when the first of them ends; nil where there are none
	Backups        string                               // the pattern of their files' names; empty where nobody looks
}

// Server serves both. Connections and requests of clients are no matter of it.
func Server(metrics *Metrics, from Sources) *http.Server {
	health := &health{check: from.Host.Check}
	metrics.watch(from, health)
	page := metrics.handler()
	answer := func(w http.ResponseWriter, r *http.Request) {
		w.Header().Set("Cache-Control", "no-store")
		w.Header().Set("X-Content-Type-Options", "nosniff")
		switch {
		case r.Method != http.MethodGet && r.Method != http.MethodHead:
			w.Header().Set("Allow", "GET, HEAD")
			http.Error(w, "only GET and HEAD are there", http.StatusMethodNotAllowed)
		case r.URL.Path == "/healthz":
			health.ServeHTTP(w, r)
		case r.URL.Path == "/metrics":
			page.ServeHTTP(w, r)
		default:
			http.Error(w, "only /healthz and /metrics are there", http.StatusNotFound)
		}
	}
	return &http.Server{Handler: http.HandlerFunc(answer), ErrorLog: accesslog.ServerErrors(), ReadTimeout: 10 * time.Second,
		WriteTimeout: 30 * time.Second, IdleTimeout: 2 * time.Minute, MaxHeaderBytes: 8 << 10}
}

// health knows whether the host answers.
type health struct {
	check func(context.Context) error
	mu    sync.Mutex
	asked time.Time
	cause error // nil where it answers
}

// now returns nil where the host answers, and else why it doesn't. Who asks while it is asked waits for the same answer.
func (h *health) now() error {
	h.mu.Lock()
	defer h.mu.Unlock()
	if time.Since(h.asked) < believedFor {
		return h.cause
	}
	ctx, cancel := context.WithTimeout(context.Background(), healthPatience)
	defer cancel()
	h.cause = h.check(ctx)
	if h.cause != nil && errors.Is(ctx.Err(), context.DeadlineExceeded) {
		h.cause = fmt.Errorf("no answer within %v", healthPatience)
	}
	h.asked = time.Now()
	return h.cause
}

func (h *health) ServeHTTP(w http.ResponseWriter, _ *http.Request) {
	w.Header().Set("Content-Type", "text/plain; charset=utf-8")
	if cause := h.now(); cause != nil {
		w.WriteHeader(http.StatusServiceUnavailable)
		io.WriteString(w, "the host doesn't answer: "+oneLine(cause.Error())+"\n")
		return
	}
	io.WriteString(w, "ok\n")
}

// oneLine returns a text without what would end its line.
func oneLine(text string) string {
	return strings.Map(func(r rune) rune {
		if unicode.IsControl(r) {
			return ' '
		}
		return r
	}, text)
}
