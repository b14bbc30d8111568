// Package accesslog writes a line for each request, of what an operator and fail2ban want to know: never a secret, a signature or a
// query.
package accesslog

import (
	"context"
	"crypto/rand"
	"encoding/hex"
	"fmt"
	"io"
	"log"
	"log/slog"
	"net"
	"net/http"
	"regexp"
	"strings"
	"time"

	"bucketd/gateway/internal/limits"
)

// IDField is the field of a response's head that has the request's id, as its line has it.
const IDField = "X-Amz-Request-Id"

// A Request is what is told of one. Who answers it sets its fields but the id, which is there from the start.
type Request struct {
	ID     string // random, so that it tells nothing of other requests
	Tenant string // empty where the signature was refused
	Key    string // the access key's id, where there is such a key
	Call   string // as the gateway names it
	Bucket string
	Code   string // S3's code of an error
	IsCut  bool   // the answer ended before its end

	Operation      string // S3's name of the call; empty where there is none
	SignatureCause string // why the signature was refused; empty where it wasn't

	Status  int   // that was answered; 0 where none was
	In, Out int64 // bytes of both bodies
}

// A Watch is told of each request. It is called by many at once, and may not wait.
type Watch interface {
	// Begun tells of a request whose head has come.
	Begun()
	// Ended tells of a request that was answered, or whose answer was cut.
	Ended(r *Request, took time.Duration)
}

// A Log writes a line for each request.
type Log struct{ lines *slog.Logger }

// New returns a log of lines of 'text' (name=value) or 'json'.
func New(out io.Writer, format string) (*Log, error) {
	options := &slog.HandlerOptions{ReplaceAttr: func(_ []string, it slog.Attr) slog.Attr {
		if it.Key == slog.LevelKey {
			return slog.Attr{}
		} else if it.Key == slog.TimeKey {
			it.Value = slog.StringValue(it.Value.Time().UTC().Format("2006-01-02T15:04:05.000Z"))
		}
		return it
	}}
	switch format {
	case "text":
		return &Log{slog.New(slog.NewTextHandler(out, options))}, nil
	case "json":
		return &Log{slog.New(slog.NewJSONHandler(out, options))}, nil
	}
	return nil, fmt.Errorf("the log is text or json, not %q", format)
}

type requestKey struct{}

// Of returns the request of a context, which Handler made.
func Of(ctx context.Context) *Request {
	if r, ok := ctx.Value(requestKey{}).(*Request); ok {
		return r
	}
	return &Request{}
}

// Handler has each request answered by another handler, and then writes its line and tells a watch of it, also where the answer was
// cut. Where there is no log no line is written, and where the watch is nil nobody is told.
func (l *Log) Handler(next http.Handler, watch Watch) http.Handler {
	return http.HandlerFunc(func(w http.ResponseWriter, r *http.Request) {
		told, begun := &Request{ID: newID()}, time.Now()
		w.Header().Set(IDField, told.ID)
		counted := &writer{w, told}
		r = r.WithContext(context.WithValue(r.Context(), requestKey{}, told))
		r.Body = &body{r.Body, told}
		if watch != nil {
			watch.Begun()
		}
		defer func() {
			fault, took := recover(), time.Since(begun)
			told.IsCut = told.IsCut || fault != nil
			if watch != nil {
				watch.Ended(told, took)
			}
			if l != nil {
				l.write(told, r.RemoteAddr, took)
			}
			if fault != nil {
				panic(fault)
			}
		}()
		next.ServeHTTP(counted, r)
	})
}

// newID returns a random id of 16 hexadecimal digits.
func newID() string {
	var random [8]byte
	if _, err := rand.Read(random[:]); err != nil {
		log.Printf("the system gives no random bytes: %v", err)
	}
	return strings.ToUpper(hex.EncodeToString(random[:]))
}

var bucketForm = regexp.MustCompile("^[a-z0-9.-]{3,63}$")

// write writes the line of a request. What a client chose comes last, and a bucket only where it may be one.
func (l *Log) write(r *Request, address string, took time.Duration) {
	if host, _, err := net.SplitHostPort(address); err == nil {
		address = host
	}
	if !bucketForm.MatchString(r.Bucket) {
		r.Bucket = ""
	}
	milliseconds := float64(took.Microseconds()) / 1000
	values := []slog.Attr{slog.String("id", r.ID), slog.String("address", address), slog.Int("status", r.Status), slog.String("code", r.Code),
		slog.String("tenant", r.Tenant), slog.String("key", r.Key), slog.String("call", r.Call), slog.String("bucket", r.Bucket),
		slog.Int64("in", r.In), slog.Int64("out", r.Out), slog.Float64("ms", milliseconds), slog.Bool("cut", r.IsCut)}
	l.lines.LogAttrs(context.Background(), slog.LevelInfo, "request", values...)
}

// writer counts the bytes of a response's body, and keeps its status.
type writer struct {
	http.ResponseWriter
	told *Request
}

// Unwrap is for http.ResponseController.
func (w *writer) Unwrap() http.ResponseWriter { return w.ResponseWriter }

func (w *writer) WriteHeader(status int) {
	if status >= 200 && w.told.Status == 0 {
		w.told.Status = status
	}
	w.ResponseWriter.WriteHeader(status)
}

func (w *writer) Write(b []byte) (int, error) {
	if w.told.Status == 0 {
		w.told.Status = http.StatusOK
	}
	n, err := w.ResponseWriter.Write(b)
	w.told.Out += int64(n)
	return n, err
}

// body counts the bytes of a request's body that were read.
type body struct {
	io.ReadCloser
	told *Request
}

func (b *body) Read(into []byte) (int, error) {
	n, err := b.ReadCloser.Read(into)
	b.told.In += int64(n)
	return n, err
}

// ServerErrors returns a log for http.Server. What strangers can make it write, the errors of handshakes, it writes once a minute.
func ServerErrors() *log.Logger { return log.New(&serverErrors{}, "", 0) }

type serverErrors struct{ handshakes limits.Seldom }

func (s *serverErrors) Write(line []byte) (int, error) {
	text := strings.TrimSpace(string(line))
	if strings.HasPrefix(text, "http: TLS handshake error") {
		s.handshakes.Say("a TLS handshake failed", "error", text)
	} else {
		slog.Error(text)
	}
	return len(line), nil
}
