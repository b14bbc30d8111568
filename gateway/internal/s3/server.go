// Package s3 answers the calls of the S3 API. What it answers is made of the request, the key file, and what bucketd answers to that
// tenant. No byte of a client's head is passed on: requests to bucketd are written anew.
package s3

import (
	"context"
	"errors"
	"io"
	"log"
	"net"
	"net/http"
	"net/url"
	"os"
	"runtime/debug"
	"strconv"
	"strings"
	"sync"
	"sync/atomic"
	"time"
	"unicode/utf8"

	"bucketd/gateway/internal/accesslog"
	"bucketd/gateway/internal/host"
	"bucketd/gateway/internal/limits"
	"bucketd/gateway/internal/notes"
	"bucketd/gateway/internal/s3err"
	"bucketd/gateway/internal/sigv4"
	"bucketd/gateway/internal/spool"
	"bucketd/gateway/internal/xmlio"
)

const (
	writeSlice = 128 << 10              // how many bytes a client has to take within the time that it may be silent
	lingering  = 500 * time.Millisecond // how long the rest of a body is taken that was refused
)

// Options are what a server is told.
type Options struct {
	Region       string        // that signatures name; where it is empty, any
	Domain       string        // takes BUCKET.DOMAIN, too
	Silence      time.Duration // how long a client may be silent within a request; in reading an answer, twice that
	Piece        int64         // the most bytes that bucketd is sent at once
	MaxPut       int64         // the most bytes of a put
	MaxPart      int64         // the most bytes of a part, and of a put with a date, which go to bucketd at once
	LeastRate    limits.Rate   // at which a body has to come
	LastModified bool          // tells Last-Modified on GET and HEAD
	Meta         bool          // keeps metadata
	Alone        bool          // no one writes to the host but through this gateway
}

// Server answers S3 calls. What it has beside its options is no state: what waits, what is known, and how much memory is taken.
type Server struct {
	Options
	Verifier *sigv4.Verifier
	Host     *host.Host
	Spool    *spool.Spool
	Requests *accesslog.Log // has a line for each; nil where none is wanted

	Watch accesslog.Watch // is told of each request; nil where nobody wants to know
	Met   limits.Count    // is told of requests that a limit ended

	documents xmlio.Gate // of those that are read
	tenants   tenants
	parts     partBook
	readers   atomic.Int64   // GETs
	behind    sync.WaitGroup // what goes on after its answer
}

// Web returns what serves connections of clients, with bounds of how long a head or the next request may be waited for.
func (s *Server) Web() *http.Server {
	return &http.Server{Handler: s.Requests.Handler(s, s.Watch), ErrorLog: accesslog.ServerErrors(), ReadHeaderTimeout: 20 * time.Second,
		IdleTimeout: time.Minute, MaxHeaderBytes: 32 << 10, ConnContext: withHead, ConnState: Restart}
}

// Rest waits for what goes on behind answers, for so long at most.
func (s *Server) Rest(patience time.Duration) {
	ended := make(chan struct{})
	go func() {
		s.behind.Wait()
		close(ended)
	}()
	select {
	case <-ended:
	case <-time.After(patience):
	}
}

// call is one S3 call: its body is read and its answer written through it, and it breaks off where its client is silent for a while.
type call struct {
	*sigv4.Caller
	server *Server
	w      http.ResponseWriter
	r      *http.Request // its context ends with the client
	conn   *http.ResponseController
	line   *accesslog.Request // of the log
	query  url.Values
	target host.Object
	route  route
	names  string // of the call in S3's API
	client *host.Client
	own    *tenant
	was    *details // of the key that is held, before
	// isHolding is whether the call has the lock of each key that it looks at.
	isHolding bool
	status    int   // that was answered; 0 before the answer's head is out
	taken     int64 // bytes of the request\'s body, as they came
	// isTaken is whether these are all.
	isTaken bool
	ends    []func()
}

// Read reads the request's body.
func (c *call) Read(b []byte) (int, error) {
	if err := c.conn.SetReadDeadline(time.Now().Add(c.server.Silence)); err != nil {
		return 0, err
	}
	n, err := c.r.Body.Read(b)
	c.noteSilence(err)
	c.taken, c.isTaken = c.taken+int64(n), err == io.EOF
	return n, err
}

// Write writes the answer's body.
func (c *call) Write(b []byte) (written int, err error) {
	for len(b) > written && err == nil {
		var n int
		if err = c.beginWriting(); err != nil {
			break
		}
		n, err = c.w.Write(b[written:min(len(b), written+writeSlice)])
		written += n
	}
	c.noteSilence(err)
	return written, err
}

// noteSilence counts a client that was silent for too long.
func (c *call) noteSilence(err error) {
	if errors.Is(err, os.ErrDeadlineExceeded) {
		c.server.Met.Add(limits.Silence)
	}
}

func (c *call) beginWriting() error {
	return c.conn.SetWriteDeadline(time.Now().Add(2 * c.server.Silence)) // (before it answers, http.Server waits for the body's rest)
}

// atEnd runs something when the call has been answered.
func (c *call) atEnd(act func()) { c.ends = append(c.ends, act) }

// detach lets the call go on though its client goes, so that of what is changed no half is left; it returns what ends that.
func (c *call) detach() (attach func()) {
	attached := c.r
	c.r = c.r.WithContext(context.WithoutCancel(c.r.Context()))
	return func() { c.r = attached }
}

// ServeHTTP answers a call.
func (s *Server) ServeHTTP(w http.ResponseWriter, r *http.Request) {
	c := &call{Caller: &sigv4.Caller{}, server: s, w: w, r: r, conn: http.NewResponseController(w), line: accesslog.Of(r.Context())}
	c.tell("Server", "bucketd-gateway")
	if len(r.TransferEncoding) > 0 {
		c.tell("Connection", "close") // (a proxy may see the end of chunks elsewhere: nothing that follows is taken for a request)
	}
	defer func() {
		for _, act := range c.ends {
			act()
		}
	}()
	err := c.beginReading()
	if err == nil {
		err = c.guard(c.serve)
	}
	if err != nil {
		c.refuse(err)
	}
}

// beginReading bounds how long a body may be waited for. (Without one, net/http itself reads ahead, and the end of that wait would
// be taken for the client's going.)
func (c *call) beginReading() error {
	if err := c.beginWriting(); err != nil || c.r.ContentLength == 0 {
		return err
	}
	return c.conn.SetReadDeadline(time.Now().Add(c.server.Silence))
}

// endReading lets a call wait for bucketd after its body has come.
func (c *call) endReading() error { return c.conn.SetReadDeadline(time.Time{}) }

// guard runs what answers a call; a defect of it is an error, and its stack is logged.
func (c *call) guard(act func() error) (err error) {
	defer func() {
		if it := recover(); it != nil {
			log.Printf("%s %q: %v\n%s", c.r.Method, c.r.URL.Path, it, debug.Stack())
			err = errInternal
		}
	}()
	return act()
}

var errInternal = s3err.New("InternalError", "an error of the gateway")

// told returns an error as the client is told it. What isn't S3's is logged.
func told(err error) *s3err.Error {
	if e, isThere := s3err.Of(err); isThere {
		return e
	}
	var fault *xmlio.DocumentError
	switch {
	case errors.As(err, &fault):
		return s3err.New(fault.Code, fault.Message)
	case errors.Is(err, host.ErrNoAnswer):
		return s3err.New("SlowDown", "the host doesn't answer")
	case errors.Is(err, context.Canceled):
		return s3err.New("SlowDown", "the client has gone")
	}
	log.Print(err)
	return errInternal
}

// refuse answers with an error. Where an answer has begun it ends there: it has fewer bytes than its length, so the client sees that
// it is cut.
func (c *call) refuse(err error) {
	var ofConnection *net.OpError
	if c.line.IsCut = c.status != 0; c.line.IsCut && errors.As(err, &ofConnection) {
		return // (the client has gone)
	}
	e := told(err)
	if c.line.Code = e.Code; e.Code == "SignatureDoesNotMatch" {
		c.line.SignatureCause = e.Code // (also a chunk's)
	}
	if c.line.IsCut {
		return
	}
	var text []byte
	if e.Status != http.StatusNotModified {
		content := xmlio.Document{"Code": e.Code, "Message": e.Message, "Resource": c.r.URL.Path, "RequestId": c.w.Header().Get("x-amz-request-id")}
		if strings.HasPrefix(e.Code, "Authorization") {
			content["Region"] = c.server.Region
		}
		text = c.writer().Error(content)
	}
	if e.Status >= 500 || c.Tenant == "" || e.Code == "IncompleteBody" || e.Code == "EntityTooLarge" {
		c.tell("Connection", "close")
	}
	if c.isBodyLeft(e.Code) {
		// The body isn't waited for before the answer, as the connection ends with it. Behind it net/http takes what comes for a while,
		// so that who still sends finds the answer, and not a broken connection.
		c.tell("Connection", "close")
		if err := c.conn.SetReadDeadline(time.Now().Add(lingering)); err != nil {
			return
		}
	}
	c.send(e.Status, text)
}

// isBodyLeft returns whether a refusal leaves a body that nobody is to wait for: a stranger's, a great one, or one that is too slow.
func (c *call) isBodyLeft(code string) bool {
	left := c.r.ContentLength - c.taken
	if c.r.ContentLength == 0 || left == 0 || c.isTaken {
		return false
	}
	return c.Tenant == "" || left < 0 || left > askedFirst || code == "RequestTimeout" || code == "IncompleteBody"
}

func (c *call) serve() error {
	path, err := c.readTarget()
	if err != nil {
		return err
	}
	caller, err := c.server.Verifier.Verify(c.r, c.query, path)
	if caller != nil {
		c.line.Key = caller.ID
	}
	if err != nil {
		c.line.SignatureCause = sigv4.Cause(err)
		return err
	}
	c.Caller, c.line.Tenant, c.line.Bucket = caller, caller.Tenant, c.target.Bucket
	c.own = c.server.tenants.of(c.Tenant)
	c.client = c.server.Host.Client(c.Tenant, c.ID, c.Secret)
	operation, err := c.findOperation()
	if err != nil {
		return err
	}
	return operation(c)
}

// readTarget reads the query, and which object or bucket the target names. It returns their path as it came.
func (c *call) readTarget() (string, error) {
	if isTwofold(c.r) {
		return "", s3err.New("InvalidRequest", "a body has a length or comes in chunks")
	}
	var err error
	c.query, err = url.ParseQuery(c.r.URL.RawQuery)
	if err != nil || !utf8.ValidString(c.r.URL.Path) || !strings.HasPrefix(c.r.URL.Path, "/") {
		return "", s3err.New("InvalidURI", "the target is no percent-encoded UTF-8")
	}
	for name, values := range c.query {
		if len(values) > 1 {
			return "", s3err.New("InvalidArgument", "a parameter stands twice: "+name)
		}
	}
	path, escaped := c.r.URL.Path, c.r.URL.EscapedPath()
	if _, bucket, _ := c.hostName(); bucket != "" {
		path, escaped = "/"+bucket+path, "/"+bucket+escaped
	}
	c.target.Bucket, c.target.Key, _ = strings.Cut(path[1:], "/")
	return escaped, nil
}

// tell sets fields of the response's head, by name and value; what is empty is left out.
func (c *call) tell(pairs ...string) {
	for i := 0; i < len(pairs); i += 2 {
		if name, value := pairs[i], pairs[i+1]; strings.HasPrefix(name, notes.MetaField) || name == "ETag" {
			c.w.Header()[name] = []string{value} // (in these letters: some clients want them, or make names of them)
		} else if value != "" {
			c.w.Header().Set(name, value)
		}
	}
}

func (c *call) begin(status int) {
	c.status = status
	if c.beginWriting() == nil {
		c.w.WriteHeader(status)
	}
}

// send sends a document, or nothing, as the whole answer. (Where a client doesn't take it, there is nobody left to be told.)
func (c *call) send(status int, text []byte) {
	if text != nil {
		c.tell("Content-Type", "application/xml")
	}
	if status != http.StatusNoContent && status != http.StatusNotModified {
		c.tell("Content-Length", strconv.Itoa(len(text)))
	}
	c.begin(status)
	if c.r.Method != http.MethodHead {
		c.Write(text)
	}
}

func (c *call) writer() xmlio.Writer {
	return xmlio.Writer{Owner: c.Tenant, IsURLEncoded: c.query.Get("encoding-type") == "url", HiddenBucket: notes.Bucket}
}

func (c *call) sendDocument(root string, content any) error {
	c.send(http.StatusOK, c.writer().Whole(root, content))
	return nil
}
