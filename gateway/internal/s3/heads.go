package s3

import (
	"bytes"
	"context"
	"crypto/tls"
	"errors"
	"io"
	"log"
	"net"
	"net/http"
	"slices"
	"sync"
)

// net/http takes away a length that stands beside a Transfer-Encoding, so that nobody sees that it stood there. A proxy before the
// gateway may have cut the body by it: what follows would be another client's request for the one, and a body for the other (RFC
// 9112, section 6.1). So each connection keeps the head that comes as it was sent; one of TLS that which came within it. (Then net/http
// doesn't know of TLS: the handshake is ended here, and no other protocol than HTTP/1.1 may be spoken.)

const longestHead = 40 << 10 // bytes; net/http refuses longer ones

// headConn keeps the bytes of a head.
type headConn struct {
	net.Conn
	faults   *log.Logger
	isShaken bool
	mu       sync.Mutex
	head     []byte
	isWhole  bool
}

// heads is a listener of such connections.
type heads struct {
	net.Listener
	faults *log.Logger
}

// Heads returns a listener whose connections keep the heads of requests, until Restart. Handshakes of TLS that fail are logged as
// net/http does.
func Heads(inner net.Listener, faults *log.Logger) net.Listener { return heads{inner, faults} }

// Accept returns the next connection.
func (h heads) Accept() (net.Conn, error) {
	conn, err := h.Listener.Accept()
	if err != nil {
		return nil, err
	}
	return &headConn{Conn: conn, faults: h.faults}, nil
}

// NetConn returns the connection itself.
func (c *headConn) NetConn() net.Conn { return c.Conn }

// CloseWrite tells the client that nothing more comes.
func (c *headConn) CloseWrite() error {
	if inner, ok := c.Conn.(interface{ CloseWrite() error }); ok {
		return inner.CloseWrite()
	}
	return nil
}

// The first bytes of requests without TLS.
var plainHeads = []string{"GET /", "HEAD ", "PUT /", "POST ", "DELET", "OPTIO"}

// shake ends the handshake of TLS, where there is one. Who speaks HTTP without it is told so.
func (c *headConn) shake() error {
	secure, isSecure := c.Conn.(*tls.Conn)
	if !isSecure || c.isShaken {
		return nil
	}
	err := secure.Handshake()
	c.isShaken = err == nil
	var plain tls.RecordHeaderError
	if errors.As(err, &plain) && plain.Conn != nil && slices.Contains(plainHeads, string(plain.RecordHeader[:])) {
		io.WriteString(plain.Conn, "HTTP/1.0 400 Bad Request\r\n\r\nClient sent an HTTP request to an HTTPS server.\n")
		plain.Conn.Close()
	}
	if err != nil {
		c.faults.Printf("http: TLS handshake error from %s: %v", c.RemoteAddr(), err)
	}
	return err
}

// Read reads as the connection does.
func (c *headConn) Read(b []byte) (int, error) {
	if err := c.shake(); err != nil {
		return 0, io.EOF // (what net/http would answer could not be sent)
	}
	n, err := c.Conn.Read(b)
	c.mu.Lock()
	defer c.mu.Unlock()
	if !c.isWhole {
		c.head = append(c.head, b[:n]...)
		for _, end := range []string{"\n\r\n", "\n\n"} {
			if at := bytes.Index(c.head, []byte(end)); at >= 0 {
				c.head, c.isWhole = c.head[:at+1], true // (what follows is of the body)
			}
		}
		c.isWhole = c.isWhole || len(c.head) > longestHead
	}
	return n, err
}

// Restart is for http.Server.ConnState: when a request has been answered the next head comes.
func Restart(conn net.Conn, state http.ConnState) {
	if c, isKept := conn.(*headConn); isKept && state == http.StateIdle {
		c.mu.Lock()
		defer c.mu.Unlock()
		c.head, c.isWhole = nil, false
	}
}

// framing returns whether a field of the head that was seen told a length, and whether one told of chunks.
func (c *headConn) framing() (hasLength, hasChunks bool) {
	c.mu.Lock()
	defer c.mu.Unlock()
	text := bytes.ToLower(c.head)
	return bytes.Contains(text, []byte("\ncontent-length:")), bytes.Contains(text, []byte("\ntransfer-encoding:"))
}

type headKey struct{}

// withHead is for http.Server.ConnContext.
func withHead(ctx context.Context, conn net.Conn) context.Context {
	if c, isKept := conn.(*headConn); isKept {
		return context.WithValue(ctx, headKey{}, c)
	}
	return ctx
}

// isTwofold returns whether a request has a length beside chunks, or may have. (Of one that came with the body before it the head
// wasn't kept. Of HTTP/1.0, which has no chunks, net/http passes them over.)
func isTwofold(r *http.Request) bool {
	c, isKept := r.Context().Value(headKey{}).(*headConn)
	if !isKept || len(r.TransferEncoding) == 0 && r.ProtoAtLeast(1, 1) {
		return false
	}
	hasLength, hasChunks := c.framing()
	if !r.ProtoAtLeast(1, 1) {
		return hasChunks
	}
	return hasLength || !hasChunks
}
