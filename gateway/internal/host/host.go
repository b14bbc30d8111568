// Package host asks 'bucketd serve', and can run it.
package host

import (
	"bufio"
	"context"
	"errors"
	"fmt"
	"io"
	"log"
	"net"
	"net/http"
	"sync"
	"sync/atomic"
	"time"

	"bucketd/gateway/internal/buffer"
)

// ErrNoAnswer is the error of a request that bucketd didn't answer.
var ErrNoAnswer = errors.New("bucketd doesn't answer")

const (
	patience     = 4 * time.Second // how long a request waits for a bucketd that isn't there
	longest      = 5 * time.Minute // how long bucketd may take for a request
	readWindow   = 2 << 20         // bytes of an answer that the kernel keeps
	checkedAfter = 20 * time.Millisecond
)

// Host asks 'bucketd serve', which takes one request a connection, and carries out one after another. A few requests are sent ahead,
// so that it needn't wait for the gateway; of a tenant no more than so many wait among those of all, so that tenants take turns.
type Host struct {
	Watch Watch // is told of what is asked; nil where nobody wants to know

	turn  chan struct{}
	at    atomic.Pointer[places]
	user  atomic.Int64 // whose process has to listen there; anyone where anybody's is believed
	mu    sync.Mutex
	turns map[string]chan struct{} // of each tenant
}

// places are where a host listens; empty ones where it isn't known to.
type places struct{ clients, operators Place }

// New returns a host at a place, which is sent some requests ahead.
func New(place Place, ahead int) *Host {
	h := &Host{turn: make(chan struct{}, ahead), turns: map[string]chan struct{}{}}
	h.at.Store(&places{clients: place})
	h.user.Store(anyone)
	return h
}

// Trust lets nobody be believed but a process of this machine that is of a user.
func (h *Host) Trust(user uint32) { h.user.Store(int64(user)) }

// Client asks with a key of a tenant.
type Client struct {
	host               *Host
	turn               chan struct{}
	Tenant, id, secret string
}

// Client returns who asks with a key.
func (h *Host) Client(tenant, id, secret string) *Client {
	h.mu.Lock()
	defer h.mu.Unlock()
	turn := h.turns[tenant]
	if turn == nil {
		turn = make(chan struct{}, cap(h.turn))
		h.turns[tenant] = turn
	}
	return &Client{host: h, turn: turn, Tenant: tenant, id: id, secret: secret}
}

// dial connects to bucketd.
func (h *Host) dial(ctx context.Context) (net.Conn, error) {
	return h.at.Load().clients.dial(ctx, h.user.Load())
}

// Waiting returns how many requests have been sent and not answered.
func (h *Host) Waiting() int { return len(h.turn) }

// takeTurn waits for a place among requests, unless the context ends before.
func takeTurn(ctx context.Context, turn chan struct{}) error {
	select {
	case turn <- struct{}{}:
		return nil
	case <-ctx.Done():
		return ctx.Err()
	}
}

// Ask asks bucketd; a refusal is an answer. A connection that is refused is tried again for a while, and so is a read that got no
// answer: of a write that got none it isn't known whether it was made. The error is that of the context where this ended first,
// else ErrNoAnswer.
func (c *Client) Ask(ctx context.Context, q *Request) (*Response, error) {
	begun := time.Now()
	if err := takeTurn(ctx, c.turn); err != nil {
		return nil, err
	}
	defer func() { <-c.turn }()
	if err := takeTurn(ctx, c.host.turn); err != nil {
		return nil, err
	}
	defer func() { <-c.host.turn }()
	if c.host.Watch != nil {
		c.host.Watch.Waited(time.Since(begun))
	}
	for wait := checkedAfter; ; wait *= 2 {
		r, isTaken, err := c.try(ctx, q)
		if err == nil {
			return r, nil
		}
		if ctx.Err() != nil && (!isTaken || q.isRead()) {
			return nil, ctx.Err()
		}
		if isTaken && !q.isRead() || time.Since(begun)+wait > patience {
			log.Printf("%s: no answer of bucketd: %v", c.Tenant, err)
			return nil, ErrNoAnswer
		}
		select {
		case <-time.After(wait):
		case <-ctx.Done():
			return nil, ctx.Err()
		}
	}
}

// try asks once. It returns whether a connection took the request, or some of it.
func (c *Client) try(ctx context.Context, q *Request) (*Response, bool, error) {
	head, err := q.head(c.id, c.secret)
	if err != nil {
		return nil, false, err
	}
	begun := time.Now()
	r, isTaken, err := c.send(ctx, q, head)
	if c.host.Watch != nil {
		o, refusal := outcome(ctx, r)
		c.host.Watch.Tried(o, refusal, time.Since(begun))
	}
	return r, isTaken, err
}

// send sends a request whose head is written.
func (c *Client) send(ctx context.Context, q *Request, head string) (*Response, bool, error) {
	conn, err := c.host.dial(ctx)
	if err != nil {
		return nil, false, err
	}
	// (nobody waits for the end of a connection)
	defer func() { go conn.Close() }()
	if err := conn.SetDeadline(time.Now().Add(longest)); err != nil {
		return nil, false, err
	}
	if q.isRead() { // (a write that is on its way is carried out: who asked for it is told, or isn't there)
		stop := context.AfterFunc(ctx, func() { conn.SetDeadline(time.Now()) })
		defer stop()
	}
	r, err := exchange(conn, q, head)
	return r, true, err
}

func exchange(conn net.Conn, q *Request, head string) (*Response, error) {
	sent := send(conn, q, head)
	// (an answer may have come before the body was taken)
	answer, err := http.ReadResponse(bufio.NewReader(conn), &http.Request{Method: q.Method})
	if err != nil {
		return nil, fmt.Errorf("%v (%v)", err, sent)
	}
	r := &Response{Response: answer, Body: q.Buffer}
	if r.StatusCode >= 300 {
		if _, err := fmt.Sscan(r.Header.Get("x-refusal"), &r.Refusal, &r.Code); err != nil {
			return nil, fmt.Errorf("status %d without a refusal", r.StatusCode)
		}
	}
	r.Body.Reset()
	if q.Method != http.MethodHead && r.ContentLength > 0 {
		buffer.SetRoom(r.Body, r.ContentLength)
		if _, err := io.CopyN(r.Body, r.Response.Body, r.ContentLength); err != nil {
			return nil, err
		}
	}
	return r, nil
}

// send sends a request's head and body.
func send(conn net.Conn, q *Request, head string) error {
	if q.Body == nil {
		_, err := io.WriteString(conn, head)
		return err
	}
	if text, isInMemory := q.Body.InMemory(); isInMemory {
		both := net.Buffers{[]byte(head), text}
		_, err := both.WriteTo(conn)
		return err
	}
	if _, err := io.WriteString(conn, head); err != nil {
		return err
	}
	_, err := io.Copy(conn, q.Body.Reader())
	return err
}
