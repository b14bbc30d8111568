// Package limits bounds what clients may take of the gateway: connections, bytes that wait, and time.
package limits

import (
	"container/list"
	"errors"
	"fmt"
	"log/slog"
	"net"
	"net/http"
	"net/netip"
	"sync"
	"syscall"
	"time"
)

// Places says how many connections there may be.
type Places struct {
	All     int // at once
	Address int // from one address, of IPv6 from one network of 64 bits
	Served  int // that wait for a request after the first byte; each has a server's buffers, some 20 KiB

	Silence time.Duration // how long a connection may wait for its first byte, and between requests
	Short   time.Duration // the same where more than half of the places are taken

	Met Count // is told of connections that others had to give way to
}

// NewPlaces returns the bounds for so many connections, of which so many may come from one address; 0 is a quarter of them.
func NewPlaces(all, address int) Places {
	if address == 0 {
		address = (all + 3) / 4
	}
	return Places{All: all, Address: address, Served: 1024, Silence: time.Minute, Short: 5 * time.Second}
}

// A Listener accepts connections as long as there are places. One comes out of Accept with its first byte; until then it costs a
// place and a file, and no buffers. Where no place is left, a connection that waits for its client gives up its own: one that is
// silent before one that has begun, that before one that was served, and of each kind the one that has waited longest.
type Listener struct {
	inner  net.Listener
	places Places
	poll   *poll
	ready  chan *Conn
	ended  chan struct{}
	once   sync.Once
	failed error // set before ended is closed
	freed  chan struct{}
	now    func() time.Time
	notice Seldom
	mu     sync.Mutex
	taken  int
	shares map[netip.Prefix]*share

	// The connections that wait, the longest first: for their first byte; for the rest of their first request's head; for another
	// request, which only those come to whose signature was right.
	silent, begun, idle list.List
}

// share is what one address has.
type share struct {
	count   int
	waiting list.List // its connections that wait for their client, the longest first
}

// Conn is a connection that has a place until it is closed.
type Conn struct {
	net.Conn
	listener  *Listener
	from      netip.Prefix
	fd        int32         // by which it is waited for
	list      *list.List    // that it waits in; nil where it doesn't wait
	inAll, in *list.Element // of that list, and of its share's
	since     time.Time
	isClosed  bool
}

// Listen bounds the connections of a listener.
func Listen(inner net.Listener, places Places) (*Listener, error) {
	poll, err := newPoll()
	if err != nil {
		return nil, fmt.Errorf("the kernel gives no epoll: %w", err)
	}
	l := &Listener{inner: inner, places: places, poll: poll, ready: make(chan *Conn), ended: make(chan struct{}),
		freed: make(chan struct{}, 1), now: time.Now, shares: map[netip.Prefix]*share{}}
	go l.acceptAll()
	go l.pass()
	go l.sweepAll()
	return l, nil
}

// Accept returns the next connection that has sent something.
func (l *Listener) Accept() (net.Conn, error) {
	select {
	case c := <-l.ready:
		return c, nil
	case <-l.ended:
		return nil, l.failed
	}
}

// Addr returns the address that is listened on.
func (l *Listener) Addr() net.Addr { return l.inner.Addr() }

// Close ends the listener, and the connections that haven't sent anything.
func (l *Listener) Close() error {
	err := l.inner.Close()
	l.end(net.ErrClosed)
	for _, c := range l.waiting(&l.silent, 0) {
		c.Close()
	}
	return err
}

func (l *Listener) end(err error) {
	l.once.Do(func() {
		l.failed = err
		close(l.ended)
		l.poll.close()
	})
}

// acceptAll takes connections, and waits while the system has no room for them.
func (l *Listener) acceptAll() {
	for wait := time.Millisecond; ; {
		conn, err := l.inner.Accept()
		if errors.Is(err, syscall.EMFILE) || errors.Is(err, syscall.ENFILE) || errors.Is(err, syscall.ENOBUFS) || errors.Is(err, syscall.ENOMEM) {
			l.notice.Say("the system has no room for a connection", "error", err.Error())
			time.Sleep(wait)
			wait = min(2*wait, time.Second)
			continue
		} else if err != nil {
			l.end(err)
			return
		}
		wait = time.Millisecond
		l.admit(conn)
	}
}

// admit gives a connection a place.
func (l *Listener) admit(conn net.Conn) {
	c := &Conn{Conn: conn, listener: l, from: network(conn.RemoteAddr())}
	for {
		isPlaced, displaced := l.take(c)
		if displaced != nil {
			displaced.Close()
		} else if !isPlaced {
			select {
			case <-l.freed:
			case <-l.ended:
				conn.Close()
				return
			}
		}
		if isPlaced {
			break
		}
	}
	if !l.poll.add(c) {
		c.Close()
	}
}

// take gives a connection a place. Where there is none, it returns a connection that is to be closed first, which may be this one
// itself; nil where all have something to do.
func (l *Listener) take(c *Conn) (isPlaced bool, displaced *Conn) {
	l.mu.Lock()
	defer l.mu.Unlock()
	own := l.shares[c.from]
	switch {
	case own != nil && own.count >= l.places.Address:
		l.notice.Say("an address has its share of the places: for a new connection one is closed that waits for its client",
			"address", c.from.Addr().String(), "share", l.places.Address)
		l.places.Met.Add(AddressConnections)
		if front := own.waiting.Front(); front != nil {
			return false, front.Value.(*Conn)
		}
		c.isClosed = true
		return true, c
	case l.taken >= l.places.All:
		l.notice.Say("all places are taken: for a new connection one is closed that waits for its client", "places", l.places.All)
		l.places.Met.Add(Connections)
		return false, l.longest(&l.silent, &l.begun, &l.idle)
	}
	if own == nil {
		own = &share{}
		l.shares[c.from] = own
	}
	l.taken++
	own.count++
	c.wait(&l.silent)
	return true, nil
}

// longest returns the connection that gives way to others; nil where none waits.
func (l *Listener) longest(lists ...*list.List) *Conn {
	for _, it := range lists {
		if front := it.Front(); front != nil {
			return front.Value.(*Conn)
		}
	}
	return nil
}

// wait puts a connection into a list of those that wait, or into none. The listener is locked.
func (c *Conn) wait(in *list.List) {
	own := &c.listener.shares[c.from].waiting
	if c.list != nil {
		c.list.Remove(c.inAll)
		own.Remove(c.in)
	}
	if c.list = in; in != nil {
		c.since, c.inAll, c.in = c.listener.now(), in.PushBack(c), own.PushBack(c)
	}
}

// CloseWrite tells the client that nothing more comes: http.Server does so before it closes a connection whose body it hasn't read.
func (c *Conn) CloseWrite() error {
	if inner, ok := c.Conn.(interface{ CloseWrite() error }); ok {
		return inner.CloseWrite()
	}
	return nil
}

// Close closes the connection and frees its place.
func (c *Conn) Close() error {
	err := c.Conn.Close()
	l := c.listener
	l.poll.drop(c)
	l.mu.Lock()
	defer l.mu.Unlock()
	if c.isClosed {
		return err
	}
	c.isClosed = true
	c.wait(nil)
	l.taken--
	own := l.shares[c.from]
	if own.count--; own.count == 0 {
		delete(l.shares, c.from)
	}
	select {
	case l.freed <- struct{}{}:
	default:
	}
	return err
}

// pass hands the connections that have sent something to Accept.
func (l *Listener) pass() {
	for {
		ready, err := l.poll.next()
		if err != nil {
			l.end(err)
			return
		}
		for _, c := range ready {
			l.mu.Lock()
			isThere := c.list == &l.silent
			if isThere {
				c.wait(&l.begun)
			}
			l.mu.Unlock()
			if !isThere {
				continue
			}
			select {
			case l.ready <- c:
			case <-l.ended:
				c.Close()
			}
		}
	}
}

// State is for http.Server.ConnState: a connection that waits for a request may be closed for another one, one that has a request
// may not.
func (l *Listener) State(conn net.Conn, state http.ConnState) {
	c, ok := conn.(*Conn)
	for !ok {
		outer, isOuter := conn.(interface{ NetConn() net.Conn })
		if !isOuter {
			return
		}
		conn = outer.NetConn()
		c, ok = conn.(*Conn)
	}
	var oldest *Conn
	l.mu.Lock()
	switch {
	case c.isClosed:
	case state == http.StateActive:
		c.wait(nil)
	case state == http.StateNew:
		c.wait(&l.begun)
	case state == http.StateIdle:
		c.wait(&l.idle)
	}
	if l.begun.Len()+l.idle.Len() > l.places.Served {
		oldest = l.longest(&l.begun, &l.idle)
	}
	l.mu.Unlock()
	if oldest != nil {
		oldest.Close()
	}
}

// sweepAll closes, each half second, the connections that have waited too long.
func (l *Listener) sweepAll() {
	tick := time.NewTicker(500 * time.Millisecond)
	defer tick.Stop()
	for {
		select {
		case <-tick.C:
			l.sweep()
		case <-l.ended:
			return
		}
	}
}

func (l *Listener) sweep() {
	l.mu.Lock()
	most := l.places.Silence
	if l.taken > l.places.All/2 {
		most = l.places.Short
	}
	l.mu.Unlock()
	for _, it := range []*list.List{&l.silent, &l.begun, &l.idle} {
		for _, c := range l.waiting(it, most) {
			c.Close()
		}
	}
}

// waiting returns the connections of a list that have waited at least so long.
func (l *Listener) waiting(in *list.List, least time.Duration) (found []*Conn) {
	l.mu.Lock()
	defer l.mu.Unlock()
	now := l.now()
	for it := in.Front(); it != nil; it = it.Next() {
		c := it.Value.(*Conn)
		if now.Sub(c.since) < least {
			break
		}
		found = append(found, c)
	}
	return found
}

// Taken returns how many places are taken.
func (l *Listener) Taken() int {
	l.mu.Lock()
	defer l.mu.Unlock()
	return l.taken
}

// network returns what counts as one address: all 32 bits of IPv4, 64 of IPv6, which is what a household has.
func network(address net.Addr) netip.Prefix {
	from, err := netip.ParseAddrPort(address.String())
	if err != nil {
		return netip.Prefix{}
	}
	ip, bits := from.Addr().Unmap().WithZone(""), 64
	if ip.Is4() {
		bits = 32
	}
	prefix, _ := ip.Prefix(bits)
	return prefix
}

// Files returns an error where the system gives the process too few files for so many connections.
func Files(connections int) error {
	var limit syscall.Rlimit
	if err := syscall.Getrlimit(syscall.RLIMIT_NOFILE, &limit); err != nil {
		return err
	}
	const others = 512 // files and connections to the host
	if limit.Cur < uint64(connections)+others {
		return fmt.Errorf("%d connections want %d open files, and the system allows %d (ulimit -n, LimitNOFILE=)", connections, connections+others, limit.Cur)
	}
	return nil
}

// Seldom writes a line of the log at most once a minute, with how often it would have stood there.
type Seldom struct {
	mu      sync.Mutex
	last    map[string]time.Time
	dropped map[string]int
}

// Say writes a line, unless the same one was written within the last minute.
func (s *Seldom) Say(text string, args ...any) {
	s.mu.Lock()
	defer s.mu.Unlock()
	if s.last == nil {
		s.last, s.dropped = map[string]time.Time{}, map[string]int{}
	}
	if time.Since(s.last[text]) < time.Minute {
		s.dropped[text]++
		return
	}
	slog.Warn(text, append(args, "before", s.dropped[text])...)
	s.last[text], s.dropped[text] = time.Now(), 0
}
