package limits

import (
	"errors"
	"sync"
	"syscall"
)

// poll waits for the first bytes of connections, with one thread for all. A goroutine for each would have a stack of 2 to 8 KiB.
type poll struct {
	epoll, wake int // wake is the end of a pipe that next ends with
	other       int
	mu          sync.Mutex
	conns       map[int32]*Conn
}

var errPollEnded = errors.New("nothing is waited for any more")

func newPoll() (*poll, error) {
	epoll, err := syscall.EpollCreate1(syscall.EPOLL_CLOEXEC)
	if err != nil {
		return nil, err
	}
	var ends [2]int
	if err := syscall.Pipe2(ends[:], syscall.O_CLOEXEC|syscall.O_NONBLOCK); err != nil {
		syscall.Close(epoll)
		return nil, err
	}
	p := &poll{epoll: epoll, wake: ends[0], other: ends[1], conns: map[int32]*Conn{}}
	event := syscall.EpollEvent{Events: syscall.EPOLLIN, Fd: int32(p.wake)}
	return p, syscall.EpollCtl(epoll, syscall.EPOLL_CTL_ADD, p.wake, &event)
}

// close ends next.
func (p *poll) close() { syscall.Close(p.other) }

// add has a connection waited for, once. It returns false where that can't be.
func (p *poll) add(c *Conn) bool {
	socket, ok := c.Conn.(syscall.Conn)
	if !ok {
		return false
	}
	raw, err := socket.SyscallConn()
	if err != nil {
		return false
	}
	failed := raw.Control(func(fd uintptr) {
		p.mu.Lock()
		c.fd, p.conns[int32(fd)] = int32(fd), c // (one that had the number before is closed)
		p.mu.Unlock()
		event := syscall.EpollEvent{Events: syscall.EPOLLIN | syscall.EPOLLRDHUP, Fd: int32(fd)}
		err = syscall.EpollCtl(p.epoll, syscall.EPOLL_CTL_ADD, int(fd), &event)
	})
	return failed == nil && err == nil
}

// next waits for connections that have sent something. Those whose client has gone without a word are closed.
func (p *poll) next() (ready []*Conn, err error) {
	var events [128]syscall.EpollEvent
	for len(ready) == 0 {
		n, err := syscall.EpollWait(p.epoll, events[:], -1)
		if err == syscall.EINTR {
			continue
		} else if err != nil {
			return nil, err
		}
		for _, event := range events[:n] {
			if event.Fd == int32(p.wake) {
				syscall.Close(p.epoll)
				syscall.Close(p.wake)
				return nil, errPollEnded
			}
			if c := p.ready(event.Fd); c != nil {
				ready = append(ready, c)
			}
		}
	}
	return ready, nil
}

// ready returns the connection of a file that an event came for, where it has sent something; nil where it hasn't. One whose client
// has gone is closed. One that hasn't sent anything yet goes on to be waited for: the event may be that of a connection which had the
// file's number before.
func (p *poll) ready(fd int32) *Conn {
	p.mu.Lock()
	c := p.conns[fd]
	delete(p.conns, fd)
	p.mu.Unlock()
	if c == nil {
		return nil
	}
	hasSent, isSilent := p.leave(c)
	if hasSent {
		return c
	}
	if !isSilent || !p.add(c) {
		c.Close()
	}
	return nil
}

// leave has a connection no longer waited for. It returns whether it has sent something, or hasn't yet; neither where its client has
// gone.
func (p *poll) leave(c *Conn) (hasSent, isSilent bool) {
	raw, err := c.Conn.(syscall.Conn).SyscallConn()
	if err != nil {
		return false, false
	}
	raw.Control(func(fd uintptr) {
		syscall.EpollCtl(p.epoll, syscall.EPOLL_CTL_DEL, int(fd), nil)
		var first [1]byte
		n, _, err := syscall.Recvfrom(int(fd), first[:], syscall.MSG_PEEK|syscall.MSG_DONTWAIT)
		hasSent, isSilent = n > 0 && err == nil, err == syscall.EAGAIN || err == syscall.EINTR
	})
	return hasSent, isSilent
}

// drop forgets a connection that is closed: the kernel has it no longer.
func (p *poll) drop(c *Conn) {
	p.mu.Lock()
	defer p.mu.Unlock()
	if p.conns[c.fd] == c {
		delete(p.conns, c.fd)
	}
}
