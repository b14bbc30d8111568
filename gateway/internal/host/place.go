package host

import (
	"context"
	"errors"
	"fmt"
	"net"
	"syscall"
)

// A Place is where a server of this machine listens: an address of TCP, or the path of a Unix socket. An empty one is nowhere.
type Place struct{ network, address string }

// TCP returns the place of an address with its port.
func TCP(address string) Place { return Place{"tcp", address} }

// Socket returns the place of a Unix socket.
func Socket(path string) Place { return Place{"unix", path} }

// anyone lets whoever listens be believed.
const anyone = -1

var errNowhere = errors.New("bucketd isn't running")

// dial connects to a place, where a process of a user has to listen. A connection has one request, so nothing keeps it alive.
func (p Place) dial(ctx context.Context, user int64) (net.Conn, error) {
	if p.address == "" {
		return nil, errNowhere
	}
	conn, err := (&net.Dialer{KeepAlive: -1}).DialContext(ctx, p.network, p.address)
	if err != nil {
		return nil, err
	}
	if tcp, isTCP := conn.(*net.TCPConn); isTCP {
		// (else each connection's window grows from little: a piece wants it at once)
		err = tcp.SetReadBuffer(readWindow)
	}
	if err == nil && user != anyone {
		err = checkPeer(conn, uint32(user))
	}
	if err != nil {
		conn.Close()
		return nil, err
	}
	return conn, nil
}

// checkSocket compares the user whose process listens on a Unix socket.
func checkSocket(conn *net.UnixConn, user uint32) error {
	raw, err := conn.SyscallConn()
	if err != nil {
		return err
	}
	var found *syscall.Ucred
	failed := raw.Control(func(fd uintptr) {
		found, err = syscall.GetsockoptUcred(int(fd), syscall.SOL_SOCKET, syscall.SO_PEERCRED)
	})
	switch {
	case failed != nil:
		return failed
	case err != nil:
		return fmt.Errorf("who listens on %s isn't known: %w", conn.RemoteAddr(), err)
	case found.Uid != user:
		return fmt.Errorf("user %d listens on %s, not %d", found.Uid, conn.RemoteAddr(), user)
	}
	return nil
}
