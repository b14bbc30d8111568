// Package hosttest has listeners that tests put in bucketd's place.
package hosttest

import (
	"net"
	"os"
	"path/filepath"
	"testing"
)

// Folder makes a folder, until the test ends, whose path is short enough for a Unix socket in it.
func Folder(t testing.TB) string {
	t.Helper()
	folder, err := os.MkdirTemp("/tmp", "host-test-")
	if err != nil {
		t.Fatal(err)
	}
	t.Cleanup(func() { os.RemoveAll(folder) })
	return folder
}

// Listen opens a Unix socket until the test ends, and gives each connection to a function.
func Listen(t testing.TB, each func(net.Conn)) (path string) {
	t.Helper()
	path = filepath.Join(Folder(t), "socket")
	Serve(t, "unix", path, each)
	return path
}

// Serve listens at an address until the test ends, and gives each connection to a function, after which it is closed.
func Serve(t testing.TB, network, address string, each func(net.Conn)) net.Listener {
	t.Helper()
	listener, err := net.Listen(network, address)
	if err != nil {
		t.Fatal(err)
	}
	t.Cleanup(func() { listener.Close() })
	go func() {
		for {
			conn, err := listener.Accept()
			if err != nil {
				return
			}
			go func() {
				defer conn.Close()
				each(conn)
			}()
		}
	}()
	return listener
}
