package host

import (
	"bufio"
	"encoding/binary"
	"encoding/hex"
	"errors"
	"fmt"
	"net"
	"net/netip"
	"os"
	"strconv"
	"strings"
	"syscall"
)

// Whose a socket is. The kernel is asked for one socket (sock_diag(7)), as /proc/net/tcp has all of the machine; where it can't be
// asked, that file is read.

const (
	netlinkDiag    = 4  // NETLINK_SOCK_DIAG
	diagByFamily   = 20 // SOCK_DIAG_BY_FAMILY
	diagHead       = 16 // bytes of a netlink message's head
	diagRequest    = diagHead + 56
	diagUser       = diagHead + 64 // where the user stands in an answer
	anyCookie      = ^uint32(0)
	tcpEstablished = 1
	tcpListen      = 10
)

var errNoSocket = errors.New("no such socket")

// checkPeer compares the user whose process has the other end of a connection to this machine. What isn't accepted yet has no user
// of its own: then it is the listener's.
func checkPeer(conn net.Conn, user uint32) error {
	if socket, isSocket := conn.(*net.UnixConn); isSocket {
		return checkSocket(socket, user)
	}
	own, peer, err := ends(conn)
	if err != nil {
		return err
	}
	listener, err := userOf(peer, netip.AddrPortFrom(unspecified(peer), 0), tcpListen)
	if err != nil {
		return fmt.Errorf("who listens on %s isn't known: %w", peer, err)
	}
	if listener != user {
		return fmt.Errorf("user %d listens on %s, not %d", listener, peer, user)
	}
	accepted, err := userOf(peer, own, tcpEstablished)
	if err != nil {
		return fmt.Errorf("whose the connection to %s is isn't known: %w", peer, err)
	}
	if accepted != user && accepted != 0 {
		return fmt.Errorf("user %d has the connection to %s, not %d", accepted, peer, user)
	}
	return nil
}

// ends returns a connection's own end and the other one.
func ends(conn net.Conn) (own, peer netip.AddrPort, err error) {
	local, isLocalTCP := conn.LocalAddr().(*net.TCPAddr)
	remote, isRemoteTCP := conn.RemoteAddr().(*net.TCPAddr)
	if !isLocalTCP || !isRemoteTCP {
		return own, peer, errors.New("it is no connection of TCP")
	}
	plain := func(a *net.TCPAddr) netip.AddrPort {
		it := a.AddrPort()
		return netip.AddrPortFrom(it.Addr().Unmap(), it.Port())
	}
	return plain(local), plain(remote), nil
}

func unspecified(a netip.AddrPort) netip.Addr {
	if a.Addr().Is4() {
		return netip.IPv4Unspecified()
	}
	return netip.IPv6Unspecified()
}

// userOf returns whose the socket is that has one end here and the other there.
func userOf(here, there netip.AddrPort, state byte) (uint32, error) {
	user, err := askKernel(here, there)
	if err == nil || errors.Is(err, errNoSocket) {
		return user, err
	}
	return readTable(here, there, state)
}

// askKernel asks for one socket by its ends.
func askKernel(here, there netip.AddrPort) (uint32, error) {
	fd, err := syscall.Socket(syscall.AF_NETLINK, syscall.SOCK_RAW|syscall.SOCK_CLOEXEC, netlinkDiag)
	if err != nil {
		return 0, err
	}
	defer syscall.Close(fd)
	if err := syscall.Sendto(fd, diagMessage(here, there), 0, &syscall.SockaddrNetlink{Family: syscall.AF_NETLINK}); err != nil {
		return 0, err
	}
	answer := make([]byte, 4096)
	n, _, err := syscall.Recvfrom(fd, answer, 0)
	if err != nil {
		return 0, err
	}
	return userIn(answer[:n])
}

// userIn reads the user in an answer, or the error.
func userIn(answer []byte) (uint32, error) {
	if len(answer) < diagHead+4 {
		return 0, errors.New("the kernel's answer is cut")
	}
	if binary.NativeEndian.Uint16(answer[4:]) == syscall.NLMSG_ERROR {
		number := syscall.Errno(-int32(binary.NativeEndian.Uint32(answer[diagHead:])))
		if number == syscall.ENOENT {
			return 0, errNoSocket
		}
		return 0, number
	}
	if len(answer) < diagUser+4 {
		return 0, errors.New("the kernel's answer is of another form")
	}
	return binary.NativeEndian.Uint32(answer[diagUser:]), nil
}

// diagMessage returns the question for a socket of TCP.
func diagMessage(here, there netip.AddrPort) []byte {
	m := make([]byte, diagRequest)
	binary.NativeEndian.PutUint32(m, diagRequest)
	binary.NativeEndian.PutUint16(m[4:], diagByFamily)
	binary.NativeEndian.PutUint16(m[6:], syscall.NLM_F_REQUEST)
	body := m[diagHead:]
	body[0], body[1] = syscall.AF_INET, syscall.IPPROTO_TCP
	if here.Addr().Is6() {
		body[0] = syscall.AF_INET6
	}
	binary.NativeEndian.PutUint32(body[4:], ^uint32(0)) // of any state
	binary.BigEndian.PutUint16(body[8:], here.Port())
	binary.BigEndian.PutUint16(body[10:], there.Port())
	copy(body[12:], here.Addr().AsSlice())
	copy(body[28:], there.Addr().AsSlice())
	binary.NativeEndian.PutUint32(body[48:], anyCookie)
	binary.NativeEndian.PutUint32(body[52:], anyCookie)
	return m
}

// readTable looks for a socket of IPv4 in /proc/net/tcp (proc_pid_net(5)).
func readTable(here, there netip.AddrPort, state byte) (uint32, error) {
	if !here.Addr().Is4() {
		return 0, errors.New("the kernel can't be asked for it")
	}
	file, err := os.Open("/proc/net/tcp")
	if err != nil {
		return 0, err
	}
	defer file.Close()
	wanted := []string{inTable(here), inTable(there), fmt.Sprintf("%02X", state)}
	for lines := bufio.NewScanner(file); lines.Scan(); {
		words := strings.Fields(lines.Text())
		if len(words) < 8 || words[1] != wanted[0] || words[2] != wanted[1] || words[3] != wanted[2] {
			continue
		}
		user, err := strconv.ParseUint(words[7], 10, 32)
		return uint32(user), err
	}
	return 0, errNoSocket
}

// inTable returns an end as that file has it: the address as a number of the machine's order, and the port, in hexadecimal.
func inTable(a netip.AddrPort) string {
	address := a.Addr().As4()
	number := make([]byte, 4)
	binary.BigEndian.PutUint32(number, binary.NativeEndian.Uint32(address[:]))
	return strings.ToUpper(hex.EncodeToString(number)) + fmt.Sprintf(":%04X", a.Port())
}
