package main

import (
	"bufio"
	"context"
	"crypto/ecdsa"
	"crypto/elliptic"
	"crypto/rand"
	"crypto/tls"
	"crypto/x509"
	"encoding/pem"
	"fmt"
	"io"
	"log"
	"math/big"
	"net"
	"net/http"
	"os"
	"path/filepath"
	"regexp"
	"strings"
	"sync"
	"syscall"
	"testing"
	"time"
)

// lines is the log, which others write meanwhile.
type lines struct {
	mu   sync.Mutex
	text strings.Builder
}

func (l *lines) Write(b []byte) (int, error) {
	l.mu.Lock()
	defer l.mu.Unlock()
	return l.text.Write(b)
}

func (l *lines) String() string {
	l.mu.Lock()
	defer l.mu.Unlock()
	return l.text.String()
}

// start runs a gateway before no host, and returns its address and its log.
func start(t *testing.T, words ...string) (address string, text *lines) {
	t.Helper()
	keys := filepath.Join(t.TempDir(), "keys")
	if err := os.WriteFile(keys, []byte("green$k1 secret\n"), 0o600); err != nil {
		t.Fatal(err)
	}
	o, err := parseOptions(append([]string{"--listen", "127.0.0.1:0", "--keys", keys, "--host", "127.0.0.1:1", "--spool", t.TempDir()}, words...), io.Discard)
	if err != nil {
		t.Fatal(err)
	}
	text = &lines{}
	log.SetOutput(text)
	ctx, end := context.WithCancel(context.Background())
	ended := make(chan error, 1)
	go func() { ended <- run(ctx, o) }()
	t.Cleanup(func() {
		end()
		if err := <-ended; err != nil {
			t.Error(err)
		}
		log.SetOutput(os.Stderr)
	})
	for i := 0; i < 500; i++ {
		if found := regexp.MustCompile(`listening on https?://(\S+)`).FindStringSubmatch(text.String()); found != nil {
			return found[1], text
		}
		time.Sleep(10 * time.Millisecond)
	}
	t.Fatal("it doesn't listen")
	return "", nil
}

// dial connects from an address of this machine.
func dial(t *testing.T, to, from string) net.Conn {
	t.Helper()
	conn, err := (&net.Dialer{LocalAddr: &net.TCPAddr{IP: net.ParseIP(from)}, Timeout: 5 * time.Second}).Dial("tcp", to)
	if err != nil {
		t.Fatal(err)
	}
	t.Cleanup(func() { conn.Close() })
	if err := conn.SetDeadline(time.Now().Add(20 * time.Second)); err != nil {
		t.Fatal(err)
	}
	return conn
}

// refused sends a request without a signature, and returns how its answer begins.
func refused(conn net.Conn) (*http.Response, error) {
	if _, err := io.WriteString(conn, "GET /plans/a HTTP/1.1\r\nHost: h\r\n\r\n"); err != nil {
		return nil, err
	}
	answer, err := http.ReadResponse(bufio.NewReader(conn), nil)
	if err == nil {
		defer answer.Body.Close()
		_, err = io.Copy(io.Discard, answer.Body)
	}
	return answer, err
}

// 1,024 connections without a key, silent or refused, from one address or from many, shut nobody out.
func TestStrangers(t *testing.T) {
	for _, it := range []struct {
		name      string
		addresses int
		isRefused bool
	}{{"silent ones of one address", 1, false}, {"silent ones of eight", 8, false}, {"refused ones of eight", 8, true}} {
		t.Run(it.name, func(t *testing.T) {
			address, _ := start(t)
			for i := 0; i < 1024; i++ {
				conn := dial(t, address, fmt.Sprintf("127.0.0.%d", 2+i%it.addresses))
				if it.isRefused {
					if answer, err := refused(conn); err != nil || answer.StatusCode != 403 || !answer.Close {
						t.Fatalf("connection %d: %v %v", i, answer, err)
					}
				}
			}
			for i := 0; i < 20; i++ {
				begun := time.Now()
				answer, err := refused(dial(t, address, "127.0.1.1"))
				if took := time.Since(begun); err != nil || answer.StatusCode != 403 || took > 10*time.Second { // (without places of their own 44 seconds)
					t.Fatalf("another client waited %v: %v", took, err)
				}
			}
		})
	}
}

// A body that a stranger doesn't send isn't waited for.
func TestStrangersBody(t *testing.T) {
	address, _ := start(t)
	conn, begun := dial(t, address, "127.0.0.2"), time.Now()
	io.WriteString(conn, "PUT /plans/a HTTP/1.1\r\nHost: h\r\nContent-Length: 1000\r\n\r\nabc")
	text, err := io.ReadAll(conn)
	if took := time.Since(begun); err != nil || !strings.HasPrefix(string(text), "HTTP/1.1 403") || took > 15*time.Second {
		t.Errorf("after %v: %v %s", took, err, text)
	}
}

// A head that proxies may read in another way is refused.
func TestHeads(t *testing.T) {
	address, _ := start(t)
	for _, fields := range []string{"Content-Length: \r\n", "Content-Length: 1\r\nContent-Length: 2\r\n", "Content-Length: +1\r\n", "Host: x\r\n", "a b: c\r\n"} {
		conn := dial(t, address, "127.0.0.2")
		io.WriteString(conn, "PUT /plans/a HTTP/1.1\r\nHost: h\r\n"+fields+"\r\n")
		if text, err := io.ReadAll(conn); err != nil || !strings.HasPrefix(string(text), "HTTP/1.1 400") {
			t.Errorf("%q: %v %.100s", fields, err, text)
		}
	}
}

// A line has the address, the code and an id that the answer has, too; no query.
func TestLines(t *testing.T) {
	name := filepath.Join(t.TempDir(), "log")
	out, err := os.Create(name)
	if err != nil {
		t.Fatal(err)
	}
	before := os.Stderr
	os.Stderr = out
	defer func() { os.Stderr = before }()
	address, _ := start(t, "--log")
	conn := dial(t, address, "127.0.0.2")
	io.WriteString(conn, "GET /plans/a?X-Amz-Signature=5ec4e7&X-Amz-Credential=green$k1 HTTP/1.1\r\nHost: h\r\n\r\n")
	answer, err := http.ReadResponse(bufio.NewReader(conn), nil)
	if err != nil {
		t.Fatal(err)
	}
	answer.Body.Close()
	want := "msg=request id=" + answer.Header.Get("x-amz-request-id") + " address=127.0.0.2 status=400 code=AuthorizationQueryParametersError tenant=\"\""
	for i := 0; i < 200; i++ {
		text, err := os.ReadFile(name)
		if err != nil {
			t.Fatal(err)
		}
		if strings.Contains(string(text), "5ec4e7") {
			t.Fatalf("a signature: %s", text)
		} else if strings.Contains(string(text), want) {
			return
		}
		time.Sleep(10 * time.Millisecond)
	}
	text, _ := os.ReadFile(name)
	t.Errorf("no line has %q:\n%s", want, text)
}

func TestTLS(t *testing.T) {
	folder := t.TempDir()
	key, err := ecdsa.GenerateKey(elliptic.P256(), rand.Reader)
	if err != nil {
		t.Fatal(err)
	}
	form := &x509.Certificate{SerialNumber: big.NewInt(1), NotAfter: time.Now().Add(time.Hour), IPAddresses: []net.IP{net.IPv4(127, 0, 0, 1)}}
	certificate, err := x509.CreateCertificate(rand.Reader, form, form, &key.PublicKey, key)
	if err != nil {
		t.Fatal(err)
	}
	private, err := x509.MarshalPKCS8PrivateKey(key)
	if err != nil {
		t.Fatal(err)
	}
	for name, block := range map[string]*pem.Block{"cert": {Type: "CERTIFICATE", Bytes: certificate}, "key": {Type: "PRIVATE KEY", Bytes: private}} {
		if err := os.WriteFile(filepath.Join(folder, name), pem.EncodeToMemory(block), 0o600); err != nil {
			t.Fatal(err)
		}
	}
	address, text := start(t, "--cert", filepath.Join(folder, "cert"), "--cert-key", filepath.Join(folder, "key"))
	conn, err := tls.Dial("tcp", address, &tls.Config{InsecureSkipVerify: true})
	if err != nil {
		t.Fatal(err)
	}
	defer conn.Close()
	if answer, err := refused(conn); err != nil || answer.StatusCode != 403 {
		t.Errorf("%v %v", answer, err)
	}
	// A length beside chunks is seen within TLS, too, and nothing behind them is a request.
	const chunks = "Transfer-Encoding: chunked\r\n\r\n0\r\n\r\nGET / HTTP/1.1\r\nHost: h\r\n\r\n"
	for fields, status := range map[string]string{"Content-Length: 5\r\n" + chunks: "400", chunks: "403"} {
		safe, err := tls.Dial("tcp", address, &tls.Config{InsecureSkipVerify: true, NextProtos: []string{"h2", "http/1.1"}})
		if err != nil {
			t.Fatal(err)
		}
		defer safe.Close()
		io.WriteString(safe, "PUT /plans/a HTTP/1.1\r\nHost: h\r\n"+fields)
		if told, err := io.ReadAll(safe); err != nil || !strings.HasPrefix(string(told), "HTTP/1.1 "+status) || strings.Count(string(told), "HTTP/1.1") != 1 {
			t.Errorf("%q: %v %q", fields, err, told)
		}
	}
	plain := dial(t, address, "127.0.0.2")
	io.WriteString(plain, "GET / HTTP/1.1\r\nHost: h\r\n\r\n")
	if told, _ := io.ReadAll(plain); !strings.Contains(string(told), "HTTPS") {
		t.Errorf("who speaks no TLS is told %q", told)
	}
	for i := 0; i < 50; i++ {
		plain := dial(t, address, "127.0.0.2")
		io.WriteString(plain, "hello\r\n\r\n")
		io.Copy(io.Discard, plain)
	}
	if count := strings.Count(text.String(), "a TLS handshake failed"); count != 1 {
		t.Errorf("strangers wrote %d lines", count)
	}
}

// SIGHUP doesn't end the gateway, and it still answers.
func TestHangup(t *testing.T) {
	address, _ := start(t)
	if err := syscall.Kill(os.Getpid(), syscall.SIGHUP); err != nil {
		t.Fatal(err)
	}
	time.Sleep(50 * time.Millisecond)
	if answer, err := refused(dial(t, address, "127.0.0.2")); err != nil || answer.StatusCode != 403 {
		t.Errorf("%v %v", answer, err)
	}
}

func TestOptions(t *testing.T) {
	for _, it := range []struct {
		words  string
		isWell bool
	}{
		{"", true}, {"--connections 10000", true}, {"--connections 10001", false}, {"--connections 0", false}, {"--address-connections 2000", false},
		{"--connections 10 --address-connections 10", true}, {"--cert a", false}, {"--cert a --cert-key b", true}, {"--acme a.example", false},
		{"--acme a.example,b.example --acme-folder x", true}, {"--acme a.example --acme-folder x --cert a --cert-key b", false}, {"--heap 63", false},
		{"--heap 64", true}, {"--silence 0s", false}, {"more", false}, {"--none", false}, {"--ahead 0", false},
	} {
		if o, err := parseOptions(strings.Fields(it.words), io.Discard); (err == nil) != it.isWell {
			t.Errorf("%q: %v", it.words, err)
		} else if strings.Contains(it.words, "b.example") && len(o.acme.Names) != 2 {
			t.Errorf("%q: %v", it.words, o.acme)
		}
	}
	o, err := parseOptions([]string{"--log-format", "xml"}, io.Discard)
	if err != nil {
		t.Fatal(err)
	}
	if _, err := o.openLog(); err == nil {
		t.Error("a log of another form")
	}
}
