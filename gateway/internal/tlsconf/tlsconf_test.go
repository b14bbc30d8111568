package tlsconf

import (
	"bytes"
	"crypto"
	"crypto/ecdsa"
	"crypto/elliptic"
	"crypto/rand"
	"crypto/rsa"
	"crypto/tls"
	"crypto/x509"
	"crypto/x509/pkix"
	"encoding/pem"
	"log/slog"
	"math/big"
	"net"
	"os"
	"path/filepath"
	"strings"
	"testing"
	"time"
)

// makePair writes a certificate of its own for 127.0.0.1 with a name, and its key, and returns their files.
func makePair(t *testing.T, folder, name string, key crypto.Signer) (certificate, keyFile string) {
	t.Helper()
	form := &x509.Certificate{SerialNumber: big.NewInt(time.Now().UnixNano()), Subject: pkix.Name{CommonName: name}, NotBefore: time.Now().Add(-time.Hour),
		NotAfter: time.Now().Add(time.Hour), IPAddresses: []net.IP{net.IPv4(127, 0, 0, 1)}}
	text, err := x509.CreateCertificate(rand.Reader, form, form, key.Public(), key)
	if err != nil {
		t.Fatal(err)
	}
	private, err := x509.MarshalPKCS8PrivateKey(key)
	if err != nil {
		t.Fatal(err)
	}
	certificate, keyFile = filepath.Join(folder, "cert.pem"), filepath.Join(folder, "key.pem")
	for at, block := range map[string]*pem.Block{certificate: {Type: "CERTIFICATE", Bytes: text}, keyFile: {Type: "PRIVATE KEY", Bytes: private}} {
		// (as certbot and mv do: the file is another one)
		if err := os.WriteFile(at+".new", pem.EncodeToMemory(block), 0o600); err != nil {
			t.Fatal(err)
		}
		if err := os.Rename(at+".new", at); err != nil {
			t.Fatal(err)
		}
	}
	return certificate, keyFile
}

func newKey(t *testing.T, isRSA bool) (key crypto.Signer) {
	t.Helper()
	var err error
	if isRSA {
		key, err = rsa.GenerateKey(rand.Reader, 2048)
	} else {
		key, err = ecdsa.GenerateKey(elliptic.P256(), rand.Reader)
	}
	if err != nil {
		t.Fatal(err)
	}
	return key
}

// serve does handshakes until the test ends.
func serve(t *testing.T, config *tls.Config) (address string) {
	t.Helper()
	l, err := tls.Listen("tcp", "127.0.0.1:0", config)
	if err != nil {
		t.Fatal(err)
	}
	t.Cleanup(func() { l.Close() })
	go func() {
		for {
			conn, err := l.Accept()
			if err != nil {
				return
			}
			go func() {
				conn.(*tls.Conn).Handshake()
				conn.Close()
			}()
		}
	}()
	return l.Addr().String()
}

func TestSuites(t *testing.T) {
	for _, isRSA := range []bool{true, false} {
		certificate, key := makePair(t, t.TempDir(), "a", newKey(t, isRSA))
		config, err := Files(certificate, key)
		if err != nil {
			t.Fatal(err)
		}
		address, taken := serve(t, config), 0
		for _, it := range append(tls.CipherSuites(), tls.InsecureCipherSuites()...) {
			if it.SupportedVersions[0] == tls.VersionTLS13 {
				continue
			}
			conn, err := tls.Dial("tcp", address, &tls.Config{InsecureSkipVerify: true, MaxVersion: tls.VersionTLS12, CipherSuites: []uint16{it.ID}})
			isGood := strings.HasPrefix(it.Name, "TLS_ECDHE_") && !strings.Contains(it.Name, "_CBC_") && !strings.Contains(it.Name, "_RC4_")
			if err == nil {
				conn.Close()
				taken++
			}
			if err == nil && !isGood {
				t.Errorf("%s is taken", it.Name)
			}
		}
		if taken != 3 {
			t.Errorf("%d suites are taken, not three", taken)
		}
	}
}

func TestVersions(t *testing.T) {
	certificate, key := makePair(t, t.TempDir(), "a", newKey(t, false))
	config, err := Files(certificate, key)
	if err != nil {
		t.Fatal(err)
	}
	address := serve(t, config)
	for version, isTaken := range map[uint16]bool{tls.VersionTLS10: false, tls.VersionTLS11: false, tls.VersionTLS12: true, tls.VersionTLS13: true} {
		conn, err := tls.Dial("tcp", address, &tls.Config{InsecureSkipVerify: true, MinVersion: version, MaxVersion: version, NextProtos: []string{"h2", "http/1.1"}})
		if (err == nil) != isTaken {
			t.Errorf("%s: %v", tls.VersionName(version), err)
		}
		if err == nil {
			if found := conn.ConnectionState().NegotiatedProtocol; found != "http/1.1" {
				t.Errorf("the protocol is %q", found)
			}
			conn.Close()
		}
	}
}

// name returns the name of the certificate that a server shows.
func name(t *testing.T, address string) string {
	t.Helper()
	conn, err := tls.Dial("tcp", address, &tls.Config{InsecureSkipVerify: true})
	if err != nil {
		t.Fatal(err)
	}
	defer conn.Close()
	return conn.ConnectionState().PeerCertificates[0].Subject.CommonName
}

// A renewed certificate is taken without a restart; a pair that doesn't go together, or is gone, changes nothing, and is one line.
func TestRenewal(t *testing.T) {
	var text bytes.Buffer
	before := slog.Default()
	defer slog.SetDefault(before)
	slog.SetDefault(slog.New(slog.NewTextHandler(&text, nil)))
	folder := t.TempDir()
	certificate, key := makePair(t, folder, "first", newKey(t, false))
	now := time.Now()
	p := &pair{certificate: certificate, key: key, now: func() time.Time { return now }}
	if err := p.load(); err != nil {
		t.Fatal(err)
	}
	address := serve(t, config(p.get))
	for _, it := range []struct {
		name string
		act  func()
		want string
	}{
		{"nothing", func() {}, "first"},
		{"renewed", func() { makePair(t, folder, "second", newKey(t, false)) }, "second"},
		{"renewed at once", func() { makePair(t, folder, "third", newKey(t, true)) }, "third"},
		{"the key is another one", func() { os.Rename(key, key+".old"); os.WriteFile(key, []byte("x"), 0o600) }, "third"},
		{"still", func() {}, "third"},
		{"the key is gone", func() { os.Remove(key) }, "third"},
		{"the key is back", func() { os.Rename(key+".old", key) }, "third"},
		{"renewed again", func() { makePair(t, folder, "fourth", newKey(t, false)) }, "fourth"},
	} {
		it.act()
		now = now.Add(pause)
		if found := name(t, address); found != it.want {
			t.Errorf("%s: the certificate is %s, not %s", it.name, found, it.want)
		}
	}
	if lines := strings.Count(text.String(), "level=ERROR"); lines != 1 {
		t.Errorf("%d lines of errors:\n%s", lines, text.String())
	}
}

func TestNoPair(t *testing.T) {
	folder := t.TempDir()
	certificate, _ := makePair(t, folder, "a", newKey(t, false))
	if _, err := Files(certificate, filepath.Join(folder, "none")); err == nil {
		t.Error("a key that isn't there")
	}
}
