// Package tlsconf says how the gateway speaks TLS: versions 1.2 and 1.3, with forward secrecy and authenticated encryption alone, by
// a certificate of files that may be renewed meanwhile, or by one that is got by ACME.
package tlsconf

import (
	"crypto/tls"
	"log/slog"
	"os"
	"sync"
	"time"
)

// suites are those of TLS 1.2 whose keys are exchanged by elliptic curves and whose encryption is authenticated (RFC 9325,
// section 4.2). Those of TLS 1.3 are all so.
var suites = []uint16{
	tls.TLS_ECDHE_ECDSA_WITH_AES_128_GCM_SHA256, tls.TLS_ECDHE_RSA_WITH_AES_128_GCM_SHA256,
	tls.TLS_ECDHE_ECDSA_WITH_AES_256_GCM_SHA384, tls.TLS_ECDHE_RSA_WITH_AES_256_GCM_SHA384,
	tls.TLS_ECDHE_ECDSA_WITH_CHACHA20_POLY1305_SHA256, tls.TLS_ECDHE_RSA_WITH_CHACHA20_POLY1305_SHA256,
}

type getCertificate = func(*tls.ClientHelloInfo) (*tls.Certificate, error)

func config(get getCertificate, protocols ...string) *tls.Config {
	return &tls.Config{GetCertificate: get, MinVersion: tls.VersionTLS12, CipherSuites: suites, NextProtos: append([]string{"http/1.1"}, protocols...)}
}

// Files returns a configuration with the certificate of a file, which has its chain, too, and the key of another one. Where the
// files change, the certificate changes with the next connection; a pair that can't be read leaves the one before.
func Files(certificate, key string) (*tls.Config, error) {
	p := &pair{certificate: certificate, key: key, now: time.Now}
	if err := p.load(); err != nil {
		return nil, err
	}
	return config(p.get), nil
}

// A pair is a certificate with its key, of two files.
type pair struct {
	certificate, key string
	now              func() time.Time
	mu               sync.Mutex
	looked           time.Time
	states           [2]state
	failed           bool
	found            *tls.Certificate
}

// state is what a change of a file shows in.
type state struct {
	modified time.Time
	size     int64
	file     os.FileInfo // its inode is compared
}

func (s state) same(other state) bool {
	return s.modified.Equal(other.modified) && s.size == other.size && os.SameFile(s.file, other.file)
}

const (
	pause = time.Second     // between two looks at the files
	young = 2 * time.Second // a file that is younger may have changed within the grain of its time
)

// get returns the certificate for a connection.
func (p *pair) get(*tls.ClientHelloInfo) (*tls.Certificate, error) {
	p.mu.Lock()
	defer p.mu.Unlock()
	if p.now().Sub(p.looked) < pause {
		return p.found, nil
	}
	if err := p.load(); err != nil && !p.failed {
		slog.Error("the certificate can't be read: the one before stays", "error", err.Error())
		p.failed = true
	} else if err == nil {
		p.failed = false
	}
	return p.found, nil
}

// load reads the files, if they aren't known to be as they were.
func (p *pair) load() error {
	before := p.looked
	p.looked = p.now()
	var states [2]state
	isSame := p.found != nil
	for i, name := range []string{p.certificate, p.key} {
		info, err := os.Stat(name)
		if err != nil {
			return err
		}
		states[i] = state{info.ModTime(), info.Size(), info}
		isSame = isSame && states[i].same(p.states[i]) && before.Sub(info.ModTime()) >= young
	}
	if isSame {
		return nil
	}
	found, err := tls.LoadX509KeyPair(p.certificate, p.key)
	if err != nil {
		return err
	}
	if p.found != nil && string(found.Certificate[0]) != string(p.found.Certificate[0]) {
		slog.Info("another certificate is taken", "file", p.certificate)
	}
	p.states, p.found = states, &found
	return nil
}
