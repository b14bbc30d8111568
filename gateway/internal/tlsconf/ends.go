package tlsconf

import (
	"crypto/tls"
	"crypto/x509"
	"sync"
	"time"
)

// Ends knows when the certificates end that clients are shown.
type Ends struct {
	look func() // at files that may have changed; nil where there are none
	mu   sync.Mutex
	of   map[string]end // by the name that clients connect to; of files there is one, of no name
}

// end is that of a certificate.
type end struct {
	certificate *tls.Certificate
	at          time.Time
}

// Watch has a configuration tell when its certificates end: of files at once, of names for which they are got when a client is first
// shown one.
func Watch(config *tls.Config, names []string) *Ends {
	e, get := &Ends{of: map[string]end{}}, config.GetCertificate
	config.GetCertificate = func(hello *tls.ClientHelloInfo) (*tls.Certificate, error) {
		found, err := get(hello)
		if err == nil && !isChallenge(hello) {
			e.note(names, hello.ServerName, found)
		}
		return found, err
	}
	if len(names) == 0 {
		e.look = func() { config.GetCertificate(&tls.ClientHelloInfo{}) }
	}
	return e
}

// isChallenge returns whether a client is an authority that looks whose a name is (RFC 8737).
func isChallenge(hello *tls.ClientHelloInfo) bool {
	return len(hello.SupportedProtos) == 1 && hello.SupportedProtos[0] == "acme-tls/1"
}

// note keeps when a certificate ends that is shown. One that was shown before costs a comparison.
func (e *Ends) note(names []string, name string, shown *tls.Certificate) {
	if len(names) == 0 {
		name = ""
	}
	e.mu.Lock()
	defer e.mu.Unlock()
	if e.of[name].certificate == shown || len(shown.Certificate) == 0 {
		return
	}
	leaf, err := x509.ParseCertificate(shown.Certificate[0])
	if err != nil {
		return
	}
	e.of[name] = end{shown, leaf.NotAfter}
}

// First returns when the first of them ends, and whether that is known of any.
func (e *Ends) First() (first time.Time, isThere bool) {
	if e.look != nil {
		e.look()
	}
	e.mu.Lock()
	defer e.mu.Unlock()
	for _, it := range e.of {
		if !isThere || it.at.Before(first) {
			first, isThere = it.at, true
		}
	}
	return first, isThere
}
