//go:build acme

package tlsconf

import (
	"crypto/ecdsa"
	"crypto/elliptic"
	"crypto/rand"
	"crypto/tls"
	"crypto/x509"
	"crypto/x509/pkix"
	"encoding/base64"
	"encoding/json"
	"encoding/pem"
	"fmt"
	"io"
	"math/big"
	"net/http"
	"net/http/httptest"
	"os"
	"testing"
	"time"

	"golang.org/x/crypto/acme"
)

// authority stands in for one of ACME: it believes whoever shows the certificate of tls-alpn-01 for the name, and signs.
type authority struct {
	t         *testing.T
	url, name string
	gateway   string // where the name is
	root      *x509.Certificate
	key       *ecdsa.PrivateKey
	proved    bool
	issued    []byte
	orders    int
}

func newAuthority(t *testing.T, name string) (*authority, *http.Client) {
	t.Helper()
	key, err := ecdsa.GenerateKey(elliptic.P256(), rand.Reader)
	if err != nil {
		t.Fatal(err)
	}
	a := &authority{t: t, name: name, key: key, root: &x509.Certificate{SerialNumber: big.NewInt(1), Subject: pkix.Name{CommonName: "authority"},
		NotBefore: time.Now().Add(-time.Hour), NotAfter: time.Now().Add(time.Hour), IsCA: true, BasicConstraintsValid: true, KeyUsage: x509.KeyUsageCertSign}}
	server := httptest.NewTLSServer(a)
	t.Cleanup(server.Close)
	a.url = server.URL
	return a, server.Client()
}

func (a *authority) ServeHTTP(w http.ResponseWriter, r *http.Request) {
	w.Header().Set("Replay-Nonce", "nonce")
	order := map[string]any{"status": "pending", "authorizations": []string{a.url + "/authorization"}, "finalize": a.url + "/finalize"}
	if a.proved {
		order["status"] = "ready"
	}
	status, told := 200, any(order)
	switch r.URL.Path {
	case "/directory":
		told = map[string]string{"newNonce": a.url + "/nonce", "newAccount": a.url + "/account", "newOrder": a.url + "/orders"}
	case "/nonce":
		return
	case "/account":
		w.Header().Set("Location", a.url+"/account/1")
		status, told = 201, map[string]string{"status": "valid"}
	case "/orders":
		a.orders++
		w.Header().Set("Location", a.url+"/order")
		status = 201
	case "/order":
		if a.issued != nil {
			order["status"], order["certificate"] = "valid", a.url+"/certificate"
		}
	case "/authorization", "/challenge":
		if r.URL.Path == "/challenge" {
			a.proved = a.proves()
		}
		state := map[bool]string{true: "valid", false: "pending"}[a.proved]
		challenge := map[string]string{"type": "tls-alpn-01", "url": a.url + "/challenge", "token": "token", "status": state}
		told = map[string]any{"status": state, "identifier": map[string]string{"type": "dns", "value": a.name}, "challenges": []any{challenge}}
		if r.URL.Path == "/challenge" {
			told = challenge
		}
	case "/finalize":
		a.issue(r)
		w.Header().Set("Location", a.url+"/order")
		order["status"], order["certificate"] = "valid", a.url+"/certificate"
	case "/certificate":
		w.Write(pem.EncodeToMemory(&pem.Block{Type: "CERTIFICATE", Bytes: a.issued}))
		return
	default:
		status, told = 404, map[string]string{"type": "none"}
	}
	w.Header().Set("Content-Type", "application/json")
	w.WriteHeader(status)
	json.NewEncoder(w).Encode(told)
}

// proves connects to the gateway as RFC 8737 has it.
func (a *authority) proves() bool {
	conn, err := tls.Dial("tcp", a.gateway, &tls.Config{ServerName: a.name, NextProtos: []string{acme.ALPNProto}, InsecureSkipVerify: true})
	if err != nil {
		a.t.Errorf("the authority can't connect: %v", err)
		return false
	}
	defer conn.Close()
	shown := conn.ConnectionState()
	return shown.NegotiatedProtocol == acme.ALPNProto && shown.PeerCertificates[0].VerifyHostname(a.name) == nil
}

func (a *authority) issue(r *http.Request) {
	var message struct{ Payload string }
	var request struct{ CSR string }
	text, _ := io.ReadAll(r.Body)
	json.Unmarshal(text, &message)
	payload, _ := base64.RawURLEncoding.DecodeString(message.Payload)
	json.Unmarshal(payload, &request)
	asked, _ := base64.RawURLEncoding.DecodeString(request.CSR)
	csr, err := x509.ParseCertificateRequest(asked)
	if err != nil || !a.proved {
		a.t.Errorf("a certificate was asked for: %v, proved %v", err, a.proved)
		return
	}
	form := &x509.Certificate{SerialNumber: big.NewInt(2), Subject: pkix.Name{CommonName: fmt.Sprint(a.name)}, DNSNames: csr.DNSNames,
		NotBefore: time.Now().Add(-time.Hour), NotAfter: time.Now().Add(90 * 24 * time.Hour), ExtKeyUsage: []x509.ExtKeyUsage{x509.ExtKeyUsageServerAuth}}
	if a.issued, err = x509.CreateCertificate(rand.Reader, form, a.root, csr.PublicKey, a.key); err != nil {
		a.t.Error(err)
	}
}

// A certificate is got when a client first connects, kept in the folder, and got for no other name.
func TestACME(t *testing.T) {
	a, client := newAuthority(t, "files.example.org")
	folder := t.TempDir() + "/acme"
	open := func() string {
		config, err := ACME(Domain{Names: []string{a.name}, Folder: folder, Directory: a.url + "/directory", Client: client})
		if err != nil {
			t.Fatal(err)
		}
		return serve(t, config)
	}
	a.gateway = open()
	if conn, err := tls.Dial("tcp", a.gateway, &tls.Config{ServerName: "other.example.org", InsecureSkipVerify: true}); err == nil {
		conn.Close()
		t.Error("another name was served")
	}
	for i := 0; i < 2; i++ {
		conn, err := tls.Dial("tcp", a.gateway, &tls.Config{ServerName: a.name, InsecureSkipVerify: true})
		if err != nil {
			t.Fatal(err)
		}
		if found := conn.ConnectionState().PeerCertificates[0]; found.Subject.CommonName != a.name || found.VerifyHostname(a.name) != nil {
			t.Errorf("the certificate is %v", found.Subject)
		}
		conn.Close()
		a.gateway = open() // (a new start takes it from the folder)
	}
	if a.orders != 1 {
		t.Errorf("%d certificates were got", a.orders)
	}
	if info, err := os.Stat(folder); err != nil || info.Mode().Perm() != 0o700 {
		t.Errorf("the folder: %v %v", info, err)
	}
}

func TestNoDomain(t *testing.T) {
	for _, it := range []Domain{{}, {Names: []string{"a"}}, {Folder: t.TempDir()}} {
		if _, err := ACME(it); err == nil {
			t.Errorf("%v was taken", it)
		}
	}
}
