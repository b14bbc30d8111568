//go:build acme

package tlsconf

import (
	"crypto/tls"
	"errors"
	"os"

	"golang.org/x/crypto/acme"
	"golang.org/x/crypto/acme/autocert"
)

// ACME returns a configuration with certificates that are got by ACME (RFC 8555), and renewed a month before they end. The
// authority proves the names by connecting to port 443 (RFC 8737, tls-alpn-01).
func ACME(d Domain) (*tls.Config, error) {
	if len(d.Names) == 0 || d.Folder == "" {
		return nil, errors.New("ACME wants names and a folder")
	}
	if err := os.MkdirAll(d.Folder, 0o700); err != nil {
		return nil, err
	}
	manager := &autocert.Manager{Prompt: autocert.AcceptTOS, HostPolicy: autocert.HostWhitelist(d.Names...), Cache: autocert.DirCache(d.Folder), Email: d.Email,
		Client: &acme.Client{DirectoryURL: d.Directory, HTTPClient: d.Client, UserAgent: "bucketd-gateway"}}
	return config(manager.GetCertificate, acme.ALPNProto), nil
}
