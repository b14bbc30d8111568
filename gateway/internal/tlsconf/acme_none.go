//go:build !acme

package tlsconf

import (
	"crypto/tls"
	"errors"
)

// ACME returns an error: this program was built without it.
func ACME(Domain) (*tls.Config, error) {
	return nil, errors.New("this gateway was built without ACME: make gateway has it where Debian's golang-golang-x-crypto-dev is there")
}
