// Package uri encodes names for targets and for the text that is signed.
package uri

import (
	"net/url"
	"strings"
)

var escapes = strings.NewReplacer("+", "%20", "%2F", "/")

// Encode percent-encodes all bytes but those that RFC 3986 calls unreserved, and the slash.
func Encode(path string) string { return escapes.Replace(url.QueryEscape(path)) }

// IsPrintable returns whether a text has nothing but visible ASCII, so that it can stand in a field of a head.
func IsPrintable(text string) bool {
	return strings.IndexFunc(text, func(r rune) bool { return r <= ' ' || r > '~' }) < 0
}
