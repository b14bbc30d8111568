// Package sigv4 verifies who signed a request (Amazon S3 API Reference, "Authenticating Requests (AWS Signature Version 4)") and
// reads bodies whose chunks are signed.
package sigv4

import (
	"crypto/hmac"
	"crypto/sha256"
	"encoding/hex"
	"io"
	"net/http"
	"net/url"
	"strconv"
	"strings"
	"time"

	"bucketd/gateway/internal/s3err"
	"bucketd/gateway/internal/uri"
)

// UnsignedPayload stands for the hash of a body that isn't signed.
const UnsignedPayload = "UNSIGNED-PAYLOAD"

const (
	amzDate      = "20060102T150405Z"
	algorithm    = "AWS4-HMAC-SHA256"
	emptySHA256  = "e3b0c44298fc1c149afbf4c8996fb92427ae41e4649b934ca495991b7852b855"
	longestQuery = 7 * 24 * 60 * 60 // seconds that a presigned URL may be used
	skew         = 15 * time.Minute
)

// Keys knows the secrets of access keys.
type Keys interface {
	// Secret returns the secret of an access key, and whether there is such a key.
	Secret(id string) (string, bool)
}

// Verifier verifies requests.
type Verifier struct {
	Keys       Keys
	Region     string // that signatures name; where it is empty, any
	NoVersion2 bool   // refuses URLs that are presigned by version 2
	Now        func() time.Time
}

// Caller is who asks, by a signature that was right.
type Caller struct {
	ID, Tenant, Secret string
	Payload            string // x-amz-content-sha256, or what stands for it
	signing            []byte // the key that signs
	date, scope        string
	signature          string
}

func hmacSHA256(key []byte, text string) []byte {
	h := hmac.New(sha256.New, key)
	io.WriteString(h, text)
	return h.Sum(nil)
}

func hexSHA256(text string) string {
	sum := sha256.Sum256([]byte(text))
	return hex.EncodeToString(sum[:])
}

// signs returns whether the caller's key signed a text, of a kind, by a signature.
func (c *Caller) signs(kind, text, signature string) bool {
	sum := hmacSHA256(c.signing, algorithm+kind+"\n"+c.date+"\n"+c.scope+"\n"+text)
	return hmac.Equal([]byte(hex.EncodeToString(sum)), []byte(signature))
}

// Caller returns who has an access key; no signature of theirs was seen.
func (v *Verifier) Caller(id string) (*Caller, error) {
	secret, isThere := v.Keys.Secret(id)
	if !isThere {
		return nil, s3err.New("InvalidAccessKeyId", "there is no such access key")
	}
	tenant, _, _ := strings.Cut(id, "$")
	return &Caller{ID: id, Tenant: tenant, Secret: secret}, nil
}

// Verify returns whose request it is. The query is the target's; the path is the bucket's and the key's as it came, which a
// signature of version 2 counts. The error is one of s3err's; where the signature is another one, the caller has the key's id alone.
func (v *Verifier) Verify(r *http.Request, query url.Values, path string) (*Caller, error) {
	isQuery := query.Has("X-Amz-Algorithm") || query.Has("X-Amz-Signature")
	isVersion2 := query.Has("AWSAccessKeyId") || query.Has("Signature")
	isHead := r.Header.Get("Authorization") != ""
	switch {
	case isHead && (isQuery || isVersion2) || isQuery && isVersion2:
		return nil, s3err.New("InvalidArgument", "a request is signed once, in its head or in its query")
	case isVersion2:
		return v.verify2(r, query, path)
	}
	g := &signedRequest{Request: r, query: query, isQuery: isQuery, words: map[string]string{}}
	read := g.readHead
	if isQuery {
		read = g.readQuery
	}
	if err := read(); err != nil {
		return nil, err
	}
	if !isQuery || strings.Contains(";"+g.words["SignedHeaders"]+";", ";x-amz-content-sha256;") {
		g.payload = r.Header.Get("x-amz-content-sha256")
	}
	return v.verify4(g)
}

// signedRequest is a request with what it says of its own signature.
type signedRequest struct {
	*http.Request
	query         url.Values
	isQuery       bool // where the words are
	words         map[string]string
	date, payload string
}

// malformed returns the error of a signature of another form.
func (g *signedRequest) malformed(message string) error {
	if g.isQuery {
		return s3err.New("AuthorizationQueryParametersError", message)
	}
	return s3err.New("AuthorizationHeaderMalformed", message)
}

func (g *signedRequest) readQuery() error {
	for _, name := range []string{"Algorithm", "Credential", "SignedHeaders", "Signature", "Date", "Expires"} {
		g.words[name] = g.query.Get("X-Amz-" + name)
	}
	g.date, g.payload = g.words["Date"], UnsignedPayload
	if g.words["Algorithm"] != algorithm {
		return g.malformed("the algorithm is " + algorithm)
	}
	return nil
}

func (g *signedRequest) readHead() error {
	authorization := g.Header.Get("Authorization")
	if authorization == "" {
		return errUnsigned
	}
	if !strings.HasPrefix(authorization, algorithm+" ") {
		return s3err.New("InvalidRequest", "a head is signed by "+algorithm)
	}
	for _, part := range strings.Split(authorization[len(algorithm):], ",") {
		name, value, _ := strings.Cut(strings.TrimSpace(part), "=")
		g.words[name] = value
	}
	g.date = g.Header.Get("x-amz-date")
	if at, err := http.ParseTime(g.Header.Get("Date")); g.date == "" && err == nil {
		g.date = at.UTC().Format(amzDate)
	}
	return nil
}

func (v *Verifier) verify4(g *signedRequest) (*Caller, error) {
	scope := strings.Split(g.words["Credential"], "/")
	if len(scope) != 5 || scope[3] != "s3" || scope[4] != "aws4_request" {
		return nil, g.malformed("the credential is not KEY/DATE/REGION/s3/aws4_request")
	}
	if v.Region != "" && scope[2] != v.Region {
		return nil, g.malformed("the region '" + scope[2] + "' is wrong; expecting '" + v.Region + "'")
	}
	if g.payload == "" {
		return nil, s3err.New("InvalidRequest", "x-amz-content-sha256 is missing")
	}
	if err := g.checkTime(v.Now(), scope[1]); err != nil {
		return nil, err
	}
	c, err := v.Caller(scope[0])
	if err != nil {
		return nil, err
	}
	text, err := g.canonical()
	if err != nil {
		return nil, err
	}
	c.date, c.Payload, c.signature, c.scope = g.date, g.payload, g.words["Signature"], strings.Join(scope[1:], "/")
	c.signing = []byte("AWS4" + c.Secret)
	for _, part := range scope[1:] {
		c.signing = hmacSHA256(c.signing, part)
	}
	if !c.signs("", hexSHA256(text), c.signature) {
		return &Caller{ID: c.ID}, errSignature
	}
	return c, nil
}

var (
	errSignature = s3err.New("SignatureDoesNotMatch", "the signature of the request is another one")
	errUnsigned  = s3err.New("AccessDenied", "the request is not signed")
	errExpired   = s3err.New("AccessDenied", "Request has expired")
)

// Cause returns why a request wasn't verified: S3's code, or where that says less Unsigned or Expired.
func Cause(err error) string {
	switch e, isThere := s3err.Of(err); {
	case !isThere:
		return "InternalError"
	case e == errUnsigned:
		return "Unsigned"
	case e == errExpired:
		return "Expired"
	default:
		return e.Code
	}
}

// checkTime refuses a request of another day than its credential's, from a clock that is wrong, or whose URL has expired.
func (g *signedRequest) checkTime(now time.Time, day string) error {
	at, err := time.Parse(amzDate, g.date)
	if err != nil || day != g.date[:8] {
		return s3err.New("AccessDenied", "x-amz-date is of another form, or of another day than the credential")
	}
	if g.isQuery {
		seconds, err := strconv.Atoi(g.words["Expires"])
		if err != nil || seconds < 1 || seconds > longestQuery {
			return g.malformed("X-Amz-Expires is from 1 to 604800")
		}
		if now.After(at.Add(time.Duration(seconds) * time.Second)) {
			return errExpired
		}
	}
	if at.After(now.Add(skew)) || !g.isQuery && at.Before(now.Add(-skew)) {
		return s3err.New("RequestTimeTooSkewed", "the clocks differ by more than 15 minutes")
	}
	return nil
}

// canonical returns what is signed of a request. All fields of the head that S3 heeds by an x-amz- name have to be.
func (g *signedRequest) canonical() (string, error) {
	// (these net/http keeps elsewhere than in the head)
	g.Header["Host"], g.Header["Transfer-Encoding"] = []string{g.Host}, g.TransferEncoding
	g.query.Del("X-Amz-Signature")
	var text strings.Builder
	text.WriteString(g.Method + "\n" + uri.Encode(g.URL.Path) + "\n" + strings.ReplaceAll(g.query.Encode(), "+", "%20") + "\n")
	isSigned := map[string]bool{"x-amz-content-sha256": true}
	for _, name := range strings.Split(g.words["SignedHeaders"], ";") {
		isSigned[name] = true
		text.WriteString(name + ":" + strings.Join(strings.Fields(strings.Join(g.Header.Values(name), ",")), " ") + "\n")
	}
	for name := range g.Header {
		if lower := strings.ToLower(name); strings.HasPrefix(lower, "x-amz-") && !isSigned[lower] {
			return "", s3err.New("AccessDenied", "a field of the head is not signed: "+lower)
		}
	}
	if !isSigned["host"] {
		return "", s3err.New("AccessDenied", "host is not signed")
	}
	text.WriteString("\n" + g.words["SignedHeaders"] + "\n" + g.payload)
	return text.String(), nil
}
