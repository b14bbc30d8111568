package sigv4

import (
	"crypto/hmac"
	"crypto/sha1"
	"encoding/base64"
	"io"
	"net/http"
	"net/url"
	"slices"
	"sort"
	"strconv"
	"strings"
	"unicode"

	"bucketd/gateway/internal/s3err"
)

// What a presigned query of version 2 counts as a part of the resource, in order.
var signedParameters = []string{"acl", "cors", "delete", "lifecycle", "location", "logging", "notification", "object-lock", "partNumber",
	"policy", "requestPayment", "response-cache-control", "response-content-disposition", "response-content-encoding",
	"response-content-language", "response-content-type", "response-expires", "restore", "retention", "tagging", "torrent", "uploadId",
	"uploads", "versionId", "versioning", "versions", "website"}

// The text that is signed has the counted parameters as NAME or NAME=VALUE with & between, and values decoded. So it may be the text of
// two queries: "a&versionId=1" as the value of response-content-type makes the same text as "a", and 1 as the value of versionId. Who
// has a link could move the border between the two.
//
// Let two queries have one text. The path has no ?, a name neither & nor =, and a name stands alone where its value is empty. So the
// queries differ in which & are borders. Take the first that is a border in one query alone. Before it both have the same parameter,
// behind it stands a counted name, and then =, & or the end. Since names are in order, that name comes later than the parameter's own.
// In the other query the value of that parameter has all this in it. So if such values are refused, each text is that of one query
// that is taken. And little more is refused: where = follows the name, the text is also that of the query with the border there. (A
// name alone is refused whatever comes behind it.) A value with =, with ?, or with another & is as good as any other.
//
// Control characters would change none of this, since a line of another kind begins otherwise. They are refused, as no client has them.

var errRecut = s3err.New("SignatureDoesNotMatch", "a signature of version 2 doesn't hold for a value that reads as a further parameter, or has a control character: sign by version 4")

// isRecut returns whether a value has a control character, or a & that a later name follows and then =, & or the end.
func isRecut(value string, later []string) bool {
	for _, piece := range strings.Split(value, "&")[1:] {
		if name, _, _ := strings.Cut(piece, "="); slices.Contains(later, name) {
			return true
		}
	}
	return strings.IndexFunc(value, unicode.IsControl) >= 0
}

// resource2 returns what is signed of a query.
func resource2(query url.Values) (string, error) {
	var signed []string
	for i, name := range signedParameters {
		value := query.Get(name)
		switch {
		case !query.Has(name):
		case isRecut(value, signedParameters[i+1:]):
			return "", errRecut
		case value == "":
			signed = append(signed, name)
		default:
			signed = append(signed, name+"="+value)
		}
	}
	if len(signed) == 0 {
		return "", nil
	}
	return "?" + strings.Join(signed, "&"), nil
}

// canonical2 returns what is signed of a request.
func canonical2(r *http.Request, query url.Values, path string) (string, error) {
	var fields []string
	for name, values := range r.Header {
		if lower := strings.ToLower(name); strings.HasPrefix(lower, "x-amz-") {
			fields = append(fields, lower+":"+strings.Join(values, ",")+"\n")
		}
	}
	sort.Strings(fields)
	text := strings.Join([]string{r.Method, r.Header.Get("Content-MD5"), r.Header.Get("Content-Type"), query.Get("Expires"), ""}, "\n") +
		strings.Join(fields, "") + path
	resource, err := resource2(query)
	return text + resource, err
}

// verify2 returns whose a presigned URL of version 2 is ("Authenticating Requests (AWS Signature Version 2)"): boto3 and aws-cli 1
// make them where nothing is said. No head is signed so.
func (v *Verifier) verify2(r *http.Request, query url.Values, path string) (*Caller, error) {
	if v.NoVersion2 {
		return nil, s3err.New("InvalidRequest", "signatures of version 2 are not taken: sign by version 4")
	}
	c, err := v.Caller(query.Get("AWSAccessKeyId"))
	if err != nil {
		return nil, err
	}
	until, err := strconv.ParseInt(query.Get("Expires"), 10, 64)
	if now := v.Now().Unix(); err != nil || until < now || until > now+longestQuery {
		return nil, errExpired
	}
	text, err := canonical2(r, query, path)
	if err != nil {
		return nil, err
	}
	h := hmac.New(sha1.New, []byte(c.Secret))
	io.WriteString(h, text)
	signature := base64.StdEncoding.EncodeToString(h.Sum(nil))
	if !hmac.Equal([]byte(signature), []byte(query.Get("Signature"))) {
		return &Caller{ID: c.ID}, errSignature
	}
	c.Payload = UnsignedPayload
	return c, nil
}
