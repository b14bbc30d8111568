// Package notes keeps what clients want kept beside an object: bucketd has no place for it, so it lies in a hidden bucket of the
// object's tenant.
package notes

import (
	"crypto/sha256"
	"encoding/base64"
	"encoding/hex"
	"encoding/json"
	"fmt"
	"net/http"
	"regexp"
	"strings"
	"unicode/utf8"

	"bucketd/gateway/internal/host"
	"bucketd/gateway/internal/s3err"
)

// Bucket is the hidden bucket. No client can name it.
const Bucket = "bucketd.meta"

// MetaField begins the fields of a head with user metadata.
const MetaField = "x-amz-meta-"

const greatest = 2048 // bytes of user metadata, and of each other field that is kept

// Kept has the fields that S3 keeps as they are, and that a request may have answered otherwise (response-*).
var Kept = map[string]bool{"content-type": true, "content-language": true, "expires": true, "cache-control": true,
	"content-disposition": true, "content-encoding": true}

// Metadata has the fields that are kept of an object, by their names in small letters.
type Metadata map[string]string

// IsText returns whether a value can be kept and told again as it is: UTF-8 without control characters.
func IsText(value string) bool {
	isControl := func(r rune) bool { return r < ' ' && r != '\t' || r == 0x7f }
	return utf8.ValidString(value) && strings.IndexFunc(value, isControl) < 0
}

// Of returns what a request wants kept: x-amz-meta-* and the fields that S3 keeps. The error is MetadataTooLarge, or InvalidArgument
// where a value is no text.
func Of(h http.Header) (Metadata, error) {
	tooLarge := s3err.New("MetadataTooLarge", "user metadata has at most 2048 bytes, and so has each of the other fields")
	meta, size := Metadata{}, 0
	for field, values := range h {
		name, value := strings.ToLower(field), strings.Join(values, ",")
		if (strings.HasPrefix(name, MetaField) || Kept[name]) && !IsText(value) {
			return nil, s3err.New("InvalidArgument", "the value of "+name+" is no UTF-8, or has a control character")
		}
		if name == "content-encoding" {
			value = strings.Trim(strings.ReplaceAll(value, "aws-chunked", ""), ", ")
		}
		if strings.HasPrefix(name, MetaField) {
			meta[name] = value
			size += len(name) - len(MetaField) + len(value)
		} else if Kept[name] && value != "" {
			if len(value) > greatest {
				return nil, tooLarge
			}
			meta[name] = value
		}
	}
	if size > greatest {
		return nil, tooLarge
	}
	return meta, nil
}

// Note is metadata with the checksum of the bytes that it belongs to. It is put before these bytes are, so it also has what the
// bytes have that they replace: whoever reads finds by the checksum what belongs to what is there, whether the write came to its
// end or not. The note of a version with a number is put when the version has its number; until then that of `null` has it.
type Note struct {
	Checksum string
	Metadata Metadata
	Before   *Note `json:",omitempty"`
}

// Of returns what a note has for bytes of a checksum, and whether it has anything.
func (n *Note) Of(checksum string) (Metadata, bool) {
	for it := n; it != nil; it = it.Before {
		if it.Checksum == checksum && checksum != "" {
			return it.Metadata, true
		}
	}
	return nil, false
}

// Size returns about how many bytes a note takes.
func (n *Note) Size() int {
	size := 0
	for it := n; it != nil; it = it.Before {
		size += len(it.Checksum)
		for name, value := range it.Metadata {
			size += len(name) + len(value)
		}
	}
	return size
}

// Alone returns what a note has for bytes of a checksum, as a note of its own; nil where it has nothing.
func (n *Note) Alone(checksum string) *Note {
	if meta, isThere := n.Of(checksum); isThere {
		return &Note{Checksum: checksum, Metadata: meta}
	}
	return nil
}

var versions = regexp.MustCompile("^([0-9a-f]{16}|null)$")

// IsVersion returns whether a text is a version's id: 16 hexadecimal digits, or null.
func IsVersion(text string) bool { return versions.MatchString(text) }

// Place returns where the note of a version lies; without an id it is that of `null`. Since an id has no slash, and a bucket's name
// has none, no two versions have their notes at one place. Anything else as an id is an error.
func Place(o host.Object) (host.Object, error) {
	version := o.Version
	if version == "" {
		version = host.NullVersion
	}
	if !IsVersion(version) || strings.Contains(o.Bucket, "/") {
		return host.Object{}, fmt.Errorf("%q of %q can have no note", version, o.Bucket)
	}
	sum := sha256.Sum256([]byte(version + "/" + o.Key))
	return host.Object{Bucket: Bucket, Key: o.Bucket + "/" + hex.EncodeToString(sum[:])}, nil
}

var uploads = regexp.MustCompile("^[0-9a-f]{16}$")

// PlaceOfUpload returns where the metadata of an upload's object waits for its end, and whether there can be any: an id of another
// form is no upload's.
func PlaceOfUpload(bucket, id string) (host.Object, bool) {
	return host.Object{Bucket: Bucket, Key: bucket + "/upload-" + id}, uploads.MatchString(id)
}

// Parts begins the names of what is kept of uploads' parts. No bucket has such a name.
const Parts = "~parts/"

// PartsOfUpload begins the names of what is kept of an upload's parts. There is none where the id is of another form.
func PartsOfUpload(bucket, id string) (prefix string, isThere bool) {
	return Parts + bucket + "/" + id + "/", uploads.MatchString(id)
}

// PlaceOfPart returns where the checksums of a part lie, by its number and its SHA-256 in base64: of a part that is put anew they
// don't take the place of the old one's.
func PlaceOfPart(bucket, id string, number int, checksum string) (place host.Object, isThere bool) {
	prefix, isThere := PartsOfUpload(bucket, id)
	sum, err := base64.StdEncoding.DecodeString(checksum)
	return host.Object{Bucket: Bucket, Key: fmt.Sprintf("%s%d-%x", prefix, number, sum)}, isThere && err == nil
}

// PlainUpload returns an upload's id as bucketd has it. (Once the metadata stood in the client's id, after a point.)
func PlainUpload(id string) string {
	plain, _, _ := strings.Cut(id, ".")
	return plain
}

// fields are the names of fields (RFC 9110, section 5.1).
var fields = regexp.MustCompile("^[!#$%&'*+.^_`|~0-9A-Za-z-]+$")

// InUpload returns the metadata in an upload's id, where it has any. A client told it: what is no metadata is passed over.
func InUpload(id string) (Metadata, error) {
	_, packed, isThere := strings.Cut(id, ".")
	if !isThere {
		return nil, nil
	}
	text, err := base64.RawURLEncoding.DecodeString(packed)
	told, head := map[string]string{}, http.Header{}
	if err != nil || json.Unmarshal(text, &told) != nil {
		return nil, nil
	}
	for name, value := range told {
		if !fields.MatchString(name) {
			return nil, nil
		}
		head.Set(name, value)
	}
	return Of(head)
}
