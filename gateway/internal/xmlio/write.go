package xmlio

import (
	"bytes"
	"encoding/base64"
	"encoding/xml"
	"fmt"
	"sort"
	"strings"
	"unicode/utf8"

	"bucketd/gateway/internal/uri"
)

const namespace = ` xmlns="http://s3.amazonaws.com/doc/2006-03-01/"`

// UploadsRule is the name of a bucket's rule for uploads that are left unfinished, as bucketd's has none.
const UploadsRule = "uploads"

// Document is an element's content, by the names of its members (with attributes, where they have some): texts, documents, or
// lists of documents. bucketd's have S3's members, as JSON.
type Document = map[string]any

// Writer writes documents for one call.
type Writer struct {
	Owner        string // of all that is listed
	IsURLEncoded bool   // names are percent-encoded, as encoding-type=url asks
	HiddenBucket string // the bucket that no listing shows
	isListing    bool   // names in it are those of what is there
}

// Documents that tell names which the client may not know.
var listings = map[string]bool{"ListBucketResult": true, "ListVersionsResult": true, "ListMultipartUploadsResult": true}

// Whole returns a document with S3's name space.
func (w Writer) Whole(root string, content any) []byte {
	x := bytes.NewBufferString(xml.Header)
	w.isListing = listings[root]
	w.write(x, root+namespace, content)
	return x.Bytes()
}

// Error returns the document of an error, which has no name space.
func (w Writer) Error(content Document) []byte {
	x := bytes.NewBufferString(xml.Header)
	w.write(x, "Error", content)
	return x.Bytes()
}

// OwnerOf returns the element of an owner.
func (w Writer) OwnerOf() Document { return Document{"ID": w.Owner, "DisplayName": w.Owner} }

func (w Writer) write(x *bytes.Buffer, name string, value any) {
	switch value := value.(type) {
	case []any:
		for _, it := range value {
			if entry, isDocument := it.(Document); isDocument {
				w.writeEntry(x, name, entry)
			}
		}
	case Document:
		x.WriteString("<" + name + ">")
		for _, it := range sortedNames(value) {
			w.write(x, it, value[it])
		}
		closeElement(x, name)
	default:
		w.writeText(x, name, fmt.Sprint(value))
	}
}

func sortedNames(d Document) []string {
	names := make([]string, 0, len(d))
	for it := range d {
		names = append(names, it)
	}
	sort.Strings(names)
	return names
}

func closeElement(x *bytes.Buffer, name string) {
	tag, _, _ := strings.Cut(name, " ")
	x.WriteString("</" + tag + ">")
}

// writeText writes a text as S3 has it. One that is empty is left out, but of names: S3 tells an empty prefix, too.
func (w Writer) writeText(x *bytes.Buffer, name, text string) {
	switch name {
	case "ChecksumSHA256":
		name, text = "ETag", ETag(text)
	case "CreationDate", "Initiated", "LastModified", "RetainUntilDate":
		text = strings.TrimSuffix(text, "Z") + ".000Z" // (bucketd's have whole seconds)
	case "Key", "Prefix", "NextKeyMarker", "NextMarker", "Delimiter", "KeyMarker", "Marker", "StartAfter":
		if w.IsURLEncoded {
			text = uri.Encode(text)
		} else if w.isListing {
			writeName(x, name, text)
			return
		}
	default:
		if text == "" {
			return
		}
	}
	x.WriteString("<" + name + ">")
	xml.EscapeText(x, []byte(text))
	closeElement(x, name)
}

// isInXML returns whether XML 1.0 has a character (W3C, "Extensible Markup Language (XML) 1.0", section 2.2).
func isInXML(r rune) bool {
	return r == '\t' || r == '\n' || r == '\r' || r >= ' ' && r <= 0xd7ff || r >= 0xe000 && r <= 0xfffd || r >= 0x10000
}

// writeName writes a name as it is. A character that XML 1.0 doesn't have is told by its number, as S3 does: who reads XML 1.0 strictly
// is to ask with encoding-type=url, and refuses the page otherwise, rather than take the name for another one.
func writeName(x *bytes.Buffer, element, name string) {
	x.WriteString("<" + element + ">")
	for rest := name; rest != ""; {
		at := strings.IndexFunc(rest, func(r rune) bool { return !isInXML(r) })
		if at < 0 {
			at = len(rest)
		}
		xml.EscapeText(x, []byte(rest[:at]))
		if rest = rest[at:]; rest != "" {
			r, size := utf8.DecodeRuneInString(rest)
			fmt.Fprintf(x, "&#x%X;", r)
			rest = rest[size:]
		}
	}
	closeElement(x, element)
}

// The elements of lists, where they are named otherwise.
var entryNames = map[string]string{"Buckets": "Bucket", "Parts": "Part", "Rules": "Rule", "Uploads": "Upload", "Versions": "Version"}

// writeEntry writes an element of a list, with what S3 has beside bucketd's members.
func (w Writer) writeEntry(x *bytes.Buffer, name string, entry Document) {
	element := name
	if other, isThere := entryNames[name]; isThere {
		element = other
	}
	isMarker := name == "Versions" && entry["DeleteMarker"] == true
	if isMarker {
		element = "DeleteMarker"
	}
	switch name {
	case "Buckets":
		if entry["Name"] == w.HiddenBucket {
			return
		}
	case "Uploads":
		entry["Initiator"], entry["Owner"], entry["StorageClass"] = w.OwnerOf(), w.OwnerOf(), "STANDARD"
	case "Contents", "Versions":
		delete(entry, "DeleteMarker")
		entry["Owner"] = w.OwnerOf()
		if !isMarker {
			entry["StorageClass"] = "STANDARD"
		}
	case "Rules":
		entry["ID"], entry["Filter"] = UploadsRule, Document{"Prefix": ""}
	}
	w.write(x, element, entry)
}

// ETag returns an opaque entity tag, from which the SHA-256 (base64) can be read; of a joined object it ends in the number of
// parts. No client takes it for an MD5, as it has a hyphen.
func ETag(checksum string) string {
	digest, parts, isJoined := strings.Cut(checksum, "-")
	if !isJoined {
		parts = "0"
	}
	sum, err := base64.StdEncoding.DecodeString(digest)
	if err != nil {
		sum = nil
	}
	return fmt.Sprintf(`"%x-%s"`, sum, parts)
}
