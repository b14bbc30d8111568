// Package xmlio reads and writes the documents of the S3 API.
package xmlio

import (
	"bufio"
	"bytes"
	"encoding/xml"
	"errors"
	"fmt"
	"io"
	"strings"
)

// The most bytes of a document that a request brings.
const (
	greatestList = 2 << 20 // of Delete and CompleteMultipartUpload
	greatest     = 64 << 10
)

// A Form bounds a document while it comes, before it is read.
type Form struct {
	Bytes int64
	tags  int
}

// The forms of Delete, of CompleteMultipartUpload, and of all other documents: as many tags as S3's counts of objects and parts
// let them have, each element by two, and some comments.
var (
	DeleteForm     = Form{greatestList, 13 * MostObjects}
	CompletionForm = Form{greatestList, 17 * MostParts}
	OtherForm      = Form{greatest, greatest}
)

// Bound returns what is written a document's bytes as they come. It fails where they have too many tags, so that what is refused
// anyway needn't come whole.
func (f Form) Bound() io.Writer { return &bound{left: f.tags} }

type bound struct{ left int }

func (b *bound) Write(text []byte) (int, error) {
	if b.left -= bytes.Count(text, []byte("<")); b.left < 0 {
		return 0, malformed("the document has too many elements")
	}
	return len(text), nil
}

const (
	deepest      = 8        // elements in one another
	longestToken = 16 << 10 // bytes of a tag with its attributes, or of a text
)

// A DocumentError is why a document is refused. Code is S3's (Amazon S3 API Reference, "Error responses").
type DocumentError struct{ Code, Message string }

func (e *DocumentError) Error() string { return e.Code + ": " + e.Message }

func malformed(format string, args ...any) error {
	return &DocumentError{"MalformedXML", fmt.Sprintf(format, args...)}
}

var errTooLong = errors.New("a tag or text of the document is too long")

// source gives a decoder the bytes of a document one by one. It ends a token that is too long, since a decoder keeps a token whole
// before anybody can look at it.
type source struct {
	in     *bufio.Reader
	left   int // bytes of the document
	budget int // bytes of the token
}

func (s *source) ReadByte() (byte, error) {
	if s.left--; s.left < 0 {
		return 0, errors.New("the document is too long")
	}
	if s.budget--; s.budget < 0 {
		return 0, errTooLong
	}
	return s.in.ReadByte()
}

// Read is there for io.Reader alone: a decoder takes ReadByte where there is one.
func (s *source) Read(b []byte) (int, error) {
	if len(b) == 0 {
		return 0, nil
	}
	c, err := s.ReadByte()
	if err != nil {
		return 0, err
	}
	b[0] = c
	return 1, nil
}

// reader reads one document token by token, so that what is too much ends it before it takes memory.
type reader struct {
	tokens *xml.Decoder
	source *source
	depth  int
	begun  bool
}

// next returns the next start of an element, its end, or a text. Comments are passed over. A document type is refused, and so
// is an instruction that isn't the declaration of XML in the first place.
func (r *reader) next() (xml.Token, error) {
	for {
		r.source.budget = longestToken
		token, err := r.tokens.Token()
		if err == io.EOF {
			return nil, err
		} else if err != nil {
			return nil, malformed("%v", err)
		}
		isFirst := !r.begun
		r.begun = true
		switch token := token.(type) {
		case xml.StartElement:
			if r.depth++; r.depth > deepest {
				return nil, malformed("elements lie deeper than %d in one another", deepest)
			}
			return token, attributes(token)
		case xml.EndElement:
			r.depth--
			return token, nil
		case xml.CharData:
			return token, nil
		case xml.ProcInst:
			if !isFirst || token.Target != "xml" {
				return nil, malformed("an instruction stands in the document")
			}
		case xml.Directive:
			return nil, malformed("the document has a document type")
		}
	}
}

// attributes refuses attributes but the names of spaces.
func attributes(start xml.StartElement) error {
	for _, it := range start.Attr {
		if it.Name.Local != "xmlns" && it.Name.Space != "xmlns" {
			return malformed("%s has an attribute", start.Name.Local)
		}
	}
	return nil
}

// fields are the members that an element may have, by name: a *string is a text that stands once, a func() error reads an element
// that may come again.
type fields map[string]any

// members reads the children of the element that has just begun, and its end. One that isn't in the table is refused: as not
// there where S3 has it, else as malformed.
func (r *reader) members(of string, table fields, notThere ...string) error {
	seen := map[string]bool{}
	for {
		token, err := r.next()
		if err != nil {
			return ended(err)
		}
		switch token := token.(type) {
		case xml.EndElement:
			return nil
		case xml.CharData:
			if strings.TrimSpace(string(token)) != "" {
				return malformed("%s has a text", of)
			}
		case xml.StartElement:
			name := token.Name.Local
			if err := r.member(of, name, table[name], seen[name], notThere); err != nil {
				return err
			}
			seen[name] = true
		}
	}
}

func (r *reader) member(of, name string, into any, isAgain bool, notThere []string) error {
	switch into := into.(type) {
	case func() error:
		return into()
	case *string:
		if isAgain {
			return malformed("%s has %s twice", of, name)
		}
		return r.text(name, into)
	}
	for _, it := range notThere {
		if it == name {
			return &DocumentError{"NotImplemented", name + " is not there"}
		}
	}
	return malformed("%s has a member that is unknown", of)
}

// text reads the text of the element that has just begun, and its end.
func (r *reader) text(of string, into *string) error {
	var text strings.Builder
	for {
		token, err := r.next()
		if err != nil {
			return ended(err)
		}
		switch token := token.(type) {
		case xml.EndElement:
			*into = text.String()
			return nil
		case xml.CharData:
			if text.Len()+len(token) > longestToken {
				return malformed("%s is too long", of)
			}
			text.Write(token)
		case xml.StartElement:
			return malformed("%s has members", of)
		}
	}
}

// ended returns the error of a document that ends within an element.
func ended(err error) error {
	if err == io.EOF {
		return malformed("the document is cut")
	}
	return err
}

// read reads a document of at most so many bytes with the root element `of`. Nothing but blanks and comments may follow it.
func read(in io.Reader, most int, of string, root func(r *reader) error) error {
	s := &source{in: bufio.NewReader(in), left: most}
	if mark, _ := s.in.Peek(3); string(mark) == "\ufeff" {
		s.in.Discard(3) // (a mark of the order of bytes, which some write before UTF-8)
	}
	r := &reader{tokens: xml.NewDecoder(s), source: s}
	isRead := false
	for {
		token, err := r.next()
		if err == io.EOF && isRead {
			return nil
		} else if err != nil {
			return ended(err)
		}
		switch token := token.(type) {
		case xml.CharData:
			if strings.TrimSpace(string(token)) != "" {
				return malformed("a text stands beside %s", of)
			}
		case xml.StartElement:
			if isRead || token.Name.Local != of {
				return malformed("the document is not one %s", of)
			}
			if err := root(r); err != nil {
				return err
			}
			isRead = true
		}
	}
}
