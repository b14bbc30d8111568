package sigv4

import (
	"bufio"
	"crypto/sha256"
	"encoding/hex"
	"errors"
	"hash"
	"io"
	"strconv"
	"strings"

	"bucketd/gateway/internal/s3err"
)

// What x-amz-content-sha256 has of a body in aws-chunked.
const (
	SignedChunks          = "STREAMING-AWS4-HMAC-SHA256-PAYLOAD"
	SignedChunksTrailer   = "STREAMING-AWS4-HMAC-SHA256-PAYLOAD-TRAILER"
	UnsignedChunksTrailer = "STREAMING-UNSIGNED-PAYLOAD-TRAILER"
)

const (
	trailerSignature = "x-amz-trailer-signature"
	mostTrailers     = 16
	longestLine      = 4096
)

// ErrIncomplete is the error of a body that isn't what was announced.
var ErrIncomplete = s3err.New("IncompleteBody", "the body has another length than was announced, or its chunks are of another form")

// Chunks reads the payload of a body in aws-chunked (Amazon S3 API Reference, "Signature Calculations for the Authorization Header:
// Transferring Payload in Multiple Chunks"). The signature of each chunk is compared at its end, so what was read counts only when
// the reader has come to io.EOF.
type Chunks struct {
	caller   *Caller
	in       *bufio.Reader
	left     int64 // of the payload
	inChunk  int64
	isSigned bool
	trails   bool
	isBegun  bool
	previous string // the signature of the chunk before
	expected string // that of this one
	sum      hash.Hash
	trailer  map[string]string
	err      error
}

// Chunks returns a reader of a payload of some bytes.
func (c *Caller) Chunks(in *bufio.Reader, size int64) (*Chunks, error) {
	isSigned := c.Payload == SignedChunks || c.Payload == SignedChunksTrailer
	if !isSigned && c.Payload != UnsignedChunksTrailer {
		return nil, s3err.New("InvalidArgument", "x-amz-content-sha256 names no known way of chunks")
	}
	return &Chunks{caller: c, in: in, left: size, isSigned: isSigned, trails: strings.HasSuffix(c.Payload, "-TRAILER"), previous: c.signature}, nil
}

// Trailer returns the fields behind the payload, when it has been read to its end.
func (k *Chunks) Trailer() map[string]string { return k.trailer }

// Read reads payload. The error is io.EOF at the payload's end, when all that follows was as it should; else one of s3err's, or
// that of the connection.
func (k *Chunks) Read(b []byte) (int, error) {
	for k.err == nil && k.inChunk == 0 {
		k.err = k.nextChunk()
	}
	if k.err != nil {
		return 0, k.err
	}
	if int64(len(b)) > k.inChunk {
		b = b[:k.inChunk]
	}
	n, err := k.in.Read(b)
	if k.isSigned {
		k.sum.Write(b[:n])
	}
	k.inChunk -= int64(n)
	if errors.Is(err, io.EOF) {
		err = ErrIncomplete
	}
	k.err = err
	return n, err
}

// nextChunk ends a chunk and begins the next; after the last one it reads the trailer.
func (k *Chunks) nextChunk() error {
	if k.isBegun {
		if err := k.endChunk(); err != nil {
			return err
		}
		if line, err := readLine(k.in); err != nil {
			return err
		} else if line != "" {
			return ErrIncomplete
		}
	}
	k.isBegun = true
	line, err := readLine(k.in)
	if err != nil {
		return err
	}
	size, extension, _ := strings.Cut(line, ";")
	length, err := strconv.ParseUint(size, 16, 62)
	if err != nil || int64(length) > k.left {
		return ErrIncomplete
	}
	k.expected, k.sum = strings.TrimPrefix(extension, "chunk-signature="), sha256.New()
	k.inChunk, k.left = int64(length), k.left-int64(length)
	if length > 0 {
		return nil
	}
	return k.end()
}

func (k *Chunks) endChunk() error {
	text := k.previous + "\n" + emptySHA256 + "\n" + hex.EncodeToString(k.sum.Sum(nil))
	if k.isSigned && !k.caller.signs("-PAYLOAD", text, k.expected) {
		return s3err.New("SignatureDoesNotMatch", "the signature of a chunk is another one")
	}
	k.previous = k.expected
	return nil
}

// end reads what follows the last chunk; then nothing may.
func (k *Chunks) end() error {
	if err := k.endChunk(); err != nil {
		return err
	}
	if err := k.readTrailer(); err != nil {
		return err
	}
	if rest, _ := io.Copy(io.Discard, io.LimitReader(k.in, 64)); rest > 2 {
		return ErrIncomplete
	}
	return io.EOF
}

// readTrailer reads the trailer's lines up to an empty one.
func (k *Chunks) readTrailer() error {
	k.trailer = map[string]string{}
	signed := ""
	for count := 0; ; count++ {
		if _, err := k.in.Peek(1); errors.Is(err, io.EOF) && (count > 0 || !k.trails) {
			break
		}
		line, err := readLine(k.in)
		if err != nil {
			return err
		}
		if line == "" {
			break
		}
		if count > mostTrailers || !k.trails {
			return ErrIncomplete
		}
		name, value, _ := strings.Cut(line, ":")
		name, value = strings.ToLower(strings.TrimSpace(name)), strings.TrimSpace(value)
		if name != trailerSignature {
			signed += name + ":" + value + "\n"
		}
		k.trailer[name] = value
	}
	if k.trails && k.isSigned && !k.caller.signs("-TRAILER", k.previous+"\n"+hexSHA256(signed), k.trailer[trailerSignature]) {
		return s3err.New("SignatureDoesNotMatch", "the signature of the trailer is another one")
	}
	return nil
}

// readLine reads a line without its end, which is CRLF; of the trailer's also LF.
func readLine(in *bufio.Reader) (string, error) {
	line, err := in.ReadSlice('\n')
	if err != nil || len(line) > longestLine {
		if err == nil || errors.Is(err, io.EOF) || errors.Is(err, bufio.ErrBufferFull) {
			err = ErrIncomplete
		}
		return "", err
	}
	return strings.TrimSuffix(string(line[:len(line)-1]), "\r"), nil
}
