package s3

import (
	"encoding/base64"
	"fmt"
	"strconv"
	"strings"

	"bucketd/gateway/internal/s3err"
	"bucketd/gateway/internal/xmlio"
)

// A client may name checksums of the parts that it completes an upload with, and of the object. What isn't known of them is refused.

// namedSums returns the checksums that a document has of a part, by their fields.
func namedSums(it xmlio.Part) map[string]string {
	return map[string]string{checksumField + "crc32": it.ChecksumCRC32, checksumField + "crc32c": it.ChecksumCRC32C,
		checksumField + "crc64nvme": it.ChecksumCRC64NVME, checksumField + "sha1": it.ChecksumSHA1}
}

// checkNamed compares the checksums that a completion names of its parts.
func (c *call) checkNamed(it xmlio.Part, sha256 string) error {
	if it.ChecksumSHA256 != "" && it.ChecksumSHA256 != sha256 {
		return s3err.New("InvalidPart", "an ETag and a checksum are those of two parts")
	}
	for field, sum := range namedSums(it) {
		if sum == "" {
			continue
		}
		own, err := c.sums(it.Number, sha256)
		if err != nil {
			return err
		}
		switch own.Fields[field] {
		case sum:
		case "":
			return s3err.New("NotImplemented", "the "+field+" of a part is not known")
		default:
			return s3err.New("InvalidPart", "a part has another "+field)
		}
	}
	return nil
}

// checkWhole compares what a completion's head promises of the object: its checksum, which is that of its parts' one after another,
// and its size.
func (c *call) checkWhole(parts []completedPart) error {
	kind := c.r.Header.Get("x-amz-checksum-type")
	for name := range c.r.Header {
		field, want := strings.ToLower(name), c.r.Header.Get(name)
		if !strings.HasPrefix(field, checksumField) || noChecksums[field] {
			continue
		}
		if digests[field] == nil {
			return s3err.New("InvalidRequest", "the value of "+field+" is invalid")
		}
		compare := c.checkJoined
		if _, isCRC := crcKinds[field]; kind == "FULL_OBJECT" && isCRC || field == checksumField+"crc64nvme" { // (that is of no other type)
			compare = c.checkFull
		} else if kind != "" && kind != "COMPOSITE" {
			return s3err.New("NotImplemented", "a checksum of the type "+kind+" is not there")
		}
		if err := compare(field, want, parts); err != nil {
			return err
		}
	}
	if want := c.r.Header.Get("x-amz-mp-object-size"); want != "" {
		size, err := c.sizeOf(parts)
		if err != nil {
			return err
		}
		if number(want) != size {
			return s3err.New("InvalidRequest", "the parts have another size than x-amz-mp-object-size")
		}
	}
	return nil
}

// checkJoined compares the checksum of the parts' checksums of one kind.
func (c *call) checkJoined(field, want string, parts []completedPart) error {
	sum := digests[field]()
	for _, it := range parts {
		own := it.ChecksumSHA256
		if field != sha256Field {
			sums, err := c.sums(it.PartNumber, it.ChecksumSHA256)
			if err != nil {
				return err
			}
			own = sums.Fields[field]
		}
		digest, err := base64.StdEncoding.DecodeString(own)
		if err != nil || own == "" {
			return s3err.New("NotImplemented", "the "+field+" of a part is not known")
		}
		sum.Write(digest)
	}
	got := base64.StdEncoding.EncodeToString(sum.Sum(nil))
	if plain, _, _ := strings.Cut(want, "-"); plain != got || want != got && want != fmt.Sprintf("%s-%d", got, len(parts)) {
		return s3err.New("BadDigest", "the parts have another "+field)
	}
	return nil
}

// checkFull compares the check of all bytes, which is known by those of the parts.
func (c *call) checkFull(field, want string, parts []completedPart) error {
	kind, all := crcKinds[field], uint64(0)
	for _, it := range parts {
		sums, err := c.sums(it.PartNumber, it.ChecksumSHA256)
		if err != nil {
			return err
		}
		own, err := kind.read(sums.Fields[field])
		if err != nil || sums.Fields[field] == "" {
			return s3err.New("NotImplemented", "the "+field+" of a part is not known")
		}
		all = kind.after(all, own, sums.Size)
	}
	if kind.write(all) != want {
		return s3err.New("BadDigest", "the object has another "+field)
	}
	return nil
}

// sizeOf returns how many bytes parts of the call's upload have.
func (c *call) sizeOf(parts []completedPart) (size int64, err error) {
	wanted := map[int]bool{}
	for _, it := range parts {
		wanted[it.PartNumber] = true
	}
	q := c.request(get, "uploadId", c.upload())
	for {
		r, err := c.need(q)
		if err != nil {
			return 0, err
		}
		page, err := r.Document()
		if err != nil {
			return 0, err
		}
		for _, it := range page.Parts {
			if wanted[it.PartNumber] {
				size += it.Size
			}
		}
		if page.NextPartNumberMarker == 0 || len(page.Parts) == 0 {
			return size, nil
		}
		q = c.request(get, "uploadId", c.upload(), "part-number-marker", strconv.Itoa(page.NextPartNumberMarker))
	}
}
