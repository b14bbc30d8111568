package s3

import (
	"encoding/base64"
	"encoding/hex"
	"math"
	"net/http"
	"regexp"
	"strconv"
	"strings"
	"time"

	"bucketd/gateway/internal/host"
	"bucketd/gateway/internal/s3err"
	"bucketd/gateway/internal/xmlio"
)

// number returns the number that a text is, from 0 on; -1 where it is none.
func number(text string) int64 {
	if n, err := strconv.ParseUint(text, 10, 63); err == nil {
		return int64(n)
	}
	return -1
}

var rangeForm = regexp.MustCompile(`^\s*(?i:bytes)=([0-9]*)-([0-9]*)\s*$`)

// byteRange is a range of bytes, the last one among them; first is -1 where last is a number of last bytes.
type byteRange struct {
	first, last int64
	isAsked     bool // else it is all of the object
}

var allBytes = byteRange{0, math.MaxInt64, false}

// parseRange reads a range (RFC 9110, section 14.1.2), all bytes where the text is none.
func parseRange(text string) byteRange {
	spec := rangeForm.FindStringSubmatch(text)
	if spec == nil {
		return allBytes
	}
	first, last := number(spec[1]), number(spec[2])
	if first >= 0 && spec[2] == "" {
		return byteRange{first, math.MaxInt64, true}
	} else if first >= 0 && last >= first || spec[1] == "" && last >= 0 {
		return byteRange{first, last, true}
	}
	return allBytes
}

// of returns the first and last byte of an object of a size; of an empty one the last is before the first.
func (b byteRange) of(size int64) (first, last int64, err error) {
	first, last = b.first, b.last
	if first < 0 {
		first, last = size-min(size, last), size-1
	}
	if b.isAsked && first >= size {
		return 0, 0, s3err.New("InvalidRange", "the object has none of these bytes")
	}
	return first, min(last, size-1), nil
}

// checksumOf returns the checksum of a part by its ETag; empty where it is none of a part's.
func checksumOf(tag string) string {
	digest, parts, _ := strings.Cut(strings.Trim(strings.TrimSpace(tag), `"`), "-")
	sum, err := hex.DecodeString(digest)
	if parts != "0" || err != nil || len(sum) != 32 {
		return ""
	}
	return base64.StdEncoding.EncodeToString(sum)
}

// hasTag returns whether one of a field's entity tags is that of an object.
func hasTag(field, checksum string) bool {
	own := strings.Trim(xmlio.ETag(checksum), `"`)
	for _, it := range strings.Split(field, ",") {
		it = strings.TrimPrefix(strings.TrimSpace(it), "W/")
		if it == "*" || strings.Trim(it, `"`) == own {
			return true
		}
	}
	return false
}

var errCondition = s3err.New("PreconditionFailed", "a condition of the request is not met")

// checkConditions checks the conditions on an object that is there (RFC 9110, section 13.2.2), by their fields' prefix; same is what
// a client is answered that has the object.
func (c *call) checkConditions(prefix string, d *details, same error) error {
	for _, it := range []struct {
		match, since string
		err          error
		isWanted     bool // the object of the tags; one that wasn't written since the moment
	}{{"If-Match", "If-Unmodified-Since", errCondition, true}, {"If-None-Match", "If-Modified-Since", same, false}} {
		if tags := c.r.Header.Get(prefix + it.match); tags != "" {
			if hasTag(tags, d.checksum) != it.isWanted {
				return it.err
			}
			continue
		}
		at, err := http.ParseTime(c.r.Header.Get(prefix + it.since))
		if err == nil && !d.modified.IsZero() && d.modified.After(at) == it.isWanted {
			return it.err
		}
	}
	return nil
}

// checkWrite checks the conditions of a write on the object or version that it would replace or delete, under the key's lock.
func (c *call) checkWrite(o host.Object) error {
	isMatched := c.r.Header.Get("If-Match") != ""
	if !isMatched && c.r.Header.Get("If-None-Match") == "" {
		return nil
	}
	r, err := c.ask(o.Request(head))
	if err != nil || r.Refusal == host.RefusalKey && !isMatched {
		return err
	}
	if err := c.refusalOf(r); err != nil {
		return err
	}
	return c.checkConditions("", &details{checksum: r.Checksum()}, errCondition)
}

// isConditional returns whether a read has a condition.
func isConditional(h http.Header) bool {
	return h.Get("If-Match")+h.Get("If-None-Match")+h.Get("If-Modified-Since")+h.Get("If-Unmodified-Since")+h.Get("If-Range") != ""
}

// isRangeOff returns whether a range is to be passed over, since the object isn't that of If-Range (RFC 9110, section 13.1.5).
func isRangeOff(h http.Header, checksum string, modified time.Time) bool {
	only := h.Get("If-Range")
	return only != "" && !hasTag(only, checksum) && only != modified.UTC().Format(http.TimeFormat)
}
