package xmlio

import (
	"bufio"
	"io"
	"strconv"
	"strings"
)

// How many objects are deleted at once, and how many parts an upload has (Amazon S3 API Reference, DeleteObjects and
// CompleteMultipartUpload).
const (
	MostObjects = 1000
	MostParts   = 10000
)

// Delete is the document of DeleteObjects.
type Delete struct {
	Quiet   bool
	Objects []Identifier
}

// An Identifier names an object or a version of one, and may have conditions on it; what isn't told is empty.
type Identifier struct{ Key, VersionId, ETag, Size, LastModifiedTime string }

// ReadDelete reads the document of DeleteObjects, with 1 to 1,000 objects.
func ReadDelete(in io.Reader) (*Delete, error) {
	var d Delete
	var quiet string
	err := read(in, greatestList, "Delete", func(r *reader) error {
		return r.members("Delete", fields{"Quiet": &quiet, "Object": func() error { return d.object(r) }})
	})
	if err == nil {
		d.Quiet, err = boolean("Quiet", quiet)
	}
	if err == nil && len(d.Objects) == 0 {
		err = malformed("no object is named")
	}
	return &d, err
}

func (d *Delete) object(r *reader) error {
	if len(d.Objects) == MostObjects {
		return malformed("at most %d objects are deleted at once", MostObjects)
	}
	it := Identifier{}
	err := r.members("Object", fields{"Key": &it.Key, "VersionId": &it.VersionId, "ETag": &it.ETag, "Size": &it.Size,
		"LastModifiedTime": &it.LastModifiedTime})
	d.Objects = append(d.Objects, it)
	return err
}

func boolean(name, text string) (bool, error) {
	switch strings.ToLower(strings.TrimSpace(text)) {
	case "true", "1":
		return true, nil
	case "", "false", "0":
		return false, nil
	}
	return false, malformed("%s is true or false", name)
}

// A Part is one that an upload is completed with; what isn't told is empty.
type Part struct {
	Number                                                                               int
	ETag, ChecksumCRC32, ChecksumCRC32C, ChecksumCRC64NVME, ChecksumSHA1, ChecksumSHA256 string
}

// ReadCompletion reads the document of CompleteMultipartUpload, with 1 to 10,000 parts in the order that they have there.
func ReadCompletion(in io.Reader) ([]Part, error) {
	var parts []Part
	err := read(in, greatestList, "CompleteMultipartUpload", func(r *reader) error {
		return r.members("CompleteMultipartUpload", fields{"Part": func() error {
			if len(parts) == MostParts {
				return malformed("an upload has at most %d parts", MostParts)
			}
			it, err := r.part()
			parts = append(parts, it)
			return err
		}})
	})
	if err == nil && len(parts) == 0 {
		err = malformed("no part is named")
	}
	return parts, err
}

func (r *reader) part() (it Part, err error) {
	var number string
	err = r.members("Part", fields{"PartNumber": &number, "ETag": &it.ETag, "ChecksumCRC32": &it.ChecksumCRC32,
		"ChecksumCRC32C": &it.ChecksumCRC32C, "ChecksumCRC64NVME": &it.ChecksumCRC64NVME, "ChecksumSHA1": &it.ChecksumSHA1,
		"ChecksumSHA256": &it.ChecksumSHA256})
	if err == nil {
		it.Number, err = decimal("PartNumber", number)
	}
	return it, err
}

// decimal reads a number from 0 on.
func decimal(name, text string) (int, error) {
	n, err := strconv.ParseUint(strings.TrimSpace(text), 10, 31)
	if err != nil {
		return 0, malformed("%s is not a number", name)
	}
	return int(n), nil
}

// Versioning is the document of PutBucketVersioning.
type Versioning struct{ Status, MfaDelete string }

// ReadVersioning reads the document of PutBucketVersioning.
func ReadVersioning(in io.Reader) (*Versioning, error) {
	var v Versioning
	return &v, read(in, greatest, "VersioningConfiguration", func(r *reader) error {
		return r.members("VersioningConfiguration", fields{"Status": &v.Status, "MfaDelete": &v.MfaDelete})
	})
}

// Retention is the document of PutObjectRetention.
type Retention struct{ Mode, RetainUntilDate string }

// ReadRetention reads the document of PutObjectRetention.
func ReadRetention(in io.Reader) (*Retention, error) {
	var v Retention
	return &v, read(in, greatest, "Retention", func(r *reader) error {
		return r.members("Retention", fields{"Mode": &v.Mode, "RetainUntilDate": &v.RetainUntilDate})
	})
}

// A Rule is that of a lifecycle: uploads that are unfinished for so many days are aborted, in the whole bucket.
type Rule struct {
	ID, Status          string
	DaysAfterInitiation int
}

// ReadLifecycle reads the document of PutBucketLifecycleConfiguration. One rule of AbortIncompleteMultipartUpload for the whole
// bucket is all that is there: what else S3 has is refused as not there.
func ReadLifecycle(in io.Reader) (*Rule, error) {
	var rules []lifecycleRule
	err := read(in, greatest, "LifecycleConfiguration", func(r *reader) error {
		return r.members("LifecycleConfiguration", fields{"Rule": func() error {
			if len(rules) > 0 {
				return &DocumentError{"NotImplemented", "a lifecycle of more than one rule is not there"}
			}
			it, err := r.rule()
			rules = append(rules, it)
			return err
		}})
	})
	if err == nil && len(rules) == 0 {
		err = malformed("no rule is named")
	}
	if err != nil {
		return nil, err
	}
	return rules[0].known()
}

type lifecycleRule struct {
	Rule
	prefix, filterPrefix, days string
	aborts                     bool
}

func (r *reader) rule() (it lifecycleRule, err error) {
	err = r.members("Rule", fields{"ID": &it.ID, "Status": &it.Status, "Prefix": &it.prefix,
		"Filter": func() error {
			return r.members("Filter", fields{"Prefix": &it.filterPrefix}, "And", "Tag", "ObjectSizeGreaterThan", "ObjectSizeLessThan")
		},
		"AbortIncompleteMultipartUpload": func() error {
			it.aborts = true
			return r.members("AbortIncompleteMultipartUpload", fields{"DaysAfterInitiation": &it.days})
		}},
		"Expiration", "Transition", "NoncurrentVersionExpiration", "NoncurrentVersionTransition", "NoncurrentVersionTransitions")
	return it, err
}

// known returns the rule, unless it is one that isn't there.
func (it *lifecycleRule) known() (*Rule, error) {
	if !it.aborts || it.prefix+it.filterPrefix != "" {
		return nil, &DocumentError{"NotImplemented", "a lifecycle but AbortIncompleteMultipartUpload for the whole bucket is not there"}
	}
	days, err := decimal("DaysAfterInitiation", it.days)
	it.DaysAfterInitiation = days
	return &it.Rule, err
}

// ReadCreateBucket reads the document of CreateBucket, and returns the region that it names; the document may be empty.
func ReadCreateBucket(in io.Reader) (region string, err error) {
	const root = "CreateBucketConfiguration"
	text := bufio.NewReader(in)
	if _, err := text.Peek(1); err == io.EOF {
		return "", nil
	}
	err = read(text, greatest, root, func(r *reader) error {
		return r.members(root, fields{"LocationConstraint": &region}, "Location", "Bucket", "Tags")
	})
	return region, err
}
