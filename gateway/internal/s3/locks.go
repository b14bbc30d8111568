package s3

import (
	"io"
	"net/http"
	"strings"
	"time"

	"bucketd/gateway/internal/host"
	"bucketd/gateway/internal/s3err"
	"bucketd/gateway/internal/xmlio"
)

// Object Lock in compliance mode, which is bucketd's alone: a bucket is locked from its making on, and its versions may have dates
// before which they can't be deleted.

// The fields of heads that tell of it, as http.Header has them.
const (
	enabledField = "X-Amz-Bucket-Object-Lock-Enabled"
	modeField    = "X-Amz-Object-Lock-Mode"
	untilField   = "X-Amz-Object-Lock-Retain-Until-Date"
	compliance   = "COMPLIANCE"
)

// single returns a field that stands once, or not at all.
func (c *call) single(name string) (string, error) {
	values := c.r.Header.Values(name)
	if len(values) > 1 {
		return "", s3err.New("InvalidArgument", "a field stands twice: "+name)
	}
	return strings.Join(values, ""), nil
}

// lock returns the field that a bucket is made with.
func (c *call) lock() ([]string, error) {
	text, err := c.single(enabledField)
	if err != nil || text == "" {
		return nil, err
	}
	text = strings.ToLower(text)
	if text != "true" && text != "false" {
		return nil, s3err.New("InvalidArgument", enabledField+" is true or false")
	}
	return []string{enabledField + ": " + text}, nil
}

// date returns the fields that a version with a date is made with.
func (c *call) date() ([]string, error) {
	mode, err := c.single(modeField)
	if err != nil {
		return nil, err
	}
	until, err := c.single(untilField)
	if err != nil || mode+until == "" {
		return nil, err
	}
	if mode == "" || until == "" {
		return nil, s3err.New("InvalidArgument", "a mode and a date stand together, or neither does")
	}
	if err := checkMode(mode, "InvalidArgument"); err != nil {
		return nil, err
	}
	until, err = wholeSecond(until, "InvalidArgument")
	return []string{modeField + ": " + mode, untilField + ": " + until}, err
}

func checkMode(mode, code string) error {
	switch mode {
	case compliance:
		return nil
	case "GOVERNANCE":
		return s3err.New("NotImplemented", "the mode GOVERNANCE is not there")
	}
	return s3err.New(code, "the mode is none")
}

// wholeSecond returns a date as bucketd has it, in whole seconds: not before the one that was asked for.
func wholeSecond(text, code string) (string, error) {
	at, err := time.Parse(time.RFC3339, text)
	if err != nil {
		return "", s3err.New(code, "the date is of another form")
	}
	if rest := at.Nanosecond(); rest > 0 {
		at = at.Add(time.Second - time.Duration(rest))
	}
	return at.UTC().Format("2006-01-02T15:04:05Z"), nil
}

// isLocked returns whether a bucket is locked. bucketd tells it only in refusing what can't be put, a version with a mode and no
// date: by InvalidRequest where the bucket has no dates, else by InvalidArgument.
func (c *call) isLocked() (bool, error) {
	q := host.Object{Bucket: c.target.Bucket, Key: "x"}.Request(put)
	q.Fields = []string{modeField + ": " + compliance}
	r, err := c.ask(q)
	if err != nil {
		return false, err
	}
	if r.Refusal == host.RefusalRequest || r.Refusal == host.RefusalArgument {
		return r.Refusal == host.RefusalArgument, nil
	}
	if err := c.refusalOf(r); err != nil {
		return false, err
	}
	return false, s3err.New("InternalError", "the host took a mode without a date")
}

func (c *call) getObjectLock() error {
	isLocked, err := c.isLocked()
	if err != nil {
		return err
	}
	if !isLocked {
		return s3err.NotSet("ObjectLockConfigurationNotFoundError", "the bucket isn't locked")
	}
	return c.sendDocument("ObjectLockConfiguration", xmlio.Document{"ObjectLockEnabled": "Enabled"})
}

// retention asks for the date of a version, or of the key's newest.
func (c *call) retention(method string) *host.Request {
	return c.target.Request(method, "retention", "")
}

func (c *call) getRetention() error {
	members, err := c.needDocument(c.retention(get))
	if err != nil {
		return err
	}
	if members["Mode"] != nil {
		return c.sendDocument("Retention", members)
	}
	isLocked, err := c.isLocked()
	if err != nil {
		return err
	}
	if !isLocked {
		return s3err.New("InvalidRequest", "the bucket isn't locked")
	}
	return s3err.NotSet("NoSuchObjectLockConfiguration", "the version has no date")
}

func (c *call) putRetention() error {
	var v *xmlio.Retention
	err := c.readDocument(xmlio.OtherForm, func(in io.Reader) (err error) { v, err = xmlio.ReadRetention(in); return err })
	if err != nil {
		return err
	}
	if err := checkMode(v.Mode, "MalformedXML"); err != nil {
		return err
	}
	until, err := wholeSecond(v.RetainUntilDate, "MalformedXML")
	if err != nil {
		return err
	}
	q, err := c.retention(put).With(xmlio.Retention{Mode: v.Mode, RetainUntilDate: until})
	if err != nil {
		return err
	}
	return c.done(http.StatusOK, q)
}
