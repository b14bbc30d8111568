package s3

import (
	"net/http"
	"strings"
	"testing"
	"time"

	"bucketd/gateway/internal/s3err"
)

const locked, until = "x-amz-bucket-object-lock-enabled", "x-amz-object-lock-retain-until-date"

func retention(mode, date string) string {
	return `<Retention xmlns="http://s3.amazonaws.com/doc/2006-03-01/"><Mode>` + mode + "</Mode><RetainUntilDate>" + date + "</RetainUntilDate></Retention>"
}

// Buckets with Object Lock and dates of versions, and what of S3's is refused by name.
func TestLocks(t *testing.T) {
	_, _, green, blue := newGateway(t, nil)
	for _, it := range [][]string{{"/vault", "true"}, {"/true", "True"}, {"/plans", "false"}} {
		expect(t, green.do("PUT", it[0], nil, locked, it[1]), 200, "")
	}
	dated := func(date string) []string { return []string{"x-amz-object-lock-mode", "COMPLIANCE", until, date} }
	const first, second, third = "2091-08-01T00:00:00Z", "2092-08-01T00:00:00Z", "2093-08-01T00:00:00Z"
	put := func(target, body string, fields ...string) string {
		t.Helper()
		return expect(t, green.do("PUT", target, []byte(body), fields...), 200, "").head.Get("x-amz-version-id")
	}
	put("/plans/x", "abc")
	bare := put("/vault/x", "bare")
	one := put("/vault/x", "abc", dated(first)...)
	copied := put("/vault/copy", "", append(dated(second), "x-amz-copy-source", "/vault/x")...)
	plain := put("/vault/plain", "", "x-amz-copy-source", "/vault/x")
	marker := expect(t, green.do("DELETE", "/vault/gone", nil), 204, "").head.Get("x-amz-version-id")
	of := func(id string) string { return "?retention&versionId=" + id }
	told := func(date string) string {
		return "<Mode>COMPLIANCE</Mode><RetainUntilDate>" + date + "</RetainUntilDate>"
	}
	governance := []string{"x-amz-object-lock-mode", "GOVERNANCE", until, first}
	state := func(text string) string {
		return "<VersioningConfiguration><Status>" + text + "</Status></VersioningConfiguration>"
	}
	long := strings.Repeat("a", 131073)
	for _, it := range []struct {
		name, method, target string
		body                 string
		fields               []string
		status               int
		code, has            string
	}{
		{"a lock that is neither", "PUT", "/neither", "", []string{locked, "yes"}, 400, "InvalidArgument", ""},
		{"a locked bucket twice", "PUT", "/vault", "", []string{locked, "true"}, 409, "BucketAlreadyOwnedByYou", ""},
		{"it keeps versions", "GET", "/vault?versioning", "", nil, 200, "", "<Status>Enabled</Status>"},
		{"and goes on to", "PUT", "/vault?versioning", state("Suspended"), nil, 409, "InvalidBucketState", ""},
		{"to be Enabled again", "PUT", "/vault?versioning", state("Enabled"), nil, 200, "", ""},
		{"its configuration", "GET", "/vault?object-lock", "", nil, 200, "", "<ObjectLockEnabled>Enabled</ObjectLockEnabled></ObjectLockConfiguration>"},
		{"that of the other", "GET", "/true?object-lock", "", nil, 200, "", "Enabled"},
		{"of a bucket that isn't locked", "GET", "/plans?object-lock", "", nil, 404, "ObjectLockConfigurationNotFoundError", ""},
		{"of none", "GET", "/nothing?object-lock", "", nil, 404, "NoSuchBucket", ""},
		{"a default", "PUT", "/vault?object-lock", "<ObjectLockConfiguration/>", nil, 501, "NotImplemented", "object-lock is not there"},
		{"a configuration of an object", "GET", "/vault/x?object-lock", "", nil, 501, "NotImplemented", ""},
		{"nothing was put by asking", "GET", "/vault?versions", "", nil, 200, "", "<Key>x</Key>"},
		{"a date", "GET", "/vault/x?retention", "", nil, 200, "", told("2091-08-01T00:00:00.000Z")},
		{"that of a copy", "GET", "/vault/copy" + of(copied), "", nil, 200, "", told("2092-08-01T00:00:00.000Z")},
		{"a copy without its source's", "GET", "/vault/plain" + of(plain), "", nil, 404, "NoSuchObjectLockConfiguration", ""},
		{"no date", "GET", "/vault/x" + of(bare), "", nil, 404, "NoSuchObjectLockConfiguration", ""},
		{"no date in a bucket that isn't locked", "GET", "/plans/x?retention", "", nil, 400, "InvalidRequest", ""},
		{"a date of no key", "GET", "/vault/none?retention", "", nil, 404, "NoSuchKey", ""},
		{"a date of no version", "GET", "/vault/x" + of("0000000000000077"), "", nil, 404, "NoSuchVersion", ""},
		{"a date of a marker", "GET", "/vault/gone" + of(marker), "", nil, 405, "MethodNotAllowed", ""},
		{"a date of a bucket", "GET", "/vault?retention", "", nil, 501, "NotImplemented", ""},
		{"a date is deleted", "DELETE", "/vault/x?retention", "", nil, 501, "NotImplemented", ""},
		{"a delete of a version with a date", "DELETE", "/vault/x?versionId=" + one, "", nil, 403, "AccessDenied", ""},
		{"one that would pass by governance", "DELETE", "/vault/x?versionId=" + one, "", []string{"x-amz-bypass-governance-retention", "true"}, 403, "AccessDenied", ""},
		{"one of several", "POST", "/vault?delete", "<Delete><Object><Key>x</Key><VersionId>" + one + "</VersionId></Object><Object><Key>none</Key><VersionId>0000000000000077</VersionId></Object></Delete>", nil, 200, "",
			"<Deleted><Key>none</Key><VersionId>0000000000000077</VersionId></Deleted><Error><Code>AccessDenied</Code>"},
		{"it is there", "GET", "/vault/x?versionId=" + one, "", nil, 200, "", "abc"},
		{"an earlier date", "PUT", "/vault/x?retention", retention("COMPLIANCE", "2091-07-31T23:59:59Z"), nil, 403, "AccessDenied", ""},
		{"a later one", "PUT", "/vault/x?retention", retention("COMPLIANCE", second), nil, 200, "", ""},
		{"is told", "GET", "/vault/x" + of(one), "", nil, 200, "", told("2092-08-01T00:00:00.000Z")},
		{"a first one", "PUT", "/vault/x" + of(bare), retention("COMPLIANCE", first), nil, 200, "", ""},
		{"is told, too", "GET", "/vault/x" + of(bare), "", nil, 200, "", told("2091-08-01T00:00:00.000Z")},
		{"of a part of a second, and of another zone", "PUT", "/vault/x" + of(bare), retention("COMPLIANCE", "2093-08-01T01:59:59.001+02:00"), nil, 200, "", ""},
		{"the next second", "GET", "/vault/x" + of(bare), "", nil, 200, "", told("2093-08-01T00:00:00.000Z")},
		{"one that is over", "PUT", "/vault/plain?retention", retention("COMPLIANCE", "2014-01-19T00:00:00Z"), nil, 400, "InvalidArgument", ""},
		{"a day", "PUT", "/vault/x?retention", retention("COMPLIANCE", "2099-01-01"), nil, 400, "MalformedXML", ""},
		{"no mode", "PUT", "/vault/x?retention", "<Retention><RetainUntilDate>" + third + "</RetainUntilDate></Retention>", nil, 400, "MalformedXML", ""},
		{"neither", "PUT", "/vault/x?retention", "<Retention/>", nil, 400, "MalformedXML", ""},
		{"no document", "PUT", "/vault/x?retention", "", nil, 400, "MalformedXML", ""},
		{"another document", "PUT", "/vault/x?retention", "<LegalHold><Status>ON</Status></LegalHold>", nil, 400, "MalformedXML", ""},
		{"a mode that is none", "PUT", "/vault/x?retention", retention("compliance", third), nil, 400, "MalformedXML", ""},
		{"GOVERNANCE", "PUT", "/vault/x?retention", retention("GOVERNANCE", third), nil, 501, "NotImplemented", "GOVERNANCE is not there"},
		{"one where the bucket isn't locked", "PUT", "/plans/x?retention", retention("COMPLIANCE", third), nil, 400, "InvalidRequest", ""},
		{"one of a marker", "PUT", "/vault/gone" + of(marker), retention("COMPLIANCE", third), nil, 405, "MethodNotAllowed", ""},
		{"a put with a date where the bucket isn't locked", "PUT", "/plans/l", "x", dated(first), 400, "InvalidRequest", ""},
		{"a put with a date that is over", "PUT", "/vault/l", "x", dated("2014-01-19T00:00:00Z"), 400, "InvalidArgument", ""},
		{"a put with a day", "PUT", "/vault/l", "x", dated("2091-08-01"), 400, "InvalidArgument", ""},
		{"a put with no date", "PUT", "/vault/l", "x", dated(first)[:2], 400, "InvalidArgument", ""},
		{"a put with no mode", "PUT", "/vault/l", "x", dated(first)[2:], 400, "InvalidArgument", ""},
		{"a put with a mode that is none", "PUT", "/vault/l", "x", []string{"x-amz-object-lock-mode", "ELSE", until, first}, 400, "InvalidArgument", ""},
		{"a put in GOVERNANCE", "PUT", "/vault/l", "x", governance, 501, "NotImplemented", "GOVERNANCE is not there"},
		{"a copy in GOVERNANCE", "PUT", "/vault/l", "", append(governance, "x-amz-copy-source", "/vault/x"), 501, "NotImplemented", ""},
		{"a put with a hold", "PUT", "/vault/l", "x", []string{"x-amz-object-lock-legal-hold", "ON"}, 501, "NotImplemented", "X-Amz-Object-Lock-Legal-Hold is not there"},
		{"a put of more than goes at once", "PUT", "/vault/l", long, dated(first), 400, "EntityTooLarge", ""},
		{"a put of as much", "PUT", "/vault/piece", long[1:], dated(first), 200, "", ""},
		{"an upload with a date", "POST", "/vault/l?uploads", "", dated(first), 501, "NotImplemented", "is not there"},
		{"a part with a date", "PUT", "/vault/l?uploadId=1&partNumber=1", "x", dated(first), 501, "NotImplemented", ""},
		{"a hold", "PUT", "/vault/x?legal-hold", "<LegalHold/>", nil, 501, "NotImplemented", "legal-hold is not there"},
		{"a hold is asked for", "GET", "/vault/x?legal-hold", "", nil, 501, "NotImplemented", ""},
		{"nothing was put by those", "GET", "/vault/l", "", nil, 404, "NoSuchKey", ""},
		{"a bucket's field at an object", "PUT", "/vault/l", "", []string{locked, "true"}, 501, "NotImplemented", ""},
		{"an object's fields at a bucket", "PUT", "/other", "", dated(first), 501, "NotImplemented", ""},
		{"a locked bucket that isn't empty", "DELETE", "/vault", "", nil, 409, "BucketNotEmpty", ""},
		{"one that is empty", "DELETE", "/true", "", nil, 204, "", ""},
	} {
		t.Run(it.name, func(t *testing.T) {
			a := expect(t, green.do(it.method, it.target, []byte(it.body), it.fields...), it.status, it.code)
			if !strings.Contains(a.body, it.has) {
				t.Fatalf("%q isn't in %q", it.has, a.body)
			}
		})
	}
	expect(t, blue.do("GET", "/vault?object-lock", nil), 404, "NoSuchBucket")
	// Of a version that stays, its metadata stays, too.
	kept := put("/vault/meta", "abc", append(dated(first), "x-amz-meta-n", "1")...)
	expect(t, green.do("DELETE", "/vault/meta?versionId="+kept, nil), 403, "AccessDenied")
	if a := expect(t, green.do("GET", "/vault/meta", nil), 200, ""); a.head.Get("x-amz-meta-n") != "1" {
		t.Fatal(a.head)
	}
	// A field that stands twice, whoever signed it.
	for field, act := range map[string]func(*call) ([]string, error){modeField: (*call).date, untilField: (*call).date, enabledField: (*call).lock} {
		r := &http.Request{Method: "PUT", Header: http.Header{modeField: {compliance}, untilField: {first}}}
		r.Header[field] = []string{"true", "true"}
		if _, err := act(&call{r: r}); !s3err.Is(err, "InvalidArgument") {
			t.Fatal(field, err)
		}
	}
}

// Before its date a version stays, and from that second on it goes as any other.
func TestDates(t *testing.T) {
	_, stand, green, _ := newGateway(t, nil)
	expect(t, green.do("PUT", "/vault", nil, locked, "true"), 200, "")
	put := expect(t, green.do("PUT", "/vault/x", []byte("abc"), "x-amz-object-lock-mode", "COMPLIANCE", until, time.Now().Add(time.Hour).Format(time.RFC3339)), 200, "")
	target := "/vault/x?versionId=" + put.head.Get("x-amz-version-id")
	expect(t, green.do("DELETE", target, nil), 403, "AccessDenied")
	stand.set(func() { clock = func() time.Time { return time.Now().Add(2 * time.Hour) } })
	defer func() { clock = time.Now }()
	expect(t, green.do("DELETE", target, nil), 204, "")
	expect(t, green.do("DELETE", "/vault", nil), 204, "")
}

// Whether a bucket is locked is known by two refusals alone.
func TestLockUnknown(t *testing.T) {
	_, stand, green, _ := newGateway(t, nil)
	expect(t, green.do("PUT", "/vault", nil, locked, "true"), 200, "")
	for number, code := range map[int]string{2: "NotImplemented", 12: "NoSuchBucket", 24: "QuotaExceeded", 31: "ServiceUnavailable"} {
		stand.set(func() { stand.refusal = func(*http.Request) int { return number } })
		if a := green.do("GET", "/vault?object-lock", nil); a.status < 400 || a.code != code {
			t.Fatal(number, a.status, a.code)
		}
	}
}
