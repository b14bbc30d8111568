package xmlio

import (
	"context"
	"errors"
	"fmt"
	"io"
	"reflect"
	"runtime"
	"strings"
	"sync"
	"sync/atomic"
	"syscall"
	"testing"
	"time"
)

const space = ` xmlns="http://s3.amazonaws.com/doc/2006-03-01/"`

// code returns S3's code of a document's error; "" where there is no error.
func code(t *testing.T, err error) string {
	t.Helper()
	var fault *DocumentError
	if err != nil && !errors.As(err, &fault) {
		t.Fatalf("an error of another kind: %v", err)
	} else if err == nil {
		return ""
	}
	return fault.Code
}

func TestDocuments(t *testing.T) {
	for _, it := range []struct {
		name, text string
		read       func(in io.Reader) (any, error)
		want       any
		code       string
	}{
		{"two objects", `<?xml version="1.0" encoding="UTF-8"?><Delete` + space + "><Quiet>true</Quiet>\n<Object><Key>a &amp; b&#x0a;</Key></Object>" +
			`<Object><Key>b</Key><VersionId>7</VersionId><ETag>"x"</ETag><Size>3</Size><LastModifiedTime>now</LastModifiedTime></Object></Delete>` + "\n",
			aDelete, &Delete{true, []Identifier{{Key: "a & b\n"}, {"b", "7", `"x"`, "3", "now"}}}, ""},
		{"a mark of the order of bytes", "\ufeff<Delete><Object><Key>a</Key></Object></Delete>", aDelete, &Delete{false, []Identifier{{Key: "a"}}}, ""},
		{"a section of characters", "<Delete><Object><Key><![CDATA[<a>]]></Key></Object></Delete>", aDelete, &Delete{false, []Identifier{{Key: "<a>"}}}, ""},
		{"a comment", "<!-- it's --><Delete><!-- <a> --><Object><Key>a<!-- --></Key></Object></Delete>", aDelete, &Delete{false, []Identifier{{Key: "a"}}}, ""},
		{"no object", "<Delete/>", aDelete, nil, "MalformedXML"},
		{"no document", "", aDelete, nil, "MalformedXML"},
		{"another document", "<Remove/>", aDelete, nil, "MalformedXML"},
		{"a document type", `<!DOCTYPE d [<!ENTITY a "a">]><Delete><Object><Key>&a;</Key></Object></Delete>`, aDelete, nil, "MalformedXML"},
		{"an entity", "<Delete><Object><Key>&a;</Key></Object></Delete>", aDelete, nil, "MalformedXML"},
		{"an instruction", "<Delete><?php x?><Object><Key>a</Key></Object></Delete>", aDelete, nil, "MalformedXML"},
		{"a text behind the end", "<Delete><Object><Key>a</Key></Object></Delete> & <junk", aDelete, nil, "MalformedXML"},
		{"an element behind the end", "<Delete><Object><Key>a</Key></Object></Delete><Delete/>", aDelete, nil, "MalformedXML"},
		{"a document that is cut", "<Delete><Object><Key>a</Key></Object>", aDelete, nil, "MalformedXML"},
		{"a text between members", "<Delete>x<Object><Key>a</Key></Object></Delete>", aDelete, nil, "MalformedXML"},
		{"an unknown member", "<Delete><Object><Key>a</Key><If>x</If></Object></Delete>", aDelete, nil, "MalformedXML"},
		{"a member twice", "<Delete><Object><Key>a</Key><Key>b</Key></Object></Delete>", aDelete, nil, "MalformedXML"},
		{"a key with members", "<Delete><Object><Key><b/></Key></Object></Delete>", aDelete, nil, "MalformedXML"},
		{"an attribute", `<Delete><Object a="b"><Key>a</Key></Object></Delete>`, aDelete, nil, "MalformedXML"},
		{"quiet is neither", "<Delete><Quiet>perhaps</Quiet><Object><Key>a</Key></Object></Delete>", aDelete, nil, "MalformedXML"},
		{"bytes that are no UTF-8", "<Delete><Object><Key>\xff</Key></Object></Delete>", aDelete, nil, "MalformedXML"},
		{"another encoding", `<?xml version="1.0" encoding="ISO-8859-1"?><Delete><Object><Key>a</Key></Object></Delete>`, aDelete, nil, "MalformedXML"},
		{"parts", "<CompleteMultipartUpload><Part><PartNumber> 1 </PartNumber><ETag>x</ETag><ChecksumCRC32>c</ChecksumCRC32></Part>" +
			"<Part><ETag>y</ETag><PartNumber>2</PartNumber><ChecksumCRC64NVME>d</ChecksumCRC64NVME></Part></CompleteMultipartUpload>",
			aCompletion, []Part{{Number: 1, ETag: "x", ChecksumCRC32: "c"}, {Number: 2, ETag: "y", ChecksumCRC64NVME: "d"}}, ""},
		{"a part without a number", "<CompleteMultipartUpload><Part><ETag>x</ETag></Part></CompleteMultipartUpload>", aCompletion, nil, "MalformedXML"},
		{"no part", "<CompleteMultipartUpload/>", aCompletion, nil, "MalformedXML"},
		{"a negative part", "<CompleteMultipartUpload><Part><PartNumber>-1</PartNumber></Part></CompleteMultipartUpload>", aCompletion, nil, "MalformedXML"},
		{"a state", "<VersioningConfiguration><Status>Enabled</Status></VersioningConfiguration>", aVersioning, &Versioning{Status: "Enabled"}, ""},
		{"a state twice", "<VersioningConfiguration><Status>Enabled</Status><Status>Suspended</Status></VersioningConfiguration>", aVersioning, nil, "MalformedXML"},
		{"a date", "<Retention><Mode>COMPLIANCE</Mode><RetainUntilDate>2091</RetainUntilDate></Retention>", aRetention, &Retention{"COMPLIANCE", "2091"}, ""},
		{"a rule", "<LifecycleConfiguration><Rule><ID>x</ID><Filter><Prefix></Prefix></Filter><Status>Enabled</Status><AbortIncompleteMultipartUpload>" +
			"<DaysAfterInitiation>3</DaysAfterInitiation></AbortIncompleteMultipartUpload></Rule></LifecycleConfiguration>", aLifecycle, &Rule{"x", "Enabled", 3}, ""},
		{"an expiry", "<LifecycleConfiguration><Rule><Expiration><Days>3</Days></Expiration></Rule></LifecycleConfiguration>", aLifecycle, nil, "NotImplemented"},
		{"a prefix", "<LifecycleConfiguration><Rule><Filter><Prefix>a</Prefix></Filter><AbortIncompleteMultipartUpload><DaysAfterInitiation>3" +
			"</DaysAfterInitiation></AbortIncompleteMultipartUpload></Rule></LifecycleConfiguration>", aLifecycle, nil, "NotImplemented"},
		{"a tag", "<LifecycleConfiguration><Rule><Filter><Tag><Key>a</Key></Tag></Filter></Rule></LifecycleConfiguration>", aLifecycle, nil, "NotImplemented"},
		{"two rules", "<LifecycleConfiguration><Rule/><Rule/></LifecycleConfiguration>", aLifecycle, nil, "NotImplemented"},
		{"no rule", "<LifecycleConfiguration/>", aLifecycle, nil, "MalformedXML"},
		{"no days", "<LifecycleConfiguration><Rule><AbortIncompleteMultipartUpload/></Rule></LifecycleConfiguration>", aLifecycle, nil, "MalformedXML"},
		{"a region", "<CreateBucketConfiguration><LocationConstraint>eu-west-1</LocationConstraint></CreateBucketConfiguration>", aRegion, "eu-west-1", ""},
		{"no region", "", aRegion, "", ""},
		{"a directory bucket", "<CreateBucketConfiguration><Bucket><Type>Directory</Type></Bucket></CreateBucketConfiguration>", aRegion, nil, "NotImplemented"},
	} {
		got, err := it.read(strings.NewReader(it.text))
		if found := code(t, err); found != it.code {
			t.Errorf("%s: %v, not %q", it.name, err, it.code)
		} else if err == nil && !reflect.DeepEqual(got, it.want) {
			t.Errorf("%s: %v, not %v", it.name, got, it.want)
		}
	}
}

func aDelete(in io.Reader) (any, error)     { return ReadDelete(in) }
func aCompletion(in io.Reader) (any, error) { return ReadCompletion(in) }
func aVersioning(in io.Reader) (any, error) { return ReadVersioning(in) }
func aRetention(in io.Reader) (any, error)  { return ReadRetention(in) }
func aLifecycle(in io.Reader) (any, error)  { return ReadLifecycle(in) }
func aRegion(in io.Reader) (any, error)     { return ReadCreateBucket(in) }

var all = []func(in io.Reader) (any, error){aDelete, aCompletion, aVersioning, aRetention, aLifecycle, aRegion}

// counted counts what is read.
type counted struct {
	in    io.Reader
	bytes int
}

func (c *counted) Read(b []byte) (int, error) {
	n, err := c.in.Read(b)
	c.bytes += n
	return n, err
}

// What is too much ends the document where it stands, and takes no memory.
func TestHostileDocuments(t *testing.T) {
	many := func(root, element string, count int) string {
		return "<" + root + ">" + strings.Repeat(element, count) + "</" + root + ">"
	}
	object, part := "<Object><Key>a</Key></Object>", "<Part><PartNumber>1</PartNumber></Part>"
	for _, it := range []struct {
		name, text string
		read       func(in io.Reader) (any, error)
		code       string
		most       int // bytes that are read
	}{
		{"1,000 objects", many("Delete", object, 1000), aDelete, "", 1 << 20},
		{"1,001 objects", many("Delete", object, 1001) + strings.Repeat(" ", 1<<20), aDelete, "MalformedXML", 40 << 10},
		{"233,000 empty objects", many("Delete", "<Object/>", 233000), aDelete, "MalformedXML", 20 << 10},
		{"10,000 parts", many("CompleteMultipartUpload", part, 10000), aCompletion, "", 1 << 20},
		{"10,001 parts", many("CompleteMultipartUpload", part, 10001) + strings.Repeat(" ", 1<<20), aCompletion, "MalformedXML", 500 << 10},
		{"300,000 in one another", strings.Repeat("<Delete>", 300000), aDelete, "MalformedXML", 8 << 10},
		{"nine in one another", strings.Repeat("<Delete>", 9), aDelete, "MalformedXML", 8 << 10},
		{"400,000 attributes", "<Delete " + strings.Repeat(`a="" `, 400000) + "/>", aDelete, "MalformedXML", 24 << 10},
		{"a name of 2 MB", "<" + strings.Repeat("D", 2000000) + "/>", aDelete, "MalformedXML", 24 << 10},
		{"a key of 1 MB", "<Delete><Object><Key>" + strings.Repeat("k", 1000000), aDelete, "MalformedXML", 24 << 10},
		{"a key of many texts", "<Delete><Object><Key>" + strings.Repeat(strings.Repeat("k", 10000)+"<!-- -->", 100), aDelete, "MalformedXML", 44 << 10},
		{"a comment of 1 MB", "<!--" + strings.Repeat("k", 1000000), aDelete, "MalformedXML", 24 << 10},
		{"more than 2 MiB", "<Delete>" + strings.Repeat("<!-- -->", 300000), aDelete, "MalformedXML", 2<<20 + 8<<10},
		{"more than 64 KiB", "<Retention>" + strings.Repeat("<!-- -->", 300000), aRetention, "MalformedXML", 72 << 10},
	} {
		in := &counted{in: strings.NewReader(it.text)}
		var before, after runtime.MemStats
		runtime.ReadMemStats(&before)
		_, err := it.read(in)
		runtime.ReadMemStats(&after)
		if found := code(t, err); found != it.code {
			t.Errorf("%s: %v, not %q", it.name, err, it.code)
		}
		if in.bytes > it.most {
			t.Errorf("%s: %d bytes were read, not %d at most", it.name, in.bytes, it.most)
		}
		if taken := after.TotalAlloc - before.TotalAlloc; taken > 64<<20 || it.most < 50<<10 && taken > 4<<20 {
			t.Errorf("%s: %d bytes were taken", it.name, taken)
		}
	}
}

// spent returns the time of a processor that this process took.
func spent(t *testing.T) time.Duration {
	t.Helper()
	var found syscall.Rusage
	if err := syscall.Getrusage(syscall.RUSAGE_SELF, &found); err != nil {
		t.Fatal(err)
	}
	return time.Duration(found.Utime.Nano() + found.Stime.Nano())
}

// 100 documents at once of one key, as great as may be, take next to no time.
func TestManyHostileDocuments(t *testing.T) {
	text, gate := "<Delete>"+strings.Repeat("<Object/>", 233000)+"</Delete>", &Gate{}
	begun := spent(t)
	var all sync.WaitGroup
	for i := 0; i < 100; i++ {
		all.Add(1)
		go func() {
			defer all.Done()
			leave, err := gate.Enter(context.Background(), "green")
			if err != nil {
				t.Error(err)
				return
			}
			defer leave()
			if _, err := ReadDelete(strings.NewReader(text)); code(t, err) != "MalformedXML" {
				t.Error(err)
			}
		}()
	}
	all.Wait()
	if took := spent(t) - begun; took > 10*time.Second {
		t.Errorf("they took %v of a processor", took)
	}
}

// Every document that a reader takes passes its bound; what has too many elements doesn't.
func TestBound(t *testing.T) {
	members := "<Key>a</Key><VersionId>1</VersionId><ETag>x</ETag><Size>1</Size><LastModifiedTime>y</LastModifiedTime>"
	part := "<PartNumber>1</PartNumber><ETag>x</ETag><ChecksumCRC32>x</ChecksumCRC32><ChecksumCRC32C>x</ChecksumCRC32C><ChecksumSHA1>x</ChecksumSHA1>" +
		"<ChecksumSHA256>x</ChecksumSHA256><ChecksumCRC64NVME>x</ChecksumCRC64NVME>"
	for _, it := range []struct {
		name, text string
		form       Form
		read       func(in io.Reader) (any, error)
		isWell     bool
	}{
		{"1,000 objects", "<Delete><Quiet>true</Quiet>" + strings.Repeat("<Object>"+members+"</Object>", 1000) + "</Delete>", DeleteForm, aDelete, true},
		{"233,000 objects", "<Delete>" + strings.Repeat("<Object/>", 233000), DeleteForm, aDelete, false},
		{"10,000 parts", "<CompleteMultipartUpload>" + strings.Repeat("<Part>"+part+"</Part>", 10000) + "</CompleteMultipartUpload>", CompletionForm, nil, true},
		{"233,000 parts", "<CompleteMultipartUpload>" + strings.Repeat("<Part/>", 233000), CompletionForm, aCompletion, false},
		{"a rule", "<LifecycleConfiguration><Rule/></LifecycleConfiguration>", OtherForm, nil, true},
	} {
		_, err := io.CopyBuffer(struct{ io.Writer }{it.form.Bound()}, struct{ io.Reader }{strings.NewReader(it.text)}, make([]byte, 1000))
		if (code(t, err) == "") != it.isWell {
			t.Errorf("%s: %v", it.name, err)
		}
		if it.read != nil {
			if _, err := it.read(strings.NewReader(it.text)); (err == nil) != it.isWell {
				t.Errorf("%s: the reader: %v", it.name, err)
			}
		}
	}
}

func TestGate(t *testing.T) {
	gate, ctx := &Gate{}, context.Background()
	var held [6]atomic.Int64
	var inAll, mostOfAll, mostOfOne atomic.Int64
	higher := func(most *atomic.Int64, n int64) {
		for old := most.Load(); n > old && !most.CompareAndSwap(old, n); old = most.Load() {
		}
	}
	var all sync.WaitGroup
	for i := 0; i < 60; i++ {
		all.Add(1)
		go func(tenant int) {
			defer all.Done()
			leave, err := gate.Enter(ctx, fmt.Sprint(tenant))
			if err != nil {
				t.Error(err)
				return
			}
			higher(&mostOfOne, held[tenant].Add(1))
			higher(&mostOfAll, inAll.Add(1))
			time.Sleep(time.Millisecond)
			held[tenant].Add(-1)
			inAll.Add(-1)
			leave()
		}(i % len(held))
	}
	all.Wait()
	if mostOfAll.Load() > 4 || mostOfOne.Load() != 1 {
		t.Errorf("at once there were %d of all, %d of one", mostOfAll.Load(), mostOfOne.Load())
	}
	if len(gate.tenants) != 0 {
		t.Errorf("tenants are left: %d", len(gate.tenants))
	}
}

// Whoever waits leaves with its context: the turn of its tenant, and that of all.
func TestGateIsLeft(t *testing.T) {
	gate, ctx := &Gate{}, context.Background()
	var leaves []func()
	for _, tenant := range []string{"a", "b", "c", "d"} {
		leave, err := gate.Enter(ctx, tenant)
		if err != nil {
			t.Fatal(err)
		}
		leaves = append(leaves, leave)
	}
	for _, tenant := range []string{"a", "e"} {
		short, cancel := context.WithTimeout(ctx, 20*time.Millisecond)
		if _, err := gate.Enter(short, tenant); !errors.Is(err, context.DeadlineExceeded) {
			t.Errorf("%s: %v", tenant, err)
		}
		cancel()
	}
	for _, leave := range leaves {
		leave()
	}
	leave, err := gate.Enter(ctx, "e")
	if err != nil {
		t.Fatal(err)
	}
	leave()
	if len(gate.tenants) != 0 || len(gate.all) != 0 {
		t.Errorf("something is held: %v, %d", gate.tenants, len(gate.all))
	}
}

// No bytes bring a reader down, or make it read more than its bound.
func FuzzRead(f *testing.F) {
	f.Add([]byte("<Delete><Quiet>true</Quiet><Object><Key>a</Key><VersionId>1</VersionId></Object></Delete>"))
	f.Add([]byte("<CompleteMultipartUpload><Part><PartNumber>1</PartNumber><ETag>x</ETag></Part></CompleteMultipartUpload>"))
	f.Add([]byte("<LifecycleConfiguration><Rule><Filter><Prefix></Prefix></Filter><AbortIncompleteMultipartUpload/></Rule></LifecycleConfiguration>"))
	f.Add([]byte("<?xml version=\"1.0\"?><!-- --><Retention><Mode><![CDATA[a]]></Mode></Retention>"))
	f.Fuzz(func(t *testing.T, text []byte) {
		for _, read := range all {
			in := &counted{in: strings.NewReader(string(text))}
			_, err := read(in)
			var fault *DocumentError
			if err != nil && !errors.As(err, &fault) {
				t.Errorf("an error of another kind: %v", err)
			}
		}
		if d, err := ReadDelete(strings.NewReader(string(text))); err == nil && (len(d.Objects) == 0 || len(d.Objects) > MostObjects) {
			t.Errorf("%d objects", len(d.Objects))
		}
	})
}
