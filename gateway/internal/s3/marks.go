package s3

import (
	"context"
	"crypto/rand"
	"encoding/hex"
	"encoding/json"
	"errors"
	"fmt"
	"log"
	"os"
	"slices"
	"strconv"
	"strings"
	"sync"

	"bucketd/gateway/internal/host"
	"bucketd/gateway/internal/notes"
	"bucketd/gateway/internal/sigv4"
)

// A great put goes as an upload that no client began. Before it begins, a mark in the hidden bucket tells its object, and the newest
// upload that this has. When it has begun the mark gets its id, and at its end the mark goes. Where the gateway is killed meanwhile,
// the next one that starts finds the mark, and aborts the upload.
//
// A mark without an id means the uploads of its object after the one that it tells, that have no part: bucketd's ids of a tenant
// ascend. Clients' own are not among them, since one upload of a tenant begins at a time, and none does before the marks of gateways
// before this one are looked at. That holds as long as no other gateway, and no client of bucketd itself, begins an upload of the
// object meanwhile. (With --meta=false there are no marks.)

const marks = "~uploads/" // no bucket has such a name

// mark tells which upload it is, and which process has it.
type mark struct {
	Bucket, Key string
	UploadId    string // empty before that is known
	After       string // the newest upload that the object had before; empty where it had none
	Process     string
	place       host.Object
}

// object names the object that the upload is of.
func (m *mark) object() host.Object { return host.Object{Bucket: m.Bucket, Key: m.Key} }

// startOf returns when a process of this machine began, as the kernel counts it (proc_pid_stat(5)).
func startOf(pid int) (string, error) {
	stat, err := os.ReadFile(fmt.Sprintf("/proc/%d/stat", pid))
	if err != nil {
		return "", err
	}
	// (the name stands in brackets, and may have any)
	words := strings.Fields(string(stat[strings.LastIndexByte(string(stat), ')')+1:]))
	if len(words) < 20 {
		return "", errors.New("/proc has a process of another form")
	}
	return words[19], nil
}

// ownName names this process: its number, when it began, and what no other has, as both may come again when the machine has started
// anew. (The kernel's name of that start isn't to be had where a unit hides all of /proc but processes.)
var ownName = sync.OnceValues(func() (string, error) {
	start, err := startOf(os.Getpid())
	if err != nil {
		return "", err
	}
	random, err := randomName()
	return fmt.Sprintf("%d %s %s", os.Getpid(), start, random), err
})

// randomName returns 16 hexadecimal digits.
func randomName() (string, error) {
	random := make([]byte, 8)
	_, err := rand.Read(random)
	return hex.EncodeToString(random), err
}

// isRunning returns whether a process is there still. It has to be of the same user, where /proc hides those of others.
func isRunning(name string) bool {
	words := strings.Fields(name)
	if len(words) != 3 {
		return false
	}
	pid, err := strconv.Atoi(words[0])
	if err != nil {
		return false
	}
	if pid == os.Getpid() {
		own, err := ownName()
		return err == nil && own == name
	}
	start, err := startOf(pid)
	return err == nil && start == words[1]
}

// newMark returns the mark of an upload that isn't begun.
func (c *call) newMark() (*mark, error) {
	name, err := ownName()
	if err != nil {
		return nil, err
	}
	random, err := randomName()
	if err != nil {
		return nil, err
	}
	m := &mark{Bucket: c.target.Bucket, Key: c.target.Key, Process: name}
	m.place = host.Object{Bucket: notes.Bucket, Key: marks + m.Bucket + "/" + random}
	ids, err := m.uploadsAfter(c.r.Context(), c.client)
	if len(ids) > 0 {
		m.After = ids[len(ids)-1]
	}
	return m, err
}

// putMark puts a mark where marks are kept.
func (c *call) putMark(m *mark) error {
	if !c.server.Meta {
		return nil
	}
	return c.putHidden(m.place, m)
}

// uploadsAfter returns the ids of the uploads of a mark's object after the one that it tells, in their order.
func (m *mark) uploadsAfter(ctx context.Context, client *host.Client) (ids []string, err error) {
	q := host.Object{Bucket: m.Bucket}.Request(get, "uploads", "", "prefix", m.Key)
	if m.After != "" {
		q.Query.Set("key-marker", m.Key)
		q.Query.Set("upload-id-marker", m.After)
	}
	for {
		r, err := client.Ask(ctx, q)
		if err != nil || r.Refusal == host.RefusalBucket {
			return ids, err
		}
		if err := unless(r); err != nil {
			return nil, err
		}
		page, err := r.Document()
		if err != nil {
			return nil, err
		}
		for _, it := range page.Uploads {
			if it.Key != m.Key { // (a key is the first name of its own prefix)
				return ids, nil
			}
			ids = append(ids, it.UploadId)
		}
		if page.NextKeyMarker != m.Key {
			return ids, nil
		}
		q.Query.Set("key-marker", m.Key)
		q.Query.Set("upload-id-marker", page.NextUploadIdMarker)
	}
}

// meant returns the ids of the uploads that a mark means.
func (m *mark) meant(ctx context.Context, client *host.Client) ([]string, error) {
	if m.UploadId != "" {
		return []string{m.UploadId}, nil
	}
	ids, err := m.uploadsAfter(ctx, client)
	if err != nil {
		return nil, err
	}
	var bare []string
	for _, id := range ids {
		r, err := client.Ask(ctx, m.object().Request(get, "uploadId", id, "max-parts", "1"))
		if err != nil {
			return nil, err
		}
		if err := unless(r, host.RefusalUpload, host.RefusalBucket); err != nil {
			return nil, err
		}
		if listed, err := r.Document(); err == nil && r.Refusal == 0 && len(listed.Parts) == 0 {
			bare = append(bare, id)
		}
	}
	return bare, nil
}

// unless returns a refusal as an error, but for some.
func unless(r *host.Response, expected ...int) error {
	if r.Refusal == 0 || slices.Contains(expected, r.Refusal) {
		return nil
	}
	return fmt.Errorf("bucketd's refusal %d %s", r.Refusal, r.Code)
}

// abort aborts the uploads that a mark means, but those that other marks have. It returns how many there were.
func (m *mark) abort(ctx context.Context, client *host.Client, others map[string]bool) (count int, err error) {
	ids, err := m.meant(ctx, client)
	if err != nil {
		return 0, err
	}
	for _, id := range ids {
		if others[id] && id != m.UploadId {
			continue
		}
		r, err := client.Ask(ctx, m.object().Request(remove, "uploadId", id))
		if err != nil {
			return count, err
		}
		if err := unless(r, host.RefusalUpload, host.RefusalBucket); err != nil {
			return count, err
		}
		if r.Refusal == 0 {
			count++
		}
	}
	return count, nil
}

// beginnings has what beginnings of a tenant's uploads wait for.
type beginnings struct {
	place   chan struct{} // one begins at a time
	isSwept bool          // what gateways before this one left is aborted
	left    []*mark       // of this gateway, which couldn't be taken away yet
}

// leave has a mark taken away before the next upload begins.
func (b *beginnings) leave(m *mark) {
	b.place <- struct{}{}
	b.left = append(b.left, m)
	<-b.place
}

// beginning lets an upload of the tenant begin, when no other does, and none is there that nobody knows; it returns what ends that.
func (c *call) beginning() (release func(), err error) {
	all := &c.own.beginnings
	select {
	case all.place <- struct{}{}:
	case <-c.r.Context().Done():
		return nil, c.r.Context().Err()
	}
	release = func() { <-all.place }
	if c.server.Meta && !all.isSwept {
		refused, failed := sweepMarks(c.r.Context(), c.client, all)
		if err = failed; refused != nil {
			err = c.refusalOf(refused)
		}
	}
	for err == nil && len(all.left) > 0 {
		if err = c.settleMark(all.left[0]); err == nil {
			all.left = all.left[1:]
		}
	}
	if err != nil {
		release()
		return nil, err
	}
	return release, nil
}

// settleMark aborts what a mark means, and takes it away.
func (c *call) settleMark(m *mark) error {
	if _, err := m.abort(c.r.Context(), c.client, nil); err != nil {
		return err
	}
	return c.dropMark(m)
}

func (c *call) dropMark(m *mark) error {
	if !c.server.Meta {
		return nil
	}
	return c.dropHidden(m.place)
}

// Sweep aborts the uploads of a tenant that gateways began which don't run any more, and takes away what they left of uploads that
// are over. The error is that of bucketd's not answering.
func (s *Server) Sweep(ctx context.Context, caller *sigv4.Caller) error {
	client, all := s.Host.Client(caller.Tenant, caller.ID, caller.Secret), &s.tenants.of(caller.Tenant).beginnings
	select {
	case all.place <- struct{}{}:
	case <-ctx.Done():
		return ctx.Err()
	}
	refused, err := sweepMarks(ctx, client, all)
	<-all.place
	if err != nil || refused != nil { // (the key is none any more)
		return err
	}
	return sweepSums(ctx, client)
}

// sweepMarks aborts what marks of a tenant mean whose processes don't run any more. Nothing of it may begin meanwhile. It returns
// bucketd's refusal where marks can't be listed.
func sweepMarks(ctx context.Context, client *host.Client, all *beginnings) (refused *host.Response, err error) {
	var dead, running []*mark
	refused, err = eachHidden(ctx, client, marks, func(place host.Object) error {
		m, err := readMark(ctx, client, place)
		switch {
		case m == nil:
		case isRunning(m.Process):
			running = append(running, m)
		default:
			dead = append(dead, m)
		}
		return err
	})
	if err != nil || refused != nil {
		return refused, err
	}
	ids, begun := map[string]bool{}, map[host.Object]bool{}
	for _, it := range append(dead, running...) {
		ids[it.UploadId] = true
	}
	for _, it := range running {
		begun[it.object()] = begun[it.object()] || it.UploadId == ""
	}
	for _, it := range dead {
		if it.UploadId == "" && begun[it.object()] { // (one of that object may be the other's)
			continue
		}
		if err := it.sweep(ctx, client, ids); err != nil {
			return nil, err
		}
	}
	all.isSwept = true
	return nil, nil
}

func readMark(ctx context.Context, client *host.Client, place host.Object) (*mark, error) {
	r, err := client.Ask(ctx, place.Request(get))
	if err != nil {
		return nil, err
	}
	if r.Refusal != 0 {
		return nil, unless(r, host.RefusalKey)
	}
	m := &mark{place: place}
	if json.Unmarshal(r.Body.Bytes(), m) != nil || !strings.HasPrefix(place.Key, marks+m.Bucket+"/") || m.Key == "" {
		return nil, nil // (the gateway wrote none of that form)
	}
	return m, nil
}

// sweep aborts what a mark means, but for the uploads that other marks have, and takes it away.
func (m *mark) sweep(ctx context.Context, client *host.Client, others map[string]bool) error {
	count, err := m.abort(ctx, client, others)
	if err != nil {
		return err
	}
	if count > 0 {
		log.Printf("%s: an upload of %q that a gateway left is aborted", client.Tenant, m.Bucket)
	}
	r, err := client.Ask(ctx, m.place.Request(remove))
	if err != nil {
		return err
	}
	return unless(r)
}

// eachHidden calls something with each document of the hidden bucket whose name begins so; with none where that bucket isn't there.
// It returns bucketd's refusal where they can't be listed.
func eachHidden(ctx context.Context, client *host.Client, prefix string, act func(place host.Object) error) (refused *host.Response, err error) {
	q := host.Object{Bucket: notes.Bucket}.Request(get, "list-type", "2", "prefix", prefix)
	for {
		r, err := client.Ask(ctx, q)
		if err != nil || r.Refusal == host.RefusalBucket {
			return nil, err
		}
		if r.Refusal != 0 {
			return r, nil
		}
		page, err := r.Document()
		if err != nil {
			return nil, err
		}
		for _, it := range page.Contents {
			if err := act(host.Object{Bucket: notes.Bucket, Key: it.Key}); err != nil {
				return nil, err
			}
		}
		if page.NextContinuationToken == "" {
			return nil, nil
		}
		q.Query.Set("continuation-token", page.NextContinuationToken)
	}
}
