package s3

import (
	"context"
	"encoding/json"
	"log"
	"path"
	"strconv"
	"strings"
	"sync"

	"bucketd/gateway/internal/host"
	"bucketd/gateway/internal/notes"
)

// A part's SHA-256 is in its ETag. Checksums of other kinds were compared when the part came, and are kept in the hidden bucket until
// the upload is over. (With --meta=false they are known as long as the gateway runs.)

// mostParts is how many parts' checksums are remembered, too, so that they needn't be read; beyond, those of all uploads are forgotten.
const mostParts = 50_000

// partName names a part of an upload.
type partName struct {
	tenant, bucket, upload string
	number                 int
}

// partSums are the checksums of a part, by their fields, with the SHA-256 of the bytes that they are of, and how many these are.
type partSums struct {
	Key    string // of the upload
	SHA256 string
	Size   int64
	Fields map[string]string
}

// partBook remembers checksums of parts.
type partBook struct {
	mu    sync.Mutex
	parts map[partName]partSums
}

func (b *partBook) put(name partName, sums partSums) {
	b.mu.Lock()
	defer b.mu.Unlock()
	if b.parts == nil || len(b.parts) >= mostParts {
		b.parts = map[partName]partSums{}
	}
	b.parts[name] = sums
}

// of returns the checksums of a part's bytes, and whether they are remembered.
func (b *partBook) of(name partName, sha256 string) (partSums, bool) {
	b.mu.Lock()
	defer b.mu.Unlock()
	it, isThere := b.parts[name]
	return it, isThere && it.SHA256 == sha256
}

// drop forgets an upload that has so many parts at most.
func (b *partBook) drop(name partName, numbers []completedPart) {
	b.mu.Lock()
	defer b.mu.Unlock()
	for _, it := range numbers {
		name.number = it.PartNumber
		delete(b.parts, name)
	}
}

// part names a part of the call's upload.
func (c *call) part(number int) partName {
	return partName{c.Tenant, c.target.Bucket, c.upload(), number}
}

// keepSums keeps the checksums that a part was compared with. The part is answered when they are kept.
func (c *call) keepSums(body *arrival, sha256 string) error {
	number, err := strconv.Atoi(c.query.Get("partNumber"))
	fields := map[string]string{}
	for field, sum := range body.sums {
		if field != md5Field && field != sha256Field {
			fields[field] = sum
		}
	}
	if err != nil || len(fields) == 0 {
		return nil // (bucketd refused a number that is none)
	}
	sums := partSums{c.target.Key, sha256, body.size, fields}
	if place, isThere := notes.PlaceOfPart(c.target.Bucket, c.upload(), number, sha256); isThere && c.server.Meta {
		defer c.detach()()
		if err := c.putHidden(place, sums); err != nil {
			return err
		}
	}
	c.server.parts.put(c.part(number), sums)
	return nil
}

// sums returns the checksums of a part's bytes; empty ones where none are known.
func (c *call) sums(number int, sha256 string) (partSums, error) {
	if it, isThere := c.server.parts.of(c.part(number), sha256); isThere {
		return it, nil
	}
	place, isThere := notes.PlaceOfPart(c.target.Bucket, c.upload(), number, sha256)
	if !isThere || !c.server.Meta {
		return partSums{}, nil
	}
	r, err := c.ask(place.Request(get))
	if err != nil || r.Refusal != 0 {
		return partSums{}, err
	}
	var it partSums
	if json.Unmarshal(r.Body.Bytes(), &it) != nil || it.SHA256 != sha256 || it.Key != c.target.Key { // (the gateway wrote none of that form)
		return partSums{}, nil
	}
	c.server.parts.put(c.part(number), it)
	return it, nil
}

// tidySums takes away what is kept of the parts of an upload that is over, while its client has the answer. What a kill leaves of it
// goes when a gateway starts.
func (c *call) tidySums() {
	prefix, isThere := notes.PartsOfUpload(c.target.Bucket, c.upload())
	if !isThere || !c.server.Meta {
		return
	}
	client, ctx, behind := c.client, context.WithoutCancel(c.r.Context()), &c.server.behind
	behind.Add(1)
	go func() {
		defer behind.Done()
		defer logDefect("checksums of parts")
		if refused, err := eachHidden(ctx, client, prefix, dropping(ctx, client)); err != nil || refused != nil {
			log.Printf("%s: checksums of parts are left: %v", client.Tenant, err)
		}
	}()
}

// dropping returns what takes a document out of the hidden bucket.
func dropping(ctx context.Context, client *host.Client) func(place host.Object) error {
	return func(place host.Object) error {
		_, err := client.Ask(ctx, place.Request(remove))
		return err
	}
}

// sweepSums takes away what is kept of the parts of a tenant's uploads that are over.
func sweepSums(ctx context.Context, client *host.Client) error {
	upload, isOver := "", false
	_, err := eachHidden(ctx, client, notes.Parts, func(place host.Object) (err error) {
		if own := path.Dir(place.Key); own != upload {
			upload = own
			if isOver, err = isUploadOver(ctx, client, place); err != nil {
				return err
			}
		}
		if !isOver {
			return nil
		}
		return dropping(ctx, client)(place)
	})
	return err
}

// isUploadOver returns whether the upload isn't there any more of which checksums of a part lie at a place.
func isUploadOver(ctx context.Context, client *host.Client, place host.Object) (bool, error) {
	r, err := client.Ask(ctx, place.Request(get))
	if err != nil || r.Refusal != 0 {
		return false, err
	}
	var it partSums
	words := strings.Split(place.Key, "/") // (neither a bucket's name nor an upload's id has a slash)
	if json.Unmarshal(r.Body.Bytes(), &it) != nil || it.Key == "" || len(words) != 4 {
		return false, nil // (the gateway wrote none of that form)
	}
	r, err = client.Ask(ctx, host.Object{Bucket: words[1], Key: it.Key}.Request(get, "uploadId", words[2], "max-parts", "1"))
	return err == nil && (r.Refusal == host.RefusalUpload || r.Refusal == host.RefusalBucket), err
}
