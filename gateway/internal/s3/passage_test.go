package s3

import (
	"context"
	"errors"
	"fmt"
	"sync"
	"testing"
	"time"

	"bucketd/gateway/internal/notes"
)

// One that is alone has nobody beside it, and many that aren't are inside together.
func TestPassage(t *testing.T) {
	var p passage
	var all sync.WaitGroup
	var mu sync.Mutex
	inside, alone, most := 0, 0, 0
	count := func(isAlone bool, by int) {
		mu.Lock()
		defer mu.Unlock()
		if isAlone {
			alone += by
		} else {
			inside += by
		}
		most = max(most, inside)
		if alone > 1 || alone == 1 && inside > 0 {
			t.Errorf("%d alone, %d beside", alone, inside)
		}
	}
	for i := 0; i < 20; i++ {
		all.Add(1)
		isAlone := i%5 == 0
		go func() {
			defer all.Done()
			for turn := 0; turn < 20; turn++ {
				leave, err := p.enter(context.Background(), isAlone)
				if err != nil {
					t.Error(err)
					return
				}
				count(isAlone, 1)
				time.Sleep(time.Millisecond / 4)
				count(isAlone, -1)
				leave()
			}
		}()
	}
	all.Wait()
	if p.inside != 0 || p.waiting != 0 || p.isAlone || most < 2 {
		t.Errorf("%d inside, %d wait, alone %v, %d together", p.inside, p.waiting, p.isAlone, most)
	}
}

// Who waits leaves with its client, and nobody waits behind it then.
func TestPassageIsLeft(t *testing.T) {
	var p passage
	first, err := p.enter(context.Background(), false)
	if err != nil {
		t.Fatal(err)
	}
	ctx, end := context.WithCancel(context.Background())
	ended, behind := make(chan error), make(chan error)
	go func() { _, err := p.enter(ctx, true); ended <- err }()
	for isWaiting := false; !isWaiting; time.Sleep(time.Millisecond) {
		p.mu.Lock()
		isWaiting = p.waiting == 1
		p.mu.Unlock()
	}
	go func() {
		leave, err := p.enter(context.Background(), false)
		if err == nil {
			leave()
		}
		behind <- err
	}()
	select {
	case <-behind:
		t.Fatal("one went in before the one that waits to be alone")
	case <-time.After(20 * time.Millisecond):
	}
	end()
	if err := <-ended; !errors.Is(err, context.Canceled) {
		t.Fatal(err)
	}
	if err := <-behind; err != nil {
		t.Fatal(err)
	}
	first()
	if p.inside != 0 || p.waiting != 0 {
		t.Fatal(p.inside, p.waiting)
	}
}

// A bucket that is made anew while notes of the old one go keeps the metadata of its uploads.
func TestUploadBesideADelete(t *testing.T) {
	_, stand, green, _ := newGateway(t, nil)
	expect(t, green.do("PUT", "/plans", nil), 200, "")
	expect(t, green.do("PUT", "/plans/x", []byte("abc"), "x-amz-meta-n", "1"), 200, "")
	stand.set(func() {
		all := stand.tenants["green"].buckets
		for i := 0; i < 300; i++ { // (as crashes leave them)
			all[notes.Bucket].keys[fmt.Sprintf("plans/%d", i)] = []*storedVersion{{id: "null", data: []byte("{}")}}
		}
		delete(all["plans"].keys, "x")
	})
	gone := make(chan answered)
	go func() { gone <- green.do("DELETE", "/plans", nil) }()
	for made := false; !made; {
		made = green.do("PUT", "/plans", nil).status == 200
	}
	id := begunUpload(t, green, "/plans/y", "x-amz-meta-n", "2")
	expect(t, <-gone, 204, "")
	part := expect(t, green.do("PUT", "/plans/y?partNumber=1&uploadId="+id, []byte("abc")), 200, "")
	expect(t, green.do("POST", "/plans/y?uploadId="+id, completionOf(part.head.Get("ETag"))), 200, "")
	if got := whole(green.do("GET", "/plans/y", nil)); got != `200 "abc" n=2 type=binary/octet-stream` {
		t.Fatal(got)
	}
}
