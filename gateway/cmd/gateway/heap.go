package main

import (
	"context"
	"runtime/debug"
	"runtime/metrics"
	"time"
)

// smallHeap is how many bytes the gateway may take before garbage is collected sooner than by its share.
const smallHeap = 40 << 20

// pace bounds the memory until the context is done. While little of it is in use the bound is low. Where more is, the bound goes
// with it, so that garbage isn't collected all the time, up to some bytes.
func pace(ctx context.Context, most int64) {
	bound := int64(0)
	set := func() {
		if next := heapBound(inUse(), most); next*10 > bound*11 || next*11 < bound*10 {
			bound = next
			debug.SetMemoryLimit(bound)
		}
	}
	set()
	go func() {
		tick := time.NewTicker(100 * time.Millisecond)
		defer tick.Stop()
		for {
			select {
			case <-tick.C:
				set()
			case <-ctx.Done():
				return
			}
		}
	}()
}

// heapBound is one and a half times what is in use.
func heapBound(used, most int64) int64 {
	return min(most, max(smallHeap, used+used/2))
}

// inUse returns the bytes that were in use after the last collection, with all stacks.
func inUse() int64 {
	found := []metrics.Sample{{Name: "/gc/heap/live:bytes"}, {Name: "/memory/classes/heap/stacks:bytes"}}
	metrics.Read(found)
	sum := int64(0)
	for _, it := range found {
		if it.Value.Kind() == metrics.KindUint64 {
			sum += int64(it.Value.Uint64())
		}
	}
	return sum
}
