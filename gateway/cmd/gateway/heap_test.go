package main

import (
	"context"
	"math"
	"runtime"
	"runtime/debug"
	"testing"
	"time"
)

func TestHeapBound(t *testing.T) {
	const most = 256 << 20
	for _, it := range []struct{ used, want int64 }{{0, smallHeap}, {26 << 20, smallHeap}, {100 << 20, 150 << 20}, {200 << 20, most}, {400 << 20, most}} {
		if found := heapBound(it.used, most); found != it.want {
			t.Errorf("where %d bytes are in use the bound is %d, not %d", it.used, found, it.want)
		}
	}
}

// The bound goes up with what is in use, and down again.
func TestPace(t *testing.T) {
	before := debug.SetMemoryLimit(-1)
	defer debug.SetMemoryLimit(before)
	ctx, end := context.WithCancel(context.Background())
	defer end()
	pace(ctx, 256<<20)
	is := func(want func(bound int64) bool) bool {
		for i := 0; i < 50; i++ {
			runtime.GC()
			if bound := debug.SetMemoryLimit(-1); want(bound) && bound != math.MaxInt64 {
				return true
			}
			time.Sleep(50 * time.Millisecond)
		}
		return false
	}
	if !is(func(bound int64) bool { return bound < 64<<20 }) {
		t.Errorf("the bound begins with %d", debug.SetMemoryLimit(-1))
	}
	held := make([]byte, 100<<20)
	if !is(func(bound int64) bool { return bound >= 140<<20 && bound <= 256<<20 }) {
		t.Errorf("with 100 MiB in use it is %d", debug.SetMemoryLimit(-1))
	}
	runtime.KeepAlive(held)
	held = nil
	if !is(func(bound int64) bool { return bound < 64<<20 }) {
		t.Errorf("afterwards it is %d, with %d bytes held", debug.SetMemoryLimit(-1), len(held))
	}
}
