package s3

import (
	"context"
	"sync"
)

// passage lets many in at once, or one alone. (A sync.RWMutex can't be waited for until a client goes.) An empty one is ready.
type passage struct {
	mu      sync.Mutex
	inside  int  // how many are
	isAlone bool // the one that is wants to be alone
	waiting int  // how many wait to be alone: nobody else goes in before them
	changed chan struct{}
}

// enter waits until the caller may be inside, or until the context ends, whose error it returns then.
func (p *passage) enter(ctx context.Context, isAlone bool) (leave func(), err error) {
	p.mu.Lock()
	defer p.mu.Unlock()
	if isAlone {
		p.waiting++
		defer func() { p.waiting-- }()
	}
	for p.isAlone || isAlone && p.inside > 0 || !isAlone && p.waiting > 0 {
		if p.changed == nil {
			p.changed = make(chan struct{})
		}
		if err := p.await(ctx, p.changed); err != nil {
			p.wake() // (who waited behind this one may go in)
			return nil, err
		}
	}
	p.inside, p.isAlone = p.inside+1, isAlone
	return p.leave, nil
}

// await waits for a change, without the lock that the caller has.
func (p *passage) await(ctx context.Context, changed chan struct{}) error {
	p.mu.Unlock()
	defer p.mu.Lock()
	select {
	case <-changed:
		return nil
	case <-ctx.Done():
		return ctx.Err()
	}
}

func (p *passage) leave() {
	p.mu.Lock()
	defer p.mu.Unlock()
	p.inside, p.isAlone = p.inside-1, false
	p.wake()
}

// wake has all look again that wait.
func (p *passage) wake() {
	if p.changed != nil {
		close(p.changed)
		p.changed = nil
	}
}
