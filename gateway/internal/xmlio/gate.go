package xmlio

import (
	"context"
	"sync"
)

// MostAtOnce is how many documents are read at once.
const MostAtOnce = 4

// A Gate bounds how many documents are read at once: MostAtOnce of all tenants, and one of each tenant. Whoever waits leaves when
// its context ends. An empty one is ready.
type Gate struct {
	mu      sync.Mutex
	all     chan struct{}
	tenants map[string]*turn
}

// turn is that of one tenant, which is kept as long as somebody has it or waits for it.
type turn struct {
	held  chan struct{}
	users int
}

// Enter waits until a document of the tenant may be read, and returns the function that ends that. It returns the context's error
// where that ends first.
func (g *Gate) Enter(ctx context.Context, tenant string) (leave func(), err error) {
	own := g.turn(tenant)
	select {
	case own.held <- struct{}{}:
	case <-ctx.Done():
		g.drop(tenant, own)
		return nil, ctx.Err()
	}
	select {
	case g.all <- struct{}{}:
	case <-ctx.Done():
		<-own.held
		g.drop(tenant, own)
		return nil, ctx.Err()
	}
	return func() {
		<-g.all
		<-own.held
		g.drop(tenant, own)
	}, nil
}

func (g *Gate) turn(tenant string) *turn {
	g.mu.Lock()
	defer g.mu.Unlock()
	if g.all == nil {
		g.all, g.tenants = make(chan struct{}, MostAtOnce), map[string]*turn{}
	}
	own := g.tenants[tenant]
	if own == nil {
		own = &turn{held: make(chan struct{}, 1)}
		g.tenants[tenant] = own
	}
	own.users++
	return own
}

func (g *Gate) drop(tenant string, own *turn) {
	g.mu.Lock()
	defer g.mu.Unlock()
	if own.users--; own.users == 0 {
		delete(g.tenants, tenant)
	}
}
