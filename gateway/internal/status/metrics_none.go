//go:build !prometheus

package status

import (
	"net/http"
	"time"

	"bucketd/gateway/internal/accesslog"
	"bucketd/gateway/internal/host"
)

// HasMetrics is whether this program was built with Prometheus' library.
const HasMetrics = false

// Metrics are none: this program was built without them.
type Metrics struct{}

// NewMetrics returns metrics that count nothing.
func NewMetrics() *Metrics { return &Metrics{} }

// Begun counts nothing.
func (*Metrics) Begun() {}

// Ended counts nothing.
func (*Metrics) Ended(*accesslog.Request, time.Duration) {}

// Met counts nothing.
func (*Metrics) Met(string) {}

// Waited counts nothing.
func (*Metrics) Waited(time.Duration) {}

// Tried counts nothing.
func (*Metrics) Tried(host.Outcome, string, time.Duration) {}

func (*Metrics) watch(Sources, *health) {}

func (*Metrics) handler() http.Handler {
	return http.HandlerFunc(func(w http.ResponseWriter, _ *http.Request) {
		http.Error(w, "this gateway was built without metrics: make gateway has them where Debian's golang-github-prometheus-client-golang-dev is there", http.StatusNotImplemented)
	})
}
