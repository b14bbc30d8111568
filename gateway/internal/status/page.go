//go:build prometheus

package status

import (
	"context"
	"io"
	"slices"
	"strings"

	dto "github.com/prometheus/client_model/go"
	"github.com/prometheus/common/expfmt"

	"bucketd/gateway/internal/host"
)

const (
	pageLine    = `{"op":"metrics"}`
	pagePrefix  = "bucketd_server_" // of the names in a host's page; others would be mistaken for the gateway's
	longestPage = 64 << 10          // bytes
)

// hostPage gathers what the host itself has counted.
type hostPage struct{ operators *host.Operators }

// Gather asks the host's operators. A host that doesn't answer, or knows no such line, has nothing: bucketd_up tells the first.
func (p hostPage) Gather() ([]*dto.MetricFamily, error) {
	if !p.operators.IsThere() {
		return nil, nil
	}
	ctx, cancel := context.WithTimeout(context.Background(), pagePatience)
	defer cancel()
	var found []*dto.MetricFamily
	err := p.operators.Tell(ctx, pageLine, func(answer io.Reader) (err error) {
		found, err = readPage(answer)
		return err
	})
	if err != nil {
		return nil, nil
	}
	return found, nil
}

// readPage reads a page in Prometheus' text format, its families by name.
func readPage(answer io.Reader) ([]*dto.MetricFamily, error) {
	parser := expfmt.TextParser{}
	families, err := parser.TextToMetricFamilies(io.LimitReader(answer, longestPage))
	if err != nil {
		return nil, err
	}
	found := make([]*dto.MetricFamily, 0, len(families))
	for name, it := range families {
		if strings.HasPrefix(name, pagePrefix) {
			found = append(found, it)
		}
	}
	slices.SortFunc(found, func(a, b *dto.MetricFamily) int { return strings.Compare(a.GetName(), b.GetName()) })
	return found, nil
}
