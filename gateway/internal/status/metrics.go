//go:build prometheus

package status

import (
	"net/http"
	"os"
	"path/filepath"
	"strconv"
	"strings"
	"time"

	"github.com/prometheus/client_golang/prometheus"
	"github.com/prometheus/client_golang/prometheus/collectors"
	"github.com/prometheus/client_golang/prometheus/promhttp"

	"bucketd/gateway/internal/accesslog"
	"bucketd/gateway/internal/host"
	"bucketd/gateway/internal/limits"
)

// HasMetrics is whether this program was built with Prometheus' library.
const HasMetrics = true

// Metrics are what is counted of requests, limits and the host, and what is read of them when a page is asked for. Labels have few
// values: operations of S3 that are there, codes, options, and of tenants those of a list that is cut.
type Metrics struct {
	registry *prometheus.Registry
	requests *prometheus.HistogramVec // of seconds
	underWay prometheus.Gauge
	in, out  prometheus.Counter // bytes of bodies
	cut      prometheus.Counter
	errors   *prometheus.CounterVec
	refused  *prometheus.CounterVec // signatures
	limits   *prometheus.CounterVec
	tried    *prometheus.HistogramVec // of seconds
	waited   prometheus.Histogram
	refusals *prometheus.CounterVec // of the host
	pages    prometheus.Gatherers   // the registry, and the host's own page where its operators are asked
}

// Seconds within which something is done.
var (
	requestBuckets = []float64{.001, .0025, .005, .01, .025, .05, .1, .25, .5, 1, 2.5, 5, 10, 30, 100}
	hostBuckets    = []float64{.0001, .00025, .0005, .001, .0025, .005, .01, .025, .05, .1, .25, .5, 1, 2.5, 5, 10, 30, 100}
)

// NewMetrics returns metrics of which nothing has been counted.
func NewMetrics() *Metrics {
	m := &Metrics{registry: prometheus.NewRegistry(),
		requests: prometheus.NewHistogramVec(prometheus.HistogramOpts{Name: "bucketd_gateway_request_seconds", Buckets: requestBuckets,
			Help: "Time until a request's answer had been sent, by S3's name of the operation, none where no one was found, and the class of the status."},
			[]string{"operation", "status"}),
		underWay: prometheus.NewGauge(prometheus.GaugeOpts{Name: "bucketd_gateway_requests_under_way", Help: "Requests that aren't answered yet."}),
		in:       prometheus.NewCounter(prometheus.CounterOpts{Name: "bucketd_gateway_received_bytes_total", Help: "Bytes of requests' bodies."}),
		out:      prometheus.NewCounter(prometheus.CounterOpts{Name: "bucketd_gateway_sent_bytes_total", Help: "Bytes of answers' bodies."}),
		cut:      prometheus.NewCounter(prometheus.CounterOpts{Name: "bucketd_gateway_cut_answers_total", Help: "Answers that ended before their end."}),
		errors:   counters("bucketd_gateway_errors_total", "Answers that are errors, by S3's code.", "code"),
		refused:  counters("bucketd_gateway_signatures_refused_total", "Requests whose signature was refused, by the cause.", "cause"),
		limits:   counters("bucketd_gateway_limit_met_total", "How often a limit closed a connection or refused a request, by its option.", "option"),
		tried: prometheus.NewHistogramVec(prometheus.HistogramOpts{Name: "bucketd_gateway_host_seconds", Buckets: hostBuckets,
			Help: "Time until the host had answered, by the class of the status; none where it didn't, left where the client went before."}, []string{"status"}),
		waited: prometheus.NewHistogram(prometheus.HistogramOpts{Name: "bucketd_gateway_host_waiting_seconds", Buckets: hostBuckets,
			Help: "Time that requests to the host waited for their turn."}),
		refusals: counters("bucketd_gateway_host_refusals_total", "Requests that the host refused, by its code.", "refusal"),
	}
	m.pages = prometheus.Gatherers{m.registry}
	m.registry.MustRegister(m.requests, m.underWay, m.in, m.out, m.cut, m.errors, m.refused, m.limits, m.tried, m.waited, m.refusals,
		collectors.NewGoCollector(), collectors.NewProcessCollector(collectors.ProcessCollectorOpts{}))
	// (what is counted from nothing on shows its first one, too)
	for _, it := range limits.Options {
		m.limits.WithLabelValues(it)
	}
	for _, it := range host.Outcomes {
		m.tried.WithLabelValues(string(it))
	}
	for _, it := range []string{"ClockOutOfRange", "ServiceUnavailable", "QuotaExceeded"} {
		m.refusals.WithLabelValues(it)
	}
	return m
}

func counters(name, help string, label string) *prometheus.CounterVec {
	return prometheus.NewCounterVec(prometheus.CounterOpts{Name: name, Help: help}, []string{label})
}

// Begun counts a request that has come.
func (m *Metrics) Begun() { m.underWay.Inc() }

// Ended counts a request that was answered.
func (m *Metrics) Ended(r *accesslog.Request, took time.Duration) {
	m.underWay.Dec()
	m.requests.WithLabelValues(or(r.Operation, "none"), class(r.Status)).Observe(took.Seconds())
	m.in.Add(float64(r.In))
	m.out.Add(float64(r.Out))
	if r.IsCut {
		m.cut.Inc()
	}
	if r.Code != "" {
		m.errors.WithLabelValues(r.Code).Inc()
	}
	if r.SignatureCause != "" {
		m.refused.WithLabelValues(r.SignatureCause).Inc()
	}
}

// Met counts a limit that was met, by its option.
func (m *Metrics) Met(option string) { m.limits.WithLabelValues(option).Inc() }

// Waited counts how long a request to the host waited for its turn.
func (m *Metrics) Waited(took time.Duration) { m.waited.Observe(took.Seconds()) }

// Tried counts a request that was sent to the host.
func (m *Metrics) Tried(o host.Outcome, refusal string, took time.Duration) {
	m.tried.WithLabelValues(string(o)).Observe(took.Seconds())
	if refusal != "" {
		m.refusals.WithLabelValues(refusal).Inc()
	}
}

func or(text, other string) string {
	if text == "" {
		return other
	}
	return text
}

// class returns that of a status; none of an answer that never began.
func class(status int) string {
	if status < 100 || status > 599 {
		return "none"
	}
	return strconv.Itoa(status/100) + "xx"
}

// gauge tells a number that is read when a page is asked for.
func (m *Metrics) gauge(name, help string, read func() float64) {
	m.registry.MustRegister(prometheus.NewGaugeFunc(prometheus.GaugeOpts{Name: name, Help: help}, read))
}

// watch adds what is read when a page is asked for.
func (m *Metrics) watch(from Sources, h *health) {
	m.gauge("bucketd_up", "Whether the host answered within two seconds.", func() float64 {
		if h.now() != nil {
			return 0
		}
		return 1
	})
	m.gauge("bucketd_gateway_host_under_way", "Requests that were sent to the host and aren't answered.", func() float64 { return float64(from.Host.Waiting()) })
	m.gauge("bucketd_gateway_connections", "Connections of clients.", func() float64 { return float64(from.Connections()) })
	m.gauge("bucketd_gateway_connections_limit", "The most connections of clients.", func() float64 { return float64(from.MaxConnections) })
	m.gauge("bucketd_gateway_spool_bytes", "Bytes of bodies that wait.", func() float64 { return float64(from.Spool.Taken()) })
	m.gauge("bucketd_gateway_spool_limit_bytes", "The most bytes of bodies that wait.", func() float64 { return float64(from.Spool.Most()) })
	if from.Certificates != nil {
		m.registry.MustRegister(certificates{from.Certificates})
	}
	if from.Backups != "" {
		m.gauge("bucketd_backup_timestamp_seconds", "When the newest backup was written; 0 where none is seen.", func() float64 { return newest(from.Backups) })
	}
	if from.Operators != nil {
		m.registry.MustRegister(&storage{asker{operators: from.Operators, clock: time.Now}})
		m.pages = append(m.pages, hostPage{from.Operators})
	}
}

func (m *Metrics) handler() http.Handler {
	return promhttp.HandlerFor(m.pages, promhttp.HandlerOpts{MaxRequestsInFlight: 8, Timeout: 9 * time.Second, ErrorHandling: promhttp.ContinueOnError})
}

// newest returns when the newest of some files was written, in seconds since 1970. Copies that aren't whole yet are none.
func newest(pattern string) float64 {
	found := time.Unix(0, 0)
	names, err := filepath.Glob(pattern)
	if err != nil {
		return 0
	}
	for _, name := range names {
		info, err := os.Stat(name)
		if err == nil && info.Mode().IsRegular() && !strings.Contains(filepath.Base(name), ".partial") && info.ModTime().After(found) {
			found = info.ModTime()
		}
	}
	return float64(found.Unix())
}

func described(name, help string, labels ...string) *prometheus.Desc {
	return prometheus.NewDesc(name, help, labels, nil)
}

var certificateEnd = described("bucketd_gateway_certificate_end_timestamp_seconds", "When the first of the certificates ends.")

// certificates tells when they end, if that is known.
type certificates struct{ end func() (time.Time, bool) }

func (c certificates) Describe(to chan<- *prometheus.Desc) { to <- certificateEnd }

func (c certificates) Collect(to chan<- prometheus.Metric) {
	if end, isThere := c.end(); isThere {
		to <- prometheus.MustNewConstMetric(certificateEnd, prometheus.GaugeValue, float64(end.Unix()))
	}
}

var (
	answered      = described("bucketd_operators_answered_timestamp_seconds", "When the host last told its operators what is stored; 0 where it never did.")
	failures      = described("bucketd_operators_failures_total", "How often it didn't.")
	tenantCount   = described("bucketd_tenants", "Tenants of the host; metrics have the first 1,000 of them.")
	tenantBytes   = described("bucketd_tenant_bytes", "Bytes that count against the tenant's quota.", "tenant")
	tenantQuota   = described("bucketd_tenant_quota_bytes", "The tenant's quota.", "tenant")
	tenantKeys    = described("bucketd_tenant_keys", "The tenant's access keys.", "tenant")
	reportNumbers = map[string]*prometheus.Desc{
		"blocks":   described("bucketd_blocks", "Blocks of all tenants that are stored."),
		"stored":   described("bucketd_stored_bytes", "Their bytes."),
		"referred": described("bucketd_referred_bytes", "Bytes of all that refers to them."),
		"clashes":  described("bucketd_block_clashes", "Blocks whose digest another has."),
	}
)

// storage tells what a host's operators are told.
type storage struct{ asker }

func (s *storage) Describe(to chan<- *prometheus.Desc) {
	for _, it := range []*prometheus.Desc{answered, failures, tenantCount, tenantBytes, tenantQuota, tenantKeys} {
		to <- it
	}
	for _, it := range reportNumbers {
		to <- it
	}
}

func (s *storage) Collect(to chan<- prometheus.Metric) {
	found, failed := s.now()
	tell := func(it *prometheus.Desc, value float64, labels ...string) {
		to <- prometheus.MustNewConstMetric(it, prometheus.GaugeValue, value, labels...)
	}
	to <- prometheus.MustNewConstMetric(failures, prometheus.CounterValue, failed)
	if found.at.IsZero() {
		tell(answered, 0)
		return
	}
	tell(answered, float64(found.at.Unix()))
	tell(tenantCount, found.count)
	for _, it := range found.tenants {
		tell(tenantBytes, it.bytes, it.name)
		tell(tenantQuota, it.quota, it.name)
		tell(tenantKeys, it.keys, it.name)
	}
	for name, it := range reportNumbers {
		tell(it, found.report[name])
	}
}
