//go:build prometheus

package status

import (
	"net/http"
	"os"
	"path/filepath"
	"regexp"
	"sort"
	"strings"
	"sync/atomic"
	"testing"
	"time"

	"bucketd/gateway/internal/accesslog"
	"bucketd/gateway/internal/host"
	"bucketd/gateway/internal/hosttest"
	"bucketd/gateway/internal/limits"
)

// served returns a status server before a host that answers, of which everything is told.
func served(t *testing.T, m *Metrics) *http.Server {
	t.Helper()
	h := host.New(host.Socket(hosttest.Listen(t, answers)), 1)
	from := sources(h)
	var count atomic.Int64
	from.Operators = h.Operators(host.Socket(hosttest.Listen(t, operators(&count, map[string]string{tenantsLine: goodTenants, reportLine: goodReport, pageLine: goodPage}))))
	from.Certificates = func() (time.Time, bool) { return time.Unix(1800000000, 0), true }
	folder := t.TempDir()
	for name, at := range map[string]int64{"host-1": 1700000000, "host-2": 1700000100, "host-3.partial": 1700000200, "other": 1700000300} {
		path := filepath.Join(folder, name)
		if os.WriteFile(path, nil, 0o600) != nil || os.Chtimes(path, time.Unix(at, 0), time.Unix(at, 0)) != nil {
			t.Fatal("no file")
		}
	}
	from.Backups = filepath.Join(folder, "host-*")
	return Server(m, from)
}

func page(t *testing.T, server *http.Server) string {
	t.Helper()
	w := get(server, "GET", "/metrics")
	if w.Code != http.StatusOK || !strings.HasPrefix(w.Header().Get("Content-Type"), "text/plain") {
		t.Fatalf("%d %s", w.Code, w.Header())
	}
	return w.Body.String()
}

func TestMetrics(t *testing.T) {
	m := NewMetrics()
	server := served(t, m)
	m.Begun()
	for _, it := range []*accesslog.Request{
		{Operation: "GetObject", Status: 200, In: 1, Out: 1000},
		{Operation: "GetObject", Status: 206, Out: 24, IsCut: true},
		{Operation: "PutObject", Status: 403, In: 7, Code: "QuotaExceeded"},
		{Status: 403, Code: "AccessDenied", SignatureCause: "Unsigned"},
		{},
	} {
		m.Begun()
		m.Ended(it, 20*time.Millisecond)
	}
	m.Met(limits.SpoolRoom)
	m.Waited(time.Millisecond)
	m.Tried("4xx", "NoSuchKey", time.Millisecond)
	m.Tried(host.NoAnswer, "", time.Second)
	text := page(t, server)
	for _, line := range []string{
		`bucketd_up 1`,
		`bucketd_gateway_request_seconds_count{operation="GetObject",status="2xx"} 2`,
		`bucketd_gateway_request_seconds_bucket{operation="GetObject",status="2xx",le="0.01"} 0`,
		`bucketd_gateway_request_seconds_bucket{operation="GetObject",status="2xx",le="0.025"} 2`,
		`bucketd_gateway_request_seconds_count{operation="PutObject",status="4xx"} 1`,
		`bucketd_gateway_request_seconds_count{operation="none",status="none"} 1`,
		`bucketd_gateway_requests_under_way 1`,
		`bucketd_gateway_received_bytes_total 8`,
		`bucketd_gateway_sent_bytes_total 1024`,
		`bucketd_gateway_cut_answers_total 1`,
		`bucketd_gateway_errors_total{code="QuotaExceeded"} 1`,
		`bucketd_gateway_signatures_refused_total{cause="Unsigned"} 1`,
		`bucketd_gateway_limit_met_total{option="spool-room"} 1`,
		`bucketd_gateway_limit_met_total{option="connections"} 0`,
		`bucketd_gateway_host_seconds_count{status="4xx"} 1`,
		`bucketd_gateway_host_seconds_count{status="none"} 1`,
		`bucketd_gateway_host_waiting_seconds_count 1`,
		`bucketd_gateway_host_refusals_total{refusal="NoSuchKey"} 1`,
		`bucketd_gateway_host_refusals_total{refusal="ClockOutOfRange"} 0`,
		`bucketd_gateway_host_under_way 0`,
		`bucketd_gateway_connections 3`,
		`bucketd_gateway_connections_limit 1024`,
		`bucketd_gateway_spool_bytes 0`,
		`bucketd_gateway_spool_limit_bytes 4.294967296e+09`,
		`bucketd_gateway_certificate_end_timestamp_seconds 1.8e+09`,
		`bucketd_backup_timestamp_seconds 1.7000001e+09`,
		`bucketd_tenants 2`,
		`bucketd_tenant_bytes{tenant="bytes"} 5`,
		`bucketd_tenant_quota_bytes{tenant="bytes"} 8`,
		`bucketd_tenant_keys{tenant="bytes"} 2`,
		`bucketd_blocks 2`,
		`bucketd_stored_bytes 8`,
		`bucketd_referred_bytes 1.8446744073709552e+19`,
		`bucketd_block_clashes 0`,
		`bucketd_operators_failures_total 0`,
		`bucketd_server_requests_total{method="GET",status="2xx"} 7`,
		`bucketd_server_request_seconds_bucket{le="0.001"} 5`,
		`bucketd_server_request_seconds_bucket{le="+Inf"} 7`,
		`bucketd_server_request_seconds_sum 0.012`,
		`bucketd_server_garbage_bytes 4096`,
	} {
		if !strings.Contains("\n"+text, "\n"+line+"\n") {
			t.Errorf("no line is %s", line)
		}
	}
	if found := regexp.MustCompile(`(?m)^bucketd_operators_answered_timestamp_seconds (\S+)$`).FindString(text); found == "" || strings.HasSuffix(found, " 0") {
		t.Errorf("the operators' answer: %q", found)
	}
	if t.Failed() {
		t.Log(text)
	}
}

// A host that doesn't answer is told of, with what is known without it.
func TestMetricsOfNoHost(t *testing.T) {
	h := host.New(host.Place{}, 1)
	from := sources(h)
	from.Operators, from.Backups = h.Operators(host.Place{}), "/none/*"
	from.Certificates = func() (time.Time, bool) { return time.Time{}, false }
	text := page(t, Server(NewMetrics(), from))
	for name, want := range map[string]bool{"bucketd_up 0": true, "bucketd_operators_answered_timestamp_seconds 0": true, "bucketd_backup_timestamp_seconds 0": true,
		"bucketd_operators_failures_total 0": true, "bucketd_tenants": false, "bucketd_gateway_certificate_end": false} {
		if strings.Contains(text, "\n"+name) != want {
			t.Errorf("%s: %v", name, !want)
		}
	}
}

const deploy = "../../../deploy"

// Each metric that the board and the rules name is exported.
func TestNamesOfDeploy(t *testing.T) {
	m := NewMetrics()
	server := served(t, m)
	m.Ended(&accesslog.Request{Code: "x", SignatureCause: "x", Status: 200}, 0)
	exported := map[string]bool{}
	for _, it := range regexp.MustCompile(`(?m)^([a-z_:]+)[ {]`).FindAllStringSubmatch(page(t, server), -1) {
		exported[it[1]] = true
	}
	for _, name := range []string{"gateway-board.json", "gateway-alerts.yml"} {
		text, err := os.ReadFile(filepath.Join(deploy, name))
		if err != nil {
			t.Fatal(err)
		}
		named := map[string]bool{}
		for _, it := range regexp.MustCompile(`\b(bucketd|process|go)_[a-z_]+`).FindAllString(string(text), -1) {
			named[it] = true
		}
		if len(named) < 5 {
			t.Errorf("%s names %d metrics", name, len(named))
		}
		missing := []string{}
		for it := range named {
			if !exported[it] {
				missing = append(missing, it)
			}
		}
		if sort.Strings(missing); len(missing) > 0 {
			t.Errorf("%s names what isn't exported: %s", name, missing)
		}
	}
}

func BenchmarkEnded(b *testing.B) {
	m := NewMetrics()
	r := &accesslog.Request{Operation: "GetObject", Status: 200, In: 1, Out: 1000}
	for i := 0; i < b.N; i++ {
		m.Begun()
		m.Waited(time.Millisecond)
		m.Tried("2xx", "", time.Millisecond)
		m.Ended(r, time.Millisecond)
	}
}

const goodPage = `# HELP bucketd_server_requests_total Requests, by method and class of status.
# TYPE bucketd_server_requests_total counter
bucketd_server_requests_total{method="GET",status="2xx"} 7
# HELP bucketd_server_request_seconds Time that requests were served.
# TYPE bucketd_server_request_seconds histogram
bucketd_server_request_seconds_bucket{le="0.001"} 5
bucketd_server_request_seconds_bucket{le="+Inf"} 7
bucketd_server_request_seconds_sum 0.012
bucketd_server_request_seconds_count 7
# HELP bucketd_server_garbage_bytes Bytes of blocks that no reference names, by the last count.
# TYPE bucketd_server_garbage_bytes gauge
bucketd_server_garbage_bytes 4096
# HELP bucketd_server_keep_garbage_bytes Bytes of such blocks that may stay before a sweep begins.
# TYPE bucketd_server_keep_garbage_bytes gauge
bucketd_server_keep_garbage_bytes 67108864
`

// Of a host's page only what begins as it should is told, and nothing of an answer that is no page.
func TestHostPage(t *testing.T) {
	for _, it := range []struct {
		name, page string
		families   int
	}{
		{"its own", goodPage, 4},
		{"none", "", 0},
		{"an older host", "bad line\n", 0},
		{"another's names", "# TYPE go_goroutines gauge\ngo_goroutines 5\n# TYPE bucketd_up gauge\nbucketd_up 0\n", 0},
		{"a page that is cut", goodPage[:len(goodPage)-30], 0},
		{"one that never ends", strings.Repeat("bucketd_server_sent_bytes_total 1\n", longestPage), 0},
	} {
		t.Run(it.name, func(t *testing.T) {
			var count atomic.Int64
			h := host.New(host.Place{}, 1)
			from := h.Operators(host.Socket(hosttest.Listen(t, operators(&count, map[string]string{pageLine: it.page}))))
			found, err := hostPage{from}.Gather()
			if len(found) != it.families || err != nil {
				t.Errorf("%d families, %v", len(found), err)
			}
		})
	}
}
