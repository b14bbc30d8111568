package main

import (
	"context"
	"io"
	"net"
	"net/http"
	"os"
	"path/filepath"
	"regexp"
	"strings"
	"testing"
	"time"

	"bucketd/gateway/internal/status"
)

// startStatus runs a gateway before no host that tells its status, and returns the clients' address, the status' one, and the log.
func startStatus(t *testing.T, words ...string) (clients, address string, text *lines) {
	t.Helper()
	clients, text = start(t, append([]string{"--status-port", "0"}, words...)...)
	found := regexp.MustCompile(`the status is at http://(\S+)`).FindStringSubmatch(text.String())
	if found == nil {
		t.Fatal("no status is told:", text)
	}
	return clients, found[1], text
}

func page(t *testing.T, address, path string) (int, string) {
	t.Helper()
	answer, err := http.Get("http://" + address + path)
	if err != nil {
		t.Fatal(err)
	}
	defer answer.Body.Close()
	text, err := io.ReadAll(answer.Body)
	if err != nil {
		t.Fatal(err)
	}
	return answer.StatusCode, string(text)
}

// The status is told on 127.0.0.1 alone, without what a client named, and no other page is there.
func TestStatus(t *testing.T) {
	secret := filepath.Join(t.TempDir(), "secret")
	if err := os.WriteFile(secret, []byte("operatorsecret"), 0o600); err != nil {
		t.Fatal(err)
	}
	clients, address, text := startStatus(t, "--operator-port", "1", "--operator-secret-file", secret)
	name, port, _ := net.SplitHostPort(address)
	if name != "127.0.0.1" {
		t.Errorf("it listens at %s", address)
	}
	for _, other := range []string{"127.0.0.2", "127.1.2.3", "::1"} {
		if conn, err := net.DialTimeout("tcp", net.JoinHostPort(other, port), 5*time.Second); err == nil {
			conn.Close()
			t.Errorf("it listens at %s, too", other)
		}
	}
	for _, path := range []string{"/plans/a", "/plans/a?X-Amz-Signature=5ec4e7&X-Amz-Credential=green$k1"} {
		conn := dial(t, clients, "127.0.0.2")
		io.WriteString(conn, "GET "+path+" HTTP/1.1\r\nHost: h\r\nConnection: close\r\n\r\n")
		io.Copy(io.Discard, conn)
	}
	if code, line := page(t, address, "/healthz"); code != 503 || strings.Count(line, "\n") != 1 || !strings.Contains(line, "refused") {
		t.Errorf("%d %q", code, line)
	}
	code, all := page(t, address, "/metrics")
	if isThere := code == http.StatusOK; isThere != status.HasMetrics {
		t.Errorf("metrics: %d", code)
	}
	for _, it := range []string{"green", "k1", "5ec4e7", "plans", "operatorsecret"} {
		if strings.Contains(all, it) || strings.Contains(text.String(), "operatorsecret") {
			t.Errorf("%q is told", it)
		}
	}
	if status.HasMetrics && (!strings.Contains(all, `bucketd_gateway_signatures_refused_total{cause="Unsigned"} 1`) || !strings.Contains(all, "bucketd_up 0\n") ||
		!strings.Contains(all, `bucketd_gateway_request_seconds_count{operation="none",status="4xx"} 2`)) {
		t.Errorf("%s", all)
	}
	for _, path := range []string{"/", "/debug/pprof/", "/debug/pprof/profile", "/debug/vars"} {
		if code, _ := page(t, address, path); code != http.StatusNotFound {
			t.Errorf("%s: %d", path, code)
		}
	}
}

// Connections that say nothing shut nobody out from the status.
func TestStatusStrangers(t *testing.T) {
	_, address, _ := startStatus(t)
	for i := 0; i < 3*statusConnections; i++ {
		dial(t, address, "127.0.0.2")
	}
	if code, _ := page(t, address, "/healthz"); code != 503 {
		t.Errorf("%d", code)
	}
}

func TestStatusOptions(t *testing.T) {
	for _, it := range []struct {
		words  string
		isWell bool
	}{
		{"--status-port 9101", true}, {"--status-port 0", true}, {"--status-port 65536", false}, {"--status-port -1", false}, {"--status-port x", false},
		{"--status-addr 10.0.0.1:9101", true}, {"--status-addr 10.0.0.1:9101 --status-port 1", false},
		{"--operator-port 8081", false}, {"--operator-port 8081 --status-port 1", true}, {"--operator-port 0 --status-port 1", false},
		{"--operator-socket a --status-port 1", true}, {"--operator-socket a --operator-port 8081 --status-port 1", false}, {"--operator-socket a", false},
		{"--operator-secret-file a --status-port 1", false}, {"--operator-secret-file a --operator-port 8081 --status-port 1", true},
		{"--operator-secret-file a --operator-socket b --status-port 1", true}, {"--backup-files a*", false}, {"--backup-files a* --status-port 1", true},
		{"--backup-files [ --status-port 1", false}, {"--host-socket a", true}, {"--host-socket a --host 127.0.0.1:1", false}, {"--host-socket a --serve b", false},
		{"--host-socket a --host-user bucketd", true},
	} {
		if _, err := parseOptions(strings.Fields(it.words), io.Discard); (err == nil) != it.isWell {
			t.Errorf("%q: %v", it.words, err)
		}
	}
	var help strings.Builder
	parseOptions([]string{"--help"}, &help)
	for _, name := range []string{"status-port value\n", "operator-port value\n", "host-socket string\n", "backup-files string\n"} {
		if !strings.Contains(help.String(), "\n  -"+name) {
			t.Errorf("the help has no %s", name)
		}
	}
}

// A taken port is an error, and no half of a gateway goes on.
func TestStatusPortTaken(t *testing.T) {
	_, address, _ := startStatus(t)
	keys := filepath.Join(t.TempDir(), "keys")
	if err := os.WriteFile(keys, []byte("green$k1 secret\n"), 0o600); err != nil {
		t.Fatal(err)
	}
	o, err := parseOptions([]string{"--listen", "127.0.0.1:0", "--keys", keys, "--spool", t.TempDir(), "--status-addr", address}, io.Discard)
	if err != nil {
		t.Fatal(err)
	}
	if err := run(context.Background(), o); err == nil || !strings.Contains(err.Error(), "status") {
		t.Errorf("%v", err)
	}
}
