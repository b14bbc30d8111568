package accesslog

import (
	"bytes"
	"encoding/json"
	"io"
	"log/slog"
	"net"
	"net/http"
	"net/http/httptest"
	"os"
	"os/exec"
	"path/filepath"
	"regexp"
	"strings"
	"testing"
	"time"
)

// guarded is a log's text, which is there when the handler has ended.
type guarded struct {
	bytes.Buffer
	lines chan string
}

func (g *guarded) Write(b []byte) (int, error) {
	g.lines <- string(b)
	return len(b), nil
}

// answer plays the gateway: by the path it answers, refuses, or breaks off.
func answer(w http.ResponseWriter, r *http.Request) {
	told := Of(r.Context())
	io.Copy(io.Discard, r.Body)
	switch r.URL.Path {
	case "/refused":
		told.Code, told.Key = "SignatureDoesNotMatch", "green$k1"
		w.WriteHeader(403)
		io.WriteString(w, "<Error/>")
	case "/forbidden":
		told.Tenant, told.Key, told.Call, told.Bucket, told.Code = "green", "green$k1", "object DELETE", "plans", "AccessDenied"
		w.WriteHeader(403)
	case "/cut":
		told.Tenant, told.Key, told.Call, told.Bucket = "green", "green$k1", "object GET", "plans"
		w.Header().Set("Content-Length", "100")
		io.WriteString(w, "abc")
		http.NewResponseController(w).Flush()
		panic(http.ErrAbortHandler)
	case "/odd":
		told.Tenant, told.Key, told.Call, told.Bucket = "green", "green$k1", "bucket GET", "a b\" msg=request id=0"
		w.WriteHeader(204)
	default:
		told.Tenant, told.Key, told.Call, told.Bucket = "green", "green$k1", "object GET", "plans"
		io.WriteString(w, "hello")
	}
}

func serve(t *testing.T, format string) (url string, lines chan string) {
	t.Helper()
	out := &guarded{lines: make(chan string, 100)}
	l, err := New(out, format)
	if err != nil {
		t.Fatal(err)
	}
	server := httptest.NewUnstartedServer(l.Handler(http.HandlerFunc(answer), nil))
	server.Config.ErrorLog = ServerErrors()
	server.Start()
	t.Cleanup(server.Close)
	return server.URL, out.lines
}

// line sends a request with a secret, a signature and a query, and returns the line that is told of it, with its id and the
// response's head.
func line(t *testing.T, url, path string, lines chan string) (text string, head http.Header) {
	t.Helper()
	r, err := http.NewRequest("PUT", url+path+"?X-Amz-Signature=5ec4e7", strings.NewReader("body"))
	if err != nil {
		t.Fatal(err)
	}
	r.Header.Set("Authorization", "AWS4-HMAC-SHA256 Signature=5ec4e7")
	if answer, err := http.DefaultClient.Do(r); err == nil {
		io.Copy(io.Discard, answer.Body)
		answer.Body.Close()
		head = answer.Header
	} else if path != "/cut" {
		t.Fatal(err)
	}
	text = <-lines
	if strings.Contains(text, "5ec4e7") || strings.Contains(text, "Signature=") || strings.Count(text, "\n") != 1 {
		t.Errorf("%s: a line with a signature, or more than one: %s", path, text)
	}
	return text, head
}

// watched has what a watch is told.
type watched struct {
	begun int
	ended []Request
}

func (w *watched) Begun() { w.begun++ }

func (w *watched) Ended(r *Request, took time.Duration) {
	if took >= 0 {
		w.ended = append(w.ended, *r)
	}
}

// A watch is told of each request, also of one that is cut, with a log and without one.
func TestWatch(t *testing.T) {
	var none *Log
	w := &watched{}
	handler := none.Handler(http.HandlerFunc(answer), w)
	for _, path := range []string{"/", "/refused", "/cut"} {
		func() {
			defer func() { recover() }()
			handler.ServeHTTP(httptest.NewRecorder(), httptest.NewRequest("PUT", path, strings.NewReader("body")))
		}()
	}
	if w.begun != 3 || len(w.ended) != 3 {
		t.Fatalf("%+v", w)
	}
	for i, it := range []struct {
		status int
		out    int64
		code   string
		isCut  bool
	}{{200, 5, "", false}, {403, 8, "SignatureDoesNotMatch", false}, {200, 3, "", true}} {
		if r := w.ended[i]; r.Status != it.status || r.Out != it.out || r.In != 4 || r.Code != it.code || r.IsCut != it.isCut {
			t.Errorf("%d: %+v", i, r)
		}
	}
}

func TestFields(t *testing.T) {
	url, lines := serve(t, "json")
	for _, it := range []struct {
		path, tenant, key, call, bucket, code string
		status, out                           float64
		isCut                                 bool
	}{
		{"/", "green", "green$k1", "object GET", "plans", "", 200, 5, false},
		{"/refused", "", "green$k1", "", "", "SignatureDoesNotMatch", 403, 8, false},
		{"/forbidden", "green", "green$k1", "object DELETE", "plans", "AccessDenied", 403, 0, false},
		{"/cut", "green", "green$k1", "object GET", "plans", "", 200, 3, true},
		{"/odd", "green", "green$k1", "bucket GET", "", "", 204, 0, false},
	} {
		text, head := line(t, url, it.path, lines)
		var found map[string]any
		if err := json.Unmarshal([]byte(text), &found); err != nil {
			t.Fatalf("%s: %v: %s", it.path, err, text)
		}
		for name, want := range map[string]any{"tenant": it.tenant, "key": it.key, "call": it.call, "bucket": it.bucket, "code": it.code, "status": it.status,
			"out": it.out, "in": 4.0, "cut": it.isCut, "address": "127.0.0.1", "msg": "request"} {
			if found[name] != want {
				t.Errorf("%s: %s is %v, not %v", it.path, name, found[name], want)
			}
		}
		if id := found["id"].(string); head != nil && head.Get(IDField) != id || len(id) != 16 {
			t.Errorf("%s: the id %s isn't that of the head, %s", it.path, id, head.Get(IDField))
		}
		if _, ok := found["ms"].(float64); !ok || found["time"] == nil {
			t.Errorf("%s: no time: %s", it.path, text)
		}
	}
}

// Two requests that are alike have two ids, and one without a log has an id, too.
func TestIDs(t *testing.T) {
	seen := map[string]bool{}
	var none *Log
	for i := 0; i < 100; i++ {
		w := httptest.NewRecorder()
		none.Handler(http.HandlerFunc(answer), nil).ServeHTTP(w, httptest.NewRequest("GET", "/", nil))
		seen[w.Header().Get(IDField)] = true
	}
	if len(seen) != 100 {
		t.Errorf("%d ids of 100", len(seen))
	}
}

func TestFormat(t *testing.T) {
	if _, err := New(io.Discard, "xml"); err == nil {
		t.Error("a log of another form")
	}
}

const filter = "../../../deploy/fail2ban-gateway.conf"

// fail2ban's filter matches the lines of refused signatures, in both forms, and finds their address; no others.
func TestFilter(t *testing.T) {
	text, err := os.ReadFile(filter)
	if err != nil {
		t.Fatal(err)
	}
	_, list, _ := strings.Cut(string(text), "failregex =")
	list, _, _ = strings.Cut(list, "ignoreregex")
	var forms []*regexp.Regexp
	for _, it := range strings.Split(strings.TrimSpace(list), "\n") {
		forms = append(forms, regexp.MustCompile(strings.Replace(strings.TrimSpace(it), "<HOST>", `(?P<host>[0-9a-f.:]+)`, 1)))
	}
	var all strings.Builder
	for _, format := range []string{"text", "json"} {
		url, lines := serve(t, format)
		for path, isBanned := range map[string]bool{"/": false, "/refused": true, "/forbidden": false, "/cut": false, "/odd": false} {
			text, _ := line(t, url, path, lines)
			all.WriteString(text)
			found := ""
			for _, it := range forms {
				if match := it.FindStringSubmatch(text); match != nil {
					found = match[it.SubexpIndex("host")]
				}
			}
			if (found == "127.0.0.1") != isBanned || found != "" && !isBanned {
				t.Errorf("%s as %s: the filter finds %q in %s", path, format, found, text)
			}
		}
	}
	program, err := exec.LookPath("fail2ban-regex")
	if err != nil {
		t.Log("fail2ban isn't here: only the form of its filter was tried")
		return
	}
	name := filepath.Join(t.TempDir(), "log")
	if err := os.WriteFile(name, []byte(all.String()), 0o600); err != nil {
		t.Fatal(err)
	}
	out, err := exec.Command(program, name, filter).CombinedOutput()
	if err != nil || !strings.Contains(string(out), "10 lines, 0 ignored, 2 matched, 8 missed") {
		t.Errorf("fail2ban-regex: %v\n%s", err, out)
	}
}

// Strangers' handshakes don't flood the log; what else the server tells stands there.
func TestServerErrors(t *testing.T) {
	var text bytes.Buffer
	before := slog.Default()
	defer slog.SetDefault(before)
	slog.SetDefault(slog.New(slog.NewTextHandler(&text, nil)))
	errors := ServerErrors()
	for i := 0; i < 100; i++ {
		errors.Printf("http: TLS handshake error from %s: EOF", net.JoinHostPort("192.0.2.7", "1"))
	}
	errors.Print("http: panic serving 192.0.2.7:1: x")
	if lines := strings.Count(text.String(), "\n"); lines != 2 || !strings.Contains(text.String(), "panic serving") {
		t.Errorf("%d lines:\n%s", lines, text.String())
	}
}
