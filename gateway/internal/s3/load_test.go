package s3

import (
	"bufio"
	"bytes"
	"crypto/rand"
	"crypto/tls"
	"encoding/json"
	"fmt"
	"io"
	"net"
	"net/http"
	"os"
	"sort"
	"strconv"
	"strings"
	"sync"
	"testing"
	"time"
)

// loadPlan is what LOAD says, as JSON, for bench/gateway.py: TestLoad then asks a server for some seconds and tells how it went.
type loadPlan struct {
	Mode       string // s3: signed, connections kept; bare: bucketd's own requests, a connection each; plain: not signed, kept; kept: as s3, by a bare socket
	URL        string
	ID, Secret string
	Method     string // PUT or GET, of an object for each client
	Size       int
	Clients    int
	Seconds    float64
	PIDs       []int // of ADDED: the processes whose time is told

	conn net.Conn
	in   *bufio.Reader
}

func (p *loadPlan) send(client *http.Client, method, target string, body []byte, sum string) error {
	if p.Mode == "bare" {
		return p.sendBare(method, target, body)
	}
	s := signer{base: p.URL, id: p.ID, secret: p.Secret, region: "us-east-1"}
	var r *http.Request
	if p.Mode != "plain" {
		r = s.request(method, target, body, map[string]string{"x-amz-content-sha256": sum})
	} else if r, _ = http.NewRequest(method, p.URL+target, bytes.NewReader(body)); method == "GET" {
		r.Body = nil
	}
	response, err := client.Do(r)
	if err != nil {
		return err
	}
	defer response.Body.Close()
	if n, err := io.Copy(io.Discard, response.Body); err != nil || response.StatusCode >= 300 || method == "GET" && n != int64(p.Size) {
		return fmt.Errorf("status %d, %d bytes, %v", response.StatusCode, n, err)
	}
	return nil
}

func (p *loadPlan) sendBare(method, target string, body []byte) error {
	conn, err := net.Dial("tcp", strings.TrimPrefix(p.URL, "http://"))
	if err != nil {
		return err
	}
	defer conn.Close()
	head := method + " " + target + " HTTP/1.1\r\nhost: h\r\nx-access-key: " + p.ID + "\r\nx-secret-key: " + p.Secret + "\r\n"
	if method == "PUT" {
		head += fmt.Sprintf("content-length: %d\r\n", len(body))
	}
	buffers := net.Buffers{[]byte(head + "\r\n"), body}
	if _, err = buffers.WriteTo(conn); err != nil {
		return err
	}
	response, err := http.ReadResponse(bufio.NewReader(conn), nil)
	if err != nil {
		return err
	}
	if n, err := io.Copy(io.Discard, response.Body); err != nil || response.StatusCode >= 300 || method == "GET" && n != int64(p.Size) {
		return fmt.Errorf("status %d, %d bytes, %v", response.StatusCode, n, err)
	}
	return nil
}

func TestLoad(t *testing.T) {
	text := os.Getenv("LOAD")
	if text == "" {
		t.Skip("LOAD says nothing")
	}
	p := &loadPlan{}
	if err := json.Unmarshal([]byte(text), p); err != nil {
		t.Fatal(err)
	}
	body := make([]byte, p.Size)
	rand.Read(body)
	sum, none := sum256(body), sum256(nil)
	target := func(i int) string { return fmt.Sprintf("/load/o%d-%d", p.Size, i) }
	transport := &http.Transport{MaxIdleConnsPerHost: 256, DisableCompression: true, TLSClientConfig: &tls.Config{InsecureSkipVerify: true}}
	client := &http.Client{Transport: transport}
	if p.Mode != "plain" {
		p.send(client, "PUT", "/load", nil, none) // (it may be there)
	}
	for i := 0; i < p.Clients; i++ {
		if err := p.send(client, "PUT", target(i), body, sum); err != nil {
			t.Fatal(err)
		}
	}
	var mu sync.Mutex
	var times []time.Duration
	faults := map[string]int{}
	var all sync.WaitGroup
	begun := time.Now()
	end := begun.Add(time.Duration(p.Seconds * 1e9))
	for i := 0; i < p.Clients; i++ {
		all.Add(1)
		go func(i int) {
			defer all.Done()
			for time.Now().Before(end) {
				at, err := time.Now(), error(nil)
				if p.Method == "PUT" {
					err = p.send(client, "PUT", target(i), body, sum)
				} else {
					err = p.send(client, "GET", target(i), nil, none)
				}
				took := time.Since(at)
				mu.Lock()
				if err != nil {
					faults[err.Error()]++
				} else {
					times = append(times, took)
				}
				mu.Unlock()
			}
		}(i)
	}
	all.Wait()
	took := time.Since(begun).Seconds()
	sort.Slice(times, func(i, j int) bool { return times[i] < times[j] })
	if len(times) == 0 {
		t.Fatal(faults)
	}
	said, _ := json.Marshal(map[string]any{"rate": float64(len(times)) / took, "p50": times[len(times)/2].Seconds() * 1000,
		"p99": times[len(times)*99/100].Seconds() * 1000, "faults": faults})
	fmt.Printf("LOAD %s\n", said)
}

// Seconds of processor time that processes have taken.
func taken(pids []int) (seconds float64) {
	for _, pid := range pids {
		text, _ := os.ReadFile(fmt.Sprintf("/proc/%d/stat", pid))
		_, text, _ = bytes.Cut(text, []byte(") "))
		words := strings.Fields(string(text))
		for _, it := range words[min(len(words), 11):min(len(words), 13)] {
			ticks, _ := strconv.Atoi(it)
			seconds += float64(ticks) / 100
		}
	}
	return seconds
}

// Sends a request by a socket that is kept, as bucketd's own are sent: how long it took, but for signing it.
func (p *loadPlan) sendKept(method, target string, body []byte, sum string) (time.Duration, error) {
	s := signer{base: p.URL, id: p.ID, secret: p.Secret, region: "us-east-1"}
	r := s.request(method, target, body, map[string]string{"x-amz-content-sha256": sum})
	head := fmt.Sprintf("%s %s HTTP/1.1\r\nhost: %s\r\ncontent-length: %d\r\n", method, target, r.Host, len(body))
	for name := range r.Header {
		head += name + ": " + r.Header.Get(name) + "\r\n"
	}
	if p.conn == nil {
		conn, err := net.Dial("tcp", r.Host)
		if err != nil {
			return 0, err
		}
		p.conn, p.in = conn, bufio.NewReader(conn)
	}
	begun, told := time.Now(), net.Buffers{[]byte(head + "\r\n"), body}
	if _, err := told.WriteTo(p.conn); err != nil {
		return 0, err
	}
	response, err := http.ReadResponse(p.in, r)
	if err != nil {
		return 0, err
	}
	if n, err := io.Copy(io.Discard, response.Body); err != nil || response.StatusCode >= 300 || method == "GET" && n != int64(p.Size) {
		return 0, fmt.Errorf("status %d, %d bytes, %v", response.StatusCode, n, err)
	}
	return time.Since(begun), nil
}

// What ADDED says, as JSON: plans, whose servers one client asks in turns, so that a busy machine's good and bad moments fall on
// all. Tells of each the median and the least of a request and the processor time of the processes, in milliseconds.
func TestAdded(t *testing.T) {
	text := os.Getenv("ADDED")
	if text == "" {
		t.Skip("ADDED says nothing")
	}
	var plans []*loadPlan
	if err := json.Unmarshal([]byte(text), &plans); err != nil {
		t.Fatal(err)
	}
	client := &http.Client{Transport: &http.Transport{DisableCompression: true}}
	times, spent := make([][]float64, len(plans)), make([]float64, len(plans))
	for end := time.Now().Add(time.Duration(plans[0].Seconds * 1e9)); time.Now().Before(end); {
		for i, p := range plans {
			body, none := make([]byte, p.Size), sum256(nil)
			rand.Read(body)
			sum, target, sent := sum256(body), fmt.Sprintf("/load/added%d-%d", p.Size, i), []byte(nil)
			if len(times[i]) == 0 {
				p.send(client, "PUT", "/load", nil, none) // (it may be there)
				if err := p.send(client, "PUT", target, body, sum); err != nil {
					t.Fatal(err)
				}
			}
			if p.Method == "PUT" {
				sent, none = body, sum
			}
			before := taken(p.PIDs)
			for turn := 0; turn < 20; turn++ {
				begun := time.Now()
				var took time.Duration
				var err error
				if p.Mode == "kept" {
					took, err = p.sendKept(p.Method, target, sent, none)
				} else {
					err = p.send(client, p.Method, target, sent, none)
					took = time.Since(begun)
				}
				if err != nil {
					t.Fatal(err)
				}
				times[i] = append(times[i], took.Seconds()*1000)
			}
			spent[i] += taken(p.PIDs) - before
		}
	}
	for i, it := range times {
		sort.Float64s(it)
		said, _ := json.Marshal(map[string]any{"count": len(it), "least": it[0], "p50": it[len(it)/2], "spent": spent[i] * 1000 / float64(len(it))})
		fmt.Printf("ADDED %s\n", said)
	}
}

// Serves as bucketd does, from memory, at the address that STANDIN says.
func TestStandin(t *testing.T) {
	address := os.Getenv("STANDIN")
	if address == "" {
		t.Skip("STANDIN says nothing")
	}
	s := &standin{t: t, tenants: map[string]*storedTenant{}, minPart: 1}
	s.listen(address)
	select {}
}
