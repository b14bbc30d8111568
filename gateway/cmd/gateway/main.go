// Gateway lets stock S3 clients use bucketd: Signature V4, XML and TLS on their side, bucketd's own keys and JSON on the other.
//
// It keeps nothing but in memory what it found of a tenant's objects. It is no part of any theorem: it is trusted for signatures,
// for the tenant of a key, and for making an answer of that tenant's responses alone.
package main

import (
	"context"
	"crypto/tls"
	"errors"
	"flag"
	"fmt"
	"log"
	"log/slog"
	"net"
	"net/http"
	"os"
	"os/signal"
	"os/user"
	"strconv"
	"syscall"
	"time"

	"bucketd/gateway/internal/accesslog"
	"bucketd/gateway/internal/host"
	"bucketd/gateway/internal/keys"
	"bucketd/gateway/internal/limits"
	"bucketd/gateway/internal/s3"
	"bucketd/gateway/internal/sigv4"
	"bucketd/gateway/internal/spool"
	"bucketd/gateway/internal/status"
	"bucketd/gateway/internal/tlsconf"
)

// restPatience is how long what goes on behind clients' answers may take at the end.
const restPatience = 5 * time.Second

func main() {
	log.SetPrefix("gateway: ")
	o, err := parseOptions(os.Args[1:], os.Stderr)
	if errors.Is(err, flag.ErrHelp) {
		return
	} else if err != nil {
		log.Fatal(err)
	}
	ended, stop := signal.NotifyContext(context.Background(), os.Interrupt, syscall.SIGTERM)
	err = run(ended, o)
	stop()
	if err != nil {
		log.Fatal(err)
	}
}

// run serves until the context is done.
func run(ctx context.Context, o options) error {
	pace(ctx, o.heap<<20) // (bodies and pieces have bounds of their own)
	file, err := keys.Open(o.keys)
	if err != nil {
		return err
	}
	rereadOnHangup(ctx, file)
	server := &s3.Server{
		Options:  o.Options,
		Verifier: &sigv4.Verifier{Keys: file, Region: o.Region, NoVersion2: !o.signature2, Now: time.Now},
		Host:     host.New(o.place(), o.ahead),
	}
	room := limits.NewSpool(o.spoolRoom, o.tenantRoom)
	server.Spool = &spool.Spool{Folder: o.spool, Room: room}
	if isInMemory(o.spool) {
		log.Printf("--spool %s lies in memory: bodies that wait there take it", o.spool)
	}
	if err := o.trust(server.Host); err != nil {
		return err
	}
	if server.Requests, err = o.openLog(); err != nil {
		return err
	}
	var metrics *status.Metrics
	if o.status.isWanted() {
		metrics = status.NewMetrics()
		server.Watch, server.Host.Watch, server.Met, room.Met = metrics, metrics, metrics.Met, metrics.Met
	}
	web := server.Web()
	open, err := o.open(web, server.Met)
	if err != nil {
		return err
	}
	if metrics != nil {
		from := status.Sources{Host: server.Host, Operators: o.status.operators(server.Host, o.serve != ""), Spool: room,
			Connections: open.bounded.Taken, MaxConnections: o.connections, Certificates: open.ends()}
		end, err := o.status.serve(metrics, from)
		if err != nil {
			return err
		}
		defer end()
	}
	if o.serve != "" {
		end, err := o.serveHost(ctx, server.Host)
		if err != nil || end == nil {
			return err
		}
		defer end()
	}
	log.Printf("listening on %s://%s", open.scheme, open.Addr())
	go sweep(ctx, server, file)
	defer server.Rest(restPatience)
	return serve(ctx, web, open)
}

// serveHost runs bucketd until the function that it returns is called; nil where the context ended while bucketd opened its file.
func (o options) serveHost(ctx context.Context, h *host.Host) (end func(), err error) {
	hostCtx, endHost := context.WithCancel(context.Background())
	goesOn := context.AfterFunc(ctx, endHost)
	over, err := h.Serve(hostCtx, o.program, o.serve)
	if !goesOn() {
		endHost()
		if err == nil {
			<-over
		}
		return nil, nil
	}
	if err != nil {
		endHost()
		return nil, err
	}
	// (it ends after the clients, and not with them)
	return func() { endHost(); <-over }, nil
}

// place returns where the host listens that isn't served by the gateway.
func (o options) place() host.Place {
	if o.hostSocket != "" {
		return host.Socket(o.hostSocket)
	}
	return host.TCP(o.host)
}

// sweep aborts the uploads that a gateway before this left, with each key until bucketd has answered it.
func sweep(ctx context.Context, server *s3.Server, file *keys.File) {
	for _, id := range file.IDs() {
		for caller, err := server.Verifier.Caller(id); err == nil && server.Meta && server.Sweep(ctx, caller) != nil; {
			select {
			case <-time.After(10 * time.Second):
			case <-ctx.Done():
				return
			}
		}
	}
}

// isInMemory returns whether a folder lies in memory (tmpfs(5)).
func isInMemory(folder string) bool {
	const tmpfs = 0x01021994
	var found syscall.Statfs_t
	return syscall.Statfs(folder, &found) == nil && found.Type == tmpfs
}

// trust names the user whose process is believed to be bucketd.
func (o options) trust(h *host.Host) error {
	if o.hostUser == "" {
		return nil
	}
	number := o.hostUser
	if named, err := user.Lookup(o.hostUser); err == nil {
		number = named.Uid
	}
	id, err := strconv.ParseUint(number, 10, 32)
	if err != nil {
		return fmt.Errorf("--host-user: there is no user %q", o.hostUser)
	}
	h.Trust(uint32(id))
	return nil
}

// openLog returns the log of requests, nil where none is wanted. Where that is JSON, so is each line on standard error.
func (o options) openLog() (*accesslog.Log, error) {
	requests, err := accesslog.New(os.Stderr, o.logFormat)
	if err != nil {
		return nil, err
	}
	if o.logFormat == "json" {
		slog.SetDefault(slog.New(slog.NewJSONHandler(os.Stderr, nil)))
	}
	if !o.log {
		return nil, nil
	}
	return requests, nil
}

// rereadOnHangup has the key file read again on SIGHUP, until the context is done.
func rereadOnHangup(ctx context.Context, file *keys.File) {
	hangup := make(chan os.Signal, 1)
	signal.Notify(hangup, syscall.SIGHUP)
	go func() {
		defer signal.Stop(hangup)
		for {
			select {
			case <-hangup:
				file.Reread()
			case <-ctx.Done():
				return
			}
		}
	}()
}

// door is where clients come in.
type door struct {
	net.Listener
	scheme       string // of its URL
	bounded      *limits.Listener
	certificates *tlsconf.Ends // nil where no TLS is spoken
}

// ends returns what tells when the first certificate ends; nil where there are none.
func (d *door) ends() func() (time.Time, bool) {
	if d.certificates == nil {
		return nil
	}
	return d.certificates.First
}

// open listens for clients, for a server with places. Limits that are met are counted.
func (o options) open(web *http.Server, met limits.Count) (*door, error) {
	if err := limits.Files(o.connections); err != nil {
		log.Print(err)
	}
	config, err := o.tls()
	if err != nil {
		return nil, err
	}
	plain, err := net.Listen("tcp", o.listen)
	if err != nil {
		return nil, err
	}
	places := limits.NewPlaces(o.connections, o.ofAddress)
	places.Met = met
	bounded, err := limits.Listen(plain, places)
	if err != nil {
		return nil, err
	}
	web.ConnState = func(conn net.Conn, state http.ConnState) {
		s3.Restart(conn, state)
		bounded.State(conn, state)
	}
	if config == nil {
		return &door{s3.Heads(bounded, web.ErrorLog), "http", bounded, nil}, nil
	}
	ends := tlsconf.Watch(config, o.acme.Names)
	return &door{s3.Heads(tls.NewListener(bounded, config), web.ErrorLog), "https", bounded, ends}, nil
}

// tls returns how TLS is spoken; nil where it isn't.
func (o options) tls() (*tls.Config, error) {
	switch {
	case len(o.acme.Names) > 0:
		return tlsconf.ACME(o.acme)
	case o.certificate != "":
		return tlsconf.Files(o.certificate, o.certificateKey)
	}
	return nil, nil
}

func serve(ctx context.Context, web *http.Server, listener net.Listener) error {
	ended := make(chan error, 1)
	go func() { ended <- web.Serve(listener) }()
	select {
	case err := <-ended:
		return err
	case <-ctx.Done():
		patience, cancel := context.WithTimeout(context.Background(), 10*time.Second)
		defer cancel()
		if err := web.Shutdown(patience); err != nil {
			log.Print(err) // (who still waits is cut)
		}
		return nil
	}
}
