package main

import (
	"context"
	"errors"
	"flag"
	"fmt"
	"log"
	"net"
	"net/http"
	"path/filepath"
	"strconv"
	"time"

	"bucketd/gateway/internal/host"
	"bucketd/gateway/internal/limits"
	"bucketd/gateway/internal/status"
)

// statusOptions say where the status is told, and what beside the gateway's own.
type statusOptions struct {
	port, operatorPort             int // none where negative
	address                        string
	operatorSocket, operatorSecret string
	backups                        string
}

const none = -1

// How many connections for the status there may be, of all and of an address: each costs a file that clients don't have then.
const statusConnections = 32

func (o *statusOptions) add(set *flag.FlagSet) {
	o.port, o.operatorPort = none, none
	set.Func("status-port", "the port of 127.0.0.1 for /metrics, in Prometheus' text format, and /healthz; 0 is a free one, and none is opened where it isn't given", portInto(&o.port, 0))
	set.StringVar(&o.address, "status-addr", "", "the address for these, in place of --status-port: whoever reaches it reads the names of tenants and how many bytes they have")
	set.Func("operator-port", "the port of bucketd's operators on this machine, who are told for /metrics what each tenant has. With --serve it isn't needed where bucketd knows of sockets", portInto(&o.operatorPort, 1))
	set.StringVar(&o.operatorSocket, "operator-socket", "", "the Unix socket of bucketd's operators, in place of --operator-port")
	set.StringVar(&o.operatorSecret, "operator-secret-file", "", "the file with the operators' secret, of mode 0600: whoever has it is an operator of the host")
	set.StringVar(&o.backups, "backup-files", "", "the pattern of backups' names, such as '/var/backups/bucketd/host-*': /metrics tells when the newest was written")
}

// isWanted returns whether the status is told anywhere.
func (o *statusOptions) isWanted() bool { return o.port != none || o.address != "" }

// asksOperators returns whether operators are asked who were named.
func (o *statusOptions) asksOperators() bool { return o.operatorPort != none || o.operatorSocket != "" }

// portInto returns what reads the number of a port, which is at least some number.
func portInto(port *int, least int) func(string) error {
	return func(text string) error {
		number, err := strconv.ParseUint(text, 10, 16)
		if err != nil || int(number) < least {
			return errors.New("it is no port")
		}
		*port = int(number)
		return nil
	}
}

func (o *statusOptions) check() error {
	_, badPattern := filepath.Match(o.backups, "")
	switch {
	case o.port != none && o.address != "":
		return errors.New("--status-addr stands in place of --status-port")
	case o.operatorPort != none && o.operatorSocket != "":
		return errors.New("--operator-socket stands in place of --operator-port")
	case o.operatorSecret != "" && !o.asksOperators():
		return errors.New("--operator-secret-file wants --operator-port or --operator-socket")
	case (o.asksOperators() || o.backups != "") && !o.isWanted():
		return errors.New("--operator-port, --operator-socket and --backup-files want --status-port or --status-addr")
	case badPattern != nil:
		return errors.New("--backup-files is no pattern")
	}
	return nil
}

// listen opens where the status is told. Connections that say nothing give way to others.
func (o *statusOptions) listen() (*limits.Listener, error) {
	address := o.address
	if address == "" {
		address = net.JoinHostPort("127.0.0.1", strconv.Itoa(o.port))
	}
	plain, err := net.Listen("tcp", address)
	if err != nil {
		return nil, fmt.Errorf("the status: %w", err)
	}
	return limits.Listen(plain, limits.NewPlaces(statusConnections, statusConnections))
}

// operators returns who asks the host's operators; nil where nobody does.
func (o *statusOptions) operators(h *host.Host, isServed bool) *host.Operators {
	var place host.Place
	switch {
	case o.operatorSocket != "":
		place = host.Socket(o.operatorSocket)
	case o.operatorPort != none:
		place = host.TCP(net.JoinHostPort("127.0.0.1", strconv.Itoa(o.operatorPort)))
	case !isServed:
		return nil
	}
	it := h.Operators(place)
	it.Secret = o.operatorSecret
	return it
}

// serve tells the status until the function that it returns is called.
func (o *statusOptions) serve(metrics *status.Metrics, from status.Sources) (end func(), err error) {
	listener, err := o.listen()
	if err != nil {
		return nil, err
	}
	from.Backups = o.backups
	server := status.Server(metrics, from)
	server.ConnState = listener.State
	if !status.HasMetrics {
		log.Print("this gateway was built without metrics: /healthz is there alone")
	}
	log.Printf("the status is at http://%s", listener.Addr())
	go func() {
		if err := server.Serve(listener); !errors.Is(err, http.ErrServerClosed) {
			log.Printf("the status isn't told any more: %v", err)
		}
	}()
	return func() {
		patience, cancel := context.WithTimeout(context.Background(), time.Second)
		defer cancel()
		if server.Shutdown(patience) != nil {
			server.Close()
		}
	}, nil
}
