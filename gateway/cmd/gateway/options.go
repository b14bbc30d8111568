package main

import (
	"errors"
	"flag"
	"io"
	"os"
	"strings"
	"time"

	"bucketd/gateway/internal/s3"
	"bucketd/gateway/internal/tlsconf"
)

type options struct {
	s3.Options
	listen, certificate, certificateKey, keys string
	host, hostSocket, hostUser, serve         string
	program, spool                            string
	status                                    statusOptions
	acme                                      tlsconf.Domain
	connections, ofAddress, ahead             int
	heap                                      int64 // MiB
	spoolRoom, tenantRoom                     int64
	log, signature2                           bool
	logFormat                                 string
}

const mostConnections = 10000

func parseOptions(words []string, out io.Writer) (options, error) {
	var o options
	set := flag.NewFlagSet("gateway", flag.ContinueOnError)
	set.SetOutput(out)
	set.StringVar(&o.listen, "listen", "127.0.0.1:9000", "the address for clients; port 0 is a free one")
	set.StringVar(&o.keys, "keys", "gateway.keys", "the access keys, a line each: tenant$name secret; a file of mode 0600, which is replaced by mv. A change is seen at once, and on SIGHUP")
	set.StringVar(&o.host, "host", "127.0.0.1:8080", "the address of 'bucketd serve'. Whoever listens there is believed, and gets each tenant's secret with each request: "+
		"no other user of the machine may be able to listen on that port while bucketd doesn't run, or --host-user names bucketd's")
	set.StringVar(&o.hostSocket, "host-socket", "", "the path of the Unix socket of 'bucketd serve --socket', in place of --host")
	set.StringVar(&o.hostUser, "host-user", "", "the user, by name or number, whose process has to listen at --host, which is an address of this machine, or at --host-socket; where it is empty, anybody's is believed. "+
		"With --serve it is always the gateway's own user and the process that it started")
	set.StringVar(&o.serve, "serve", "", "a host's file, made by 'bucketd init --max-body 1073741824' so that parts above 16 MiB go: bucketd serves it as long as the gateway runs, --alone, and --host is not looked at. "+
		"It listens on sockets in a folder that the gateway's user alone may enter, where it knows of sockets, and else on a port")
	set.StringVar(&o.program, "program", "bucketd", "the program that --serve starts")
	set.BoolVar(&o.Alone, "alone", false, "no one writes to the host but through this gateway: what was found of an object needn't be asked again")
	set.StringVar(&o.Region, "region", "us-east-1", "the region that signatures name; where it is empty, any")
	set.BoolVar(&o.signature2, "signature-2", true, "takes URLs that are presigned by version 2, as boto3 makes them where nothing is said; they bind neither host nor region, and are of SHA-1")
	set.StringVar(&o.Domain, "domain", "", "the gateway's name, under which clients may name a bucket as BUCKET.DOMAIN, too, beside DOMAIN/BUCKET")
	set.StringVar(&o.spool, "spool", os.TempDir(), "the folder in which bodies above 1 MiB wait: on a disk, and not the host's where that is to be had")
	set.Int64Var(&o.spoolRoom, "spool-room", 4<<30, "the most bytes that wait there")
	set.Int64Var(&o.tenantRoom, "tenant-spool-room", 2<<30, "the most bytes of one tenant that wait there")
	set.IntVar(&o.ahead, "ahead", 4, "how many requests of all, and of a tenant, are sent before bucketd has answered")
	set.Int64Var(&o.Piece, "piece", 16<<20, "a put of more bytes goes as an upload of parts of so many: at least the host's least part, at most its greatest body")
	set.Int64Var(&o.MaxPart, "max-part", 1<<30, "the most bytes of a part, and of a put with a date: these go to the host at once, so no more than its greatest body ('bucketd init --max-body')")
	set.Int64Var(&o.MaxPut, "max-put", 5<<30, "the most bytes of a put; never more than 10,000 pieces")
	set.BoolVar(&o.LastModified, "last-modified", true, "tells Last-Modified on GET and HEAD, by a listing each")
	set.BoolVar(&o.Meta, "meta", true, "keeps x-amz-meta-*, Content-Type and the like in a hidden bucket of the tenant, bucketd.meta")
	o.addTLS(set)
	o.addLimits(set)
	o.status.add(set)
	if err := set.Parse(words); err != nil {
		return o, err
	}
	given := map[string]bool{}
	set.Visit(func(it *flag.Flag) { given[it.Name] = true })
	o.Alone, o.LeastRate.Grace = o.Alone || o.serve != "", 30*time.Second
	if set.NArg() > 0 {
		return o, errors.New("a word is no option: " + set.Arg(0))
	}
	if o.hostSocket != "" && (given["host"] || o.serve != "") {
		return o, errors.New("--host-socket stands in place of --host and --serve")
	}
	return o, o.check()
}

func (o *options) addTLS(set *flag.FlagSet) {
	set.StringVar(&o.certificate, "cert", "", "a certificate with its chain, for TLS; one that is renewed is taken within a second")
	set.StringVar(&o.certificateKey, "cert-key", "", "the certificate's key")
	set.Func("acme", "the names, with commas between, for which certificates are got by ACME and renewed, over --listen at port 443", func(names string) error {
		o.acme.Names = strings.Split(names, ",")
		return nil
	})
	set.StringVar(&o.acme.Folder, "acme-folder", "", "the folder in which keys and certificates of --acme are kept")
	set.StringVar(&o.acme.Email, "acme-email", "", "where the authority of --acme may write to")
	set.StringVar(&o.acme.Directory, "acme-directory", "", "the URL of the authority of --acme; Let's Encrypt's where it is empty")
}

func (o *options) addLimits(set *flag.FlagSet) {
	set.IntVar(&o.connections, "connections", 1024, "the most connections of clients at once, up to 10000")
	set.IntVar(&o.ofAddress, "address-connections", 0, "the most connections from one address, or one network of IPv6 (/64); 0 is a quarter of --connections. Where a proxy stands before the gateway, as many as --connections")
	set.DurationVar(&o.Silence, "silence", 30*time.Second, "how long a client may be silent within a request; in reading an answer, twice that")
	set.Int64Var(&o.LeastRate.Bytes, "least-rate", 10<<10, "the bytes a second at which a body has to come, after its first 30 seconds")
	set.Int64Var(&o.heap, "heap", 256, "the MiB of memory that are aimed at where much of it is in use, at least 64: beyond them garbage is collected all the time")
	set.BoolVar(&o.log, "log", false, "writes a line for each request on standard error, never with a secret, a signature or a query")
	set.StringVar(&o.logFormat, "log-format", "text", "the form of that line: text or json, which all other lines have then, too")
}

// check returns an error where options don't go together, or one is out of its range.
func (o *options) check() error {
	switch {
	case o.ahead < 1 || o.Piece < 1 || o.MaxPut < 0 || o.MaxPart < 1 || o.Silence <= 0:
		return errors.New("--ahead, --piece, --max-put, --max-part or --silence is out of its range")
	case o.spoolRoom < o.Piece || o.tenantRoom < o.Piece || o.LeastRate.Bytes < 0:
		return errors.New("--spool-room and --tenant-spool-room are at least --piece, and --least-rate isn't below 0")
	case o.connections < 1 || o.connections > mostConnections || o.ofAddress < 0 || o.ofAddress > o.connections:
		return errors.New("--connections is from 1 to 10000, and --address-connections at most as many")
	case o.heap < 64:
		return errors.New("--heap is at least 64")
	case (o.certificate == "") != (o.certificateKey == ""):
		return errors.New("--cert and --cert-key stand together")
	case len(o.acme.Names) > 0 && (o.certificate != "" || o.acme.Folder == ""):
		return errors.New("--acme wants --acme-folder, and no --cert")
	}
	return o.status.check()
}
