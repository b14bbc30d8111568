module bucketd/gateway

go 1.21

// For a build with Debian's packages: go build -tags acme,prometheus -modfile debian.mod -overlay debian.json. ACME wants
// golang-golang-x-{crypto,net,text,sys,term}-dev, metrics golang-github-prometheus-client-golang-dev. A tag may be left out, and then
// its packages may be, too.
require (
	github.com/prometheus/client_golang v1.14.0
	github.com/prometheus/client_model v0.3.0
	github.com/prometheus/common v0.37.0
	golang.org/x/crypto v0.25.0
)

require (
	github.com/beorn7/perks v1.0.1 // indirect
	github.com/cespare/xxhash/v2 v2.1.2 // indirect
	github.com/golang/protobuf v1.5.2 // indirect
	github.com/matttproud/golang_protobuf_extensions v1.0.4 // indirect
	github.com/prometheus/procfs v0.8.0 // indirect
	golang.org/x/net v0.21.0 // indirect
	golang.org/x/sys v0.22.0 // indirect
	golang.org/x/text v0.16.0 // indirect
	google.golang.org/protobuf v1.28.1 // indirect
)

replace (
	github.com/beorn7/perks => /usr/share/gocode/src/github.com/beorn7/perks
	github.com/cespare/xxhash/v2 => /usr/share/gocode/src/github.com/cespare/xxhash
	github.com/golang/protobuf => /usr/share/gocode/src/github.com/golang/protobuf
	github.com/matttproud/golang_protobuf_extensions => /usr/share/gocode/src/github.com/matttproud/golang_protobuf_extensions
	github.com/prometheus/client_golang => /usr/share/gocode/src/github.com/prometheus/client_golang
	github.com/prometheus/client_model => /usr/share/gocode/src/github.com/prometheus/client_model
	github.com/prometheus/common => /usr/share/gocode/src/github.com/prometheus/common
	github.com/prometheus/procfs => /usr/share/gocode/src/github.com/prometheus/procfs
	golang.org/x/crypto => /usr/share/gocode/src/golang.org/x/crypto
	golang.org/x/net => /usr/share/gocode/src/golang.org/x/net
	golang.org/x/sys => /usr/share/gocode/src/golang.org/x/sys
	golang.org/x/term => /usr/share/gocode/src/golang.org/x/term
	golang.org/x/text => /usr/share/gocode/src/golang.org/x/text
	google.golang.org/protobuf => /usr/share/gocode/src/google.golang.org/protobuf
)
