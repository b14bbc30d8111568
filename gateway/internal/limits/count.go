package limits

// The options whose limits are counted.
const (
	Connections        = "connections"
	AddressConnections = "address-connections"
	SpoolRoom          = "spool-room"
	TenantSpoolRoom    = "tenant-spool-room"
	LeastRate          = "least-rate"
	Silence            = "silence"
)

// Options has all of them.
var Options = []string{Connections, AddressConnections, SpoolRoom, TenantSpoolRoom, LeastRate, Silence}

// A Count is told of each connection or request that a limit ended or refused, by its option. It is called by many at once, and may not
// wait. One that is nil counts nothing.
type Count func(option string)

// Add counts a limit that was met.
func (c Count) Add(option string) {
	if c != nil {
		c(option)
	}
}
