package tlsconf

import "net/http"

// A Domain says for which names certificates are got by ACME, and how.
type Domain struct {
	Names     []string     // that clients connect to
	Folder    string       // where keys and certificates are kept, of mode 0700
	Email     string       // to which the authority writes; may be empty
	Directory string       // of the authority; where it is empty, Let's Encrypt's
	Client    *http.Client // by which the authority is asked; nil is Go's own
}
