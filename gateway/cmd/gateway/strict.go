//go:build go1.22

//go:debug httplaxcontentlength=0
//go:debug tlsrsakex=0

package main

// Go's newer versions are stricter where go.mod names them. What concerns a server that faces strangers is taken from them at once:
// an empty Content-Length is refused, and keys aren't exchanged by RSA.
