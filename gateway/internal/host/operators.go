package host

import (
	"context"
	"errors"
	"fmt"
	"io"
	"os"
	"strings"
	"time"
)

// Operators tells bucketd an operator's lines, at its port or socket for them.
type Operators struct {
	Secret string // the file whose first line each line begins with; empty where there is none

	host  *Host
	place Place
}

// Operators returns who tells a host an operator's lines, at a place of theirs; an empty one is that of a bucketd which Serve started.
// The user whose process has to listen there is the host's.
func (h *Host) Operators(place Place) *Operators { return &Operators{host: h, place: place} }

// IsThere returns whether it is known where bucketd takes an operator's lines.
func (o *Operators) IsThere() bool { return o.at() != Place{} }

func (o *Operators) at() Place {
	if o.place != (Place{}) {
		return o.place
	}
	return o.host.at.Load().operators
}

// Tell sends a line and gives its answer to a reader, until the context is done. An answer that is a refusal is an answer.
func (o *Operators) Tell(ctx context.Context, line string, read func(answer io.Reader) error) error {
	words, err := o.withSecret(line)
	if err != nil {
		return err
	}
	conn, err := o.at().dial(ctx, o.host.user.Load())
	if err != nil {
		return err
	}
	defer conn.Close()
	stop := context.AfterFunc(ctx, func() { conn.SetDeadline(time.Now()) })
	defer stop()
	if _, err := io.WriteString(conn, words+"\n"); err != nil {
		return err
	}
	return read(conn)
}

// withSecret returns a line behind the secret. The file is read each time, so that it may be replaced.
func (o *Operators) withSecret(line string) (string, error) {
	if o.Secret == "" {
		return line, nil
	}
	info, err := os.Stat(o.Secret)
	if err != nil {
		return "", err
	}
	if !info.Mode().IsRegular() || info.Mode().Perm()&0o077 != 0 {
		return "", fmt.Errorf("%s: others may read or write it: chmod 600", o.Secret)
	}
	text, err := os.ReadFile(o.Secret)
	if err != nil {
		return "", err
	}
	secret, _, _ := strings.Cut(string(text), "\n")
	if isPrintable := strings.IndexFunc(secret, func(r rune) bool { return r <= ' ' || r > '~' }) < 0; !isPrintable || len(secret) < 8 || len(secret) > 64 {
		return "", errors.New(o.Secret + ": its first line is no secret")
	}
	return secret + " " + line, nil
}
