package tlsconf

import (
	"crypto/tls"
	"crypto/x509"
	"testing"
	"time"
)

// The end of a file's certificate is known at once, and that of a renewed one without a client.
func TestEndsOfFiles(t *testing.T) {
	folder := t.TempDir()
	certificate, key := makePair(t, folder, "first", newKey(t, false))
	now := time.Now()
	p := &pair{certificate: certificate, key: key, now: func() time.Time { return now }}
	if err := p.load(); err != nil {
		t.Fatal(err)
	}
	ends := Watch(config(p.get), nil)
	first, isThere := ends.First()
	if !isThere || time.Until(first) > time.Hour || time.Until(first) < 58*time.Minute {
		t.Fatalf("%v %v", first, isThere)
	}
	time.Sleep(1100 * time.Millisecond) // (a certificate's end is in whole seconds)
	makePair(t, folder, "second", newKey(t, false))
	now = now.Add(pause)
	if second, isThere := ends.First(); !isThere || !second.After(first) {
		t.Errorf("%v isn't after %v", second, first)
	}
}

// Of names the end is known of which a client was shown a certificate that isn't an authority's.
func TestEndsOfNames(t *testing.T) {
	folder := t.TempDir()
	shown := map[string]*tls.Certificate{}
	for name := range map[string]bool{"a": true, "b": true} {
		certificate, key := makePair(t, folder, name, newKey(t, false))
		found, err := tls.LoadX509KeyPair(certificate, key)
		if err != nil {
			t.Fatal(err)
		}
		shown[name] = &found
		time.Sleep(1100 * time.Millisecond)
	}
	end := func(name string) time.Time {
		leaf, err := x509.ParseCertificate(shown[name].Certificate[0])
		if err != nil {
			t.Fatal(err)
		}
		return leaf.NotAfter
	}
	c := config(func(hello *tls.ClientHelloInfo) (*tls.Certificate, error) { return shown[hello.ServerName], nil })
	ends := Watch(c, []string{"a", "b"})
	if _, isThere := ends.First(); isThere {
		t.Error("an end is known of nothing")
	}
	c.GetCertificate(&tls.ClientHelloInfo{ServerName: "a", SupportedProtos: []string{"acme-tls/1"}})
	if _, isThere := ends.First(); isThere {
		t.Error("an authority's")
	}
	for _, name := range []string{"b", "a", "b"} {
		c.GetCertificate(&tls.ClientHelloInfo{ServerName: name, SupportedProtos: []string{"http/1.1"}})
	}
	want := end("a")
	if end("b").Before(want) {
		want = end("b")
	}
	if first, isThere := ends.First(); !isThere || !first.Equal(want) {
		t.Errorf("%v, not %v", first, want)
	}
}
