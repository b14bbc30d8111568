package main

import (
	"bytes"
	"io"
	"os"
	"os/exec"
	"path/filepath"
	"regexp"
	"strings"
	"testing"
)

const deploy = "../../../deploy"

func read(t *testing.T, name string) string {
	t.Helper()
	text, err := os.ReadFile(filepath.Join(deploy, name))
	if err != nil {
		t.Fatal(err)
	}
	return string(text)
}

// The unit's words are the gateway's options.
func TestUnit(t *testing.T) {
	words := regexp.MustCompile(`(?m)^ExecStart=/usr/local/bin/bucketd-gateway (.*)$`).FindStringSubmatch(read(t, "bucketd-gateway.service"))
	if words == nil {
		t.Fatal("the unit starts nothing")
	}
	o, err := parseOptions(strings.Fields(words[1]), io.Discard)
	if err != nil || o.hostUser != "bucketd" || !o.log {
		t.Errorf("%q: %v %+v", words[1], err, o)
	}
	folder := t.TempDir()
	verify, err := exec.LookPath("systemd-analyze")
	if err != nil {
		t.Skip("systemd-analyze isn't here")
	}
	paths := []string{"verify", "--man=no"}
	names, err := filepath.Glob(filepath.Join(deploy, "*.service"))
	if err != nil || len(names) == 0 {
		t.Fatal(err, "no units")
	}
	for _, name := range names {
		name = filepath.Base(name)
		// (programs that are there, so that only the units are looked at)
		text := regexp.MustCompile(`=(\+?)/usr/(local/)?bin/\S+`).ReplaceAllString(read(t, name), "=$1/bin/true")
		text = strings.ReplaceAll(text, "=/usr/sbin/nft ", "=/bin/true ")
		path := filepath.Join(folder, name)
		if err := os.WriteFile(path, []byte(text), 0o644); err != nil {
			t.Fatal(err)
		}
		paths = append(paths, path)
	}
	if out, err := exec.Command(verify, paths...).CombinedOutput(); err != nil || len(out) > 0 {
		t.Errorf("systemd-analyze: %v\n%s", err, out)
	}
}

// tries connects to a port of this machine, as root and as another user, in a network of its own with the rules of a file.
const tries = `set -e
ip link set lo up
nft -f "$1"
python3 -c '
import os, socket, sys
listener = socket.socket()
listener.bind(("127.0.0.1", 8080))
listener.listen()
for user in (0, 33, 65534):
    if os.fork() == 0:
        os.setuid(user)
        link = socket.socket()
        link.settimeout(5)
        try:
            link.connect(("127.0.0.1", 8080))
            print(user, "connected", flush=True)
        except OSError as error:
            print(user, type(error).__name__, flush=True)
        os._exit(0)
    os.wait()
'
`

// By bucketd.nft root and nginx reach bucketd's port, and nobody else does.
func TestPortRules(t *testing.T) {
	for _, tool := range []string{"nft", "unshare", "ip", "python3"} {
		if _, err := exec.LookPath(tool); err != nil || os.Geteuid() != 0 {
			t.Skip("it wants root and " + tool)
		}
	}
	if exec.Command("unshare", "-n", "true").Run() != nil {
		t.Skip("there are no networks of its own here")
	}
	rules := filepath.Join(t.TempDir(), "rules")
	text := strings.NewReplacer("bucketd-gateway, ", "", "www-data", "33").Replace(read(t, "bucketd.nft"))
	if err := os.WriteFile(rules, []byte(text), 0o644); err != nil {
		t.Fatal(err)
	}
	var told bytes.Buffer
	command := exec.Command("unshare", "-n", "sh", "-c", tries, "sh", rules)
	command.Stdout, command.Stderr = &told, &told
	if err := command.Run(); err != nil {
		t.Skipf("nft has no power here: %v %s", err, told.String())
	}
	if want := "0 connected\n33 connected\n65534 ConnectionRefusedError\n"; told.String() != want {
		t.Errorf("%s, not %s", told.String(), want)
	}
}
