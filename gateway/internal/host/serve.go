package host

import (
	"bufio"
	"context"
	"errors"
	"fmt"
	"io"
	"log"
	"os"
	"os/exec"
	"path/filepath"
	"regexp"
	"runtime"
	"strings"
	"sync"
	"syscall"
	"time"
)

const (
	restartAfter = 250 * time.Millisecond
	announcement = "listening on " // what bucketd writes before its address, on standard error
	stopLine     = `{"op":"stop"}`
)

// How long bucketd may take to end after an operator's stop, with the answers that are due, and after SIGTERM. (Variables, as tests
// have less time.)
var stopPatience, termPatience = 10 * time.Second, 5 * time.Second

// A server is a bucketd that is run.
type server struct {
	host          *Host
	program, file string
	folder        string // that of its sockets; empty where it has ports
}

// Serve runs 'bucketd serve' on a host's file until the context is done, again whenever it ends. It returns when bucketd listens;
// the channel is closed when it has ended. Nobody is believed but the child that was started: who listens has to be of the gateway's
// own user. A bucketd that knows of sockets has them in a folder that this user alone may enter, so nobody else reaches it. One that
// doesn't chooses its port itself, and what it writes is its address as long as it runs.
func (h *Host) Serve(ctx context.Context, program, file string) (<-chan struct{}, error) {
	s := &server{host: h, program: program, file: file}
	if knowsSockets(program) {
		folder, err := socketFolder()
		if err != nil {
			return nil, err
		}
		s.folder = folder
	}
	listens, over := make(chan struct{}), make(chan struct{})
	h.at.Store(&places{})
	h.user.Store(int64(os.Geteuid()))
	go func() {
		defer close(over)
		s.run(ctx, listens)
		if s.folder != "" {
			os.RemoveAll(s.folder)
		}
	}()
	select {
	case <-listens:
		return over, nil
	case <-over:
		return over, errors.New("bucketd doesn't serve")
	}
}

// run runs bucketd again and again. The channel is closed when it listens first; a bucketd that never did isn't started again.
func (s *server) run(ctx context.Context, listens chan struct{}) {
	// The kernel ends the child with the thread that made it, so also where the gateway is killed.
	runtime.LockOSThread()
	var once sync.Once
	for ctx.Err() == nil {
		err := s.serveOnce(ctx, func() { once.Do(func() { close(listens) }) })
		log.Printf("bucketd serve --file %s ended: %v", s.file, err)
		select {
		case <-listens:
		default:
			return
		}
		select {
		case <-time.After(restartAfter):
		case <-ctx.Done():
		}
	}
}

// serveOnce runs bucketd to its end. Its place is forgotten then: a port is nobody's, or another's.
func (s *server) serveOnce(ctx context.Context, listens func()) error {
	child := exec.Command(s.program, s.words()...)
	// What was read at the opening goes back to the system; what the gateway's own environment says counts more.
	child.Env = append([]string{"MALLOC_MMAP_THRESHOLD_=65536"}, os.Environ()...)
	child.Stdout = os.Stderr
	child.SysProcAttr = &syscall.SysProcAttr{Pdeathsig: syscall.SIGKILL, Setpgid: true}
	lines, err := child.StderrPipe()
	if err != nil {
		return err
	}
	if err := child.Start(); err != nil {
		return err
	}
	defer s.host.at.Store(&places{})
	ended, isOver := make(chan struct{}), make(chan struct{})
	go func() {
		defer close(isOver)
		select {
		case <-ctx.Done():
			s.end(child.Process, ended)
		case <-ended:
		}
	}()
	isTold := false
	readLines(lines, func(line string) {
		address, isAddress := strings.CutPrefix(line, announcement)
		if isAddress && !isTold { // (it says so once)
			isTold = true
			s.host.at.Store(s.places(address))
			listens()
		}
	})
	s.host.at.Store(&places{})
	err = child.Wait()
	close(ended)
	<-isOver
	return err
}

// words are those of bucketd.
func (s *server) words() []string {
	words := []string{"serve", "--file", s.file}
	if s.folder == "" {
		words = append(words, "--port", "0")
	} else {
		words = append(words, "--socket", s.socket("clients"), "--operator-socket", s.socket("operators"))
	}
	// A year: a host may have been idle for the holidays, and a clock that is wrong is so by more.
	return append(words, "--clock-leap", "366")
}

func (s *server) socket(name string) string { return filepath.Join(s.folder, name) }

// places returns where bucketd listens that has told an address.
func (s *server) places(address string) *places {
	if s.folder == "" {
		return &places{clients: TCP(address)}
	}
	return &places{clients: Socket(s.socket("clients")), operators: Socket(s.socket("operators"))}
}

// end ends bucketd: by an operator's stop where it has a socket for that, so that the answers that are due go out first, else by
// SIGTERM. One that goes on is killed: each change is on the disk before it is answered.
func (s *server) end(process *os.Process, ended <-chan struct{}) {
	begun, operators := time.Now(), s.host.Operators(Place{})
	if operators.IsThere() && tellStop(operators) == nil && isClosed(ended, stopPatience-time.Since(begun)) {
		return
	}
	if process.Signal(syscall.SIGTERM); isClosed(ended, termPatience) {
		return
	}
	log.Printf("bucketd serve --file %s doesn't end: it is killed", s.file)
	process.Kill()
}

// tellStop tells bucketd to stop, which it answers by the same word. That may be lost with it; another answer is an error.
func tellStop(operators *Operators) error {
	ctx, cancel := context.WithTimeout(context.Background(), stopPatience)
	defer cancel()
	return operators.Tell(ctx, stopLine, func(answer io.Reader) error {
		text, err := io.ReadAll(io.LimitReader(answer, 1000))
		if line := strings.TrimSpace(string(text)); err == nil && line != "" && line != "stop" {
			return fmt.Errorf("bucketd doesn't know how to stop: %q", line)
		}
		return nil
	})
}

// isClosed waits for a channel's end, and returns whether it came in time.
func isClosed(ended <-chan struct{}, patience time.Duration) bool {
	select {
	case <-ended:
		return true
	case <-time.After(patience):
		return false
	}
}

var socketOption = regexp.MustCompile(`(?m)^\s+--socket\b`)

// knowsSockets returns whether the help of a bucketd has the option of a socket.
func knowsSockets(program string) bool {
	ctx, cancel := context.WithTimeout(context.Background(), 30*time.Second)
	defer cancel()
	text, err := exec.CommandContext(ctx, program, "help", "serve").Output()
	return err == nil && socketOption.Match(text)
}

// longestSocket is how many bytes the path of a Unix socket may have (unix(7)), without its end.
const longestSocket = 107

// socketFolder makes a folder for sockets, which its user alone may enter: where the system has one for what lives as long as a
// service or a session, there, and else where temporary files are.
func socketFolder() (string, error) {
	var err error
	runtimeFolder, _, _ := strings.Cut(os.Getenv("RUNTIME_DIRECTORY"), ":")
	for _, at := range []string{runtimeFolder, os.Getenv("XDG_RUNTIME_DIR"), os.TempDir(), "/tmp"} {
		var folder string
		if at == "" {
			continue
		}
		if folder, err = os.MkdirTemp(at, "bucketd-"); err != nil { // (of mode 0700)
			continue
		}
		if len(filepath.Join(folder, "operators")) <= longestSocket {
			return folder, nil
		}
		os.Remove(folder)
		err = fmt.Errorf("%s: a path there is too long for a socket", at)
	}
	return "", fmt.Errorf("there is no folder for bucketd's sockets: %w", err)
}

// readLines gives each line but those that are too long, and passes all on to standard error.
func readLines(in io.Reader, each func(line string)) {
	reader := bufio.NewReader(in)
	for isRest := false; ; {
		line, err := reader.ReadSlice('\n')
		os.Stderr.Write(line)
		switch {
		case errors.Is(err, bufio.ErrBufferFull):
			isRest = true
		case err != nil:
			return
		default:
			if !isRest {
				each(strings.TrimSuffix(string(line), "\n"))
			}
			isRest = false
		}
	}
}
