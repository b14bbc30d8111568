package status

import (
	"bufio"
	"context"
	"errors"
	"fmt"
	"io"
	"log/slog"
	"strconv"
	"sync"
	"time"

	"bucketd/gateway/internal/host"
)

const (
	leastPause    = 15 * time.Second // between two questions for what is stored
	longestPause  = 5 * time.Minute
	pauseShare    = 100             // a host that takes long to answer is asked at most for a hundredth of its time
	linePatience  = 5 * time.Second // how long a line may take
	pagePatience  = 2 * time.Second // how long a page of metrics waits for an answer that is on its way
	mostTenants   = 1000            // of which there are metrics
	longestReport = 4 << 10         // bytes
)

// tenant is what operators are told of one.
type tenant struct {
	name               string
	bytes, quota, keys float64
}

// stored is what operators are told.
type stored struct {
	at      time.Time // when it was answered; zero where it never was
	count   float64   // of tenants
	tenants []tenant  // the first of them
	report  map[string]float64
}

// asker asks a host's operators for what is stored: never in a request's way, and not again for a while.
type asker struct {
	operators *host.Operators
	clock     func() time.Time

	mu       sync.Mutex
	next     time.Time
	running  chan struct{} // closed when the question under way has been answered; nil where none is
	last     stored
	failures float64
	told     string // the error that stands in the log
}

// now returns what is stored, as it was answered last, and how often that failed. Where an answer is due it asks, and waits a moment.
func (a *asker) now() (stored, float64) {
	if running := a.begin(); running != nil {
		select {
		case <-running:
		case <-time.After(pagePatience):
		}
	}
	a.mu.Lock()
	defer a.mu.Unlock()
	return a.last, a.failures
}

// begin returns a channel that is closed when the question under way has been answered; nil where none is.
func (a *asker) begin() chan struct{} {
	a.mu.Lock()
	defer a.mu.Unlock()
	if a.running == nil && !a.clock().Before(a.next) && a.operators.IsThere() {
		a.running = make(chan struct{})
		go a.ask()
	}
	return a.running
}

func (a *asker) ask() {
	begun := a.clock()
	found, err := a.both()
	a.mu.Lock()
	defer a.mu.Unlock()
	ended := a.clock()
	a.next = ended.Add(min(longestPause, max(leastPause, pauseShare*ended.Sub(begun))))
	text := ""
	if err == nil {
		found.at = ended
		a.last = found
	} else {
		a.failures++
		if text = err.Error(); text != a.told {
			slog.Error("the host didn't tell its operators what is stored", "error", text)
		}
	}
	a.told = text
	close(a.running)
	a.running = nil
}

// both asks for the tenants, and for what they have together.
func (a *asker) both() (found stored, err error) {
	if err = a.tell(`{"op":"tenants"}`, found.readTenants); err == nil {
		err = a.tell(`{"op":"report"}`, found.readReport)
	}
	return found, err
}

func (a *asker) tell(line string, read func(io.Reader) error) error {
	ctx, cancel := context.WithTimeout(context.Background(), linePatience)
	defer cancel()
	return a.operators.Tell(ctx, line, read)
}

// errForm is that of an answer which isn't what docs/API.md has.
var errForm = errors.New("the operators' answer is of another form")

// readTenants reads 'tenants COUNT', and for each 'NAME bytes N quota N keys N'. Of more tenants than are told the rest is passed over.
func (s *stored) readTenants(answer io.Reader) error {
	words := &wordReader{Scanner: bufio.NewScanner(answer)}
	words.Split(bufio.ScanWords)
	s.count = words.number("tenants")
	for i := 0; i < int(min(s.count, mostTenants)) && words.err == nil; i++ {
		name := words.word()
		it := tenant{name, words.number("bytes"), words.number("quota"), words.number("keys")}
		// (a name that stands twice would be no page of metrics)
		if isNext := i == 0 || name > s.tenants[i-1].name; words.err == nil && !(isNext && isName(name)) {
			words.err = fmt.Errorf("%w: the tenant %.40q", errForm, name)
		}
		s.tenants = append(s.tenants, it)
	}
	return words.err
}

// readReport reads a line of names and numbers: 'blocks N stored N referred N clashes N'.
func (s *stored) readReport(answer io.Reader) error {
	words := &wordReader{Scanner: bufio.NewScanner(io.LimitReader(answer, longestReport))}
	words.Split(bufio.ScanWords)
	s.report = map[string]float64{}
	for _, name := range []string{"blocks", "stored", "referred", "clashes"} {
		s.report[name] = words.number(name)
	}
	return words.err
}

// wordReader reads words, until one isn't what it has to be.
type wordReader struct {
	*bufio.Scanner
	err error
}

func (w *wordReader) word() string {
	if w.err == nil && !w.Scan() {
		if w.err = w.Err(); w.err == nil {
			w.err = errForm
		}
	}
	return w.Text()
}

// number reads a name and the number behind it, which may have any number of digits.
func (w *wordReader) number(name string) float64 {
	if found := w.word(); w.err == nil && found != name {
		w.err = fmt.Errorf("%w: %.40q, not %s", errForm, found, name)
	}
	text := w.word()
	n, err := strconv.ParseFloat(text, 64)
	if w.err == nil && (err != nil || n < 0 || n != n) {
		w.err = fmt.Errorf("%w: %.40q is no number", errForm, text)
	}
	return n
}

// isName returns whether a text is a tenant's name, which becomes a label.
func isName(text string) bool {
	for _, r := range text {
		if (r < 'a' || r > 'z') && (r < '0' || r > '9') {
			return false
		}
	}
	return len(text) >= 1 && len(text) <= 32
}
