package host

import (
	"bufio"
	"context"
	"fmt"
	"net/http"
	"time"
)

// A Watch is told of what a host is asked. It is called by many at once, and may not wait.
type Watch interface {
	// Waited tells how long a request waited until it was sent.
	Waited(time.Duration)
	// Tried tells of a request that was sent: by an Outcome, the code of the refusal where there was one, and how long that took.
	Tried(o Outcome, refusal string, took time.Duration)
}

// An Outcome is how the sending of a request ended: the class of its status, NoAnswer or Left.
type Outcome string

const (
	// NoAnswer is that of a request which bucketd didn't answer.
	NoAnswer Outcome = "none"
	// Left is that of a read whose client went before it was answered.
	Left Outcome = "left"
)

// Outcomes has all of them.
var Outcomes = []Outcome{"2xx", "3xx", "4xx", "5xx", NoAnswer, Left}

// outcome returns that of a response, or of none.
func outcome(ctx context.Context, r *Response) (o Outcome, refusal string) {
	switch {
	case r != nil && r.StatusCode >= 200 && r.StatusCode < 600:
		return Outcomes[r.StatusCode/100-2], r.Code
	case r == nil && ctx.Err() != nil:
		return Left, ""
	}
	return NoAnswer, ""
}

// The key of a question whether bucketd answers. No host has it, so the answer is a refusal.
const checkKey, checkSecret = "health$check", "none-at-all"

// Check asks bucketd for next to nothing, beside what waits for its turn. It returns nil where it is answered before the context
// ends, and else why not. A host that was shut by its disk answers no request, and neither does one whose clock is refused.
func (h *Host) Check(ctx context.Context) error {
	conn, err := h.dial(ctx)
	if err != nil {
		return err
	}
	defer conn.Close()
	stop := context.AfterFunc(ctx, func() { conn.SetDeadline(time.Now()) })
	defer stop()
	head, err := Object{}.Request(http.MethodHead).head(checkKey, checkSecret)
	if err != nil {
		return err
	}
	if _, err := conn.Write([]byte(head)); err != nil {
		return err
	}
	answer, err := http.ReadResponse(bufio.NewReader(conn), &http.Request{Method: http.MethodHead})
	if err != nil {
		return err
	}
	if answer.Body.Close(); answer.StatusCode >= 500 {
		return fmt.Errorf("it answers %d %.40q", answer.StatusCode, answer.Header.Get("x-refusal"))
	}
	return nil
}
