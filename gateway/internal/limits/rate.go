package limits

import (
	"errors"
	"io"
	"time"
)

// ErrSlow is that of a body that comes too slowly: S3's RequestTimeout.
var ErrSlow = errors.New("the body comes too slowly")

// A Rate is the least that a client may send.
type Rate struct {
	Bytes int64         // a second, from the first byte on
	Grace time.Duration // that a body may take whatever its rate
}

// Reader returns a reader of a body that ends with ErrSlow where the body comes more slowly. Only the time counts in which the body
// is waited for. It looks at the rate when bytes come: how long none may come is the connection's deadline.
func (r Rate) Reader(in io.Reader) io.Reader {
	return &rateReader{in: in, rate: r, now: time.Now}
}

type rateReader struct {
	in     io.Reader
	rate   Rate
	now    func() time.Time
	bytes  int64
	waited time.Duration
}

func (r *rateReader) Read(b []byte) (int, error) {
	begun := r.now()
	n, err := r.in.Read(b)
	r.waited += r.now().Sub(begun)
	r.bytes += int64(n)
	isSlow := r.waited > r.rate.Grace && r.bytes < int64(r.waited.Seconds()*float64(r.rate.Bytes))
	if isSlow && err == nil {
		return n, ErrSlow
	}
	return n, err
}
