package s3

import (
	"encoding/base64"
	"math/rand"
	"testing"
)

// The check of two texts is that of both together, whatever their lengths.
func TestCombine(t *testing.T) {
	random := rand.New(rand.NewSource(3))
	sumOf := func(field string, text []byte) string {
		h := digests[field]()
		h.Write(text)
		return base64.StdEncoding.EncodeToString(h.Sum(nil))
	}
	for field, kind := range crcKinds {
		for _, size := range []int{0, 1, 2, 7, 8, 9, 63, 64, 65, 1000, 4096, 65537} {
			first, second := make([]byte, random.Intn(300)), make([]byte, size)
			random.Read(first)
			random.Read(second)
			a, err := kind.read(sumOf(field, first))
			if err != nil {
				t.Fatal(err)
			}
			b, err := kind.read(sumOf(field, second))
			if err != nil {
				t.Fatal(err)
			}
			if got, want := kind.write(kind.after(a, b, int64(size))), sumOf(field, append(first, second...)); got != want {
				t.Fatal(field, size, got, want)
			}
		}
	}
}
