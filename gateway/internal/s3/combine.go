package s3

import (
	"encoding/base64"
	"encoding/binary"
	"hash/crc32"
)

// crcKind is a cyclic redundancy check of so many bits, by its polynomial with the lowest power in the highest bit.
type crcKind struct {
	bits       int
	polynomial uint64
}

var crcKinds = map[string]crcKind{
	checksumField + "crc32":     {32, crc32.IEEE},
	checksumField + "crc32c":    {32, crc32.Castagnoli},
	checksumField + "crc64nvme": {64, 0x9a6c9329ac4bc9b5},
}

// times multiplies two polynomials, modulo the kind's own.
func (k crcKind) times(a, b uint64) (product uint64) {
	for bit := uint64(1) << (k.bits - 1); bit > 0; bit >>= 1 {
		if a&bit != 0 {
			product ^= b
		}
		isCarried := b&1 != 0
		if b >>= 1; isCarried {
			b ^= k.polynomial
		}
	}
	return product
}

// after returns the check of bytes that follow one another: that of the first, and that of the second with their number. As many
// zeros behind the first multiply it by a power of x.
func (k crcKind) after(first, second uint64, size int64) uint64 {
	power, square := uint64(1)<<(k.bits-1), uint64(1)<<(k.bits-2) // (x to the power of 0, and of 1)
	for n := uint64(size) * 8; n > 0; n >>= 1 {
		if n&1 != 0 {
			power = k.times(power, square)
		}
		square = k.times(square, square)
	}
	return k.times(power, first) ^ second
}

// read reads a check in base64, whose form was tested.
func (k crcKind) read(text string) (uint64, error) {
	b, err := base64.StdEncoding.DecodeString(text)
	if err != nil || len(b) != k.bits/8 {
		return 0, err
	}
	return binary.BigEndian.Uint64(append(make([]byte, 8-len(b)), b...)), nil
}

// write writes a check in base64.
func (k crcKind) write(check uint64) string {
	return base64.StdEncoding.EncodeToString(binary.BigEndian.AppendUint64(nil, check)[8-k.bits/8:])
}
