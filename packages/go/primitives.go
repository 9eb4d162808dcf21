package rapidhash

import "math/bits"

// read64 returns the little-endian number in the first 8 bytes.
func read64(data string) uint64 {
	_ = data[7]
	return uint64(data[0]) | uint64(data[1])<<8 | uint64(data[2])<<16 | uint64(data[3])<<24 |
		uint64(data[4])<<32 | uint64(data[5])<<40 | uint64(data[6])<<48 | uint64(data[7])<<56
}

// read32 returns the little-endian number in the first 4 bytes.
func read32(data string) uint64 {
	_ = data[3]
	return uint64(uint32(data[0]) | uint32(data[1])<<8 | uint32(data[2])<<16 | uint32(data[3])<<24)
}

// multiply returns the halves of the product of two words.
func multiply(a, b uint64) (low, high uint64) {
	high, low = bits.Mul64(a, b)
	return low, high
}
