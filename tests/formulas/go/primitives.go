package rapidhash

import "encoding/binary"

// This file replaces that of the package: the loads and the product are random functions of a key. Two programs that
// then return the same hash of a random message compute the same formula, except with probability 2^-64.
// formulas_test.go runs it.

// formulasKey is the key of the random functions.
var formulasKey uint64

// random returns a number that depends on the key, a tag for the kind of function, and two arguments.
func random(tag, a, b uint64) uint64 {
	x := formulasKey ^ tag*0x9e3779b97f4a7c15
	for _, word := range [2]uint64{a, b} {
		x ^= word
		x = (x ^ x>>32) * 0xd6e8feb86659fd93
		x = (x ^ x>>32) * 0xd6e8feb86659fd93
		x ^= x >> 32
	}
	return x
}

func read64(data string) uint64 {
	return random(1, binary.LittleEndian.Uint64([]byte(data[:8])), 0)
}

func read32(data string) uint64 {
	return uint64(uint32(random(2, uint64(binary.LittleEndian.Uint32([]byte(data[:4]))), 0)))
}

// multiply returns the same halves for either order of the factors.
func multiply(a, b uint64) (low, high uint64) {
	if a > b {
		a, b = b, a
	}
	return random(3, a, b), random(4, a, b)
}
