package rapidhash

import (
	"math/big"
	"math/rand"
	"testing"
)

// TestProduct compares the product of words at which a carry or a half could be wrong.
func TestProduct(t *testing.T) {
	words := []uint64{0, 1, 2, 3, 1<<31 - 1, 1 << 31, 1<<32 - 2, 1<<32 - 1, 1 << 32, 1<<32 + 1, 1<<64 - 1<<32,
		1<<63 - 1, 1 << 63, 1<<63 + 1, 1<<64 - 2, 1<<64 - 1, s0, 0xdeadbeefcafef00d}
	number := func(word uint64) *big.Int { return new(big.Int).SetUint64(word) }
	for _, a := range words {
		for _, b := range words {
			low, high := multiply(a, b)
			found, known := number(high), number(a)
			found.Add(found.Lsh(found, 64), number(low))
			if known.Mul(known, number(b)); found.Cmp(known) != 0 {
				t.Errorf("%#x * %#x: %#x, and %#x is the product", a, b, found, known)
			}
			compare(t, "mix", mix(a, b), low^high)
		}
	}
}

// TestRandomProducts compares so many products, from four of 32-bit halves, that an error for a word in 2^20 is seen.
func TestRandomProducts(t *testing.T) {
	const half = 1<<32 - 1
	random := rand.New(rand.NewSource(1))
	for i := 0; i < 1<<24; i++ {
		a, b := random.Uint64(), random.Uint64()
		cross := a >> 32 * (b & half)
		middle := a&half*(b>>32) + a&half*(b&half)>>32 + cross&half
		known := a>>32*(b>>32) + cross>>32 + middle>>32
		if low, high := multiply(a, b); low != a*b || high != known || mix(a, b) != low^high {
			t.Fatalf("%#x * %#x: %#x and %#x", a, b, high, low)
		}
	}
}
