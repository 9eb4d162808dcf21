package rapidhash

// multiplyProtected returns the halves of a product, each XORed with a factor: a factor of 0 does not erase the other.
func multiplyProtected(a, b uint64) (low, high uint64) {
	low, high = multiply(a, b)
	return low ^ a, high ^ b
}

// foldPair returns a lane after it has folded 16 bytes.
func foldPair(pair string, lane, secret uint64) uint64 {
	low, high := multiplyProtected(read64(pair)^secret, read64(pair[8:])^lane)
	return low ^ high
}

// protected returns the hash of V3 with protected products.
func protected(data string, seed uint64, s *[7]uint64) uint64 {
	a, b, t := uint64(0), uint64(0), uint64(len(data))
	switch n := len(data); {
	case n > 16:
		seed, t = protectedLanes(data, seed, s)
		a, b = read64(data[n-16:])^t, read64(data[n-8:])
	case n >= 8:
		a, b, seed = read64(data), read64(data[n-8:]), seed^t
	case n >= 4:
		a, b, seed = read32(data), read32(data[n-4:]), seed^t
	case n > 0:
		a, b = uint64(data[0])<<45|uint64(data[n-1]), uint64(data[n/2])
	}
	low, high := multiplyProtected(a^s[1], b^seed)
	low, high = multiplyProtected(low^alternating, high^s[1]^t)
	return low ^ high
}

// protectedLanes returns the seed after the rows of more than 16 bytes and the tail's pairs, and the tail's length.
func protectedLanes(data string, seed uint64, s *[7]uint64) (after, t uint64) {
	var folded lanes
	folded.start(seed)
	tail := data
	for ; len(tail) > 112; tail = tail[112:] {
		for lane := range folded {
			folded[lane] = foldPair(tail[16*lane:], folded[lane], s[lane])
		}
	}
	return protectedTail(tail, folded.joined(), s), uint64(len(tail))
}

// protectedTail returns the seed after the tail's pairs.
func protectedTail(tail string, seed uint64, s *[7]uint64) uint64 {
	for pair, secret := range [...]uint64{s[2], s[2], s[1], s[1], s[2], s[1]} {
		if len(tail) > 16*pair+16 {
			seed = foldPair(tail[16*pair:], seed, secret)
		}
	}
	return seed
}
