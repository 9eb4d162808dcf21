package rapidhash

// v1 returns the hash of V1.
func v1(data string, seed uint64, s *[3]uint64) uint64 {
	var a, b uint64
	n := uint64(len(data))
	seed ^= n
	switch end := len(data) - 4; {
	case n > 16:
		seed = v1Lanes(data, seed, s)
		a, b = read64(data[end-12:]), read64(data[end-4:])
	case n >= 8:
		a, b = read32(data)<<32|read32(data[end:]), read32(data[4:])<<32|read32(data[end-4:])
	case n >= 4:
		a = read32(data)<<32 | read32(data[end:])
		b = a
	case n > 0:
		a = uint64(data[0])<<56 | uint64(data[n/2])<<32 | uint64(data[n-1])
	}
	return mixTwice(a^s[1], b^seed, s[0]^n, s[1])
}

// v1Lanes returns the seed after the rows of more than 16 bytes and the tail's pairs.
func v1Lanes(data string, seed uint64, s *[3]uint64) uint64 {
	tail := data
	if len(data) > 48 {
		var folded lanes
		folded.start(seed)
		tail = folded.fold(data, 0, s[:])
		seed = folded.joined()
	}
	if len(tail) > 16 {
		seed ^= s[1]
	}
	return foldTwo(tail, seed, s[2])
}

// foldTwo returns the seed after it has folded up to two pairs, which the last 1 to 16 bytes of a tail are no part of.
func foldTwo(tail string, seed, secret uint64) uint64 {
	if len(tail) > 16 {
		seed = mix(read64(tail)^secret, read64(tail[8:])^seed)
	}
	if len(tail) > 32 {
		seed = mix(read64(tail[16:])^secret, read64(tail[24:])^seed)
	}
	return seed
}
