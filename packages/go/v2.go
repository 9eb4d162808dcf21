package rapidhash

// v2 returns the hash of V2.0, V2.1 or V2.2. It panics for a number that is no version.
func v2(data string, v VersionV2, seed uint64, s *[7]uint64) uint64 {
	if v > V22 {
		panic(noVersion)
	}
	var a, b uint64
	n := uint64(len(data))
	seed ^= n
	switch end := len(data) - 8; {
	case n > 16:
		seed = v2Lanes(data, v, seed, s)
		a, b = read64(data[end-8:]), read64(data[end:])
	case n >= 8:
		a, b = read64(data), read64(data[end:])
	case n >= 4:
		a, b = read32(data), read32(data[end+4:])
	case n > 0 && v == V22:
		a, b = uint64(data[0])<<56|uint64(data[n-1]), uint64(data[n/2])
	case n > 0:
		a = uint64(data[0])<<56 | uint64(data[n/2])<<32 | uint64(data[n-1])
	}
	return mixTwice(a^s[1], b^seed, alternating^n, s[1])
}

// v2Lanes returns the seed after the rows of more than 16 bytes and the tail's pairs. Rows of three lanes follow the
// rows of seven. Up to a limit a message has no rows.
func v2Lanes(data string, v VersionV2, seed uint64, s *[7]uint64) uint64 {
	if len(data) > 64 || len(data) > 56 && v == V20 {
		var folded lanes
		folded.start(seed)
		tail := folded.fold(data, 0, s[:])
		tail = folded.fold(tail, 0, s[:3])
		return foldTwo(tail, folded.joined(), s[2])
	}
	seed = mix(read64(data)^s[0], read64(data[8:])^seed)
	if len(data) > 32 {
		seed = mix(read64(data[16:])^s[1], read64(data[24:])^seed)
	}
	if len(data) > 48 {
		seed = mix(read64(data[32:])^s[v/2], read64(data[40:])^seed)
	}
	return seed
}
