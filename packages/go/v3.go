package rapidhash

// v3 returns the hash of V3 or a relative. A number that is no version panics where it costs nothing to others: if the
// message has rows of so many bytes, or is longer than a row of V3.
func v3(data string, v VersionV3, seed uint64, s *[7]uint64) uint64 {
	if len(data) > 16 {
		tail := data
		if uint(len(data)) > uint(v) {
			var folded lanes
			folded.start(seed)
			tail = folded.fold(data, 1, s[:v.lanes()])
			seed = folded.joined()
		} else if len(data) > int(V3) {
			panic(noVersion)
		}
		return v3Close(tail, data, seed, s)
	}
	var a, b uint64
	n := uint64(len(data))
	if n >= 8 {
		seed ^= n
		a, b = read64(data), read64(data[n-8:])
	} else if n >= 4 {
		seed ^= n
		a, b = read32(data), read32(data[n-4:])
	} else if n > 0 {
		a, b = uint64(data[0])<<45|uint64(data[n-1]), uint64(data[n/2])
	}
	return mixTwice(a^s[1], b^seed, alternating, s[1]^n)
}

// v3Close returns the hash from the tail, the joined lanes, and bytes that end with the message's last 16.
func v3Close(tail, ending string, seed uint64, s *[7]uint64) uint64 {
	last, t := ending[len(ending)-16:], uint64(len(tail))
	if len(tail) > 16 {
		seed = mix(read64(tail)^s[2], read64(tail[8:])^seed)
	}
	if len(tail) > 32 {
		seed = mix(read64(tail[16:])^s[2], read64(tail[24:])^seed)
	}
	if len(tail) > 48 {
		seed = mix(read64(tail[32:])^s[1], read64(tail[40:])^seed)
	}
	if len(tail) > 64 {
		seed = mix(read64(tail[48:])^s[1], read64(tail[56:])^seed)
	}
	if len(tail) > 80 {
		seed = mix(read64(tail[64:])^s[2], read64(tail[72:])^seed)
	}
	if len(tail) > 96 {
		seed = mix(read64(tail[80:])^s[1], read64(tail[88:])^seed)
	}
	return mixTwice(read64(last)^t^s[1], read64(last[8:])^seed, alternating, s[1]^t)
}
