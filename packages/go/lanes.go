package rapidhash

// alternating has every second bit set.
const alternating = 0xaaaaaaaaaaaaaaaa

// mix returns the XOR of the halves of a product.
func mix(a, b uint64) uint64 {
	low, high := multiply(a, b)
	return low ^ high
}

// mixTwice returns the mix of a product's halves, each after its mask.
func mixTwice(a, b, lowMask, highMask uint64) uint64 {
	low, high := multiply(a, b)
	return mix(low^lowMask, high^highMask)
}

// lanes are words that fold pairs of a message's words, each its own pairs one after another.
//
// The functions below fold whole rows, two at a time and lane by lane, and keep the lanes in memory: with the lanes in
// variables, the compiler moves all products before all XORs and runs out of registers.
type lanes [7]uint64

// start sets all lanes to the seed.
func (l *lanes) start(seed uint64) {
	l[0], l[1], l[2], l[3], l[4], l[5], l[6] = seed, seed, seed, seed, seed, seed, seed
}

// joined returns the XOR of all lanes. Lanes that have folded nothing cancel out, because their number is even.
func (l *lanes) joined() uint64 {
	return l[0] ^ l[1] ^ l[2] ^ l[3] ^ l[4] ^ l[5] ^ l[6]
}

// fold folds rows of one pair for each secret, and returns the bytes after them, which are at least so many.
func (l *lanes) fold(data string, least int, s []uint64) string {
	end := uint(len(data) - least)
	switch len(s) {
	case 7:
		end = end / 112 * 112
		l.fold7(data[:end], (*[7]uint64)(s))
	case 5:
		end = end / 80 * 80
		l.fold5(data[:end], (*[5]uint64)(s))
	default:
		end = end / 48 * 48
		l.fold3(data[:end], (*[3]uint64)(s))
	}
	return data[end:]
}

// fold7 folds rows of 112 bytes into seven lanes.
func (l *lanes) fold7(rows string, s *[7]uint64) {
	for ; len(rows) >= 224; rows = rows[224:] {
		r := rows[:224]
		l[0] = mix(read64(r[112:])^s[0], read64(r[120:])^mix(read64(r)^s[0], read64(r[8:])^l[0]))
		l[1] = mix(read64(r[128:])^s[1], read64(r[136:])^mix(read64(r[16:])^s[1], read64(r[24:])^l[1]))
		l[2] = mix(read64(r[144:])^s[2], read64(r[152:])^mix(read64(r[32:])^s[2], read64(r[40:])^l[2]))
		l[3] = mix(read64(r[160:])^s[3], read64(r[168:])^mix(read64(r[48:])^s[3], read64(r[56:])^l[3]))
		l[4] = mix(read64(r[176:])^s[4], read64(r[184:])^mix(read64(r[64:])^s[4], read64(r[72:])^l[4]))
		l[5] = mix(read64(r[192:])^s[5], read64(r[200:])^mix(read64(r[80:])^s[5], read64(r[88:])^l[5]))
		l[6] = mix(read64(r[208:])^s[6], read64(r[216:])^mix(read64(r[96:])^s[6], read64(r[104:])^l[6]))
	}
	if len(rows) >= 112 {
		r := rows[:112]
		l[0] = mix(read64(r)^s[0], read64(r[8:])^l[0])
		l[1] = mix(read64(r[16:])^s[1], read64(r[24:])^l[1])
		l[2] = mix(read64(r[32:])^s[2], read64(r[40:])^l[2])
		l[3] = mix(read64(r[48:])^s[3], read64(r[56:])^l[3])
		l[4] = mix(read64(r[64:])^s[4], read64(r[72:])^l[4])
		l[5] = mix(read64(r[80:])^s[5], read64(r[88:])^l[5])
		l[6] = mix(read64(r[96:])^s[6], read64(r[104:])^l[6])
	}
}

// fold5 folds rows of 80 bytes into the first five lanes.
func (l *lanes) fold5(rows string, s *[5]uint64) {
	for ; len(rows) >= 160; rows = rows[160:] {
		r := rows[:160]
		l[0] = mix(read64(r[80:])^s[0], read64(r[88:])^mix(read64(r)^s[0], read64(r[8:])^l[0]))
		l[1] = mix(read64(r[96:])^s[1], read64(r[104:])^mix(read64(r[16:])^s[1], read64(r[24:])^l[1]))
		l[2] = mix(read64(r[112:])^s[2], read64(r[120:])^mix(read64(r[32:])^s[2], read64(r[40:])^l[2]))
		l[3] = mix(read64(r[128:])^s[3], read64(r[136:])^mix(read64(r[48:])^s[3], read64(r[56:])^l[3]))
		l[4] = mix(read64(r[144:])^s[4], read64(r[152:])^mix(read64(r[64:])^s[4], read64(r[72:])^l[4]))
	}
	if len(rows) >= 80 {
		r := rows[:80]
		l[0] = mix(read64(r)^s[0], read64(r[8:])^l[0])
		l[1] = mix(read64(r[16:])^s[1], read64(r[24:])^l[1])
		l[2] = mix(read64(r[32:])^s[2], read64(r[40:])^l[2])
		l[3] = mix(read64(r[48:])^s[3], read64(r[56:])^l[3])
		l[4] = mix(read64(r[64:])^s[4], read64(r[72:])^l[4])
	}
}

// fold3 folds rows of 48 bytes into the first three lanes.
func (l *lanes) fold3(rows string, s *[3]uint64) {
	for ; len(rows) >= 192; rows = rows[192:] {
		r := rows[:192]
		x := mix(read64(r[48:])^s[0], read64(r[56:])^mix(read64(r)^s[0], read64(r[8:])^l[0]))
		y := mix(read64(r[64:])^s[1], read64(r[72:])^mix(read64(r[16:])^s[1], read64(r[24:])^l[1]))
		z := mix(read64(r[80:])^s[2], read64(r[88:])^mix(read64(r[32:])^s[2], read64(r[40:])^l[2]))
		l[0] = mix(read64(r[144:])^s[0], read64(r[152:])^mix(read64(r[96:])^s[0], read64(r[104:])^x))
		l[1] = mix(read64(r[160:])^s[1], read64(r[168:])^mix(read64(r[112:])^s[1], read64(r[120:])^y))
		l[2] = mix(read64(r[176:])^s[2], read64(r[184:])^mix(read64(r[128:])^s[2], read64(r[136:])^z))
	}
	l.fold3Rest(rows, s)
}

// fold3Rest folds up to three rows.
func (l *lanes) fold3Rest(rows string, s *[3]uint64) {
	for ; len(rows) >= 48; rows = rows[48:] {
		r := rows[:48]
		l[0] = mix(read64(r)^s[0], read64(r[8:])^l[0])
		l[1] = mix(read64(r[16:])^s[1], read64(r[24:])^l[1])
		l[2] = mix(read64(r[32:])^s[2], read64(r[40:])^l[2])
	}
}
