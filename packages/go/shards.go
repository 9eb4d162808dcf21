package rapidhash

import "math/bits"

// Shard returns the shard of a hash, below count: the integer part of hash * count / 2^64. Each shard has equally many
// hashes, to one, and a multiple of the count splits it. It panics if count is 0.
func Shard(hash, count uint64) uint64 {
	if count == 0 {
		panic("rapidhash: Shard: the count must be at least 1")
	}
	shard, _ := bits.Mul64(hash, count)
	return shard
}

// FirstHash returns the first hash of a shard, which has the hashes from it to before the first of the next shard. It
// panics if shard is not below count.
func FirstHash(shard, count uint64) uint64 {
	if shard >= count {
		panic("rapidhash: FirstHash: the shard must be below the count")
	}
	first, _ := bits.Div64(shard, count-1, count)
	return first
}

// Bucket returns the bucket of a hash, below count, by jump consistent hashing in integers: among more buckets a hash
// keeps its bucket, or has a new one. It panics if count is 0.
func Bucket(hash uint64, count uint32) uint32 {
	if count == 0 {
		panic("rapidhash: Bucket: the count must be at least 1")
	}
	for at, next := uint32(0), uint64(0); ; at = uint32(next) {
		hash = hash*2862933555777941757 + 1
		if next = (uint64(at) + 1) << 31 / (hash>>33 + 1); next >= uint64(count) {
			return at
		}
	}
}

// Fingerprint returns the fingerprint of the hashes of rows: their sum modulo 2^64, in any order. That of parts is the
// sum of theirs. It does not protect against someone who chooses the rows.
func Fingerprint(hashes ...uint64) (sum uint64) {
	for _, hash := range hashes {
		sum += hash
	}
	return sum
}
