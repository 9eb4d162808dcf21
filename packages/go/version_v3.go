package rapidhash

import "fmt"

// VersionV3 is the type of V3, V3Micro and V3Nano, which also have streams. Another number panics when it starts a
// stream or hashes more than 112 bytes. Up to there it panics or returns the hash of V3.
type VersionV3 uint

// V3, V3Micro and V3Nano fold rows of so many bytes. Up to 48 bytes their hashes are equal.
const (
	V3      VersionV3 = 112
	V3Micro VersionV3 = 80
	V3Nano  VersionV3 = 48
)

// String returns the name of the version.
func (v VersionV3) String() string {
	switch v {
	case V3:
		return "V3"
	case V3Micro:
		return "V3Micro"
	case V3Nano:
		return "V3Nano"
	}
	return fmt.Sprintf("VersionV3(%d)", uint(v))
}

// noVersion is the panic of a number that is no version.
const noVersion = "rapidhash: the number is no version: use V20, V21, V22, V3, V3Micro or V3Nano"

// isVersion returns whether the number is a version.
func (v VersionV3) isVersion() bool { return v == V3 || v == V3Micro || v == V3Nano }

// lanes returns the number of lanes. It panics for a number that is no version.
func (v VersionV3) lanes() int {
	if !v.isVersion() {
		panic(noVersion)
	}
	return int(v / 16)
}

// Sum64 returns the hash of data with the default seed and secrets.
func (v VersionV3) Sum64(data []byte) uint64 { return v3(textOf(data), v, defaultSeed, &defaults) }

// Sum64String returns the hash that Sum64 returns for the bytes of text, without a copy.
func (v VersionV3) Sum64String(text string) uint64 { return v3(text, v, defaultSeed, &defaults) }

// Sum64WithSeed returns the hash of data with the default secrets and a seed word.
func (v VersionV3) Sum64WithSeed(data []byte, seed uint64) uint64 {
	return v3(textOf(data), v, seedOf(seed), &defaults)
}

// Sum64StringWithSeed returns the hash that Sum64WithSeed returns for the bytes of text.
func (v VersionV3) Sum64StringWithSeed(text string, seed uint64) uint64 {
	return v3(text, v, seedOf(seed), &defaults)
}

// Sum64WithSecrets returns the hash of data with a seed and secrets. It panics if they are nil.
func (v VersionV3) Sum64WithSecrets(data []byte, s *Secrets) uint64 {
	if s == nil {
		panic(nilSecrets)
	}
	return v3(textOf(data), v, s.Seed, &s.Secrets)
}

// Sum64StringWithSecrets returns the hash that Sum64WithSecrets returns for the bytes of text.
func (v VersionV3) Sum64StringWithSecrets(text string, s *Secrets) uint64 {
	if s == nil {
		panic(nilSecrets)
	}
	return v3(text, v, s.Seed, &s.Secrets)
}

// New starts a stream with the default seed and secrets.
func (v VersionV3) New() *Stream { return new(Stream).startVersion(v, nil) }

// NewWithSeed starts a stream with the default secrets and a seed word.
func (v VersionV3) NewWithSeed(seed uint64) *Stream {
	return new(Stream).startVersion(v, &Secrets{seedOf(seed), defaults})
}

// NewWithSecrets starts a stream with a seed and secrets, which it copies. It panics if they are nil.
func (v VersionV3) NewWithSecrets(s *Secrets) *Stream {
	if s == nil {
		panic(nilSecrets)
	}
	return new(Stream).startVersion(v, s)
}
