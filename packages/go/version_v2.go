package rapidhash

import "fmt"

// VersionV2 is the type of V20, V21 and V22, which have no streams. Another number panics.
type VersionV2 uint

// V20, V21 and V22 are V2.0, V2.1 and V2.2 of the Rust crate.
const (
	V20 VersionV2 = iota
	V21
	V22
)

// String returns the name of the version.
func (v VersionV2) String() string {
	if v > V22 {
		return fmt.Sprintf("VersionV2(%d)", uint(v))
	}
	return [...]string{"V20", "V21", "V22"}[v]
}

// Sum64 returns the hash of data with the default seed and secrets.
func (v VersionV2) Sum64(data []byte) uint64 { return v2(textOf(data), v, defaultSeed, &defaults) }

// Sum64String returns the hash that Sum64 returns for the bytes of text, without a copy.
func (v VersionV2) Sum64String(text string) uint64 { return v2(text, v, defaultSeed, &defaults) }

// Sum64WithSeed returns the hash of data with the default secrets and a seed word.
func (v VersionV2) Sum64WithSeed(data []byte, seed uint64) uint64 {
	return v2(textOf(data), v, seedOf(seed), &defaults)
}

// Sum64StringWithSeed returns the hash that Sum64WithSeed returns for the bytes of text.
func (v VersionV2) Sum64StringWithSeed(text string, seed uint64) uint64 {
	return v2(text, v, seedOf(seed), &defaults)
}

// Sum64WithSecrets returns the hash of data with a seed and secrets. It panics if they are nil.
func (v VersionV2) Sum64WithSecrets(data []byte, s *Secrets) uint64 {
	if s == nil {
		panic(nilSecrets)
	}
	return v2(textOf(data), v, s.Seed, &s.Secrets)
}

// Sum64StringWithSecrets returns the hash that Sum64WithSecrets returns for the bytes of text.
func (v VersionV2) Sum64StringWithSecrets(text string, s *Secrets) uint64 {
	if s == nil {
		panic(nilSecrets)
	}
	return v2(text, v, s.Seed, &s.Secrets)
}
