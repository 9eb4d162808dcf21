package rapidhash

// VersionV1 is the type of V1, whose secrets are a SecretsV1. It has no streams.
type VersionV1 struct{}

// V1 is the oldest version of the Rust crate.
var V1 VersionV1

// String returns the name of the version.
func (VersionV1) String() string { return "V1" }

// Sum64 returns the hash of data with the default seed and secrets.
func (VersionV1) Sum64(data []byte) uint64 { return v1(textOf(data), defaultSeedV1, &defaultsV1) }

// Sum64String returns the hash that Sum64 returns for the bytes of text, without a copy.
func (VersionV1) Sum64String(text string) uint64 { return v1(text, defaultSeedV1, &defaultsV1) }

// Sum64WithSeed returns the hash of data with the default secrets and a seed word.
func (VersionV1) Sum64WithSeed(data []byte, seed uint64) uint64 {
	return v1(textOf(data), seedOfV1(seed), &defaultsV1)
}

// Sum64StringWithSeed returns the hash that Sum64WithSeed returns for the bytes of text.
func (VersionV1) Sum64StringWithSeed(text string, seed uint64) uint64 {
	return v1(text, seedOfV1(seed), &defaultsV1)
}

// Sum64WithSecrets returns the hash of data with a seed and secrets. It panics if they are nil.
func (VersionV1) Sum64WithSecrets(data []byte, s *SecretsV1) uint64 {
	if s == nil {
		panic(nilSecrets)
	}
	return v1(textOf(data), s.Seed, &s.Secrets)
}

// Sum64StringWithSecrets returns the hash that Sum64WithSecrets returns for the bytes of text.
func (VersionV1) Sum64StringWithSecrets(text string, s *SecretsV1) uint64 {
	if s == nil {
		panic(nilSecrets)
	}
	return v1(text, s.Seed, &s.Secrets)
}
