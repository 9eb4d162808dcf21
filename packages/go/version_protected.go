package rapidhash

// VersionProtected is the type of V3Protected, which has no streams.
type VersionProtected struct{}

// V3Protected is V3 with products in which a factor of 0 does not erase the other.
var V3Protected VersionProtected

// String returns the name of the version.
func (VersionProtected) String() string { return "V3Protected" }

// Sum64 returns the hash of data with the default seed and secrets.
func (VersionProtected) Sum64(data []byte) uint64 {
	return protected(textOf(data), defaultSeed, &defaults)
}

// Sum64String returns the hash that Sum64 returns for the bytes of text, without a copy.
func (VersionProtected) Sum64String(text string) uint64 {
	return protected(text, defaultSeed, &defaults)
}

// Sum64WithSeed returns the hash of data with the default secrets and a seed word.
func (VersionProtected) Sum64WithSeed(data []byte, seed uint64) uint64 {
	return protected(textOf(data), seedOf(seed), &defaults)
}

// Sum64StringWithSeed returns the hash that Sum64WithSeed returns for the bytes of text.
func (VersionProtected) Sum64StringWithSeed(text string, seed uint64) uint64 {
	return protected(text, seedOf(seed), &defaults)
}

// Sum64WithSecrets returns the hash of data with a seed and secrets. It panics if they are nil.
func (VersionProtected) Sum64WithSecrets(data []byte, s *Secrets) uint64 {
	if s == nil {
		panic(nilSecrets)
	}
	return protected(textOf(data), s.Seed, &s.Secrets)
}

// Sum64StringWithSecrets returns the hash that Sum64WithSecrets returns for the bytes of text.
func (VersionProtected) Sum64StringWithSecrets(text string, s *Secrets) uint64 {
	if s == nil {
		panic(nilSecrets)
	}
	return protected(text, s.Seed, &s.Secrets)
}
