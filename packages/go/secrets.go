package rapidhash

// Secrets contains a seed and secrets for every version except V1.
type Secrets struct {
	Seed    uint64
	Secrets [7]uint64
}

// SecretsV1 contains a seed and secrets for V1.
type SecretsV1 struct {
	Seed    uint64
	Secrets [3]uint64
}

// nilSecrets is the panic of each call with nil secrets. The default ones in their place would be public.
const nilSecrets = "rapidhash: the secrets are nil: MakeSecrets makes secrets, and SeedSecrets returns the default ones"

// The default seeds are those of the seed words 0, and v1Word in V1. Constants have as many bits as a product needs.
const (
	s0            = 0x2d358dccaa6c78a5
	s1            = 0x8bb84b93962eacc9
	s2            = 0x4b33a62ed433d4a3
	v1Word        = 0xbdd89aa982704029
	defaultSeed   = s2*s1>>64 ^ s2*s1&(1<<64-1)
	defaultSeedV1 = v1Word ^ (v1Word^s0)*s1>>64 ^ (v1Word^s0)*s1&(1<<64-1)
)

var (
	defaultsV1 = [3]uint64{s0, s1, s2}
	defaults   = [7]uint64{s0, s1, s2, 0x4d5a2da51de1aa47, 0xa0761d6478bd642f, 0xe7037ed1a0b428db, 0x90ed1765281c388c}
)

// seedOf and seedOfV1 return the seed of a seed word.
func seedOf(word uint64) uint64   { return word ^ mix(word^s2, s1) }
func seedOfV1(word uint64) uint64 { return word ^ mix(word^s0, s1) }

// SeedSecrets returns the default secrets with the seed of a seed word, as Sum64WithSeed of a version uses them.
func SeedSecrets(word uint64) *Secrets { return &Secrets{seedOf(word), defaults} }

// SeedSecretsV1 is SeedSecrets for V1.
func SeedSecretsV1(word uint64) *SecretsV1 { return &SecretsV1{seedOfV1(word), defaultsV1} }

// MakeSecrets makes a seed and secrets from a number. Make them once and reuse them. If others choose the messages, use
// a random number: the default secrets are public, so a seed word does not stop an attacker.
func MakeSecrets(number uint64) *Secrets {
	secrets := &Secrets{Seed: premix(number, s0)}
	last := secrets.Seed
	for at, constant := range defaults {
		last = premix(last, constant)
		secrets.Secrets[at] = last
	}
	return secrets
}

// MakeSecretsV1 is MakeSecrets for V1.
func MakeSecretsV1(number uint64) *SecretsV1 {
	made := MakeSecrets(number)
	return &SecretsV1{made.Seed, *(*[3]uint64)(made.Secrets[:])}
}

// premix returns a mix of a word that has a bit set in its upper 16 bits, in bits 24 to 39, and in its lower 16 bits.
func premix(word, constant uint64) uint64 {
	word ^= mix(word^s2, constant)
	for _, bits := range [...]struct{ mask, bit uint64 }{{0xffff << 48, 1 << 63}, {0xffff << 24, 1 << 31}, {0xffff, 1}} {
		if word&bits.mask == 0 {
			word |= bits.bit
		}
	}
	return word
}
