package rapidhash

import (
	"bytes"
	"fmt"
	"sync"
	"testing"
)

// data returns the bytes 0 to 119. The versions of V2 differ at 60 bytes, and V3 and its relatives at 120.
func data() []byte {
	data := make([]byte, 120)
	for at := range data {
		data[at] = byte(at)
	}
	return data
}

var own = Secrets{1, [7]uint64{2, 3, 5, 7, 11, 13, 17}}

// compare compares a value with the known value of the Rust crate rapidhash 4.5.1.
func compare[T comparable](t *testing.T, name string, value, known T) {
	t.Helper()
	if value != known {
		t.Errorf("%s: %v, and %v is the known value", name, value, known)
	}
}

func TestZeroStreams(t *testing.T) {
	var written, read, reset, sized Stream
	written.Write(data())
	compare(t, "written", written.Sum64(), 7088138960297660729)
	compare(t, "of nothing", read.Sum64(), 232177599295442350)
	reset.Reset()
	other := reset
	other.Write(data())
	compare(t, "reset and copied", other.Sum64(), 7088138960297660729)
	compare(t, "block size", uint64(sized.BlockSize()), 112)
	compare(t, "of micro", uint64(V3Micro.New().BlockSize()), 80)
	saved, _ := new(Stream).MarshalBinary()
	if known, _ := New().MarshalBinary(); !bytes.Equal(saved, known) {
		t.Errorf("%x is not %x", saved, known)
	}
}

// TestConcurrentCalls runs all calls with the same messages and secrets, as the race detector also checks.
func TestConcurrentCalls(t *testing.T) {
	bytes, text, secrets := long()[:700], string(long()[:700]), MakeSecrets(7)
	all := func() (sum uint64) {
		for n := 1; n <= len(bytes); n *= 2 {
			sum += V3Key(Text(text[:n]), Integer(int64(n)))
			for _, call := range calls {
				sum += call.Sum64(bytes[:n]) + call.Sum64WithSeed(bytes[:n], 7) + call.Sum64WithSecrets(bytes[:n], secrets)
				sum += call.Sum64String(text[:n]) + call.Sum64StringWithSeed(text[:n], 7)
				sum += call.Sum64StringWithSecrets(text[:n], secrets)
			}
			for _, version := range streams {
				first, second := version.NewWithSecrets(secrets), version.NewWithSecrets(secrets)
				first.Write(bytes[:n])
				saved, _ := first.MarshalBinary()
				second.UnmarshalBinary(saved)
				second.WriteString(text[:n])
				sum += second.Sum64() + version.NewWithSeed(7).Sum64() + version.New().Sum64()
			}
		}
		return sum + MakeSecrets(7).Secrets[6]
	}
	var group sync.WaitGroup
	for known, worker := all(), 0; worker < 4; worker++ {
		group.Add(1)
		go func() {
			defer group.Done()
			for count := 0; count < 30; count++ {
				compare(t, "the sum of a goroutine", all(), known)
			}
		}()
	}
	group.Wait()
}

// panicOf returns the panic of a call.
func panicOf(call func()) (found any) {
	defer func() { found = recover() }()
	call()
	return nil
}

// TestNilSecretsPanic checks that each call refuses nil secrets with the same message, also for a message without a
// byte.
func TestNilSecretsPanic(t *testing.T) {
	cases := map[string]func(){"key of nothing": func() { V3KeyWithSecrets(nil) }}
	cases["key"] = func() { V3KeyWithSecrets(nil, Integer(1)) }
	for name, call := range calls {
		hash, hashText := call.Sum64WithSecrets, call.Sum64StringWithSecrets
		cases[name] = func() { hash(data(), nil) }
		cases[name+" of nothing"] = func() { hash(nil, nil) }
		cases[name+" of a string"] = func() { hashText("hello", nil) }
		if version, isStream := streams[name]; isStream {
			cases[name+" stream"] = func() { version.NewWithSecrets(nil) }
		}
	}
	for name, call := range cases {
		if found := panicOf(call); found != nilSecrets {
			t.Errorf("%s with nil secrets: %v", name, found)
		}
	}
}

// hasStream returns whether a number is a version of V3.
func hasStream(number uint) bool { return number == 112 || number == 80 || number == 48 }

// panicsAsNoVersion checks that the call of a number that is no version panics, and no other. A number of V3 may return
// the hash of V3 instead, up to 112 bytes.
func panicsAsNoVersion(t *testing.T, name string, isVersion bool, v3 uint64, call func() uint64) {
	t.Helper()
	value := v3 + 1
	found := panicOf(func() { value = call() })
	if isVersion && found != nil || !isVersion && found != noVersion && (found != nil || value != v3) {
		t.Errorf("%s: %v", name, found)
	}
}

func TestNoVersionPanics(t *testing.T) {
	message := make([]byte, 5000)
	for _, size := range []int{0, 1, 7, 16, 17, 48, 49, 97, 112, 113, 224, 300, 5000} {
		bytes, text, secrets, known := message[:size], string(message[:size]), SeedSecrets(0), V3.Sum64(message[:size])
		for _, number := range []uint{0, 1, 2, 3, 47, 48, 49, 79, 80, 81, 111, 112, 113, 4999} {
			for kind, version := range map[string]hasher{"V2": VersionV2(number), "V3": VersionV3(number)} {
				is, v3 := kind == "V2" && number < 3 || kind == "V3" && hasStream(number), known
				if kind == "V2" || size > 112 {
					v3++ // which no call returns
				}
				for name, call := range map[string]func() uint64{
					"slice":               func() uint64 { return version.Sum64(bytes) },
					"string":              func() uint64 { return version.Sum64String(text) },
					"slice with a seed":   func() uint64 { return version.Sum64WithSeed(bytes, 0) },
					"string with a seed":  func() uint64 { return version.Sum64StringWithSeed(text, 0) },
					"slice with secrets":  func() uint64 { return version.Sum64WithSecrets(bytes, secrets) },
					"string with secrets": func() uint64 { return version.Sum64StringWithSecrets(text, secrets) },
				} {
					panicsAsNoVersion(t, fmt.Sprint(kind, number, name, size), is, v3, call)
				}
			}
		}
	}
}

// TestNoVersionHasNoStream checks that a number that is no version of V3 starts no stream.
func TestNoVersionHasNoStream(t *testing.T) {
	for _, number := range []uint{0, 3, 47, 48, 49, 79, 80, 81, 111, 112, 113} {
		v3 := VersionV3(number)
		for _, start := range []func() *Stream{v3.New, func() *Stream { return v3.NewWithSeed(7) },
			func() *Stream { return v3.NewWithSecrets(&own) }} {
			found := panicOf(func() { start() })
			if hasStream(number) != (found == nil) || found != nil && found != noVersion {
				t.Errorf("%d: %v", number, found)
			}
		}
	}
}

// TestNoShards tests the texts of the panics.
func TestNoShards(t *testing.T) {
	for text, call := range map[string]func(){
		"rapidhash: Shard: the count must be at least 1":          func() { Shard(7, 0) },
		"rapidhash: FirstHash: the shard must be below the count": func() { FirstHash(10, 10) },
		"rapidhash: Bucket: the count must be at least 1":         func() { Bucket(7, 0) },
	} {
		if found := panicOf(call); found != text {
			t.Errorf("%v is not: %s", found, text)
		}
	}
}
