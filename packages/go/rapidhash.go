// Package rapidhash provides the rapidhash family of 64-bit hashes:
//
//	rapidhash.Sum64([]byte("hello"))         // 3327445792987248966, by V3
//	rapidhash.Sum64String("hello")           // the same, without a copy
//	rapidhash.V21.Sum64([]byte("hello"))     // by V2.1
//	rapidhash.V3Nano.NewWithSeed(7)          // a stream of V3 nano, with a seed word
//
// Each version is a value with the same methods: [V1], [V20], [V21], [V22], [V3], [V3Micro], [V3Nano] and
// [V3Protected]. Only V3, micro and nano have streams, and V1's secrets have their own type. A hash is the same on
// every run and on every machine, and equals that of the Rust crate rapidhash 4.5.1. The hashes are not cryptographic:
// someone who chooses the bytes can make two messages collide. Calls with nil secrets panic, also those that start a
// stream or hash a key.
//
// The package is plain Go without cgo and assembly, for every GOARCH. Calls can run concurrently, but only one
// goroutine at a time may use a [Stream]. Hashing allocates nothing.
//
// # Installation
//
// The package is in the directory packages/go of the repository, which $YERVOUND names here, and needs no registry:
//
//	go mod edit -replace yervound.example/rapidhash=$YERVOUND/packages/go
//	go get yervound.example/rapidhash
package rapidhash

import "unsafe"

// textOf returns bytes as a string, which is valid until they are modified. The hashes read strings, which have no
// capacity: slicing them is faster.
func textOf(data []byte) string { return *(*string)(unsafe.Pointer(&data)) }

// Sum64 returns the V3 hash of data with the default seed and secrets.
func Sum64(data []byte) uint64 { return v3(textOf(data), V3, defaultSeed, &defaults) }

// Sum64String returns the hash that Sum64 returns for the bytes of text, without a copy.
func Sum64String(text string) uint64 { return v3(text, V3, defaultSeed, &defaults) }
