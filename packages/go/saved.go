package rapidhash

import (
	"bytes"
	"encoding/binary"
	"errors"
	"fmt"
	"hash/crc64"
)

// foldedSize is the number of folded bytes that a stream keeps: the last words of its message may begin in them.
const foldedSize = 16

// savedSize is the length of a saved stream. docs/BINDINGS.md has the format.
const savedSize = 208

// savedName begins every saved stream. Its last byte is the version of the format.
const savedName = "rapidV3\x02"

// MarshalBinary returns the saved stream: 208 bytes, the same on every machine and in every language. They contain
// bytes of the message, but no secrets. The error is always nil.
func (stream *Stream) MarshalBinary() ([]byte, error) {
	return stream.AppendBinary(make([]byte, 0, savedSize))
}

// AppendBinary appends the saved stream, as MarshalBinary returns it. The error is always nil.
func (stream *Stream) AppendBinary(out []byte) ([]byte, error) {
	if stream.count == 0 {
		return New().AppendBinary(out)
	}
	from, start, flag := len(out), foldedSize, uint8(0)
	if stream.isFolded {
		start, flag = 0, 1
	}
	out = append(append(out, savedName...), uint8(stream.count), 1, flag, uint8(stream.size), 0, 0, 0, 0)
	for _, lane := range stream.lanes {
		out = binary.LittleEndian.AppendUint64(out, lane^stream.secrets.Seed)
	}
	var kept [foldedSize + 112]byte
	copy(kept[start:], stream.kept[start:foldedSize+stream.size])
	out = append(out, kept[:]...)
	return binary.LittleEndian.AppendUint64(out, checkOf(out[from:], &stream.secrets)), nil
}

// checkOf returns the check of a saved stream. The CRC finds damage, whatever the message is; the hash of the bytes 0
// to 239 finds other secrets.
func checkOf(state []byte, secrets *Secrets) uint64 {
	var counted [240]byte
	for at := range counted {
		counted[at] = uint8(at)
	}
	return crc64.Checksum(state, crc64.MakeTable(crc64.ECMA)) ^ V3Protected.Sum64WithSecrets(counted[:], secrets)
}

// UnmarshalBinary replaces the message by that of a saved stream of the same version, seed and secrets. The zero Stream
// has the default ones and the version of the saved stream. If the bytes are not such a stream, UnmarshalBinary returns
// an error that names the reason, and does not change the stream.
func (stream *Stream) UnmarshalBinary(data []byte) error {
	if len(data) != savedSize {
		return fmt.Errorf("rapidhash: a saved Stream has %d bytes, not %d", savedSize, len(data))
	}
	if string(data[:len(savedName)]) != savedName {
		return errors.New("rapidhash: not a saved Stream, or one of another version of the format")
	}
	secrets, count := &stream.secrets, stream.count
	if stream.count == 0 {
		secrets, count = nil, int(data[8])
	}
	if int(data[8]) != count || data[9] != 1 {
		return fmt.Errorf("rapidhash: the Stream was saved with %d lanes and options %d, not %d and 1",
			data[8], data[9], count)
	}
	restored := *new(Stream).start(count, secrets)
	if !restored.load(data) {
		return errors.New("rapidhash: the saved Stream was changed, or has another seed or other secrets")
	}
	*stream = restored
	return nil
}

// load sets the state of a started stream. It returns whether the stream would be saved as the same bytes.
func (stream *Stream) load(data []byte) bool {
	count := stream.count
	if !VersionV3(16*count).isVersion() || int(data[11]) > 16*count || data[11] < data[10] {
		return false
	}
	stream.size, stream.isFolded = int(data[11]), data[10] == 1
	for at := range stream.lanes[:count] {
		if stream.isFolded {
			stream.lanes[at] ^= binary.LittleEndian.Uint64(data[16+8*at:])
		}
	}
	copy(stream.kept[:], data[72:])
	var room [savedSize]byte
	again, _ := stream.AppendBinary(room[:0])
	return bytes.Equal(again, data)
}
