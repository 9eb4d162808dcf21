package rapidhash

import (
	"encoding"
	"encoding/binary"
	"hash"
	"io"
)

// A Stream hashes a message in pieces, with a VersionV3, whose methods start it. The zero Stream behaves like that of
// V3.New. It contains a copy of its secrets, and a copy made with = is independent.
//
// It is a hash.Hash64, so io.Copy can write to it. MarshalBinary saves it in the middle of a message.
type Stream struct {
	secrets  Secrets
	lanes    lanes
	kept     [foldedSize + 112]byte // the last bytes folded, and then those that follow
	size     int                    // the number of bytes that follow
	count    int                    // the number of lanes, or 0 if the stream is not started
	isFolded bool                   // whether the lanes have folded a row
}

var (
	_ hash.Hash64                = (*Stream)(nil)
	_ io.StringWriter            = (*Stream)(nil)
	_ encoding.BinaryMarshaler   = (*Stream)(nil)
	_ encoding.BinaryUnmarshaler = (*Stream)(nil)
)

// New starts a stream of V3 with the default seed and secrets, as Sum64 has them.
func New() *Stream { return new(Stream).start(7, nil) }

// startVersion starts a stream of a version. It panics for a number that is no version. The compiler inlines its
// callers instead, so that the new stream can remain on the stack of theirs.
//
//go:noinline
func (stream *Stream) startVersion(v VersionV3, secrets *Secrets) *Stream {
	return stream.start(v.lanes(), secrets)
}

// start starts a stream, with the default seed and secrets if they are nil.
func (stream *Stream) start(count int, secrets *Secrets) *Stream {
	*stream = Stream{secrets: Secrets{defaultSeed, defaults}, count: count}
	if secrets != nil {
		stream.secrets = *secrets
	}
	stream.lanes.start(stream.secrets.Seed)
	return stream
}

// Write appends a piece to the message. It never returns an error.
func (stream *Stream) Write(data []byte) (int, error) {
	stream.add(textOf(data))
	return len(data), nil
}

// WriteString appends the bytes of a string, as Write does, without a copy.
func (stream *Stream) WriteString(text string) (int, error) {
	stream.add(text)
	return len(text), nil
}

// add appends a piece to the message.
func (stream *Stream) add(data string) {
	if size := stream.size; len(data) <= 16*stream.count-size {
		copy(stream.kept[foldedSize+size:], data)
		stream.size = size + len(data)
	} else {
		stream.fold(data)
	}
}

// fold appends a piece that exceeds the room left. It keeps the last 1 to 16 * count bytes, and the 16 before them.
func (stream *Stream) fold(data string) {
	if stream.count == 0 {
		stream.start(7, nil)
		stream.add(data)
		return
	}
	row := 16 * stream.count
	kept, secrets := stream.kept[:foldedSize+row], stream.secrets.Secrets[:stream.count]
	end := copy(kept[foldedSize+stream.size:], data)
	stream.lanes.fold(textOf(kept[foldedSize:]), 0, secrets)
	rest := data[end:]
	if len(rest) > row {
		rest = stream.lanes.fold(rest, 1, secrets)
		end = len(data) - len(rest)
	}
	folded := textOf(kept[row:])
	if end >= foldedSize {
		folded = data[end-foldedSize:]
	}
	copy(kept[:foldedSize], folded[:foldedSize])
	stream.size, stream.isFolded = copy(kept[foldedSize:], rest), true
}

// Sum64 returns the hash of the message so far. More pieces may follow.
func (stream *Stream) Sum64() uint64 {
	if stream.count == 0 {
		return Sum64(nil)
	}
	ending := textOf(stream.kept[:foldedSize+stream.size])
	if !stream.isFolded { // a message without a row, whose hash is that of V3 in each version
		return v3(ending[foldedSize:], V3, stream.secrets.Seed, &stream.secrets.Secrets)
	}
	return v3Close(ending[foldedSize:], ending, stream.lanes.joined(), &stream.secrets.Secrets)
}

// Sum appends the hash as 8 bytes, most significant first.
func (stream *Stream) Sum(data []byte) []byte {
	return binary.BigEndian.AppendUint64(data, stream.Sum64())
}

// Reset empties the message but keeps the secrets and the version.
func (stream *Stream) Reset() {
	if stream.count == 0 {
		return
	}
	stream.lanes.start(stream.secrets.Seed)
	stream.size, stream.isFolded = 0, false
}

// Size returns the length of a hash in bytes.
func (stream *Stream) Size() int { return 8 }

// BlockSize returns the number of bytes that the hash folds at a time.
func (stream *Stream) BlockSize() int {
	if stream.count == 0 {
		return int(V3)
	}
	return 16 * stream.count
}
