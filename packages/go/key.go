package rapidhash

import "encoding/binary"

// The tags of the encoding.
const (
	nothingTag = iota
	integerTag
	bytesTag
	listTag // of a Field alone: the encoding of a list begins with an integer
)

// A Field is a field of a key: nothing (as SQL's NULL), an integer, bytes, or a list of these. Values of other types
// are such fields by rules that are the same in every language. The zero Field is nothing, as a missing value of any
// type is. A Field of bytes refers to them, so that they must not change before the key is hashed.
type Field struct {
	tag   byte
	value int64
	text  string // bytes, or the encoding of a list
}

// Nothing returns a field that is nothing.
func Nothing() Field { return Field{} }

// Integer returns a field that is an integer.
func Integer(value int64) Field { return Field{tag: integerTag, value: value} }

// Text returns a field that is the bytes of a string.
func Text(text string) Field { return Field{tag: bytesTag, text: text} }

// Bytes returns a field of bytes, which equals the Text of the same bytes. A nil slice is nothing, as database/sql
// reads NULL into a []byte, and an empty one that is not nil is empty bytes.
func Bytes(data []byte) Field {
	if data == nil {
		return Nothing()
	}
	return Field{tag: bytesTag, text: textOf(data)}
}

// V3Key returns the hash of a key of several fields, with the default seed and secrets. It is the same in every
// language. Different keys are hashed as different messages.
func V3Key(fields ...Field) uint64 { return v3Key(nil, fields) }

// V3KeyWithSeed returns the hash of a key with the default secrets and a seed word.
func V3KeyWithSeed(seed uint64, fields ...Field) uint64 {
	return v3Key(&Secrets{seedOf(seed), defaults}, fields)
}

// V3KeyWithSecrets returns the hash of a key with a seed and secrets. It panics if they are nil.
func V3KeyWithSecrets(s *Secrets, fields ...Field) uint64 {
	if s == nil {
		panic(nilSecrets)
	}
	return v3Key(s, fields)
}

// v3Key returns the hash of a key, with the default seed and secrets if they are nil.
func v3Key(s *Secrets, fields []Field) uint64 {
	var stream Stream
	stream.start(7, s)
	for i := range fields {
		stream.WriteField(fields[i])
	}
	return stream.Sum64()
}

// WriteField appends a field of a key to the message.
func (stream *Stream) WriteField(field Field) {
	head := [9]byte{field.tag}
	switch field.tag {
	case nothingTag:
		stream.Write(head[:1])
	case integerTag:
		binary.LittleEndian.PutUint64(head[1:], uint64(field.value))
		stream.Write(head[:])
	case bytesTag:
		binary.LittleEndian.PutUint64(head[1:], uint64(len(field.text)))
		stream.Write(head[:])
		fallthrough
	default:
		stream.WriteString(field.text)
	}
}

// appendTo appends the encoding of a field that is no list.
func (field *Field) appendTo(data []byte) []byte {
	data = append(data, field.tag)
	switch field.tag {
	case integerTag:
		return binary.LittleEndian.AppendUint64(data, uint64(field.value))
	case bytesTag:
		return append(binary.LittleEndian.AppendUint64(data, uint64(len(field.text))), field.text...)
	}
	return data
}
