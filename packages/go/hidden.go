package rapidhash

import (
	"fmt"
	"io"
)

// String returns a text without the words, which logs must not show.
func (Secrets) String() string { return "rapidhash.Secrets[hidden]" }

// String returns a text without the words, which logs must not show.
func (SecretsV1) String() string { return "rapidhash.SecretsV1[hidden]" }

// String returns a text without the secrets and the message, which logs must not show.
func (Stream) String() string { return "rapidhash.Stream[hidden]" }

// Format writes what String returns, for every verb but %w and %p, for which package fmt calls no method and shows the
// words. Nor does it call one of an unexported field: there, hold a pointer to the secrets. Package encoding/json
// writes the words, so that a program can store them.
func (s Secrets) Format(state fmt.State, _ rune) { io.WriteString(state, s.String()) }

// Format writes what String returns, for every verb but %w and %p, for which package fmt calls no method and shows the
// words. Nor does it call one of an unexported field: there, hold a pointer to the secrets. Package encoding/json
// writes the words, so that a program can store them.
func (s SecretsV1) Format(state fmt.State, _ rune) { io.WriteString(state, s.String()) }

// Format writes what String returns, for every verb but %w and %p, for which package fmt calls no method and shows the
// words. Nor does it call one of an unexported field: there, hold a pointer to the stream.
func (stream Stream) Format(state fmt.State, _ rune) { io.WriteString(state, stream.String()) }
