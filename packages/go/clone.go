//go:build go1.25

package rapidhash

import "hash"

var _ hash.Cloner = (*Stream)(nil)

// Clone returns an independent copy of the stream, a *Stream. The error is always nil.
func (stream *Stream) Clone() (hash.Cloner, error) {
	copied := *stream
	return &copied, nil
}
