package rapidhash

import (
	"fmt"
	"testing"
)

var sink uint64

func BenchmarkV3(b *testing.B) {
	message := long()
	for _, size := range []int{3, 11, 16, 64, 300, 1024, 1 << 20} {
		b.Run(fmt.Sprint(size), func(b *testing.B) {
			b.SetBytes(int64(size))
			for count := 0; count < b.N; count++ {
				sink += Sum64(message[:size])
			}
		})
	}
}

func BenchmarkWrite(b *testing.B) {
	message, stream := long(), New()
	for _, size := range []int{4, 16, 64, 300, 1 << 20} {
		b.Run(fmt.Sprint(size), func(b *testing.B) {
			b.SetBytes(int64(size))
			for count := 0; count < b.N; count++ {
				stream.Write(message[:size])
			}
		})
	}
}
