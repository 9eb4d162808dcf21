package rapidhash

import (
	"math"
	"strings"
	"testing"
)

func TestFields(t *testing.T) {
	user := uint64(14742763072502883419)
	compare(t, "a text", V3Key(Text("user"), Integer(4711), Nothing()), user)
	compare(t, "bytes", V3Key(Bytes([]byte("user")), Integer(4711), Field{}), user)
	unsigned := uint64(1) << 63
	compare(t, "64 bits", V3Key(Integer(int64(unsigned))), V3Key(Integer(math.MinInt64)))
	compare(t, "nil", V3Key(Bytes(nil)), V3Key(Nothing()))
	compare(t, "no bytes", V3Key(Bytes([]byte{})), V3Key(Text("")))
	stream := New()
	stream.WriteField(Text("user"))
	stream.WriteField(Integer(4711))
	stream.WriteField(Nothing())
	compare(t, "a stream", stream.Sum64(), user)
	if V3Key(Text("ab"), Text("c")) == V3Key(Text("a"), Text("bc")) || V3Key(Nothing()) == V3Key(Text("")) {
		t.Error("different keys have the same hash")
	}
	name, data, secrets := strings.Repeat("n", 200), make([]byte, 300), MakeSecrets(1)
	if allocations := testing.AllocsPerRun(100, func() {
		V3KeyWithSecrets(secrets, Text(name), Integer(7), Bytes(data), Nothing())
		V3KeyWithSeed(7, Text(name), Bytes(data))
		V3Key(Text(name), Bytes(data))
	}); allocations != 0 {
		t.Errorf("a key allocates %v times", allocations)
	}
}
