package rapidhash

import (
	"bytes"
	"fmt"
	"io"
	"testing"
)

// long returns a message that is longer than a mebibyte.
func long() []byte {
	message := make([]byte, 3<<20+5)
	for at := range message {
		message[at] = byte(at % 251)
	}
	return message
}

func TestTakesWhatWritersTake(t *testing.T) {
	message := long()
	stream := New()
	size, err := io.Copy(stream, bytes.NewReader(message))
	if size != int64(len(message)) || err != nil {
		t.Fatal(size, err)
	}
	compare(t, "copied", stream.Sum64(), V3.Sum64(message))
	stream.Reset()
	for at := range message {
		if written, err := stream.Write(message[at : at+1]); written != 1 || err != nil {
			t.Fatal(written, err)
		}
	}
	compare(t, "in single bytes", stream.Sum64(), V3.Sum64(message))
	for name, call := range calls {
		compare(t, name+" of a long string", call.Sum64String(string(message)), call.Sum64(message))
	}
	stream.Reset()
	if written, err := stream.WriteString(string(message)); written != len(message) || err != nil {
		t.Error(written, err)
	}
	compare(t, "a long string", stream.Sum64(), V3.Sum64(message))
	sum := stream.Sum([]byte{7})
	if len(sum) != 1+stream.Size() || sum[0] != 7 || sum[1] != byte(stream.Sum64()>>56) {
		t.Errorf("%x is not 7 and then the hash", sum)
	}
}

func TestAllocatesNothing(t *testing.T) {
	made, madeV1, sum, restarted := MakeSecrets(1), MakeSecretsV1(1), make([]byte, 8), New()
	saved := make([]byte, 0, 208)
	for _, size := range []int{0, 3, 16, 100, 5000} {
		bytes, text := long()[:size], string(long()[:size])
		runs := map[string]func(){
			"v1 with secrets": func() { V1.Sum64WithSecrets(bytes, madeV1); V1.Sum64StringWithSecrets(text, madeV1) },
			"new streams": func() {
				New().Write(bytes)
				V3.New().Write(bytes)
				V3Nano.NewWithSecrets(made).Write(bytes)
			},
			"restart":             func() { *restarted = Stream{}; restarted.Write(bytes) },
			"restart by a string": func() { *restarted = Stream{}; restarted.WriteString(text) },
			"restart by a sum":    func() { *restarted = Stream{}; restarted.Sum(sum[:0]) },
		}
		for name, call := range calls {
			call := call
			runs[name] = func() {
				sink += call.Sum64(bytes) + call.Sum64WithSeed(bytes, 1) + call.Sum64WithSecrets(bytes, made)
				sink += call.Sum64String(text) + call.Sum64StringWithSeed(text, 1) + call.Sum64StringWithSecrets(text, made)
			}
		}
		for name, version := range streams {
			stream := version.NewWithSecrets(made)
			runs[name+" stream"] = func() {
				stream.Reset()
				stream.Write(bytes)
				stream.WriteString(text)
				stream.Sum(sum[:0])
				stream.AppendBinary(saved[:0])
			}
		}
		for name, run := range runs {
			if count := testing.AllocsPerRun(100, run); count != 0 {
				t.Errorf("%s allocates %v times for %d bytes", name, count, size)
			}
		}
	}
}

// TestGettersOfZeroStreams checks that a call which changes no message leaves the zero Stream as it is, so that it
// still accepts any version, and allocates nothing.
func TestGettersOfZeroStreams(t *testing.T) {
	var zero Stream
	micro := V3Micro.New()
	micro.Write(data())
	saved, _ := micro.MarshalBinary()
	room := make([]byte, 0, 300)
	for _, call := range []func(){func() { zero.Sum64() }, func() { zero.Sum(room) }, func() { zero.BlockSize() },
		func() { zero.AppendBinary(room) }, zero.Reset, func() { zero.Write(nil) }} {
		if allocations := testing.AllocsPerRun(100, call); allocations != 0 || zero != (Stream{}) {
			t.Errorf("%v allocations, and %d lanes", allocations, zero.count)
		}
	}
	if err := zero.UnmarshalBinary(saved); err != nil {
		t.Error(err)
	}
	compare(t, "restored", zero.Sum64(), micro.Sum64())
}

// TestNames checks the texts of versions, which logs show.
func TestNames(t *testing.T) {
	names := fmt.Sprint(V1, V20, V21, V22, V3, V3Micro, V3Nano, V3Protected, VersionV2(3), VersionV3(7))
	if names != "V1 V20 V21 V22 V3 V3Micro V3Nano V3Protected VersionV2(3) VersionV3(7)" {
		t.Error(names)
	}
}
