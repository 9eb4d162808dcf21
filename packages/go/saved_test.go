package rapidhash

import "testing"

const changed = "the saved Stream was changed, or has another seed or other secrets"

// refuse checks that a stream refuses bytes for a reason, and keeps its message.
func refuse(t *testing.T, stream *Stream, saved []byte, reason string) {
	t.Helper()
	before := stream.Sum64()
	if err := stream.UnmarshalBinary(saved); err == nil || err.Error() != "rapidhash: "+reason {
		t.Errorf("%v is not: %s", err, reason)
	}
	compare(t, reason, stream.Sum64(), before)
}

// TestRefusedStreams tests the texts of the errors. The file of cases has the bytes that are refused.
func TestRefusedStreams(t *testing.T) {
	stream := New()
	stream.Write(data())
	whole, _ := stream.MarshalBinary()
	refuse(t, stream, nil, "a saved Stream has 208 bytes, not 0")
	refuse(t, stream, whole[:207], "a saved Stream has 208 bytes, not 207")
	refuse(t, stream, append(whole[:208:208], 0), "a saved Stream has 208 bytes, not 209")
	for at, reason := range map[int]string{0: "not a saved Stream, or one of another version of the format", 10: changed,
		199: changed, 207: changed} {
		whole[at] ^= 1
		refuse(t, stream, whole, reason)
		whole[at] ^= 1
	}
	for at := 0; at < 2; at++ {
		other := *SeedSecrets(0)
		*[]*uint64{&other.Seed, &other.Secrets[1]}[at] ^= 1
		refuse(t, V3.NewWithSecrets(&other), whole, changed)
	}
	micro := V3Micro.New()
	saved, _ := micro.MarshalBinary()
	refuse(t, New(), saved, "the Stream was saved with 5 lanes and options 1, not 7 and 1")
	saved[9] = 3
	refuse(t, micro, saved, "the Stream was saved with 5 lanes and options 3, not 5 and 1")
	for _, lanes := range []byte{0, 1, 4, 9} {
		saved[8], saved[9] = lanes, 1
		if err := new(Stream).UnmarshalBinary(saved); err == nil || err.Error() != "rapidhash: "+changed {
			t.Error(lanes, err)
		}
	}
}
