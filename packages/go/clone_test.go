//go:build go1.25

package rapidhash

import "testing"

func TestClone(t *testing.T) {
	first := V3Micro.NewWithSecrets(&own)
	first.Write(data()[:90])
	second, err := first.Clone()
	if err != nil {
		t.Fatal(err)
	}
	first.WriteString("other")
	second.Write(data()[90:])
	compare(t, "a clone", second.(*Stream).Sum64(), V3Micro.Sum64WithSecrets(data(), &own))
	compare(t, "the first", first.Sum64(), V3Micro.Sum64WithSecrets(append(data()[:90], "other"...), &own))
}
