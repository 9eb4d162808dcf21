package rapidhash

import (
	"encoding/json"
	"fmt"
	"strings"
	"testing"
)

func TestDefaultSeeds(t *testing.T) {
	if *SeedSecrets(0) != (Secrets{defaultSeed, defaults}) ||
		*SeedSecretsV1(v1Word) != (SecretsV1{defaultSeedV1, defaultsV1}) {
		t.Error("a default seed is not that of its word")
	}
	compare(t, "v3", V3.Sum64WithSeed([]byte("hello"), 0), 3327445792987248966)
	for _, word := range []uint64{0, 1, v1Word} {
		if SeedSecrets(word) == SeedSecrets(word) || SeedSecretsV1(word) == SeedSecretsV1(word) ||
			MakeSecrets(word) == MakeSecrets(word) {
			t.Error("two calls share their secrets")
		}
	}
}

// TestStoredSecrets checks that a program can store secrets as JSON, which logs must not have.
func TestStoredSecrets(t *testing.T) {
	var again Secrets
	text, err := json.Marshal(MakeSecrets(7))
	if err != nil || json.Unmarshal(text, &again) != nil || again != *MakeSecrets(7) {
		t.Errorf("%s: %v", text, err)
	}
}

// TestHiddenWords checks that fmt shows no word of secrets by any verb, also in values that hold them, and by those of
// %v also behind a pointer in an unexported field.
func TestHiddenWords(t *testing.T) {
	secrets, secretsV1 := MakeSecrets(1), MakeSecretsV1(1)
	stream := V3.NewWithSecrets(secrets)
	stream.Write(data())
	holder := struct {
		Secrets Secrets
		V1      *SecretsV1
		Stream  Stream
	}{*secrets, secretsV1, *stream}
	behind := struct{ pointers []any }{[]any{secrets, secretsV1, stream}}
	words := append(append([]uint64{secrets.Seed}, secrets.Secrets[:]...), stream.lanes[:]...)
	check := func(value any, verbs ...string) {
		for _, verb := range verbs {
			text := strings.ToLower(fmt.Sprintf(verb, value))
			for _, word := range words {
				if strings.Contains(text, fmt.Sprint(word)) || strings.Contains(text, fmt.Sprintf("%x", word)) {
					t.Errorf("%T by %s shows %d: %s", value, verb, word, text)
				}
			}
		}
	}
	for _, value := range []any{*secrets, secrets, *secretsV1, secretsV1, *stream, stream, holder, &holder,
		[]Secrets{*secrets}, map[string]*Stream{"": stream}, map[Secrets]int{*secrets: 1}} {
		check(value, "%v", "%+v", "%#v", "%s", "%q", "%d", "%x", "%X")
	}
	check(behind, "%v", "%+v", "%#v")
	texts := fmt.Sprint(*secrets, secretsV1, stream) + secrets.String() + secretsV1.String() + stream.String()
	if known := "rapidhash.Secrets[hidden] rapidhash.SecretsV1[hidden] rapidhash.Stream[hidden]"; strings.Count(
		texts, "[hidden]") != 6 || !strings.HasPrefix(texts, known) {
		t.Error(texts)
	}
}
