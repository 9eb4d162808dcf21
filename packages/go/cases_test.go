package rapidhash

import (
	"bytes"
	"encoding/binary"
	"encoding/hex"
	"fmt"
	"os"
	"strconv"
	"strings"
	"testing"
)

// hasher is what the tests call of a version.
type hasher interface {
	Sum64([]byte) uint64
	Sum64String(string) uint64
	Sum64WithSeed([]byte, uint64) uint64
	Sum64StringWithSeed(string, uint64) uint64
	Sum64WithSecrets([]byte, *Secrets) uint64
	Sum64StringWithSecrets(string, *Secrets) uint64
}

// wideV1 is V1 with the first three of seven secrets.
type wideV1 struct{ VersionV1 }

// narrow returns the secrets of V1, or nil.
func narrow(s *Secrets) *SecretsV1 {
	if s == nil {
		return nil
	}
	return &SecretsV1{s.Seed, *(*[3]uint64)(s.Secrets[:])}
}

func (wideV1) Sum64WithSecrets(data []byte, s *Secrets) uint64 {
	return V1.Sum64WithSecrets(data, narrow(s))
}

func (wideV1) Sum64StringWithSecrets(text string, s *Secrets) uint64 {
	return V1.Sum64StringWithSecrets(text, narrow(s))
}

var calls = map[string]hasher{"v1": wideV1{}, "v2_0": V20, "v2_1": V21, "v2_2": V22, "v3": V3, "v3_micro": V3Micro,
	"v3_nano": V3Nano, "v3_protected": V3Protected}

// streams has the versions that have streams.
var streams = map[string]VersionV3{"v3": V3, "v3_micro": V3Micro, "v3_nano": V3Nano}

// row is a line of the file of cases.
type row struct{ kind, version, secrets, argument, value string }

// TestCases replays the file of cases of the repository, whose README.md has the format.
func TestCases(t *testing.T) {
	text, err := os.ReadFile("../../crates/test_replay/data/cases.tsv")
	if os.IsNotExist(err) {
		t.Skip("the repository has the file of cases, and the module alone does not")
	} else if err != nil {
		t.Fatal(err)
	}
	replays := map[string]func(*testing.T, row) string{"hash": replayHash, "secrets": replaySecrets, "key": replayKey,
		"stream": replayStream, "shard": replayShard, "first_hash": replayShard, "bucket": replayShard,
		"fingerprint": replayFingerprint}
	count := map[string]int{}
	for _, line := range strings.Split(strings.TrimSpace(string(text)), "\n") {
		if strings.HasPrefix(line, "#") || strings.HasPrefix(line, "kind\t") {
			continue
		}
		words := strings.Split(line, "\t")
		it := row{words[0], words[1], words[2], words[3], words[4]}
		replay, isKnown := replays[it.kind]
		if !isKnown {
			t.Fatalf("no kind %s", it.kind)
		}
		count[it.kind]++
		if found := replay(t, it); found != it.value {
			t.Errorf("%.150s: %.150s", line, found)
		}
	}
	if len(count) != len(replays) || count["hash"] < 3500 || count["stream"] < 300 {
		t.Errorf("too few cases: %v", count)
	}
}

// words returns the numbers of a text, between commas or spaces.
func words(t *testing.T, text string) (numbers []uint64) {
	for _, digits := range strings.FieldsFunc(text, func(letter rune) bool { return letter == ',' || letter == ' ' }) {
		number, err := strconv.ParseUint(digits, 10, 64)
		if err != nil {
			t.Fatal(err)
		}
		numbers = append(numbers, number)
	}
	return numbers
}

// unhex returns the bytes of hexadecimal digits.
func unhex(t *testing.T, digits string) []byte {
	data, err := hex.DecodeString(digits)
	if err != nil {
		t.Fatal(err)
	}
	return data
}

// secretsOf returns the secrets of a rule, and its seed word if it has one. V1 has the first three.
func secretsOf(t *testing.T, version, rule string) (*Secrets, []uint64) {
	name, list, _ := strings.Cut(rule, ":")
	numbers := words(t, list)
	if name == "own" {
		secrets := &Secrets{Seed: numbers[0]}
		copy(secrets.Secrets[:], numbers[1:])
		return secrets, nil
	}
	number := uint64(0)
	if len(numbers) > 0 {
		number = numbers[0]
	} else if version == "v1" {
		number = v1Word
	}
	secrets, secretsV1, word := SeedSecrets(number), SeedSecretsV1(number), numbers
	if name == "make" {
		secrets, secretsV1, word = MakeSecrets(number), MakeSecretsV1(number), nil
	} else if name != "word" && name != "default" {
		t.Fatalf("no secrets by %s", rule)
	}
	if version == "v1" {
		secrets = &Secrets{Seed: secretsV1.Seed}
		copy(secrets.Secrets[:], secretsV1.Secrets[:])
	}
	return secrets, word
}

// start returns the streams of a rule: with its secrets, and if it has one with its seed or without any.
func start(version VersionV3, rule string, secrets *Secrets, word []uint64) []*Stream {
	all := []*Stream{version.NewWithSecrets(secrets)}
	if rule == "default" {
		all = append(all, version.New())
		if version == V3 {
			all = append(all, New(), new(Stream))
		}
	} else if word != nil {
		all = append(all, version.NewWithSeed(word[0]))
	}
	return all
}

// messageOf returns the message of a line. If no byte of 4 GiB is written, it needs no memory, except for the race
// detector: so -short leaves it out, as machines of 32 bits must.
func messageOf(t *testing.T, text string) (message []byte, isThere bool) {
	name, digits, _ := strings.Cut(text, ":")
	if name != "zeros" && name != "ramp" {
		return unhex(t, strings.TrimPrefix(text, "-")), true
	}
	size, err := strconv.Atoi(digits)
	if err != nil || name == "zeros" && testing.Short() {
		return nil, false
	}
	message = make([]byte, size)
	for at := range message {
		if name == "zeros" {
			break
		}
		message[at] = byte(at % 251)
	}
	return message, true
}

func replayHash(t *testing.T, it row) string {
	call, isCall := calls[it.version]
	message, isThere := messageOf(t, it.argument)
	if !isCall {
		return ""
	} else if !isThere {
		return it.value
	}
	secrets, word := secretsOf(t, it.version, it.secrets)
	found := []uint64{call.Sum64(message)}
	if it.secrets != "default" {
		found[0] = call.Sum64WithSecrets(message, secrets)
	}
	if uint64(len(message)) < 1<<32 {
		found = append(found, hashes(call, it, message, secrets, word)...)
	}
	if version, isStream := streams[it.version]; isStream {
		for _, stream := range start(version, it.secrets, secrets, word) {
			stream.Write(message)
			found = append(found, stream.Sum64(), binary.BigEndian.Uint64(stream.Sum(nil)))
			if uint64(len(message)) >= 1<<32 {
				break
			}
		}
	}
	return same(found)
}

// hashes returns what the other calls return for a message, and for the same text.
func hashes(call hasher, it row, message []byte, secrets *Secrets, word []uint64) []uint64 {
	text := string(message)
	found := []uint64{call.Sum64WithSecrets(message, secrets), call.Sum64StringWithSecrets(text, secrets)}
	if it.secrets == "default" {
		found = append(found, call.Sum64String(text))
	} else if word != nil {
		found = append(found, call.Sum64WithSeed(message, word[0]), call.Sum64StringWithSeed(text, word[0]))
	}
	if it.secrets == "default" && it.version == "v3" {
		found = append(found, Sum64(message), Sum64String(text))
	}
	return found
}

// same returns the value of all numbers, or the numbers if they differ.
func same(numbers []uint64) string {
	for _, number := range numbers {
		if number != numbers[0] {
			return fmt.Sprint(numbers)
		}
	}
	return fmt.Sprint(numbers[0])
}

func replaySecrets(t *testing.T, it row) string {
	secrets, _ := secretsOf(t, it.version, it.secrets)
	size := map[string]int{"v1": 3, "v2": 7, "v3": 7}[it.version]
	return strings.Trim(fmt.Sprint(append([]uint64{secrets.Seed}, secrets.Secrets[:size]...)), "[]")
}

func replayKey(t *testing.T, it row) string {
	var fields []Field
	for _, text := range strings.Fields(strings.TrimPrefix(it.argument, "()")) {
		if text == "-" {
			fields = append(fields, Nothing())
		} else if text[0] == 'z' {
			zeros, isThere := messageOf(t, text)
			if !isThere {
				return it.value
			}
			fields = append(fields, Bytes(zeros))
		} else if text[0] == 'x' {
			fields = append(fields, Bytes(unhex(t, text[1:])))
		} else if value, err := strconv.ParseInt(text, 10, 64); err == nil {
			fields = append(fields, Integer(value))
		} else {
			t.Fatal(err)
		}
	}
	secrets, word := secretsOf(t, it.version, it.secrets)
	found := []uint64{V3KeyWithSecrets(secrets, fields...)}
	if it.secrets == "default" {
		found = append(found, V3Key(fields...))
	} else if word != nil {
		found = append(found, V3KeyWithSeed(word[0], fields...))
	}
	stream := V3.NewWithSecrets(secrets)
	for _, field := range fields {
		stream.WriteField(field)
	}
	return same(append(found, stream.Sum64()))
}

// player replays the operations of a stream. The last saved bytes are those that others change.
type player struct {
	t       *testing.T
	version VersionV3
	secrets *Secrets
	stream  *Stream
	saved   []byte
	values  []string
}

func replayStream(t *testing.T, it row) (values string) {
	version, isStream := streams[it.version]
	if !isStream {
		t.Fatalf("no stream of %s", it.version)
	}
	secrets, word := secretsOf(t, it.version, it.secrets)
	for at, stream := range start(version, it.secrets, secrets, word) {
		player := player{t: t, version: version, secrets: secrets, stream: stream}
		for _, operation := range strings.Fields(it.argument) {
			player.play(operation)
		}
		found := strings.Join(player.values, " ")
		if at > 0 && found != values {
			return found
		}
		values = found
	}
	return values
}

func (p *player) play(operation string) {
	digits := operation[1:]
	switch operation[0] {
	case 'w':
		p.stream.Write(unhex(p.t, digits))
	case 'r':
		p.stream.Reset()
	case 'f':
		p.values = append(p.values, fmt.Sprint(p.stream.Sum64()))
	case 's':
		saved, err := p.stream.MarshalBinary()
		appended, _ := p.stream.AppendBinary([]byte{7})
		other := p.version.NewWithSecrets(p.secrets)
		other.Write(data())
		if err != nil || other.UnmarshalBinary(saved) != nil || !bytes.Equal(appended, append([]byte{7}, saved...)) {
			p.t.Error(operation, err)
		}
		p.saved, p.stream, p.values = saved, other, append(p.values, hex.EncodeToString(saved))
	case '=':
		if err := p.stream.UnmarshalBinary(unhex(p.t, digits)); err != nil {
			p.t.Error(operation, err)
		}
	case '!':
		p.refuse(operation, unhex(p.t, digits))
	case '~':
		for bit := 0; bit < 8*len(p.saved); bit++ {
			changed := append([]byte(nil), p.saved...)
			changed[bit/8] ^= 1 << (bit % 8)
			p.refuse(operation, changed)
		}
	case '^', '+':
		p.change(operation)
	default:
		p.t.Fatalf("no operation %s", operation)
	}
}

// refuse checks that bytes are refused, and that the stream is as before.
func (p *player) refuse(operation string, saved []byte) {
	before := *p.stream
	if p.stream.UnmarshalBinary(saved) == nil || *p.stream != before {
		p.t.Errorf("not refused: %s: %x", operation, saved)
	}
}

// change changes the saved bytes from a place on, and the last ones. A ^ must be refused, and a + accepted.
func (p *player) change(operation string) {
	parts := strings.Split(operation[1:], ":")
	place, err := strconv.Atoi(parts[0])
	if err != nil || len(parts) != 3 {
		p.t.Fatal(operation, err)
	}
	changed := append([]byte(nil), p.saved...)
	copy(changed[place:], unhex(p.t, parts[1]))
	copy(changed[200:], unhex(p.t, parts[2]))
	if operation[0] == '^' {
		p.refuse(operation, changed)
	} else if err := p.stream.UnmarshalBinary(changed); err != nil {
		p.t.Errorf("%s: %v", operation, err)
	}
}

func replayShard(t *testing.T, it row) (found string) {
	defer func() {
		if recover() != nil {
			found = "refused"
		}
	}()
	of := words(t, it.argument)
	switch {
	case it.kind == "shard":
		return fmt.Sprint(Shard(of[0], of[1]))
	case it.kind == "first_hash":
		return fmt.Sprint(FirstHash(of[0], of[1]))
	case of[1] >= 1<<32: // The type of the count refuses it.
		return "refused"
	}
	return fmt.Sprint(Bucket(of[0], uint32(of[1])))
}

func replayFingerprint(t *testing.T, it row) string {
	return fmt.Sprint(Fingerprint(words(t, strings.TrimPrefix(it.argument, "-"))...))
}
