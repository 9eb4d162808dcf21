package rapidhash

import (
	"bytes"
	"encoding/hex"
	"encoding/json"
	"errors"
	"fmt"
	"math"
	"os"
	"regexp"
	"strconv"
	"strings"
	"testing"
	"time"
)

// readers have a field of each type of the file of fields from its text, by the parsers of Go.
var readers = map[string]func(string) (Field, error){"boolean": readBool, "integer": readInteger, "date": readDate,
	"time": readTime, "uuid": readUUID, "decimal": Decimal, "float": readFloat, "list": readList}

func readBool(text string) (Field, error) {
	value, err := strconv.ParseBool(text)
	return Bool(value), err
}

func readInteger(text string) (Field, error) {
	if value, err := strconv.ParseInt(text, 10, 64); err == nil {
		return Integer(value), nil
	}
	value, err := strconv.ParseUint(text, 10, 64)
	return Unsigned(value), err
}

func readDate(text string) (Field, error) {
	value, err := time.Parse("2006-01-02", text)
	if err != nil {
		return Field{}, err
	}
	return Date(value)
}

func readTime(text string) (Field, error) {
	value, err := time.Parse(time.RFC3339, text)
	if err != nil {
		return Field{}, err
	}
	return Time(value)
}

func readUUID(text string) (Field, error) {
	data, err := hex.DecodeString(strings.ReplaceAll(text, "-", ""))
	if err != nil || !regexp.MustCompile(`^.{8}(-.{4}){3}-.{12}$`).MatchString(text) {
		return Field{}, errors.New("no UUID")
	}
	return UUID(*(*[16]byte)(data)), nil
}

func readFloat(text string) (Field, error) {
	value, err := strconv.ParseFloat(text, 64)
	if err != nil {
		return Field{}, err
	}
	return FloatBits(value)
}

// readList reads a list of JSON. A list in a list panics.
func readList(text string) (Field, error) {
	decoder := json.NewDecoder(strings.NewReader(text))
	decoder.UseNumber()
	var values []any
	if err := decoder.Decode(&values); err != nil {
		return Field{}, err
	}
	return listOf(values)
}

func listOf(values []any) (Field, error) {
	items := make([]Field, len(values))
	for at, value := range values {
		var err error
		switch value := value.(type) {
		case bool:
			items[at] = Bool(value)
		case string:
			items[at] = Text(value)
		case json.Number:
			items[at], err = readInteger(value.String())
		case []any:
			items[at], err = listOf(value)
		}
		if err != nil {
			return Field{}, err
		}
	}
	return List(items...), nil
}

// keyOf returns the key of a value, or that its parser or constructor refuses it.
func keyOf(kind, text string) (found string) {
	defer func() {
		if reason := recover(); reason != nil {
			found = "refused"
		}
	}()
	field, err := Nothing(), error(nil)
	if text != "null" {
		field, err = readers[kind](text)
	}
	if err != nil {
		return "refused"
	}
	return fmt.Sprint(V3Key(field))
}

// TestValues replays the file of fields of the repository.
func TestValues(t *testing.T) {
	text, err := os.ReadFile("../../tests/fields.tsv")
	if os.IsNotExist(err) {
		t.Skip("the repository has the file of fields, and the module alone does not")
	} else if err != nil {
		t.Fatal(err)
	}
	counts := map[string]int{}
	for _, line := range strings.Split(strings.TrimSpace(string(text)), "\n")[2:] {
		words := strings.Split(line, "\t")
		wanted := words[2]
		if wanted != "refused" {
			wanted = fmt.Sprint(Sum64(unhex(t, wanted)))
		}
		counts[words[0]]++
		if found := keyOf(words[0], words[1]); found != wanted {
			t.Errorf("%.150s: %s, not %s", line, found, wanted)
		}
	}
	compare(t, "counts", fmt.Sprint(counts),
		"map[boolean:3 date:70 decimal:92 float:63 integer:64 list:54 time:69 uuid:57]")
}

// refuses checks the words of an error, which have nothing of the value.
func refuses(t *testing.T, name, words string) func(Field, error) {
	return func(field Field, err error) {
		if err == nil || err.Error() != "rapidhash: "+words || field != Nothing() {
			t.Errorf("%s: %v, not %s", name, err, words)
		}
	}
}

func TestDatesAndTimes(t *testing.T) {
	zone := time.FixedZone("", 3600)
	midnight := "Date: the time is not midnight in UTC"
	for _, value := range []time.Time{time.Date(2024, 2, 29, 0, 0, 0, 0, zone), time.Date(2024, 2, 29, 1, 0, 0, 0, zone),
		time.Date(2024, 2, 29, 0, 0, 0, 1, time.UTC), time.Date(1969, 12, 31, 0, 0, 1, 0, time.UTC),
		time.Unix(1, 0).UTC(), time.Date(2024, 2, 29, 12, 0, 0, 0, time.UTC)} {
		refuses(t, value.String(), midnight)(Date(value))
	}
	fine := time.Unix(-1, 999_999_999)
	refuses(t, "fine", "Time: a part of a microsecond: t.Truncate(time.Microsecond) has none")(Time(fine))
	for value, wanted := range map[time.Time]int64{time.Unix(9223372036854, 775_807_000): math.MaxInt64,
		time.Unix(-9223372036855, 224_192_000): math.MinInt64, fine.Truncate(time.Microsecond): -1} {
		field, err := Time(value)
		if err != nil || field != Integer(wanted) {
			t.Errorf("%v: %v %v", value, field, err)
		}
	}
	for _, value := range []time.Time{time.Unix(9223372036854, 775_808_000), time.Unix(-9223372036855, 224_191_000),
		time.Unix(9223372036855, 0), time.Unix(-9223372036856, 999_999_000), time.Unix(1<<62, 0), time.Unix(-1<<62, 1),
		time.Unix(1<<50, 0), time.Unix(-1<<50, 0), time.Unix(math.MaxInt64, 0), time.Unix(math.MinInt64, 0)} {
		refuses(t, value.String(), "Time: more than 64 bits of microseconds")(Time(value))
	}
	refuses(t, "NaN", "FloatBits: NaN, which has many bits")(FloatBits(math.NaN()))
}

func TestDecimals(t *testing.T) {
	zeros, tooLong := strings.Repeat("0", 200_000), "Decimal: the number has more than 150000 bytes"
	for text, wanted := range map[string]string{"1e149999": "1" + zeros[:149_999],
		"1e-149998": "0." + zeros[:149_997] + "1", "-1e149998": "-1" + zeros[:149_998],
		zeros + "1." + zeros: "1", "-" + zeros + "." + zeros: "0",
		"0e99999999999999999999": "0", "-0.e-99999999999999999999": "0", "1" + zeros + "e-200000": "1",
		"." + zeros + "1e200001": "1", "0." + zeros[:100_000] + "1": "0." + zeros[:100_000] + "1",
		"-0.0": "0", "-0": "0", "-0.10": "-0.1", "1.": "1", "1.e0": "1", "10.50E0": "10.5", "-1.": "-1"} {
		field, err := Decimal(text)
		if err != nil || field != Text(wanted) {
			t.Errorf("%.20s: %.20s %v", text, field.text, err)
		}
	}
	for _, text := range []string{"1e150000", "-1e149999", "1e-149999", "-1e-149998", zeros[:1] + "." + zeros + "1",
		"1" + zeros, "1e99999999999999999999", "1e-99999999999999999999", strings.Repeat("7", 149_998) + ".77",
		"1e18446744073709551616", "1e9223372036854775807", "1e-9223372036854775808"} {
		refuses(t, text[:8%len(text)], tooLong)(Decimal(text))
	}
	for _, text := range []string{"", "+", "-", ".", "-.", "e1", ".e1", "1e", "1e+", "1e1.5", "1e1e1", "1.2.3", " 1", "1 ",
		"1_0", "0x1", "--1", "+-1", "1,5", "١", "inf", "nan", "1\x00", "1e٣"} {
		refuses(t, text, "Decimal: not a decimal number")(Decimal(text))
	}
}

func TestLists(t *testing.T) {
	long := bytes.Repeat([]byte("b"), 300)
	list := List(Integer(-7), Nothing(), Text("a"), Bytes(long), UUID([16]byte{15: 1}), Bytes(nil))
	compare(t, "a list", V3Key(list, Text("c")), V3Key(Integer(6), Integer(-7), Nothing(), Text("a"), Bytes(long),
		Text(string(make([]byte, 15))+"\x01"), Nothing(), Text("c")))
	compare(t, "no items", V3Key(List()), V3Key(Integer(0)))
	copied := list
	long[0] = 'c'
	if list != copied || List(Bytes(long)) == List(Bytes(long[1:])) || List() == Integer(0) {
		t.Error("a list does not compare as its items")
	}
	defer func() { compare(t, "a list in a list", fmt.Sprint(recover()), "rapidhash: List: an item is a list") }()
	List(Nothing(), List())
}

// TestAllocations tests that only a list, and a number that is not in its shortest form, need memory of their own.
func TestAllocations(t *testing.T) {
	day, id := time.Date(2024, 2, 29, 0, 0, 0, 0, time.UTC), [16]byte{1}
	items := []Field{Integer(1), Text("a")}
	compare(t, "allocations", testing.AllocsPerRun(100, func() {
		date, _ := Date(day)
		moment, _ := Time(day)
		number, _ := Decimal("-19.90")
		bits, _ := FloatBits(0.5)
		V3Key(date, moment, number, bits, Bool(true), Unsigned(1), UUID(id))
	}), 0)
	compare(t, "allocations of a list", testing.AllocsPerRun(100, func() { V3Key(List(items...)) }), 1)
}
