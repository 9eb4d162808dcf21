package rapidhash

import (
	"errors"
	"math"
	"strings"
	"time"
)

// maxDecimal is the most bytes of a decimal number, so that an exponent costs no memory.
const maxDecimal = 150_000

// The errors do not show the value, which may be private.
var (
	errDate     = errors.New("rapidhash: Date: the time is not midnight in UTC")
	errFraction = errors.New("rapidhash: Time: a part of a microsecond: t.Truncate(time.Microsecond) has none")
	errTime     = errors.New("rapidhash: Time: more than 64 bits of microseconds")
	errDecimal  = errors.New("rapidhash: Decimal: not a decimal number")
	errLong     = errors.New("rapidhash: Decimal: the number has more than 150000 bytes")
	errNaN      = errors.New("rapidhash: FloatBits: NaN, which has many bits")
)

// Bool returns a field that is the integer 1 for true and 0 for false.
func Bool(value bool) Field {
	if value {
		return Integer(1)
	}
	return Integer(0)
}

// Unsigned returns a field that is the integer modulo 2^64: an Integer of the same bits equals it.
func Unsigned(value uint64) Field { return Integer(int64(value)) }

// UUID returns a field that is the 16 bytes of a UUID, in the order of its digits.
func UUID(value [16]byte) Field { return Text(string(value[:])) }

// Date returns a field that is the days of a date since 1970-01-01. The date is its midnight in UTC, as drivers of
// databases return it. Any other time is an error, because its day depends on the place.
func Date(midnight time.Time) (Field, error) {
	const day = 24 * 60 * 60
	_, offset := midnight.Zone()
	if seconds := midnight.Unix(); offset == 0 && seconds%day == 0 && midnight.Nanosecond() == 0 {
		return Integer(seconds / day), nil
	}
	return Field{}, errDate
}

// Time returns a field that is the microseconds of a time since 1970-01-01 in UTC. A part of a microsecond is an error,
// because other programs round it: cut it off by t.Truncate(time.Microsecond). So is a time some 292,000 years from
// 1970, whose microseconds have more than 64 bits.
func Time(t time.Time) (Field, error) {
	seconds, nanoseconds := t.Unix(), int64(t.Nanosecond())
	microseconds := seconds*1_000_000 + nanoseconds/1000
	// One step beyond 64 bits has the other sign, and one second more is at most one step.
	if most := int64(math.MaxInt64/1_000_000 + 1); seconds > most || seconds < -most ||
		(microseconds < 0) != (seconds < 0) {
		return Field{}, errTime
	}
	if nanoseconds%1000 != 0 {
		return Field{}, errFraction
	}
	return Integer(microseconds), nil
}

// FloatBits returns a field that is the integer with the bits of a number, those of 0 for -0. NaN is an error, because
// it has many bits. There is no field of a number without this call, because programs differ in how they compute and
// write it.
func FloatBits(number float64) (Field, error) {
	if math.IsNaN(number) {
		return Field{}, errNaN
	}
	// A small number would equal 0, where cgo loads a library that was linked with -ffast-math.
	bits := int64(math.Float64bits(number))
	if bits == math.MinInt64 {
		bits = 0 // not -0
	}
	return Integer(bits), nil
}

// List returns a field that is the number of items, and then each item. It panics if an item is a list. It copies the
// bytes of the items.
func List(items ...Field) Field {
	size := 9
	for i := range items {
		if items[i].tag == listTag {
			panic("rapidhash: List: an item is a list")
		}
		size += 9 + len(items[i].text)
	}
	count := Integer(int64(len(items)))
	data := count.appendTo(make([]byte, 0, size))
	for i := range items {
		data = items[i].appendTo(data)
	}
	return Field{tag: listTag, text: textOf(data)}
}

// Decimal returns a field that is the text of a decimal number, the same for each way to write it: that of "1.50",
// "+1.5" and "15e-1" is 1.5, and that of "-0.00" is 0. The number has digits, with or without a sign, a point and an
// exponent. Other texts, and numbers of more than 150,000 bytes without an exponent, are errors.
func Decimal(text string) (Field, error) {
	sign, rest := "", text
	if rest != "" && (rest[0] == '-' || rest[0] == '+') {
		sign, rest = rest[:1], rest[1:]
	}
	whole, rest := cutDigits(rest)
	part := ""
	if rest != "" && rest[0] == '.' {
		part, rest = cutDigits(rest[1:])
	}
	exponent, isNumber := exponentOf(rest)
	if !isNumber || whole == "" && part == "" {
		return Field{}, errDecimal
	}
	part = strings.TrimRight(part, "0")
	if exponent == 0 && part != "" && sign != "+" && (whole == "0" || whole != "" && whole[0] != '0') {
		text = text[:len(sign)+len(whole)+1+len(part)]
	} else {
		text = plain(strings.TrimPrefix(sign, "+"), strings.TrimLeft(whole+part, "0"), exponent-int64(len(part)))
	}
	if len(text) > maxDecimal || text == "" {
		return Field{}, errLong
	}
	return Text(text), nil
}

// cutDigits returns the digits that a text begins with, and the rest.
func cutDigits(text string) (digits, rest string) {
	end := 0
	for end < len(text) && '0' <= text[end] && text[end] <= '9' {
		end++
	}
	return text[:end], text[end:]
}

// exponentOf returns the number behind an e, if it is one, or 0 for no text. One beyond all numbers is 2^60 or less.
func exponentOf(text string) (exponent int64, isNumber bool) {
	if text == "" {
		return 0, true
	}
	if text[0] != 'e' && text[0] != 'E' {
		return 0, false
	}
	text = text[1:]
	isNegative := strings.HasPrefix(text, "-")
	if isNegative || strings.HasPrefix(text, "+") {
		text = text[1:]
	}
	digits, rest := cutDigits(text)
	for i := range digits {
		if exponent < 1<<56 {
			exponent = 10*exponent + int64(digits[i]-'0')
		}
	}
	if isNegative {
		exponent = -exponent
	}
	return exponent, digits != "" && rest == ""
}

// plain returns the text of an integer, which has no zeros before it, times 10 to the power of the exponent. It is
// empty if it would be too long.
func plain(sign, digits string, exponent int64) string {
	point := int64(len(digits)) + exponent
	digits = strings.TrimRight(digits, "0")
	if digits == "" {
		return "0"
	}
	if point > maxDecimal || int64(len(digits))-point > maxDecimal {
		return ""
	}
	switch size := int64(len(digits)); {
	case point >= size:
		return sign + digits + strings.Repeat("0", int(point-size))
	case point <= 0:
		return sign + "0." + strings.Repeat("0", int(-point)) + digits
	default:
		return sign + digits[:point] + "." + digits[point:]
	}
}
