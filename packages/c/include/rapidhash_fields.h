/* Fields of keys of other types than rapidhash_c.h has: truth values, dates, times, UUIDs, decimal numbers, lists and
 * floating-point numbers. docs/ALGORITHM.md has their rules, which are those of every language.
 *
 *     rapidhash_v3_start(&stream, &secrets);
 *     if (!rapidhash_key_day(&stream, 2024, 2, 29) || !rapidhash_key_decimal(&stream, "19.90", 5)) return false;
 *     hash = rapidhash_stream_finish(&stream);
 *
 * Each function appends a field to the message of a V3 stream. A missing value of any type is rapidhash_key_nothing. A
 * function that returns false has refused its value, and appended nothing. The functions allocate nothing. They are
 * inlined, also with RAPIDHASH_LINK. The preconditions are those of rapidhash_stream_write. */
#ifndef RAPIDHASH_FIELDS_H
#define RAPIDHASH_FIELDS_H

#include "rapidhash_c.h"

/* The casts and NULL are those of C, of which g++ and clang++ can warn. */
#if defined(__cplusplus) && defined(__GNUC__)
#pragma GCC diagnostic push
#pragma GCC diagnostic ignored "-Wold-style-cast"
#pragma GCC diagnostic ignored "-Wzero-as-null-pointer-constant"
#ifndef __clang__
#pragma GCC diagnostic ignored "-Wuseless-cast"
#endif
#endif

/* The most bytes of a decimal number, so that an exponent costs no memory in any language. */
#define RAPIDHASH_DECIMAL_MOST 150000

/* Appends the integer 1 for true and 0 for false. */
RAPIDHASH_INLINE_ void rapidhash_key_bool(struct rapidhash_stream *stream, bool value)
{ rapidhash_key_number_(stream, 1, value ? 1 : 0); }

/* Appends the days of a date since 1970-01-01 in the Gregorian calendar, whose year 0 precedes year 1. A month from 1
 * to 12 that has no such day, another month, or a year beyond 10^16 or -10^16 is refused. The date of a `struct tm t`
 * is t.tm_year + 1900, t.tm_mon + 1, t.tm_mday. */
RAPIDHASH_INLINE_ bool rapidhash_key_day(struct rapidhash_stream *stream, int64_t year, int month, int day)
{
    const int64_t most = INT64_C(10000000000000000);
    const int leap = year % 4 == 0 && (year % 100 != 0 || year % 400 == 0) ? 1 : 0;
    int64_t days, rest;

    if (year < -most || year > most || month < 1 || month > 12 || day < 1
        || day > (month == 2 ? 28 + leap : 30 + (month + month / 8) % 2))
        return false;
    /* The calendar has a period of 400 years, in which `rest` whole years are over. */
    rest = (year - 1) % 400 + (year < 1 ? 400 : 0);
    if (rest == 400) rest = 0;
    days = (year - 1 - rest) / 400 * 146097 + rest * 365 + rest / 4 - rest / 100;
    days += (367 * month - 362) / 12 - (month > 2 ? 2 - leap : 0) + day - 719163;
    rapidhash_key_integer(stream, days);
    return true;
}

/* Appends the microseconds of a time since 1970-01-01 00:00 UTC. The time is that many seconds, rounded down, and 0 to
 * 999,999,999 nanoseconds, as in a `struct timespec`: rapidhash_key_time(stream, t.tv_sec, t.tv_nsec). Refused are a
 * part of a microsecond, because other programs round it, other nanoseconds, and a time of more than 64 bits of
 * microseconds. To cut a part of a microsecond off, pass t.tv_nsec - t.tv_nsec % 1000. */
RAPIDHASH_INLINE_ bool rapidhash_key_time(struct rapidhash_stream *stream, int64_t seconds, int64_t nanoseconds)
{
    const int64_t most = INT64_MAX / 1000000, last = INT64_MAX % 1000000, micros = nanoseconds / 1000;

    if (nanoseconds < 0 || nanoseconds > 999999999 || nanoseconds % 1000 != 0
        || seconds > most || (seconds == most && micros > last)
        || seconds < -most - 1 || (seconds == -most - 1 && micros < 999999 - last))
        return false;
    rapidhash_key_number_(stream, 1, (uint64_t)seconds * 1000000 + (uint64_t)micros);
    return true;
}

/* Appends the 16 bytes of a UUID, in the order of its digits. */
RAPIDHASH_INLINE_ void rapidhash_key_uuid(struct rapidhash_stream *stream, const uint8_t bytes[16])
{ rapidhash_key_bytes(stream, bytes, 16); }

/* Gets the bits of a number. Returns false for NaN. Its name is private. */
RAPIDHASH_INLINE_ bool rapidhash_float_bits_(double number, uint64_t *bits)
{
    enum { needs_a_double_of_64_bits = 1 / (sizeof(double) == 8 ? 1 : 0) };
    const uint64_t infinity = UINT64_C(0x7ff0000000000000);

    memcpy(bits, &number, sizeof *bits);
    if (*bits << 1 == 0) *bits = 0;
    return *bits << 1 <= infinity << 1;
}

/* Appends the integer with the 64 bits of a number, those of 0 for -0. NaN is refused, because it has many bits. */
RAPIDHASH_INLINE_ bool rapidhash_key_float_bits(struct rapidhash_stream *stream, double number)
{
    uint64_t bits;
    if (!rapidhash_float_bits_(number, &bits)) return false;
    rapidhash_key_number_(stream, 1, bits);
    return true;
}

/* Appends the number of items of a list. As many fields must follow, the items, and none of them may be a list. */
RAPIDHASH_INLINE_ void rapidhash_key_list(struct rapidhash_stream *stream, size_t count)
{ rapidhash_key_number_(stream, 1, count); }

/* The text of a decimal number as at most five pieces, of which one without bytes is zeros. Its names are private. */
struct rapidhash_decimal_ {
    uint64_t len;
    size_t count;
    struct rapidhash_piece_ {
        const char *bytes;
        uint64_t len;
    } piece[5];
};
RAPIDHASH_INLINE_ void rapidhash_add_piece_(struct rapidhash_decimal_ *decimal, const char *bytes, uint64_t len)
{
    if (len == 0) return;
    decimal->piece[decimal->count].bytes = bytes;
    decimal->piece[decimal->count++].len = len;
    decimal->len += len;
}

/* The digits of such a number in a text, from the first to the last that is not 0: their number, how many precede the
 * number's point, less than 0 if zeros follow it, and how many precede a point that is between them in the text. */
struct rapidhash_digits_ {
    const char *first;
    int64_t count, whole, split;
};

/* Adds the digits from a number to another. */
RAPIDHASH_INLINE_ void rapidhash_add_digits_(
    struct rapidhash_decimal_ *decimal, const struct rapidhash_digits_ *digits, int64_t from, int64_t to)
{
    if (from < digits->split && to > digits->split) {
        rapidhash_add_piece_(decimal, digits->first + from, (uint64_t)(digits->split - from));
        from = digits->split;
    }
    rapidhash_add_piece_(decimal, digits->first + from + (from >= digits->split ? 1 : 0), (uint64_t)(to - from));
}

/* Reads digits and a point. Returns the number of characters, or 0 if there is no digit. */
RAPIDHASH_INLINE_ size_t rapidhash_read_digits_(const char *text, size_t len, struct rapidhash_digits_ *digits)
{
    int64_t all = 0, first = 0, point = -1;
    size_t at;

    digits->first = NULL;
    digits->count = 0;
    for (at = 0; at < len; at++) {
        if (text[at] == '.' && point < 0) {
            point = all;
            continue;
        }
        if (text[at] < '0' || text[at] > '9') break;
        if (text[at] != '0') {
            if (digits->first == NULL) {
                digits->first = text + at;
                first = all;
            }
            digits->count = all - first + 1;
        }
        all++;
    }
    digits->whole = (point < 0 ? all : point) - first;
    digits->split = digits->whole > 0 && digits->whole < digits->count ? digits->whole : digits->count;
    return all > 0 ? at : 0;
}

/* Reads the exponent that is a whole text, or 0 without a text. It grows until no text has digits to make up for it. */
RAPIDHASH_INLINE_ bool rapidhash_read_exponent_(const char *text, size_t len, int64_t *exponent)
{
    size_t at = 1;
    bool is_negative;

    *exponent = 0;
    if (len == 0) return true;
    if (text[0] != 'e' && text[0] != 'E') return false;
    is_negative = len > 1 && text[1] == '-';
    if (is_negative || (len > 1 && text[1] == '+')) at++;
    if (at == len) return false;
    for (; at < len; at++) {
        if (text[at] < '0' || text[at] > '9') return false;
        if (*exponent < INT64_C(100000000000000000)) *exponent = *exponent * 10 + (text[at] - '0');
    }
    if (is_negative) *exponent = -*exponent;
    return true;
}

/* Reads a decimal number. Returns false if the text is not one, or if its field would be too long. */
RAPIDHASH_INLINE_ bool rapidhash_read_decimal_(const char *text, size_t len, struct rapidhash_decimal_ *decimal)
{
    const bool is_negative = len > 0 && text[0] == '-';
    struct rapidhash_digits_ digits;
    size_t at = is_negative || (len > 0 && text[0] == '+') ? 1 : 0, read;
    int64_t exponent;

    memset(decimal, 0, sizeof *decimal);
    if (at == len) return false;
    read = rapidhash_read_digits_(text + at, len - at, &digits);
    at += read;
    if (read == 0 || !rapidhash_read_exponent_(text + at, len - at, &exponent)) return false;
    if (digits.count == 0) {
        rapidhash_add_piece_(decimal, "0", 1);
        return true;
    }
    digits.whole += exponent;
    rapidhash_add_piece_(decimal, "-", is_negative ? 1 : 0);
    if (digits.whole <= 0) {
        rapidhash_add_piece_(decimal, "0.", 2);
        rapidhash_add_piece_(decimal, NULL, (uint64_t)-digits.whole);
        rapidhash_add_digits_(decimal, &digits, 0, digits.count);
    } else if (digits.whole < digits.count) {
        rapidhash_add_digits_(decimal, &digits, 0, digits.whole);
        rapidhash_add_piece_(decimal, ".", 1);
        rapidhash_add_digits_(decimal, &digits, digits.whole, digits.count);
    } else {
        rapidhash_add_digits_(decimal, &digits, 0, digits.count);
        rapidhash_add_piece_(decimal, NULL, (uint64_t)(digits.whole - digits.count));
    }
    return decimal->len <= RAPIDHASH_DECIMAL_MOST;
}

/* Appends the text of a decimal number, which is the same for each way to write it: that of "1.50", "+1.5" and "15e-1"
 * is 1.5, and that of "-0.00" is 0. The `len` bytes at `text` are digits, with or without a sign, a point and an
 * exponent. Other texts, and numbers of more than 150,000 bytes without an exponent, are refused. */
RAPIDHASH_INLINE_ bool rapidhash_key_decimal(struct rapidhash_stream *stream, const char *text, size_t len)
{
    const char *const zeros = "00000000000000000000000000000000";
    const size_t most = 32;
    struct rapidhash_decimal_ decimal;
    size_t at, part, left;

    if (!rapidhash_read_decimal_(text, len, &decimal)) return false;
    rapidhash_key_number_(stream, 2, decimal.len);
    for (at = 0; at < decimal.count; at++)
        for (left = (size_t)decimal.piece[at].len; left > 0; left -= part) {
            const char *const bytes = decimal.piece[at].bytes;
            part = bytes == NULL && left > most ? most : left;
            rapidhash_stream_write(stream, bytes == NULL ? zeros : bytes, part);
        }
    return true;
}

#if defined(__cplusplus) && defined(__GNUC__)
#pragma GCC diagnostic pop
#endif

#endif
