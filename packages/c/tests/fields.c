/* Replays the values of types and the encodings of their fields: cc fields.c && ./a.out <fields.tsv. The script
 * scripts/fields.py says how the file is made. Compiles as C and as C++. Prints each line that differs, and then the
 * lines, with those that it passes over: C has no list, in which another list would be refused, and this program reads
 * no escapes. */
#include <inttypes.h>
#include <limits.h>
#include <math.h>
#include <stdio.h>
#include <stdlib.h>
#include <string.h>

#include "rapidhash_fields.h"

enum { MOST = 150000 };

static struct rapidhash_secrets secrets;
static struct rapidhash_stream stream;
static unsigned differing;

static void expect(const char *what, const char *value, bool holds)
{
    if (!holds && differing++ < 20) printf("FAILED %s: %.100s\n", what, value);
}

/* Returns the days of a date since 1970-01-01, counted year by year, or LONG_MAX if it is none. */
static long days_of(const char *text)
{
    static const int lengths[] = {31, 28, 31, 30, 31, 30, 31, 31, 30, 31, 30, 31};
    int year, month, day, at, length;
    long days = 0;

    if (sscanf(text, "%4d-%2d-%2d", &year, &month, &day) != 3 || month < 1 || month > 12) return LONG_MAX;
    for (at = year; at < 1970; at++) days -= at % 4 == 0 && (at % 100 != 0 || at % 400 == 0) ? 366 : 365;
    for (at = 1970; at < year; at++) days += at % 4 == 0 && (at % 100 != 0 || at % 400 == 0) ? 366 : 365;
    for (at = 1;; at++) {
        length = lengths[at - 1] + (at == 2 && year % 4 == 0 && (year % 100 != 0 || year % 400 == 0));
        if (at == month) return day >= 1 && day <= length ? days + day - 1 : LONG_MAX;
        days += length;
    }
}

static bool add_boolean(const char *text)
{
    rapidhash_key_bool(&stream, strcmp(text, "true") == 0);
    return true;
}

/* Adds an integer of 64 bits, with or without a sign. */
static bool add_integer(const char *text)
{
    const uint64_t size = strtoull(text + (*text == '-'), NULL, 10);
    char again[32];

    snprintf(again, sizeof again, "%s%" PRIu64, *text == '-' ? "-" : "", size);
    if (strcmp(again, text) != 0 || (*text == '-' && size > UINT64_C(1) << 63)) return false;
    rapidhash_key_integer(&stream, (int64_t)(*text == '-' ? 0 - size : size));
    return true;
}

static bool add_date(const char *text)
{
    int year, month, day;
    return sscanf(text, "%4d-%2d-%2d", &year, &month, &day) == 3 && rapidhash_key_day(&stream, year, month, day);
}

/* Adds a time with an offset and at most nine digits of a second. */
static bool add_time(const char *text)
{
    const long days = days_of(text);
    int hour, minute, second, read = 0, ahead_hours, ahead_minutes;
    int64_t ahead = 0, seconds;
    int32_t nanoseconds = 0, unit = 100000000;
    const char *at;

    if (days == LONG_MAX || sscanf(text + 10, "T%2d:%2d:%2d%n", &hour, &minute, &second, &read) != 3 || second > 59)
        return false;
    at = text + 10 + read;
    if (*at == '.')
        for (at++; *at >= '0' && *at <= '9'; at++, unit /= 10) nanoseconds += (*at - '0') * unit;
    if (sscanf(at + (*at != 0), "%2d:%2d", &ahead_hours, &ahead_minutes) == 2)
        ahead = (*at == '-' ? -60 : 60) * (60 * ahead_hours + ahead_minutes);
    else if (*at != 'Z')
        return false;
    seconds = (int64_t)days * 86400 + hour * 3600 + minute * 60 + second - ahead;
    return rapidhash_key_time(&stream, seconds, nanoseconds);
}

static bool add_uuid(const char *text)
{
    uint8_t bytes[16];
    unsigned byte;
    int at, read;

    for (at = 0; at < 16; at++) {
        if (*text == '-') text++;
        if (sscanf(text, "%2x%n", &byte, &read) != 1 || read != 2) return false;
        bytes[at] = (uint8_t)byte;
        text += 2;
    }
    rapidhash_key_uuid(&stream, bytes);
    return true;
}

static bool add_decimal(const char *text) { return rapidhash_key_decimal(&stream, text, strlen(text)); }
static bool add_float(const char *text) { return rapidhash_key_float_bits(&stream, strtod(text, NULL)); }

/* Adds a list of JSON without escapes, whose items are no lists. */
static bool add_list(const char *text)
{
    const char *at, *end = text;
    size_t count = text[1] != ']';

    for (at = text; *at != 0; at++) count += *at == ',';
    rapidhash_key_list(&stream, count);
    for (at = text + 1; *at != ']'; at = end + (*end == ',')) {
        char item[64] = "";
        end = *at == '"' ? strchr(at + 1, '"') + 1 : at + strcspn(at, ",]");
        memcpy(item, at, (size_t)(end - at));
        if (*at == '"') rapidhash_key_bytes(&stream, at + 1, (size_t)(end - at) - 2);
        else if (*at == 'n') rapidhash_key_nothing(&stream);
        else if (*at == 't' || *at == 'f') add_boolean(item);
        else if (!add_integer(item)) return false;
    }
    return true;
}

static const struct {
    const char *name;
    bool (*add)(const char *);
} types[] = {{"boolean", add_boolean}, {"integer", add_integer}, {"date", add_date}, {"time", add_time},
             {"uuid", add_uuid}, {"decimal", add_decimal}, {"float", add_float}, {"list", add_list}};

/* Starts a message that has a field before the one that follows, and returns its bytes. */
static size_t start(unsigned char *message)
{
    rapidhash_v3_start(&stream, &secrets);
    rapidhash_key_integer(&stream, -7);
    memcpy(message, "\1\371\377\377\377\377\377\377\377", 9);
    return 9;
}

/* Compares a value with its encoding, hexadecimal digits or `refused`. A refused decimal must change nothing. */
static void compare(const char *type, const char *value, const char *encoding)
{
    unsigned char message[400];
    size_t at, len = start(message);
    bool is_added = true;

    for (at = 0; strcmp(types[at].name, type) != 0;) at++;
    if (strcmp(value, "null") == 0) rapidhash_key_nothing(&stream);
    else is_added = types[at].add(value);
    expect("refused", value, is_added == (strcmp(encoding, "refused") != 0));
    for (at = 0; is_added && encoding[2 * at] != 0; at++) {
        unsigned byte = 0;
        sscanf(encoding + 2 * at, "%2x", &byte);
        message[len++] = (unsigned char)byte;
    }
    if (is_added || strcmp(type, "list") != 0)
        expect(type, value, rapidhash_stream_finish(&stream) == rapidhash_v3(message, len));
}

/* Expects a refusal that has changed nothing. */
static void expect_refused(const char *what, bool is_added)
{
    unsigned char message[9];
    struct rapidhash_stream after = stream;
    start(message);
    expect(what, "not refused", !is_added && rapidhash_stream_finish(&after) == rapidhash_stream_finish(&stream));
}

/* Expects an integer as the field that was added. */
static void expect_integer(const char *what, bool is_added, int64_t number)
{
    unsigned char message[9];
    struct rapidhash_stream after = stream;
    start(message);
    rapidhash_key_integer(&stream, number);
    expect(what, "another field", is_added && rapidhash_stream_finish(&after) == rapidhash_stream_finish(&stream));
    start(message);
}

/* Compares a decimal, whose text is a head, a digit so many times, and a tail, with the text of its field. */
static void compare_decimal(const char *head, char digit, size_t count, const char *tail, const char *known)
{
    static char text[3000100];
    unsigned char message[9];
    struct rapidhash_stream after;
    bool is_added;

    strcpy(text, head);
    memset(text + strlen(head), digit, count);
    strcpy(text + strlen(head) + count, tail);
    start(message);
    is_added = rapidhash_key_decimal(&stream, text, strlen(text));
    after = stream;
    start(message);
    if (known != NULL) rapidhash_key_bytes(&stream, known, strlen(known));
    expect("decimal", head, is_added == (known != NULL)
           && rapidhash_stream_finish(&after) == rapidhash_stream_finish(&stream));
}

/* Checks values at the bounds, which the file has not. */
static void check_bounds(void)
{
    const int64_t most = INT64_MAX / 1000000, million = 1000000, year = 10000 * INT64_C(1000000000000);
    unsigned char message[9];

    start(message);
    expect_refused("a negative part of a second", rapidhash_key_time(&stream, 5, -1000));
    expect_refused("a second of nanoseconds", rapidhash_key_time(&stream, 5, 1000000000));
    expect_refused("half a microsecond", rapidhash_key_time(&stream, 5, 500));
    expect_refused("such a time before 1970", rapidhash_key_time(&stream, -5, 999999999));
    expect_refused("a late second", rapidhash_key_time(&stream, most + 1, 0));
    expect_refused("a late microsecond", rapidhash_key_time(&stream, most, 775808000));
    expect_refused("the last second", rapidhash_key_time(&stream, INT64_MAX, 0));
    expect_refused("an early microsecond", rapidhash_key_time(&stream, -most - 1, 224191000));
    expect_refused("an early second", rapidhash_key_time(&stream, -most - 2, 999999000));
    expect_refused("the first second", rapidhash_key_time(&stream, INT64_MIN, 0));
    expect_integer("the last time", rapidhash_key_time(&stream, most, 775807000), INT64_MAX);
    expect_integer("the first time", rapidhash_key_time(&stream, -most - 1, 224192000), INT64_MIN);
    expect_integer("a time before 1970", rapidhash_key_time(&stream, -1, 999999000), -1);
    expect_integer("a second", rapidhash_key_time(&stream, 5, 0), 5 * million);
    expect_refused("no month", rapidhash_key_day(&stream, 2024, 0, 1));
    expect_refused("month 13", rapidhash_key_day(&stream, 2024, 13, 1));
    expect_refused("a month below 0", rapidhash_key_day(&stream, 2024, INT_MIN, 1));
    expect_refused("no day", rapidhash_key_day(&stream, 2024, 1, 0));
    expect_refused("a day below 0", rapidhash_key_day(&stream, 2024, 1, INT_MIN));
    expect_refused("the last day", rapidhash_key_day(&stream, 2024, 1, INT_MAX));
    expect_refused("30 February", rapidhash_key_day(&stream, 2024, 2, 30));
    expect_refused("a late year", rapidhash_key_day(&stream, year + 1, 1, 1));
    expect_refused("the first year", rapidhash_key_day(&stream, INT64_MIN, 1, 1));
    expect_refused("the last year", rapidhash_key_day(&stream, INT64_MAX, 12, 31));
    expect_integer("a day of a leap year 0", rapidhash_key_day(&stream, 0, 2, 29), -719469);
    expect_integer("a day before it", rapidhash_key_day(&stream, -1, 12, 31), -719529);
    expect_integer("a year before that", rapidhash_key_day(&stream, -400, 1, 1), -865625);
    expect_integer("a late day", rapidhash_key_day(&stream, year, 1, 1), year / 400 * 146097 - 719528);
    expect_integer("an early day", rapidhash_key_day(&stream, -year, 1, 1), -year / 400 * 146097 - 719528);
    expect_refused("NaN", rapidhash_key_float_bits(&stream, (double)NAN));
    expect_refused("NaN with a sign", rapidhash_key_float_bits(&stream, -(double)NAN));
    expect_integer("-0", (rapidhash_key_float_bits(&stream, -0.0)), 0);
}

static void check_decimals(void)
{
    static char known[MOST + 2];
    unsigned char message[9];

    memset(known, '9', MOST);
    start(message);
    expect_refused("no text", rapidhash_key_decimal(&stream, NULL, 0));
    expect_refused("a zero byte", rapidhash_key_decimal(&stream, "1\0", 2));
    expect_refused("a space", rapidhash_key_decimal(&stream, "1 ", 2));
    compare_decimal("", '9', MOST, "", known);
    compare_decimal("", '9', MOST, ".000e0", known);
    compare_decimal("", '9', MOST, "0e-1", known);
    compare_decimal("", '9', MOST + 1, "", NULL);
    compare_decimal("-", '9', MOST, "", NULL);
    compare_decimal("-", '9', MOST - 1, "", memcpy(known, "-", 1) ? known : NULL);
    memset(known, '0', MOST);
    known[1] = '.';
    known[MOST - 1] = '1';
    compare_decimal("1e-149998", '0', 0, "", known);
    compare_decimal("1e-149999", '0', 0, "", NULL);
    compare_decimal("0.", '0', MOST - 3, "1", known);
    compare_decimal("0.", '0', 3000000, "1e2850003", known);
    compare_decimal("", '0', 3000000, "1.50", "1.5");
    compare_decimal("1", '0', 3000000, "e-3000000", "1");
    compare_decimal("1", '0', 3000000, "", NULL);
    compare_decimal("1", '0', 3000000, "e-1000000000000000000000000000000", NULL);
    compare_decimal("0.", '0', 3000000, "", "0");
    compare_decimal("1e", '9', 3000000, "", NULL);
    compare_decimal("-0e", '9', 3000000, "", "0");
    compare_decimal("1e-1000000000", '0', 0, "", NULL);
    compare_decimal("1.5e", '0', 3000000, "1", "15");
}

int main(void)
{
    static char line[1000];
    unsigned lines = 0, passed = 0;

    rapidhash_seed_secrets(0, &secrets);
    while (fgets(line, sizeof line, stdin) != NULL) {
        char *const value = strchr(line, '\t'), *encoding = value == NULL ? NULL : strchr(value + 1, '\t');
        if (line[0] == '#' || encoding == NULL || strncmp(line, "type\t", 5) == 0) continue;
        *value = *encoding++ = 0;
        encoding[-1] = 0;
        encoding[strcspn(encoding, "\r\n")] = 0;
        lines++;
        if (strcmp(line, "list") == 0 && (strchr(value + 2, '[') != NULL || strchr(value + 1, '\\') != NULL)) passed++;
        else compare(line, value + 1, encoding);
    }
    expect("lines", "fields.tsv", lines > 400 && passed < 10);
    check_bounds();
    check_decimals();
    printf("%u lines, %u of them passed over: %u failures\n", lines, passed, differing);
    return differing != 0;
}
