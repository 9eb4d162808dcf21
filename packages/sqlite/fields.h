/* The functions that make fields of a key from values for which SQLite has no types: dates, times, UUIDs, decimals, and
 * the bits of a REAL. Their rules are those of docs/ALGORITHM.md of the repository. */
#ifndef FIELDS_H
#define FIELDS_H

#include <string.h>

/* A text that is being read, from `at` on. It may have zero bytes. */
struct text {
    const unsigned char *at, *end;
};

static const char no_memory[] = "out of memory";
static const char date_form[] = "a date is TEXT of the form YYYY-MM-DD";
static const char time_form[] =
    "a time is TEXT of the form YYYY-MM-DD HH:MM:SS.ffffff, and its offset from UTC, such as +01:00 or Z";
static const char uuid_form[] = "a UUID is TEXT of 36 characters, or a BLOB of 16 bytes";
static const char decimal_form[] = "a decimal is an INTEGER, or TEXT such as -12.50 or 1e3";

/* Begins to read a TEXT, or the digits of an INTEGER. Returns why it cannot, else NULL. */
static const char *open_text(sqlite3_value *value, struct text *text)
{
    text->at = sqlite3_value_text(value);
    if (text->at == NULL)
        return no_memory;
    text->end = text->at + sqlite3_value_bytes(value);
    return NULL;
}

/* Skips a character if it is one of these. */
static int read_char(struct text *text, const char *these)
{
    if (text->at == text->end || *text->at == 0 || strchr(these, *text->at) == NULL)
        return 0;
    text->at++;
    return 1;
}

/* Reads a number of so many digits. */
static int read_digits(struct text *text, int count, int *number)
{
    *number = 0;
    for (; count > 0; count--) {
        if (text->at == text->end || *text->at < '0' || *text->at > '9')
            return 0;
        *number = *number * 10 + (*text->at++ - '0');
    }
    return 1;
}

/* Reads a date as days since 1970. Returns why it is none, else NULL. */
static const char *read_date(struct text *text, sqlite3_int64 *days)
{
    static const int lengths[] = {31, 28, 31, 30, 31, 30, 31, 31, 30, 31, 30, 31};
    int year, month, day, is_leap, past;
    if (!read_digits(text, 4, &year) || !read_char(text, "-") || !read_digits(text, 2, &month) ||
        !read_char(text, "-") || !read_digits(text, 2, &day))
        return date_form;
    is_leap = year % 4 == 0 && (year % 100 != 0 || year % 400 == 0);
    if (year < 1 || month < 1 || month > 12 || day < 1 || day > lengths[month - 1] + (month == 2 && is_leap))
        return "no such day in the years 0001 to 9999";
    past = year - 1;
    day += month > 2 && is_leap;
    for (month--; month > 0; month--)
        day += lengths[month - 1];
    *days = past * 365 + past / 4 - past / 100 + past / 400 + day - 719163;
    return NULL;
}

static const char *make_date(sqlite3_context *context, sqlite3_value *value)
{
    struct text text;
    sqlite3_int64 days;
    const char *why = sqlite3_value_type(value) == SQLITE_TEXT ? open_text(value, &text) : date_form;
    if (why == NULL)
        why = read_date(&text, &days);
    if (why == NULL && text.at != text.end)
        why = date_form;
    if (why == NULL)
        sqlite3_result_int64(context, days);
    return why;
}

/* Reads the microseconds of a fraction, if there is one. */
static const char *read_fraction(struct text *text, int *microseconds)
{
    int unit = 100000, digit;
    *microseconds = 0;
    if (!read_char(text, "."))
        return NULL;
    if (!read_digits(text, 1, &digit))
        return time_form;
    do {
        if (unit == 0 && digit != 0)
            return "the time is finer than a microsecond: cut it before";
        *microseconds += digit * unit;
        unit /= 10;
    } while (read_digits(text, 1, &digit));
    return NULL;
}

/* Reads the seconds by which a time is ahead of UTC, at the end of a text. */
static const char *read_offset(struct text *text, int *ahead)
{
    int is_behind, hours, minutes = 0, seconds = 0;
    *ahead = 0;
    if (text->at == text->end)
        return "the time has no offset from UTC: append one, such as +01:00 or Z";
    is_behind = *text->at == '-';
    if (!read_char(text, "Z")) {
        if (!read_char(text, "+-") || !read_digits(text, 2, &hours) || hours > 23)
            return time_form;
        if (read_char(text, ":") && (!read_digits(text, 2, &minutes) || minutes > 59))
            return time_form;
        if (read_char(text, ":") && (!read_digits(text, 2, &seconds) || seconds > 59))
            return time_form;
        *ahead = (is_behind ? -1 : 1) * ((60 * hours + minutes) * 60 + seconds);
    }
    return text->at == text->end ? NULL : time_form;
}

/* Reads the time of a day as its microseconds in UTC, which may be those of another day. */
static const char *read_clock(struct text *text, sqlite3_int64 *microseconds)
{
    int hours, minutes, seconds, rest, ahead;
    const char *why;
    if (!read_char(text, " T") || !read_digits(text, 2, &hours) || !read_char(text, ":") ||
        !read_digits(text, 2, &minutes) || !read_char(text, ":") || !read_digits(text, 2, &seconds))
        return time_form;
    if (hours > 23 || minutes > 59 || seconds > 59)
        return "the time of day is from 00:00:00 to 23:59:59";
    why = read_fraction(text, &rest);
    if (why == NULL)
        why = read_offset(text, &ahead);
    if (why == NULL)
        *microseconds = ((60 * hours + minutes) * 60 + seconds - ahead) * (sqlite3_int64)1000000 + rest;
    return why;
}

static const char *make_time(sqlite3_context *context, sqlite3_value *value)
{
    struct text text;
    sqlite3_int64 days, microseconds;
    const char *why = sqlite3_value_type(value) == SQLITE_TEXT ? open_text(value, &text) : time_form;
    if (why == NULL)
        why = read_date(&text, &days);
    if (why == NULL)
        why = read_clock(&text, &microseconds);
    if (why == NULL)
        sqlite3_result_int64(context, days * 86400000000 + microseconds);
    return why == date_form ? time_form : why;
}

/* Reads a number of hexadecimal digits. */
static int read_hex(struct text *text, int count, unsigned *number)
{
    *number = 0;
    for (; count > 0; count--) {
        static const char digits[] = "0123456789abcdef0123456789ABCDEF";
        const char *const digit = text->at < text->end && *text->at != 0 ? strchr(digits, *text->at) : NULL;
        if (digit == NULL)
            return 0;
        *number = *number << 4 | ((unsigned)(digit - digits) & 15);
        text->at++;
    }
    return 1;
}

static const char *make_uuid(sqlite3_context *context, sqlite3_value *value)
{
    unsigned char bytes[16];
    unsigned byte;
    int at;
    struct text text;
    const char *why;
    if (sqlite3_value_type(value) == SQLITE_BLOB && sqlite3_value_bytes(value) == 16) {
        sqlite3_result_value(context, value);
        return NULL;
    }
    why = sqlite3_value_type(value) == SQLITE_TEXT ? open_text(value, &text) : uuid_form;
    for (at = 0; at < 16 && why == NULL; at++) {
        if (((at == 4 || at == 6 || at == 8 || at == 10) && !read_char(&text, "-")) || !read_hex(&text, 2, &byte))
            why = uuid_form;
        else
            bytes[at] = (unsigned char)byte;
    }
    if (why == NULL && text.at != text.end)
        why = uuid_form;
    if (why == NULL)
        sqlite3_result_blob(context, bytes, 16, SQLITE_TRANSIENT);
    return why;
}

/* Returns a REAL, or an INTEGER that is equal to one, as the integer with its bits. -0 has those of 0. */
static const char *make_float_bits(sqlite3_context *context, sqlite3_value *value)
{
    const double number = sqlite3_value_double(value);
    sqlite3_int64 bits;
    if (sqlite3_value_type(value) != SQLITE_FLOAT &&
        (sqlite3_value_type(value) != SQLITE_INTEGER || number >= 9223372036854775808.0 ||
         (sqlite3_int64)number != sqlite3_value_int64(value)))
        return "only a REAL, or an INTEGER that is equal to one, has such bits";
    memcpy(&bits, &number, sizeof bits);
    /* A small number would equal 0, where a library that was linked with -ffast-math is loaded. */
    sqlite3_result_int64(context, bits == INT64_MIN ? 0 : bits);
    return NULL;
}

#endif
