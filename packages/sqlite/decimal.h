/* The text of a decimal number without an exponent, a sign of zero, and zeros that say nothing. */
#ifndef DECIMAL_H
#define DECIMAL_H

#include <rapidhash_fields.h>

/* Writes a number. */
static void write_decimal(const struct rapidhash_decimal_ *decimal, char *to)
{
    const struct rapidhash_piece_ *piece = decimal->piece, *const end = piece + decimal->count;
    for (; piece < end; to += piece++->len) {
        if (piece->bytes == NULL)
            memset(to, '0', (size_t)piece->len);
        else
            memcpy(to, piece->bytes, (size_t)piece->len);
    }
}

static const char *make_decimal(sqlite3_context *context, sqlite3_value *value)
{
    struct text text;
    struct rapidhash_decimal_ decimal;
    char *digits;
    if (sqlite3_value_type(value) == SQLITE_FLOAT)
        return "a REAL has no digits of its own: store a decimal as TEXT, or pass rapidhash_float_bits(x)";
    if (sqlite3_value_type(value) == SQLITE_BLOB)
        return decimal_form;
    if (open_text(value, &text) != NULL)
        return no_memory;
    if (!rapidhash_read_decimal_((const char *)text.at, (size_t)(text.end - text.at), &decimal))
        return decimal.len > RAPIDHASH_DECIMAL_MOST ? "the decimal has more than 150000 characters" : decimal_form;
    digits = sqlite3_malloc((int)decimal.len);
    if (digits == NULL)
        return no_memory;
    write_decimal(&decimal, digits);
    sqlite3_result_text(context, digits, (int)decimal.len, sqlite3_free);
    return NULL;
}

#endif
