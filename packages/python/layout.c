/* The layout of Arrow's arrays: the formats, and the field of a row. */
#include "extension.h"
#include <stdlib.h>

/* Returns the microseconds or days of a time's unit as a fraction, or 0 for another letter. */
static int read_time(const char *format, struct layout *layout)
{
    static const char units[] = "smun";
    static const int64_t many[] = {1000000, 1000, 1, 1}, few[] = {1, 1, 1, 1000};
    const char *const unit = format[0] == 't' && format[1] == 's' && format[2] != 0 ? strchr(units, format[2]) : NULL;
    layout->sort = 'f';
    layout->kind = 't';
    layout->letter = 'q';
    layout->width = 8;
    layout->times = 1;
    layout->per = 1;
    if (strcmp(format, "tdD") == 0)
        return layout->letter = 'i', layout->width = 4, 1;
    if (strcmp(format, "tdm") == 0)
        return layout->per = 86400000, layout->is_cut = 1, 1;
    if (unit == NULL || format[3] != ':' || format[4] == 0) /* A time without a zone is no instant. */
        return 0;
    layout->times = many[unit - units];
    layout->per = few[unit - units];
    return 1;
}

/* Reads the numbers of the format of a decimal of 128 bits, d:precision,scale. */
static int read_decimal(const char *format, struct layout *layout)
{
    const char *const comma = strchr(format, ',');
    char *end;
    const long digits = strncmp(format, "d:", 2) == 0 && comma != NULL ? strtol(comma + 1, &end, 10) : 100;
    if (digits < -38 || digits > 76 || end == comma + 1 || (*end != 0 && strcmp(end, ",128") != 0))
        return 0;
    layout->sort = 'f';
    layout->kind = 'd';
    layout->width = 16;
    layout->digits = (int)digits;
    return 1;
}

/* Reads the format of bytes of one width, w:width. */
static int read_width(const char *format, struct layout *layout)
{
    char *end = NULL;
    const long width = strncmp(format, "w:", 2) == 0 ? strtol(format + 2, &end, 10) : 0;
    if (end == NULL || end == format + 2 || *end != 0 || width < 1 || width > 1 << 24)
        return 0;
    layout->sort = 'b';
    layout->kind = 'w';
    layout->width = width;
    return 1;
}

static int read_layout(const char *format, struct layout *layout)
{
    static const char formats[] = "uzUZcCsSiIlLnb", kinds[] = "uuuuiiiiiiiinb", sorts[] = "bbbbiiiiiiiinf",
                      letters[] = "\0\0\0\0bBhHiIqQ\0", widths[] = "44881122448800";
    const char *const at = strlen(format) == 1 ? strchr(formats, *format) : NULL;
    memset(layout, 0, sizeof *layout);
    if (at != NULL) {
        layout->kind = kinds[at - formats];
        layout->sort = sorts[at - formats];
        layout->letter = letters[at - formats];
        layout->width = widths[at - formats] - '0';
    } else if (strcmp(format, "vu") == 0 || strcmp(format, "vz") == 0) {
        layout->kind = 'v';
        layout->sort = 'b';
        layout->width = 16;
    }
    return layout->kind != 0 || read_decimal(format, layout) || read_width(format, layout) || read_time(format, layout);
}

void read_format(const struct ArrowSchema *schema, struct layout *layout, char *why, size_t size)
{
    const struct ArrowSchema *const values = schema->dictionary;
    struct layout codes;
    const char *const has = values == NULL ? "" : " with a dictionary";
    if (schema->format == NULL || (values != NULL && (values->format == NULL || values->dictionary != NULL)))
        PyOS_snprintf(why, size, "not one without a format");
    else if (values != NULL && (!read_layout(schema->format, &codes) || codes.kind != 'i'))
        PyOS_snprintf(why, size, "not of the format '%.40s'%s", schema->format, has);
    else if (!read_layout(values == NULL ? schema->format : values->format, layout))
        PyOS_snprintf(why, size, "not of the format '%.40s'%s", (values == NULL ? schema : values)->format, has);
}

/* Reads an array of a format that is known. If it lies about its buffers, writes how to a text. */
static void read_part(const char *format, const struct ArrowArray *array, struct part *part, char *why, size_t size)
{
    const char kind = read_layout(format, &part->layout) ? part->layout.kind : 'n';
    const int64_t needed = kind == 'n' ? 0 : kind == 'u' || kind == 'v' ? 3 : 2;
    const int64_t most = PY_SSIZE_T_MAX / 8 / (part->layout.width == 0 ? 1 : part->layout.width);
    part->array = array;
    if (array->length < 0 || array->length > most)
        PyOS_snprintf(why, size, "not one of %lld rows", (long long)array->length);
    else if (array->offset < 0 || array->offset > most - array->length)
        PyOS_snprintf(why, size, "not one with the offset %lld", (long long)array->offset);
    else if (needed > 0 && (array->n_buffers < needed || array->buffers == NULL))
        PyOS_snprintf(why, size, "not one with %lld buffers", (long long)array->n_buffers);
    else if (needed > 0 && array->length > 0 && array->buffers[1] == NULL)
        PyOS_snprintf(why, size, "not one of %lld rows without their buffer", (long long)array->length);
    else if (needed > 0 && array->length > 0 && kind != 'b')
        part->first = (const char *)array->buffers[1] + array->offset * part->layout.width;
}

void read_array(const struct ArrowSchema *schema, struct chunk *chunk, char *why, size_t size)
{
    const struct ArrowArray *const array = &chunk->array;
    if ((schema->dictionary == NULL) != (array->dictionary == NULL))
        PyOS_snprintf(why, size, "not one that lacks its dictionary");
    else
        read_part(schema->format, array, &chunk->codes, why, size);
    if (schema->dictionary != NULL && *why == 0)
        read_part(schema->dictionary->format, array->dictionary, &chunk->values, why, size);
}

/* Returns the bits of the rows, of which those that are 0 are null, or NULL without any. */
static const unsigned char *bits_of(const struct part *part)
{
    return part->array->null_count == 0 || part->layout.kind == 'n' ? NULL : part->array->buffers[0];
}

static int bit_of(const void *bits, uint64_t at)
{ return ((const unsigned char *)bits)[at / 8] >> at % 8 & 1; }

static int64_t offset_of(const struct part *part, Py_ssize_t at)
{
    return part->layout.width == 8 ? (int64_t)number_at(part->first + 8 * at, 'q')
                                 : (int64_t)number_at(part->first + 4 * at, 'i');
}

/* Finds the bytes of a view: they follow their number, or lie in a buffer whose length is in the last one. */
static int read_view(const struct part *part, Py_ssize_t at, struct row *row)
{
    const struct ArrowArray *const array = part->array;
    const char *const view = part->first + 16 * at;
    const int64_t len = (int64_t)number_at(view, 'i'), which = (int64_t)number_at(view + 8, 'i'),
                  from = (int64_t)number_at(view + 12, 'i');
    const char *const lengths = array->buffers[array->n_buffers - 1];
    row->len = (size_t)len;
    row->bytes = view + 4;
    if (len >= 0 && len <= 12)
        return READ;
    if (len < 0 || which < 0 || which >= array->n_buffers - 3 || from < 0 || lengths == NULL ||
        (int64_t)number_at(lengths + 8 * which, 'q') < from + len || array->buffers[2 + which] == NULL)
        return OUTSIDE;
    row->bytes = (const char *)array->buffers[2 + which] + from;
    return READ;
}

/* Divides a number of 128 bits by 10. Returns the rest, its last digit. */
static char cut_digit(uint32_t words[4])
{
    uint64_t rest = 0;
    int at;
    for (at = 3; at >= 0; at--) {
        rest = rest << 32 | words[at];
        words[at] = (uint32_t)(rest / 10);
        rest %= 10;
    }
    return (char)('0' + rest);
}

/* Writes the shortest text of a decimal number from its last digit on, without zeros at the end of its fraction. */
static void write_decimal(const struct part *part, Py_ssize_t at, struct row *row)
{
    const char *const bytes = part->first + 16 * at;
    uint64_t low = number_at(bytes + (PY_LITTLE_ENDIAN ? 0 : 8), 'Q');
    uint64_t high = number_at(bytes + (PY_LITTLE_ENDIAN ? 8 : 0), 'Q');
    const int is_negative = (int64_t)high < 0, is_zero = (low | high) == 0;
    char *const end = row->text + sizeof row->text, *place = end;
    int left = part->layout.digits, is_whole = 0;
    uint32_t words[4];
    low = is_negative ? ~low + 1 : low;
    high = is_negative ? ~high + (low == 0) : high;
    words[0] = (uint32_t)low, words[1] = (uint32_t)(low >> 32);
    words[2] = (uint32_t)high, words[3] = (uint32_t)(high >> 32);
    for (; left < 0 && !is_zero; left++) {
        *--place = '0';
        is_whole = 1;
    }
    for (; left > 0 || !is_whole || (words[0] | words[1] | words[2] | words[3]) != 0; left--) {
        const char digit = cut_digit(words);
        if (left > 0 && digit == '0' && place == end)
            continue;
        if (left <= 0 && !is_whole && place != end)
            *--place = '.';
        *--place = digit;
        is_whole |= left <= 0;
    }
    if (is_negative)
        *--place = '-';
    row->bytes = place;
    row->len = (size_t)(end - place);
}

/* Converts a time to microseconds, or a time in milliseconds to days. */
static int read_instant(const struct layout *layout, struct row *row)
{
    const int64_t time = (int64_t)row->number, rest = time % layout->per, whole = time / layout->per - (rest < 0);
    if (rest != 0 && !layout->is_cut)
        return NOT_WHOLE;
    if (whole > INT64_MAX / layout->times || whole < INT64_MIN / layout->times)
        return TOO_FAR;
    row->number = (uint64_t)(whole * layout->times);
    return READ;
}

static int read_part_row(const struct part *part, Py_ssize_t at, struct row *row)
{
    const struct layout *const layout = &part->layout;
    const unsigned char *const bits = bits_of(part);
    const uint64_t place = (uint64_t)(part->array->offset + at);
    int64_t from, to;
    row->sort = NOTHING;
    if (layout->kind == 'n' || (bits != NULL && !bit_of(bits, place)))
        return READ;
    row->sort = layout->kind == 'i' || layout->kind == 't' || layout->kind == 'b' ? NUMBER : BYTES;
    if (layout->kind == 'b')
        return row->number = (uint64_t)bit_of(part->array->buffers[1], place), READ;
    if (row->sort == NUMBER) {
        row->number = number_at(part->first + at * layout->width, layout->letter);
        row->is_negative = layout->letter >= 'a' && (int64_t)row->number < 0;
        return layout->kind == 'i' ? READ : read_instant(layout, row);
    }
    if (layout->kind == 'v')
        return read_view(part, at, row);
    if (layout->kind == 'd')
        return write_decimal(part, at, row), READ;
    row->bytes = part->first + at * layout->width;
    row->len = (size_t)layout->width;
    if (layout->kind == 'w')
        return READ;
    from = offset_of(part, at), to = offset_of(part, at + 1);
    if (from < 0 || to < from)
        return NOT_ASCENDING;
    if (from < to && part->array->buffers[2] == NULL)
        return OUTSIDE;
    row->bytes = from == to ? "" : (const char *)part->array->buffers[2] + from;
    row->len = (size_t)(to - from);
    return READ;
}

int read_chunk(const struct chunk *chunk, Py_ssize_t at, struct row *row)
{
    const int status = read_part_row(&chunk->codes, at, row);
    if (chunk->values.array == NULL || status != READ || row->sort == NOTHING)
        return status;
    if (row->is_negative || row->number >= (uint64_t)chunk->values.array->length)
        return OUTSIDE;
    return read_part_row(&chunk->values, (Py_ssize_t)row->number, row);
}
