/* The lists of keys. A list is a BLOB of a mark and the encoding of a JSON array, with a subtype that it loses in a
 * table. Without the subtype it is refused, and without the mark it is no list. */
#ifndef LIST_H
#define LIST_H

#define LIST_SUBTYPE 'L'
#define LIST_MARK_SIZE 24
/* The tag of a field and 8 bytes. */
#define FIELD_HEAD 9

/* Words and random bytes. */
static const unsigned char list_mark[LIST_MARK_SIZE + 1] =
    "rapidhash_list\0\xe3\x5c\x91\x0f\xb8\x66\xd2\x27\xca";
static const char list_form[] = "a list is TEXT of a JSON array";
static const char half_pair[] = "an item has half of a surrogate pair";

/* A list that is being made, with room for what follows `at`. */
struct list {
    unsigned char *at;
    uint64_t count;
};

/* Writes an integer, or the head of bytes. */
static void write_number(unsigned char *to, unsigned char tag, uint64_t number)
{
    int at;
    *to = tag;
    for (at = 0; at < 8; at++)
        to[at + 1] = (unsigned char)(number >> 8 * at);
}

static void add_number(struct list *list, uint64_t number)
{
    write_number(list->at, 1, number);
    list->at += FIELD_HEAD;
}

static void add_utf_8(struct list *list, unsigned code)
{
    const int more = code < 0x80 ? 0 : code < 0x800 ? 1 : code < 0x10000 ? 2 : 3;
    static const unsigned char heads[] = {0, 0xc0, 0xe0, 0xf0};
    int at;
    *list->at++ = (unsigned char)(heads[more] | code >> 6 * more);
    for (at = more - 1; at >= 0; at--)
        *list->at++ = (unsigned char)(0x80 | (code >> 6 * at & 0x3f));
}

/* Skips a word if it is next. */
static int skip_word(struct text *text, const char *word)
{
    const size_t len = strlen(word);
    if ((size_t)(text->end - text->at) < len || memcmp(text->at, word, len) != 0)
        return 0;
    text->at += len;
    return 1;
}

/* Reads what follows a backslash. Returns why it is wrong, else NULL. */
static const char *read_escape(struct text *text, struct list *list)
{
    static const char letters[] = "\"\\/bfnrt", meant[] = "\"\\/\b\f\n\r\t";
    unsigned code, low;
    const char *letter;
    if (read_char(text, "u")) {
        if (!read_hex(text, 4, &code))
            return list_form;
        if (code >> 10 == 0xd800 >> 10) {
            if (!skip_word(text, "\\u") || !read_hex(text, 4, &low) || low >> 10 != 0xdc00 >> 10)
                return half_pair;
            code = 0x10000 + ((code & 0x3ff) << 10 | (low & 0x3ff));
        } else if (code >> 10 == 0xdc00 >> 10) {
            return half_pair;
        }
        add_utf_8(list, code);
        return NULL;
    }
    letter = text->at < text->end && *text->at != 0 ? strchr(letters, *text->at) : NULL;
    if (letter == NULL)
        return list_form;
    *list->at++ = (unsigned char)meant[letter - letters];
    text->at++;
    return NULL;
}

static const char *read_string(struct text *text, struct list *list)
{
    unsigned char *const head = list->at;
    list->at += FIELD_HEAD;
    while (!read_char(text, "\"")) {
        const char *why = NULL;
        if (text->at == text->end || *text->at < ' ')
            return list_form;
        if (read_char(text, "\\"))
            why = read_escape(text, list);
        else
            *list->at++ = *text->at++;
        if (why != NULL)
            return why;
    }
    write_number(head, 2, (uint64_t)(list->at - head - FIELD_HEAD));
    return NULL;
}

static const char *read_number(struct text *text, struct list *list)
{
    const int is_negative = read_char(text, "-");
    const unsigned char *const first = text->at;
    uint64_t number = 0;
    int digit, is_long = 0;
    while (read_digits(text, 1, &digit)) {
        is_long |= number > (UINT64_MAX - (uint64_t)digit) / 10;
        number = number * 10 + (uint64_t)digit;
    }
    if (text->at == first || (*first == '0' && text->at - first > 1))
        return list_form;
    if (read_char(text, ".eE"))
        return "an item is a floating-point number: write it as a text";
    if (is_long || (is_negative && number > (uint64_t)1 << 63))
        return "an item has more than 64 bits";
    add_number(list, is_negative ? 0 - number : number);
    return NULL;
}

static const char *read_item(struct text *text, struct list *list)
{
    list->count++;
    if (skip_word(text, "null"))
        *list->at++ = 0;
    else if (skip_word(text, "true"))
        add_number(list, 1);
    else if (skip_word(text, "false"))
        add_number(list, 0);
    else if (read_char(text, "\""))
        return read_string(text, list);
    else if (read_char(text, "[{"))
        return "an item is a list or an object: pass it as an argument of its own";
    else
        return read_number(text, list);
    return NULL;
}

static void skip_blanks(struct text *text)
{
    while (read_char(text, " \t\n\r"))
        continue;
}

/* Reads a JSON array. Returns why it is none, else NULL. */
static const char *read_items(struct text *text, struct list *list)
{
    const char *why;
    skip_blanks(text);
    if (!read_char(text, "["))
        return list_form;
    skip_blanks(text);
    if (!read_char(text, "]")) {
        do {
            skip_blanks(text);
            why = read_item(text, list);
            if (why != NULL)
                return why;
            skip_blanks(text);
        } while (read_char(text, ","));
        if (!read_char(text, "]"))
            return list_form;
    }
    skip_blanks(text);
    return text->at == text->end ? NULL : list_form;
}

/* Returns the most bytes of a list: a head for each item, of which all but one have a comma outside of a string, and
 * all bytes of strings, which are never more than those of the text. */
static sqlite3_uint64 room_for(const struct text *text)
{
    sqlite3_uint64 items = 1;
    const unsigned char *at;
    int is_string = 0;
    for (at = text->at; at < text->end; at++) {
        items += *at == ',' && !is_string;
        is_string ^= *at == '"';
        if (*at == '\\' && is_string && at + 1 < text->end)
            at++;
    }
    return LIST_MARK_SIZE + FIELD_HEAD * (items + 1) + (sqlite3_uint64)(text->end - text->at);
}

static const char *make_list(sqlite3_context *context, sqlite3_value *value)
{
    struct text text;
    struct list list = {NULL, 0};
    unsigned char *bytes;
    const char *why;
    if (sqlite3_value_type(value) != SQLITE_TEXT)
        return list_form;
    if (open_text(value, &text) != NULL)
        return no_memory;
    bytes = sqlite3_malloc64(room_for(&text));
    if (bytes == NULL)
        return no_memory;
    memcpy(bytes, list_mark, LIST_MARK_SIZE);
    list.at = bytes + LIST_MARK_SIZE + FIELD_HEAD;
    why = read_items(&text, &list);
    if (why != NULL) {
        sqlite3_free(bytes);
        return why;
    }
    write_number(bytes + LIST_MARK_SIZE, 1, list.count);
    sqlite3_result_blob64(context, bytes, (sqlite3_uint64)(list.at - bytes), sqlite3_free);
    sqlite3_result_subtype(context, LIST_SUBTYPE);
    return NULL;
}

/* Returns whether the bytes of a BLOB are those of a list. */
static int has_list_mark(const void *bytes, size_t len)
{
    return len > LIST_MARK_SIZE && memcmp(bytes, list_mark, LIST_MARK_SIZE) == 0;
}

#endif
