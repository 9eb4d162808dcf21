/* The arguments of the functions: words, and values as bytes. */
#ifndef VALUES_H
#define VALUES_H

/* The bytes of a value. If it is an integer, they are in `integer`. */
struct message {
    const void *bytes;
    size_t len;
    unsigned char integer[8];
};

static void refuse(sqlite3_context *context, const char *name, const char *why)
{
    char *text = sqlite3_mprintf("%s: %s", name, why);
    if (text == NULL) {
        sqlite3_result_error_nomem(context);
        return;
    }
    sqlite3_result_error(context, text, -1);
    sqlite3_free(text);
}

/* Reads an integer as the word with the same 64 bits. Returns 0 if there is none: without a result for NULL, or with an
 * error set. */
static int read_word(sqlite3_context *context, const char *name, const char *what, sqlite3_value *value, uint64_t *word)
{
    char why[64];
    if (sqlite3_value_type(value) == SQLITE_NULL)
        return 0;
    if (sqlite3_value_type(value) != SQLITE_INTEGER) {
        sqlite3_snprintf(sizeof why, why, "the %s must be an INTEGER", what);
        refuse(context, name, why);
        return 0;
    }
    *word = (uint64_t)sqlite3_value_int64(value);
    return 1;
}

/* Reads the 8 bytes of an integer, least significant first. */
static void read_integer(sqlite3_value *value, struct message *message)
{
    uint64_t word = (uint64_t)sqlite3_value_int64(value);
    int at;
    for (at = 0; at < 8; at++)
        message->integer[at] = (unsigned char)(word >> 8 * at);
    message->bytes = message->integer;
    message->len = sizeof message->integer;
}

/* Reads the bytes of a value. Returns 0 if there are none: without a result, which means NULL, or with an error set. */
static int read_bytes(sqlite3_context *context, const char *name, sqlite3_value *value, struct message *message)
{
    int type = sqlite3_value_type(value);
    if (type == SQLITE_NULL)
        return 0;
    if (type == SQLITE_FLOAT) {
        refuse(context, name, "a REAL cannot be hashed: cast it to TEXT, BLOB or INTEGER");
        return 0;
    }
    if (type == SQLITE_INTEGER) {
        read_integer(value, message);
        return 1;
    }
    if (type == SQLITE_TEXT) {
        message->bytes = sqlite3_value_text(value);
        message->len = (size_t)sqlite3_value_bytes(value);
    } else {
        /* The length comes first, because a zeroblob becomes NULL if there is no memory for it. */
        message->len = (size_t)sqlite3_value_bytes(value);
        message->bytes = sqlite3_value_blob(value);
    }
    if (message->bytes == NULL && (type == SQLITE_TEXT || message->len > 0)) {
        sqlite3_result_error_nomem(context);
        return 0;
    }
    return 1;
}

#endif
