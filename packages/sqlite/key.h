/* The hashes of keys, and the functions that make fields of them. */
#ifndef KEY_H
#define KEY_H

/* A call for a key, and its first argument, from which `make` makes the secrets. */
struct key {
    const char *name;
    const char *word;
    void (*make)(uint64_t word, struct rapidhash_secrets *secrets);
};

static const struct key keys[] = {
    {"rapidhash_v3_key", NULL, rapidhash_seed_secrets},
    {"rapidhash_v3_key_with_seed", "seed", rapidhash_seed_secrets},
    {"rapidhash_v3_key_with_secrets", "number", rapidhash_make_secrets},
};

static int refuse_field(sqlite3_context *context, const char *name, int at, const char *why)
{
    char refused[160];
    sqlite3_snprintf(sizeof refused, refused, "argument %d is %s", at, why);
    refuse(context, name, refused);
    return 0;
}

/* Appends a value to a key. Returns 0 with an error set if it is no field. */
static int add_field(sqlite3_context *context, const char *name, int at, sqlite3_value *value,
                     struct rapidhash_stream *stream)
{
    const int type = sqlite3_value_type(value);
    struct message message;
    if (type == SQLITE_FLOAT)
        return refuse_field(context, name, at, "a REAL, and no field of a key: pass rapidhash_float_bits(x), or "
                            "rapidhash_decimal of TEXT");
    if (type == SQLITE_NULL)
        rapidhash_key_nothing(stream);
    else if (type == SQLITE_INTEGER)
        rapidhash_key_integer(stream, sqlite3_value_int64(value));
    else if (!read_bytes(context, name, value, &message))
        return 0;
    else if (type == SQLITE_TEXT || !has_list_mark(message.bytes, message.len))
        rapidhash_key_bytes(stream, message.bytes, message.len);
    else if (sqlite3_value_subtype(value) == LIST_SUBTYPE)
        rapidhash_stream_write(stream, (const char *)message.bytes + LIST_MARK_SIZE, message.len - LIST_MARK_SIZE);
    else
        return refuse_field(context, name, at, "a list that rapidhash_list has not made in this call, and no field of "
                            "a key: write rapidhash_list(json) as the argument");
    return 1;
}

/* Returns the hash of a key of several fields. SQLite passes no argument for an asterisk, as in `count(*)`. */
static void call_key(sqlite3_context *context, int count, sqlite3_value **values)
{
    const struct key *const key = sqlite3_user_data(context);
    struct rapidhash_secrets secrets;
    struct rapidhash_stream stream;
    uint64_t word = 0;
    int at = key->word != NULL;
    if (count <= at) {
        refuse(context, key->name, "a key has fields: list the columns, because * passes none");
        return;
    }
    if (at == 1 && !read_word(context, key->name, key->word, values[0], &word))
        return;
    key->make(word, &secrets);
    rapidhash_v3_start(&stream, &secrets);
    for (; at < count; at++)
        if (!add_field(context, key->name, at + 1, values[at], &stream))
            return;
    sqlite3_result_int64(context, (sqlite3_int64)rapidhash_stream_finish(&stream));
}

/* A function that makes a field of a value, or returns why it is none. */
struct field {
    const char *name;
    const char *(*make)(sqlite3_context *context, sqlite3_value *value);
};

static const struct field fields[] = {
    {"rapidhash_date", make_date}, {"rapidhash_time", make_time}, {"rapidhash_uuid", make_uuid},
    {"rapidhash_decimal", make_decimal}, {"rapidhash_float_bits", make_float_bits}, {"rapidhash_list", make_list},
};

/* Makes a field of a value, and NULL of NULL. */
static void make_field(sqlite3_context *context, int count, sqlite3_value **values)
{
    const struct field *const field = sqlite3_user_data(context);
    const char *why;
    (void)count;
    if (sqlite3_value_type(values[0]) == SQLITE_NULL)
        return;
    why = field->make(context, values[0]);
    if (why == no_memory)
        sqlite3_result_error_nomem(context);
    else if (why != NULL)
        refuse(context, field->name, why);
}

#endif
