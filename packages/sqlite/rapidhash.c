/* The rapidhash family as SQL functions: an extension that SQLite loads. README.md describes every function. */
#include <rapidhash_c.h>
#include <sqlite3ext.h>

SQLITE_EXTENSION_INIT1

#include "values.h"
#include "fields.h"
#include "decimal.h"
#include "list.h"
#include "key.h"
#include "shards.h"

/* SQLite 3.25 introduced sqlite3_create_window_function. */
#define OLDEST_SQLITE 3025000
/* The headers have this flag from SQLite 3.31 on, and an older SQLite ignores it. */
#ifndef SQLITE_INNOCUOUS
#define SQLITE_INNOCUOUS 0x200000
#endif
/* From SQLite 3.45 on, and ignored before. */
#ifndef SQLITE_RESULT_SUBTYPE
#define SQLITE_RESULT_SUBTYPE 0x1000000
#endif
#ifndef SQLITE_SUBTYPE
#define SQLITE_SUBTYPE 0x100000
#endif
#define FLAGS (SQLITE_UTF8 | SQLITE_DETERMINISTIC | SQLITE_INNOCUOUS)

/* An SQL function. `word` is the name of its second argument, a word, or NULL if it has no second argument. */
struct function {
    const char *name;
    const char *word;
    uint64_t (*hash)(const void *bytes, size_t len, uint64_t word);
};

/* An aggregate over the values of a column, by a version with streams. */
struct aggregate {
    const char *name;
    void (*start)(struct rapidhash_stream *stream, const struct rapidhash_secrets *secrets);
};

/* The state of an aggregate between rows, initially zero. SQLite does not move it, so the stream may point into it. */
struct running {
    int is_started;
    uint64_t seed;
    struct rapidhash_secrets secrets;
    struct rapidhash_stream stream;
};

/* Reads the bytes of a value that is no list. */
static int read_message(sqlite3_context *context, const char *name, sqlite3_value *value, struct message *message)
{
    if (!read_bytes(context, name, value, message))
        return 0;
    if (sqlite3_value_type(value) == SQLITE_BLOB && has_list_mark(message->bytes, message->len)) {
        refuse(context, name, "a list can be hashed as a field of a key only");
        return 0;
    }
    return 1;
}

/* The scalar functions. */
static void call(sqlite3_context *context, int count, sqlite3_value **values)
{
    const struct function *function = sqlite3_user_data(context);
    struct message message;
    uint64_t word = 0;
    if (count == 2 && !read_word(context, function->name, function->word, values[1], &word))
        return;
    if (read_message(context, function->name, values[0], &message))
        sqlite3_result_int64(context, (sqlite3_int64)function->hash(message.bytes, message.len, word));
}

/* Returns a hash as 16 hexadecimal digits. */
static void digits_of(sqlite3_context *context, int count, sqlite3_value **values)
{
    char digits[17];
    uint64_t hash;
    (void)count;
    if (!read_word(context, "rapidhash_hex", "hash", values[0], &hash))
        return;
    sqlite3_snprintf(sizeof digits, digits, "%016llx", hash);
    sqlite3_result_text(context, digits, 16, SQLITE_TRANSIENT);
}

/* Adds a row to an aggregate. */
static void step(sqlite3_context *context, int count, sqlite3_value **values)
{
    const struct aggregate *aggregate = sqlite3_user_data(context);
    struct running *running;
    struct message message;
    uint64_t seed = 0;
    if (count == 2 && !read_word(context, aggregate->name, "seed", values[1], &seed))
        return;
    if (!read_message(context, aggregate->name, values[0], &message))
        return;
    running = sqlite3_aggregate_context(context, sizeof *running);
    if (running == NULL) {
        sqlite3_result_error_nomem(context);
        return;
    }
    if (!running->is_started) {
        rapidhash_seed_secrets(seed, &running->secrets);
        aggregate->start(&running->stream, &running->secrets);
        running->seed = seed;
        running->is_started = 1;
    } else if (running->seed != seed) {
        refuse(context, aggregate->name, "the seed must be the same in every row");
        return;
    }
    rapidhash_stream_write(&running->stream, message.bytes, message.len);
}

/* Returns the hash of the rows so far. It changes nothing, so it also returns the final result. */
static void report_value(sqlite3_context *context)
{
    const struct running *running = sqlite3_aggregate_context(context, 0);
    if (running != NULL)
        sqlite3_result_int64(context, (sqlite3_int64)rapidhash_stream_finish(&running->stream));
}

/* Refuses a window whose first row moves, because no bytes can be removed from a hash. */
static void refuse_inverse(sqlite3_context *context, int count, sqlite3_value **values)
{
    const struct aggregate *aggregate = sqlite3_user_data(context);
    (void)count;
    (void)values;
    refuse(context, aggregate->name, "the window must begin with UNBOUNDED PRECEDING");
}

/* Defines the hash of a version by default, and with secrets made from a number. V1 has its own type of secrets. */
#define HASHES(version, own) \
    static uint64_t default_##version(const void *bytes, size_t len, uint64_t none) \
    { \
        (void)none; \
        return rapidhash_##version(bytes, len); \
    } \
    static uint64_t with_secrets_##version(const void *bytes, size_t len, uint64_t number) \
    { \
        struct own##_secrets secrets; \
        own##_make_secrets(number, &secrets); \
        return rapidhash_##version##_with_secrets(bytes, len, &secrets); \
    }

RAPIDHASH_C_VERSIONS(HASHES)

#define FUNCTIONS(version, own) \
    {"rapidhash_" #version, NULL, default_##version}, \
    {"rapidhash_" #version, "seed", rapidhash_##version##_with_seed}, \
    {"rapidhash_" #version "_with_secrets", "number", with_secrets_##version},
#define AGGREGATE(version, lanes) {"rapidhash_" #version "_agg", rapidhash_##version##_start},

static const struct function functions[] = {RAPIDHASH_C_VERSIONS(FUNCTIONS)};
static const struct aggregate aggregates[] = {RAPIDHASH_C_STREAMS(AGGREGATE)};

#define COUNT(table) (sizeof(table) / sizeof *(table))

/* Adds all functions to a database. SQLite derives the name of this function from that of the file, rapidhash.so. */
#ifdef __GNUC__
__attribute__((visibility("default")))
#endif
int sqlite3_rapidhash_init(sqlite3 *database, char **error, const sqlite3_api_routines *api)
{
    size_t at;
    int status;
    SQLITE_EXTENSION_INIT2(api)
    if (sqlite3_libversion_number() < OLDEST_SQLITE) {
        *error = sqlite3_mprintf("rapidhash needs SQLite 3.25 or later, and this is %s", sqlite3_libversion());
        return SQLITE_ERROR;
    }
    status = sqlite3_create_function_v2(database, "rapidhash_hex", 1, FLAGS, NULL, digits_of, NULL, NULL, NULL);
    for (at = 0; at < COUNT(functions) && status == SQLITE_OK; at++)
        status = sqlite3_create_function_v2(database, functions[at].name, functions[at].word == NULL ? 1 : 2, FLAGS,
            (void *)&functions[at], call, NULL, NULL, NULL);
    for (at = 0; at < COUNT(keys) && status == SQLITE_OK; at++)
        status = sqlite3_create_function_v2(database, keys[at].name, -1, FLAGS | SQLITE_SUBTYPE, (void *)&keys[at],
            call_key, NULL, NULL, NULL);
    for (at = 0; at < COUNT(fields) && status == SQLITE_OK; at++)
        status = sqlite3_create_function_v2(database, fields[at].name, 1, FLAGS | SQLITE_RESULT_SUBTYPE,
            (void *)&fields[at], make_field, NULL, NULL, NULL);
    for (at = 0; at < COUNT(decisions) && status == SQLITE_OK; at++)
        status = sqlite3_create_function_v2(database, decisions[at].name, 2, FLAGS, (void *)&decisions[at], decide,
            NULL, NULL, NULL);
    if (status == SQLITE_OK)
        status = sqlite3_create_window_function(database, "rapidhash_fingerprint", 1, FLAGS, NULL, add_hash,
            fingerprint_so_far, fingerprint_so_far, remove_hash, NULL);
    for (at = 0; at < 2 * COUNT(aggregates) && status == SQLITE_OK; at++)
        status = sqlite3_create_window_function(database, aggregates[at / 2].name, 1 + (int)(at % 2), FLAGS,
            (void *)&aggregates[at / 2], step, report_value, report_value, refuse_inverse, NULL);
    /* While a statement runs, SQLite defines no function again. */
    if (status != SQLITE_OK && error != NULL)
        *error = sqlite3_mprintf("%s", sqlite3_errmsg(database));
    return status;
}
