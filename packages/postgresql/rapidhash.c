/* The rapidhash family as PostgreSQL functions, but for the keys in key.c. rapidhash--1.0.sql declares them. */
#include <postgres.h>

#include <fmgr.h>
#include <inttypes.h>
#include <rapidhash_c.h>
#include <utils/builtins.h>
#include <utils/lsyscache.h>
#if PG_VERSION_NUM >= 160000
#include <varatt.h>
#endif

PG_MODULE_MAGIC;

/* A hash with a second argument, which some hashes ignore. */
typedef uint64_t hash_by_word(const void *bytes, size_t len, uint64_t word);

static uint64_t second_argument(FunctionCallInfo fcinfo)
{
    return PG_NARGS() > 1 ? (uint64_t)PG_GETARG_INT64(1) : 0;
}

/* Returns the hash of a bytea or a text, without a copy if the value is in a single piece and not compressed. */
static Datum hash_bytes(FunctionCallInfo fcinfo, hash_by_word *hash)
{
    struct varlena *message = PG_DETOAST_DATUM_PACKED(PG_GETARG_DATUM(0));
    uint64_t result = hash(VARDATA_ANY(message), VARSIZE_ANY_EXHDR(message), second_argument(fcinfo));
    PG_FREE_IF_COPY(message, 0);
    PG_RETURN_INT64((int64)result);
}

/* Writes the 8 bytes of an integer, least significant first. */
static void bytes_of(uint64_t number, unsigned char *bytes)
{
    int at;
    for (at = 0; at < 8; at++)
        bytes[at] = (unsigned char)(number >> 8 * at);
}

static Datum hash_integer(FunctionCallInfo fcinfo, hash_by_word *hash)
{
    unsigned char bytes[8];
    bytes_of((uint64_t)PG_GETARG_INT64(0), bytes);
    PG_RETURN_INT64((int64)hash(bytes, sizeof bytes, second_argument(fcinfo)));
}

#define CALLS(name, hash) \
    PG_FUNCTION_INFO_V1(name##_bytes); \
    Datum name##_bytes(PG_FUNCTION_ARGS) \
    { \
        return hash_bytes(fcinfo, hash); \
    } \
    PG_FUNCTION_INFO_V1(name##_integer); \
    Datum name##_integer(PG_FUNCTION_ARGS) \
    { \
        return hash_integer(fcinfo, hash); \
    }

/* Defines the calls of a version: by default, with a seed word, and with secrets from a number, of V1 or others. */
#define VERSION(version, own) \
    static uint64_t default_##version(const void *bytes, size_t len, uint64_t none) \
    { \
        (void)none; \
        return rapidhash_##version(bytes, len); \
    } \
    static uint64_t with_secrets_##version(const void *bytes, size_t len, uint64_t number) \
    { \
        struct own##_secrets secrets; \
        own##_make_secrets(number, &secrets); \
        return rapidhash_##version##_with_secrets(bytes, len, &secrets); \
    } \
    CALLS(sql_##version, default_##version) \
    CALLS(sql_##version##_with_seed, rapidhash_##version##_with_seed) \
    CALLS(sql_##version##_with_secrets, with_secrets_##version)

RAPIDHASH_C_VERSIONS(VERSION)

/* Refuses a collation in which texts of different bytes can be equal. */
static void require_bytewise(FunctionCallInfo fcinfo)
{
    if (OidIsValid(PG_GET_COLLATION()) && !get_collation_isdeterministic(PG_GET_COLLATION()))
        ereport(ERROR, (errcode(ERRCODE_FEATURE_NOT_SUPPORTED),
                        errmsg("rapidhash_v3_text_ops does not support nondeterministic collations")));
}

PG_FUNCTION_INFO_V1(sql_v3_ops);
PG_FUNCTION_INFO_V1(sql_v3_ops_with_seed);

/* The support functions of the operator classes: the hash with a seed, and with seed 0 its lower half. */
Datum sql_v3_ops(PG_FUNCTION_ARGS)
{
    require_bytewise(fcinfo);
    PG_RETURN_INT32((int32)DatumGetInt64(hash_bytes(fcinfo, default_v3)));
}

Datum sql_v3_ops_with_seed(PG_FUNCTION_ARGS)
{
    require_bytewise(fcinfo);
    return hash_bytes(fcinfo, rapidhash_v3_with_seed);
}

PG_FUNCTION_INFO_V1(sql_hex);

/* Returns a hash as 16 hexadecimal digits. */
Datum sql_hex(PG_FUNCTION_ARGS)
{
    PG_RETURN_TEXT_P(cstring_to_text(psprintf("%016" PRIx64, (uint64_t)PG_GETARG_INT64(0))));
}

/* The state of an aggregate between rows. The server does not move it, so the stream may point into it. */
struct running {
    uint64_t seed;
    struct rapidhash_secrets secrets;
    struct rapidhash_stream stream;
};

typedef void start(struct rapidhash_stream *stream, const struct rapidhash_secrets *secrets);

/* Returns the state, which the first row with a value creates, or NULL if no row had one. */
static struct running *state_of(FunctionCallInfo fcinfo, start *start, const char *name)
{
    struct running *running = PG_ARGISNULL(0) ? NULL : (struct running *)PG_GETARG_POINTER(0);
    const uint64_t seed = PG_NARGS() > 2 ? (uint64_t)PG_GETARG_INT64(2) : 0;
    MemoryContext context;
    if (!AggCheckCallContext(fcinfo, &context))
        ereport(ERROR, (errcode(ERRCODE_FEATURE_NOT_SUPPORTED), errmsg("%s can only be called as an aggregate", name)));
    if (running == NULL) {
        running = MemoryContextAlloc(context, sizeof *running);
        running->seed = seed;
        rapidhash_seed_secrets(seed, &running->secrets);
        start(&running->stream, &running->secrets);
    } else if (running->seed != seed) {
        ereport(ERROR, (errcode(ERRCODE_INVALID_PARAMETER_VALUE),
                        errmsg("%s: the seed must be the same in every row", name)));
    }
    return running;
}

/* Adds a row to an aggregate. A row with a NULL argument adds nothing. */
static Datum add_row(FunctionCallInfo fcinfo, start *start, const char *name, int is_integer)
{
    struct running *running;
    if (PG_ARGISNULL(1) || (PG_NARGS() > 2 && PG_ARGISNULL(2))) {
        if (PG_ARGISNULL(0))
            PG_RETURN_NULL();
        PG_RETURN_DATUM(PG_GETARG_DATUM(0));
    }
    running = state_of(fcinfo, start, name);
    if (is_integer) {
        unsigned char bytes[8];
        bytes_of((uint64_t)PG_GETARG_INT64(1), bytes);
        rapidhash_stream_write(&running->stream, bytes, sizeof bytes);
    } else {
        struct varlena *piece = PG_DETOAST_DATUM_PACKED(PG_GETARG_DATUM(1));
        rapidhash_stream_write(&running->stream, VARDATA_ANY(piece), VARSIZE_ANY_EXHDR(piece));
        PG_FREE_IF_COPY(piece, 1);
    }
    PG_RETURN_POINTER(running);
}

#define STREAM(version, lanes) \
    PG_FUNCTION_INFO_V1(add_##version##_bytes); \
    Datum add_##version##_bytes(PG_FUNCTION_ARGS) \
    { \
        return add_row(fcinfo, rapidhash_##version##_start, "rapidhash_" #version "_agg", 0); \
    } \
    PG_FUNCTION_INFO_V1(add_##version##_integer); \
    Datum add_##version##_integer(PG_FUNCTION_ARGS) \
    { \
        return add_row(fcinfo, rapidhash_##version##_start, "rapidhash_" #version "_agg", 1); \
    }
RAPIDHASH_C_STREAMS(STREAM)

PG_FUNCTION_INFO_V1(finish_agg);

/* Returns the hash of the rows so far. It does not change the state, so a window can add further rows. */
Datum finish_agg(PG_FUNCTION_ARGS)
{
    if (PG_ARGISNULL(0))
        PG_RETURN_NULL();
    PG_RETURN_INT64((int64)rapidhash_stream_finish(&((struct running *)PG_GETARG_POINTER(0))->stream));
}
