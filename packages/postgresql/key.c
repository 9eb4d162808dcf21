/* The hashes of keys of several fields, by docs/ALGORITHM.md of the repository. */
#include <postgres.h>
#if PG_VERSION_NUM >= 160000
#include <varatt.h>
#endif

#include <catalog/pg_type.h>
#include <fmgr.h>
#include <math.h>
#include <mb/pg_wchar.h>
#include <miscadmin.h>
#include <rapidhash_c.h>
#include <utils/array.h>
#include <utils/builtins.h>
#include <utils/date.h>
#include <utils/lsyscache.h>
#include <utils/numeric.h>
#include <utils/timestamp.h>
#include <utils/uuid.h>

/* Appends a text as UTF-8, the same bytes in a database of any encoding. */
static void add_text(const char *text, size_t len, struct rapidhash_stream *stream)
{
    char *const converted = pg_server_to_any(text, (int)len, PG_UTF8);
    if (converted == text) {
        rapidhash_key_bytes(stream, text, len);
    } else {
        rapidhash_key_bytes(stream, converted, strlen(converted));
        pfree(converted);
    }
}

/* An argument of a call for a key: the name of the call, the place of the argument, and the stream of the key. */
struct argument {
    const char *name;
    int place;
    struct rapidhash_stream *stream;
};

static pg_attribute_noreturn() void refuse(const struct argument *argument, const char *reason, const char *hint)
{
    ereport(ERROR, (errcode(ERRCODE_DATATYPE_MISMATCH),
                    errmsg("%s: argument %d %s, and no field of a key", argument->name, argument->place, reason),
                    errhint("%s", hint)));
}

static void require(bool is_right, const struct argument *argument, const char *reason)
{
    if (!is_right)
        refuse(argument, reason, "Pass NULL or another value in its place.");
}

/* Returns how to write a value of a type that is no field. */
static const char *hint_for(Oid type)
{
    switch (type) {
        case TIMESTAMPOID:
            return "Pass an instant, by its offset or time zone: t AT TIME ZONE 'UTC'.";
        case FLOAT4OID:
        case FLOAT8OID:
            return "Pass its 64 bits: rapidhash_float_bits(x).";
        case BPCHAROID:
            return "Pass it as text, without trailing spaces: c::text.";
        default:
            return "Pass a text, bytea or bigint that does not depend on settings, and make it alike in all programs.";
    }
}

/* Returns the type that a domain of domains is made of, if its values can be fields or items, else none. */
static Oid field_type(Oid type)
{
    type = getBaseType(type);
    switch (type) {
        case BOOLOID:
        case INT2OID:
        case INT4OID:
        case INT8OID:
        case DATEOID:
        case TIMESTAMPTZOID:
        case UUIDOID:
        case NUMERICOID:
        case TEXTOID:
        case VARCHAROID:
        case UNKNOWNOID:
        case BYTEAOID:
            return type;
        default:
            return InvalidOid;
    }
}

/* Appends the days or microseconds since 1970. The server counts them from 2000. */
static void add_since_2000(const struct argument *argument, int64 count, int64 units_of_a_day)
{
    const int64 between = (int64)(POSTGRES_EPOCH_JDATE - UNIX_EPOCH_JDATE) * units_of_a_day;
    require(count <= PG_INT64_MAX - between, argument, "is a time of more than 64 bits");
    rapidhash_key_integer(argument->stream, count + between);
}

/* Appends the digits of a number without trailing zeros: at most 131072 before the point and 16383 after it. */
static void add_numeric(const struct argument *argument, Datum value)
{
    const Numeric number = DatumGetNumeric(value);
    char *digits;
    require(!numeric_is_nan(number), argument, "is NaN");
    require(!numeric_is_inf(number), argument, "is infinite");
    digits = numeric_normalize(number);
    rapidhash_key_bytes(argument->stream, digits, strlen(digits));
    pfree(digits);
    if ((Pointer)number != DatumGetPointer(value))
        pfree(number);
}

static void add_bytes(const struct argument *argument, Datum value, bool is_text)
{
    struct varlena *const bytes = PG_DETOAST_DATUM_PACKED(value);
    if (is_text)
        add_text(VARDATA_ANY(bytes), VARSIZE_ANY_EXHDR(bytes), argument->stream);
    else
        rapidhash_key_bytes(argument->stream, VARDATA_ANY(bytes), VARSIZE_ANY_EXHDR(bytes));
    if ((Pointer)bytes != DatumGetPointer(value))
        pfree(bytes);
}

/* Appends a value of a type that is no list. */
static void add_value(const struct argument *argument, Oid type, Datum value)
{
    switch (type) {
        case BOOLOID:
            rapidhash_key_integer(argument->stream, DatumGetBool(value));
            break;
        case INT2OID:
            rapidhash_key_integer(argument->stream, DatumGetInt16(value));
            break;
        case INT4OID:
            rapidhash_key_integer(argument->stream, DatumGetInt32(value));
            break;
        case INT8OID:
            rapidhash_key_integer(argument->stream, DatumGetInt64(value));
            break;
        case DATEOID:
            require(!DATE_NOT_FINITE(DatumGetDateADT(value)), argument, "is infinite");
            add_since_2000(argument, DatumGetDateADT(value), 1);
            break;
        case TIMESTAMPTZOID:
            require(!TIMESTAMP_NOT_FINITE(DatumGetTimestampTz(value)), argument, "is infinite");
            add_since_2000(argument, DatumGetTimestampTz(value), USECS_PER_DAY);
            break;
        case UUIDOID:
            rapidhash_key_bytes(argument->stream, DatumGetUUIDP(value)->data, UUID_LEN);
            break;
        case NUMERICOID:
            add_numeric(argument, value);
            break;
        case UNKNOWNOID:
            add_text(DatumGetCString(value), strlen(DatumGetCString(value)), argument->stream);
            break;
        default:
            add_bytes(argument, value, type != BYTEAOID);
    }
}

/* Appends the number of items of an array and then each item, from its lower bound on. */
static void add_list(const struct argument *argument, Oid type, Datum value)
{
    ArrayType *const list = DatumGetArrayTypeP(value);
    ArrayIterator items;
    Datum item;
    bool is_null;
    if (ARR_NDIM(list) > 1)
        refuse(argument, psprintf("is an array of %d dimensions", ARR_NDIM(list)),
               "Pass each list as an argument of its own, or its items as one list: array(SELECT unnest(l)).");
    rapidhash_key_integer(argument->stream, ArrayGetNItems(ARR_NDIM(list), ARR_DIMS(list)));
    items = array_create_iterator(list, 0, NULL);
    while (array_iterate(items, &item, &is_null)) {
        CHECK_FOR_INTERRUPTS();
        if (is_null)
            rapidhash_key_nothing(argument->stream);
        else
            add_value(argument, type, item);
    }
    array_free_iterator(items);
    if ((Pointer)list != DatumGetPointer(value))
        pfree(list);
}

/* Appends an argument to a key, or raises an error if it is no field. */
static void add_field(FunctionCallInfo fcinfo, int at, const char *name, struct rapidhash_stream *stream)
{
    const struct argument argument = {name, at + 1, stream};
    const Oid given = getBaseType(get_fn_expr_argtype(fcinfo->flinfo, at));
    const Oid item = get_element_type(given);
    const Oid type = field_type(OidIsValid(item) ? item : given);
    if (!OidIsValid(type))
        refuse(&argument, psprintf("is of type %s", format_type_be(given)),
               hint_for(OidIsValid(item) ? getBaseType(item) : given));
    if (PG_ARGISNULL(at))
        rapidhash_key_nothing(stream);
    else if (OidIsValid(item))
        add_list(&argument, type, PG_GETARG_DATUM(at));
    else
        add_value(&argument, type, PG_GETARG_DATUM(at));
}

/* Returns the hash of a key of several fields, which follow the `first` arguments. */
static Datum hash_key(FunctionCallInfo fcinfo, int first, const char *name,
                      void (*make)(uint64_t word, struct rapidhash_secrets *secrets))
{
    const bool is_null = first == 1 && PG_ARGISNULL(0);
    struct rapidhash_secrets secrets;
    struct rapidhash_stream stream;
    int at;
    if (get_fn_expr_variadic(fcinfo->flinfo))
        ereport(ERROR, (errcode(ERRCODE_FEATURE_NOT_SUPPORTED), errmsg("%s: an array is no key", name),
                        errhint("Pass each field as an argument of its own, without VARIADIC.")));
    make(first == 1 && !is_null ? (uint64_t)PG_GETARG_INT64(0) : 0, &secrets);
    rapidhash_v3_start(&stream, &secrets);
    for (at = first; at < PG_NARGS(); at++)
        add_field(fcinfo, at, name, &stream);
    if (is_null)
        PG_RETURN_NULL();
    PG_RETURN_INT64((int64)rapidhash_stream_finish(&stream));
}

#define KEY(name, first, make) \
    PG_FUNCTION_INFO_V1(sql_##name); \
    Datum sql_##name(PG_FUNCTION_ARGS) \
    { \
        return hash_key(fcinfo, first, "rapidhash_" #name, make); \
    }
KEY(v3_key, 0, rapidhash_seed_secrets)
KEY(v3_key_with_seed, 1, rapidhash_seed_secrets)
KEY(v3_key_with_secrets, 1, rapidhash_make_secrets)

PG_FUNCTION_INFO_V1(sql_float_bits);

/* Returns the 64 bits of a number, of which -0 has those of 0. */
Datum sql_float_bits(PG_FUNCTION_ARGS)
{
    const float8 number = PG_GETARG_FLOAT8(0);
    int64 bits;
    StaticAssertStmt(sizeof bits == sizeof number, "a float8 has 64 bits");
    if (isnan(number))
        ereport(ERROR, (errcode(ERRCODE_NUMERIC_VALUE_OUT_OF_RANGE),
                        errmsg("rapidhash_float_bits: NaN is no field of a key"),
                        errhint("Pass NULL in its place: nullif(x, 'NaN').")));
    memcpy(&bits, &number, sizeof bits);
    /* A small number would equal 0, where a library that was linked with -ffast-math is loaded. */
    PG_RETURN_INT64(bits == PG_INT64_MIN ? 0 : bits);
}
