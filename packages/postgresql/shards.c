/* What a hash decides, as PostgreSQL functions: a shard, a bucket, and the fingerprint of rows. */
#include <postgres.h>

#include <fmgr.h>
#include <rapidhash_c.h>

/* Returns the count in the second argument of a function, from 1 to `most`. */
static uint64_t count_argument(FunctionCallInfo fcinfo, const char *name, int64 most)
{
    const int64 count = PG_GETARG_INT64(1);
    if (count < 1 || count > most)
        ereport(ERROR, (errcode(ERRCODE_INVALID_PARAMETER_VALUE),
                        errmsg("%s: the count must be from 1 to " INT64_FORMAT ", not " INT64_FORMAT, name, most,
                               count)));
    return (uint64_t)count;
}

PG_FUNCTION_INFO_V1(sql_shard);
PG_FUNCTION_INFO_V1(sql_first_hash);
PG_FUNCTION_INFO_V1(sql_bucket);
PG_FUNCTION_INFO_V1(sql_fingerprint_add);
PG_FUNCTION_INFO_V1(sql_fingerprint_remove);

Datum sql_shard(PG_FUNCTION_ARGS)
{
    const uint64_t count = count_argument(fcinfo, "rapidhash_shard", PG_INT64_MAX);
    PG_RETURN_INT64((int64)rapidhash_shard((uint64_t)PG_GETARG_INT64(0), count));
}

Datum sql_first_hash(PG_FUNCTION_ARGS)
{
    const uint64_t count = count_argument(fcinfo, "rapidhash_first_hash", PG_INT64_MAX);
    const int64 shard = PG_GETARG_INT64(0);
    if (shard < 0 || (uint64_t)shard >= count)
        ereport(ERROR, (errcode(ERRCODE_INVALID_PARAMETER_VALUE),
                        errmsg("rapidhash_first_hash: the shard must be from 0 to the count less 1, not " INT64_FORMAT,
                               shard)));
    PG_RETURN_INT64((int64)rapidhash_first_hash((uint64_t)shard, count));
}

Datum sql_bucket(PG_FUNCTION_ARGS)
{
    const uint64_t count = count_argument(fcinfo, "rapidhash_bucket", PG_UINT32_MAX);
    PG_RETURN_INT64((int64)rapidhash_bucket((uint64_t)PG_GETARG_INT64(0), (uint32_t)count));
}

/* Adds a hash, or the fingerprint of other rows. */
Datum sql_fingerprint_add(PG_FUNCTION_ARGS)
{
    PG_RETURN_INT64((int64)((uint64_t)PG_GETARG_INT64(0) + (uint64_t)PG_GETARG_INT64(1)));
}

/* Removes a hash that was added. */
Datum sql_fingerprint_remove(PG_FUNCTION_ARGS)
{
    PG_RETURN_INT64((int64)((uint64_t)PG_GETARG_INT64(0) - (uint64_t)PG_GETARG_INT64(1)));
}
