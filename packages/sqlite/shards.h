/* What a hash decides: a shard, a bucket, and the fingerprint of rows. */
#ifndef SHARDS_H
#define SHARDS_H

/* What a hash and a count decide, and the greatest count. */
struct decision {
    const char *name;
    const char *word;
    uint64_t (*decide)(uint64_t word, uint64_t count);
    sqlite3_int64 most;
};

static uint64_t bucket_of(uint64_t hash, uint64_t count)
{ return rapidhash_bucket(hash, (uint32_t)count); }

static const struct decision decisions[] = {
    {"rapidhash_shard", "hash", rapidhash_shard, INT64_MAX},
    {"rapidhash_first_hash", "shard", rapidhash_first_hash, INT64_MAX},
    {"rapidhash_bucket", "hash", bucket_of, UINT32_MAX},
};

static void decide(sqlite3_context *context, int count, sqlite3_value **values)
{
    const struct decision *const decision = sqlite3_user_data(context);
    uint64_t word, all;
    char why[80];
    (void)count;
    if (!read_word(context, decision->name, decision->word, values[0], &word) ||
        !read_word(context, decision->name, "count", values[1], &all))
        return;
    if (all < 1 || all > (uint64_t)decision->most) {
        sqlite3_snprintf(sizeof why, why, "the count must be from 1 to %lld, not %lld", decision->most, all);
        refuse(context, decision->name, why);
    } else if (*decision->word == 's' && word >= all) {
        sqlite3_snprintf(sizeof why, why, "the shard must be from 0 to the count less 1, not %lld", word);
        refuse(context, decision->name, why);
    } else {
        sqlite3_result_int64(context, (sqlite3_int64)decision->decide(word, all));
    }
}

/* Adds a hash to a fingerprint, which skips NULL, or removes it. */
static void change_fingerprint(sqlite3_context *context, sqlite3_value *value, uint64_t factor)
{
    uint64_t hash, *sum;
    if (!read_word(context, "rapidhash_fingerprint", "hash", value, &hash))
        return;
    sum = sqlite3_aggregate_context(context, sizeof *sum);
    if (sum == NULL)
        sqlite3_result_error_nomem(context);
    else
        *sum += factor * hash;
}

static void add_hash(sqlite3_context *context, int count, sqlite3_value **values)
{
    (void)count;
    change_fingerprint(context, values[0], 1);
}

static void remove_hash(sqlite3_context *context, int count, sqlite3_value **values)
{
    (void)count;
    change_fingerprint(context, values[0], UINT64_MAX);
}

static void fingerprint_so_far(sqlite3_context *context)
{
    const uint64_t *const sum = sqlite3_aggregate_context(context, 0);
    sqlite3_result_int64(context, sum == NULL ? 0 : (sqlite3_int64)*sum);
}

#endif
