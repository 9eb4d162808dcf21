/* The C header for WebAssembly: what library.mjs calls. The module allocates nothing and imports nothing. JavaScript
 * passes offsets in the memory. A hash leaves the module as a BigInt, or in two halves of 32 bits. */
#include <rapidhash_c.h>

#define EXPORT(name) __attribute__((export_name(#name), noinline))

/* library.mjs relies on this size, on the offset of the secrets, and on the version. */
_Static_assert(sizeof(struct rapidhash_stream) == 208 && offsetof(struct rapidhash_stream, secrets) == 0, "layout");

EXPORT(version) uint32_t version(void)
{ return RAPIDHASH_C_VERSION_NUMBER; }

static uint64_t last;

/* Keeps a hash and returns its lower half. */
static uint32_t halve(uint64_t hash)
{
    last = hash;
    return (uint32_t)hash;
}

/* Returns the upper half of the hash that was halved last. */
EXPORT(high) uint32_t high(void)
{ return (uint32_t)(last >> 32); }

#define HASHES(version, own) \
    EXPORT(version) uint64_t version(const void *bytes, size_t len, const struct own##_secrets *secrets) \
    { return rapidhash_##version##_with_secrets(bytes, len, secrets); } \
    EXPORT(version##_low) uint32_t version##_low(const void *bytes, size_t len, const struct own##_secrets *secrets) \
    { return halve(version(bytes, len, secrets)); }
RAPIDHASH_C_VERSIONS(HASHES)

EXPORT(make_secrets) void make_secrets(uint64_t number, struct rapidhash_secrets *secrets)
{ rapidhash_make_secrets(number, secrets); }
EXPORT(seed_secrets) void seed_secrets(uint64_t seed, struct rapidhash_secrets *secrets)
{ rapidhash_seed_secrets(seed, secrets); }
EXPORT(make_secrets_v1) void make_secrets_v1(uint64_t number, struct rapidhash_v1_secrets *secrets)
{ rapidhash_v1_make_secrets(number, secrets); }
EXPORT(seed_secrets_v1) void seed_secrets_v1(uint64_t seed, struct rapidhash_v1_secrets *secrets)
{ rapidhash_v1_seed_secrets(seed, secrets); }

EXPORT(start) void start(struct rapidhash_stream *stream, size_t lanes, const struct rapidhash_secrets *secrets)
{ rapidhash_stream_start_(stream, lanes, secrets); }
EXPORT(write) void write(struct rapidhash_stream *stream, const void *bytes, size_t len)
{ rapidhash_stream_write(stream, bytes, len); }
EXPORT(reset) void reset(struct rapidhash_stream *stream)
{ rapidhash_stream_reset(stream); }
EXPORT(save) void save(const struct rapidhash_stream *stream, unsigned char *saved)
{ rapidhash_stream_save(stream, saved); }
EXPORT(restore) uint32_t restore(struct rapidhash_stream *stream, const unsigned char *saved, size_t len)
{ return rapidhash_stream_restore(stream, saved, len); }
EXPORT(finish) uint64_t finish(const struct rapidhash_stream *stream)
{ return rapidhash_stream_finish(stream); }
EXPORT(finish_low) uint32_t finish_low(const struct rapidhash_stream *stream)
{ return halve(finish(stream)); }
