/* rapidhash: fast, non-cryptographic 64-bit hashes in one header, with nothing to build or link.
 *
 *     uint64_t hash = rapidhash_v3("hello", 5);
 *
 * The header works with C99 to C23 and C++11 to C++23, on machines of 32 and 64 bits and of either byte order. Its
 * tests run it by gcc, clang and tcc on Linux, and for Windows, under Wine, by mingw-w64's gcc and by clang in MSVC's
 * mode. Its names do not clash with those of the C++ library's rapidhash.h. For C++ there is also rapidhash.hpp.
 *
 * Linking. A program that defines RAPIDHASH_LINK before it includes the header gets declarations only. It links
 * with -lrapidhash_c (pkg-config: rapidhash_c), which on x86-64-v2 Linux can be the formally verified library.
 *
 * Values. A hash is the same on every run and every machine, and will not change in any later version. To store one,
 * write its canonical bytes: rapidhash_to_canonical.
 *
 * Security. These hashes are not cryptographic. The default secrets are public, so messages can be found that collide
 * under every seed word. If others choose the messages, use rapidhash_make_secrets with a random number.
 *
 * Threads and memory. The functions allocate no memory, keep no global state, and are thread-safe. They call no
 * functions but memcpy and memset. On machines of 32 bits, rapidhash_bucket also calls the compiler's division.
 *
 * Preconditions of every hash function:
 * - `bytes` points to `len` readable bytes, and `len` is below 2^63. If `len` is 0, `bytes` may be any pointer, even
 *   NULL.
 * - `secrets` is not NULL.
 * - Nothing writes to the bytes or the secrets during the call.
 */
#ifndef RAPIDHASH_C_H
#define RAPIDHASH_C_H

#if !defined(__cplusplus) && !defined(_MSC_VER) && (!defined(__STDC_VERSION__) || __STDC_VERSION__ < 199901L)
#error "rapidhash_c.h needs C99 or C++11"
#endif
#include <stdbool.h>
#include <stddef.h>
#include <stdint.h>
#include <string.h>
#ifdef _MSC_VER
#include <intrin.h>
#endif

/* The casts are those of C, of which g++ and clang++ can warn. */
#if defined(__cplusplus) && defined(__GNUC__)
#pragma GCC diagnostic push
#pragma GCC diagnostic ignored "-Wold-style-cast"
#ifndef __clang__
#pragma GCC diagnostic ignored "-Wuseless-cast"
#endif
#endif

/* The version of this header. The hashes are those of the Rust crate rapidhash 4.5.1. */
#define RAPIDHASH_C_VERSION_MAJOR 1
#define RAPIDHASH_C_VERSION_MINOR 0
#define RAPIDHASH_C_VERSION_STRING "1.0"
#define RAPIDHASH_C_VERSION_NUMBER (100 * RAPIDHASH_C_VERSION_MAJOR + RAPIDHASH_C_VERSION_MINOR)

/* Inlined functions and tables. In C++, all translation units share them, so all must define the same macros before
 * they include this header. A shared library exports none. Before C++17, each unit has its own tables. */
#ifndef __cplusplus
#define RAPIDHASH_SHARED_ static
#elif defined(__ELF__) && defined(__GNUC__)
#define RAPIDHASH_SHARED_ __attribute__((visibility("hidden")))
#else
#define RAPIDHASH_SHARED_
#endif
#define RAPIDHASH_INLINE_ RAPIDHASH_SHARED_ inline
#if defined(__cplusplus) && __cplusplus >= 201703L
#define RAPIDHASH_TABLE_ RAPIDHASH_SHARED_ inline constexpr
#else
#define RAPIDHASH_TABLE_ static const
#endif

/* From C++14 on, a function with this can be a constant of gcc and clang, unless a test replaces the product. */
#if defined(__cplusplus) && __cplusplus >= 201402L && defined(__GNUC__)
#define RAPIDHASH_CONSTANT_ constexpr
#else
#define RAPIDHASH_CONSTANT_
#endif

/* The functions are inlined by default and only declared with RAPIDHASH_LINK. With RAPIDHASH_IMPLEMENTATION they are
 * external symbols: packages/c/rapidhash_c.c builds the library in this way. They are visible whatever -fvisibility is.
 * A library that contains them can define RAPIDHASH_API as __attribute__((visibility("hidden"))). For a DLL of Windows,
 * define RAPIDHASH_DLL too. */
#ifdef RAPIDHASH_IMPLEMENTATION
#undef RAPIDHASH_LINK /* The flags of a program that links the library may be those of all its files. */
#endif
#ifdef RAPIDHASH_API
#elif !defined(RAPIDHASH_LINK) && !defined(RAPIDHASH_IMPLEMENTATION)
#define RAPIDHASH_API RAPIDHASH_INLINE_
#elif defined(RAPIDHASH_DLL) && defined(RAPIDHASH_LINK)
#define RAPIDHASH_API extern __declspec(dllimport)
#elif defined(RAPIDHASH_DLL)
#define RAPIDHASH_API extern __declspec(dllexport)
#elif defined(__ELF__) && defined(__GNUC__)
#define RAPIDHASH_API extern __attribute__((visibility("default")))
#else
#define RAPIDHASH_API extern
#endif

/* Attributes of library calls: a hash is pure, so equal calls can be merged, and a NULL argument can be diagnosed.
 * Inlined code needs neither. */
#if defined(RAPIDHASH_LINK) && defined(__GNUC__)
#define RAPIDHASH_PURE_ RAPIDHASH_API __attribute__((pure))
#define RAPIDHASH_NONNULL_(...) __attribute__((nonnull(__VA_ARGS__)))
#else
#define RAPIDHASH_PURE_ RAPIDHASH_API
#define RAPIDHASH_NONNULL_(...)
#endif
#if defined(__cplusplus) && (defined(RAPIDHASH_LINK) || defined(RAPIDHASH_IMPLEMENTATION))
extern "C" {
#endif

/* Returns the version of the library that the program is running with. It differs from RAPIDHASH_C_VERSION_NUMBER if
 * the shared library and this header come from different versions. */
RAPIDHASH_API uint32_t rapidhash_c_version(void);

/* A seed and secrets for V1. */
struct rapidhash_v1_secrets {
    uint64_t seed;
    uint64_t secrets[3];
};

/* A seed and secrets for every other version. */
struct rapidhash_secrets {
    uint64_t seed;
    uint64_t secrets[7];
};

/* All versions, for tables and bindings. Calls X(version, own) for each. Its hash is rapidhash_##version, and
 * own##_make_secrets makes its secrets, a struct own##_secrets. */
#define RAPIDHASH_C_VERSIONS(X) \
    X(v1, rapidhash_v1) X(v2_0, rapidhash) X(v2_1, rapidhash) X(v2_2, rapidhash) \
    X(v3, rapidhash) X(v3_micro, rapidhash) X(v3_nano, rapidhash) X(v3_protected, rapidhash)

/* The versions with streams. Calls X(version, lanes) for each. rapidhash_##version##_start starts its streams. */
#define RAPIDHASH_C_STREAMS(X) X(v3, 7) X(v3_micro, 5) X(v3_nano, 3)

/* Derives a seed and secrets from `number`, as the Rust crate's RapidSecrets::seed does. Use a random number if
 * collisions must be hard to predict. Make the secrets once and reuse them.
 *
 * `secrets` must not be NULL. Its previous contents are ignored, and nothing else may access it during the call. */
RAPIDHASH_API RAPIDHASH_NONNULL_(2) void rapidhash_v1_make_secrets(
    uint64_t number, struct rapidhash_v1_secrets *secrets);
RAPIDHASH_API RAPIDHASH_NONNULL_(2) void rapidhash_make_secrets(uint64_t number, struct rapidhash_secrets *secrets);

/* Sets the default secrets and a seed derived from the word `seed`, as the Rust crate's RapidSecrets::seed_cpp does.
 * According to that crate, the C++ library derives its seed in the same way. The default seed is that of word 0, and in
 * V1 that of 0xbdd89aa982704029. The preconditions are those of rapidhash_make_secrets.
 *
 * Security: a seed word does not stop an attacker, since the default secrets are public. */
RAPIDHASH_API RAPIDHASH_NONNULL_(2) void rapidhash_v1_seed_secrets(uint64_t seed, struct rapidhash_v1_secrets *secrets);
RAPIDHASH_API RAPIDHASH_NONNULL_(2) void rapidhash_seed_secrets(uint64_t seed, struct rapidhash_secrets *secrets);

/* Returns the hash with the default seed and secrets. In the Rust crate: rapidhash_v1, rapidhash_v2_inline (with the
 * minor number and AVALANCHE), rapidhash_v3, and the inline functions of micro and nano. */
RAPIDHASH_PURE_ uint64_t rapidhash_v1(const void *bytes, size_t len);
RAPIDHASH_PURE_ uint64_t rapidhash_v2_0(const void *bytes, size_t len);
RAPIDHASH_PURE_ uint64_t rapidhash_v2_1(const void *bytes, size_t len);
RAPIDHASH_PURE_ uint64_t rapidhash_v2_2(const void *bytes, size_t len);
RAPIDHASH_PURE_ uint64_t rapidhash_v3(const void *bytes, size_t len);
RAPIDHASH_PURE_ uint64_t rapidhash_v3_micro(const void *bytes, size_t len);
RAPIDHASH_PURE_ uint64_t rapidhash_v3_nano(const void *bytes, size_t len);

/* Returns the hash with the default secrets and a seed derived from the word `seed`, as in rapidhash_seed_secrets.
 * Messages can be found that collide under every seed word. */
RAPIDHASH_PURE_ uint64_t rapidhash_v1_with_seed(const void *bytes, size_t len, uint64_t seed);
RAPIDHASH_PURE_ uint64_t rapidhash_v2_0_with_seed(const void *bytes, size_t len, uint64_t seed);
RAPIDHASH_PURE_ uint64_t rapidhash_v2_1_with_seed(const void *bytes, size_t len, uint64_t seed);
RAPIDHASH_PURE_ uint64_t rapidhash_v2_2_with_seed(const void *bytes, size_t len, uint64_t seed);
RAPIDHASH_PURE_ uint64_t rapidhash_v3_with_seed(const void *bytes, size_t len, uint64_t seed);
RAPIDHASH_PURE_ uint64_t rapidhash_v3_micro_with_seed(const void *bytes, size_t len, uint64_t seed);
RAPIDHASH_PURE_ uint64_t rapidhash_v3_nano_with_seed(const void *bytes, size_t len, uint64_t seed);

/* Returns the hash with the caller's seed and secrets. */
RAPIDHASH_PURE_ RAPIDHASH_NONNULL_(3) uint64_t rapidhash_v1_with_secrets(
    const void *bytes, size_t len, const struct rapidhash_v1_secrets *own);
RAPIDHASH_PURE_ RAPIDHASH_NONNULL_(3) uint64_t rapidhash_v2_0_with_secrets(
    const void *bytes, size_t len, const struct rapidhash_secrets *own);
RAPIDHASH_PURE_ RAPIDHASH_NONNULL_(3) uint64_t rapidhash_v2_1_with_secrets(
    const void *bytes, size_t len, const struct rapidhash_secrets *own);
RAPIDHASH_PURE_ RAPIDHASH_NONNULL_(3) uint64_t rapidhash_v2_2_with_secrets(
    const void *bytes, size_t len, const struct rapidhash_secrets *own);
RAPIDHASH_PURE_ RAPIDHASH_NONNULL_(3) uint64_t rapidhash_v3_with_secrets(
    const void *bytes, size_t len, const struct rapidhash_secrets *own);
RAPIDHASH_PURE_ RAPIDHASH_NONNULL_(3) uint64_t rapidhash_v3_micro_with_secrets(
    const void *bytes, size_t len, const struct rapidhash_secrets *own);
RAPIDHASH_PURE_ RAPIDHASH_NONNULL_(3) uint64_t rapidhash_v3_nano_with_secrets(
    const void *bytes, size_t len, const struct rapidhash_secrets *own);

/* Returns the protected V3 hash, which XORs the factors into each product. It differs from V3. */
RAPIDHASH_PURE_ uint64_t rapidhash_v3_protected(const void *bytes, size_t len);
RAPIDHASH_PURE_ uint64_t rapidhash_v3_protected_with_seed(const void *bytes, size_t len, uint64_t seed);
RAPIDHASH_PURE_ RAPIDHASH_NONNULL_(3) uint64_t rapidhash_v3_protected_with_secrets(
    const void *bytes, size_t len, const struct rapidhash_secrets *own);

/* A streaming hasher for V3, micro, or nano: hashes a message in pieces. Call a _start function before any other, and
 * treat the fields as private. It can live on the stack or in an array and be copied with =. It refers to its secrets,
 * which must stay at the same address while the stream or a copy of it is in use. One thread at a time. */
struct rapidhash_stream {
    const struct rapidhash_secrets *secrets;
    uint64_t lane[7];
    unsigned char has_rows;
    unsigned char buffer[128];
    size_t len;
    size_t lanes;
};

/* Appends the next `len` bytes to the message. */
RAPIDHASH_API RAPIDHASH_NONNULL_(1) void rapidhash_stream_write(
    struct rapidhash_stream *stream, const void *bytes, size_t len);

/* Returns the hash of the message so far, as rapidhash_v3_with_secrets, or that of micro or nano, hashes it as a whole.
 * Does not modify the stream: more bytes may follow. */
RAPIDHASH_PURE_ RAPIDHASH_NONNULL_(1) uint64_t rapidhash_stream_finish(const struct rapidhash_stream *stream);

/* Empties the message but keeps the secrets and the version. */
RAPIDHASH_API RAPIDHASH_NONNULL_(1) void rapidhash_stream_reset(struct rapidhash_stream *stream);

/* Starts a stream with 7, 5, or 3 lanes. Its name is private: call one of the three functions below. */
RAPIDHASH_INLINE_ void rapidhash_stream_start_(
    struct rapidhash_stream *stream, size_t lanes, const struct rapidhash_secrets *secrets)
{
    memset(stream, 0, sizeof *stream);
    stream->secrets = secrets;
    stream->lanes = lanes;
    rapidhash_stream_reset(stream);
}

/* Starts an empty stream, whose hash will be that of rapidhash_v3_with_secrets, or of micro or nano. */
RAPIDHASH_INLINE_ void rapidhash_v3_start(struct rapidhash_stream *stream, const struct rapidhash_secrets *secrets)
{ rapidhash_stream_start_(stream, 7, secrets); }
RAPIDHASH_INLINE_ void rapidhash_v3_micro_start(
    struct rapidhash_stream *stream, const struct rapidhash_secrets *secrets)
{ rapidhash_stream_start_(stream, 5, secrets); }
RAPIDHASH_INLINE_ void rapidhash_v3_nano_start(struct rapidhash_stream *stream, const struct rapidhash_secrets *secrets)
{ rapidhash_stream_start_(stream, 3, secrets); }

/* Append a field of a key to the message of a V3 stream: nothing (as SQL's NULL), an integer, or bytes (a text is its
 * UTF-8). The hash after the last field is that of the key in every language. docs/ALGORITHM.md has the encoding, in
 * which different keys are different messages. The preconditions are those of rapidhash_stream_write. */
RAPIDHASH_INLINE_ void rapidhash_key_nothing(struct rapidhash_stream *stream) { rapidhash_stream_write(stream, "", 1); }
RAPIDHASH_INLINE_ void rapidhash_put8_(uint64_t word, unsigned char *bytes)
{ for (int at = 0; at < 8; at++, word >>= 8) bytes[at] = (unsigned char)(word & 255); }
RAPIDHASH_INLINE_ void rapidhash_key_number_(struct rapidhash_stream *stream, unsigned char tag, uint64_t number)
{
    unsigned char field[9] = {tag};
    rapidhash_put8_(number, field + 1);
    rapidhash_stream_write(stream, field, sizeof field);
}
RAPIDHASH_INLINE_ void rapidhash_key_integer(struct rapidhash_stream *stream, int64_t value)
{ rapidhash_key_number_(stream, 1, (uint64_t)value); }
RAPIDHASH_INLINE_ void rapidhash_key_bytes(struct rapidhash_stream *stream, const void *bytes, size_t len)
{
    rapidhash_key_number_(stream, 2, len);
    rapidhash_stream_write(stream, bytes, len);
}

/* Returns CRC-64/XZ of bytes, by a loop for which newer compilers use a table. Its name is private. */
RAPIDHASH_INLINE_ uint64_t rapidhash_crc64_(const unsigned char *bytes, size_t len)
{
    uint64_t crc = ~UINT64_C(0);

    for (size_t i = 0; i < len; i++) {
        crc ^= bytes[i];
        for (int bit = 0; bit < 8; bit++) crc = (crc & 1) != 0 ? crc >> 1 ^ UINT64_C(0xc96c5795d7870f42) : crc >> 1;
    }
    return ~crc;
}

/* Saves a stream as RAPIDHASH_STREAM_SAVED bytes, for which `saved` must have room. They are the same on every machine
 * and in every language (docs/BINDINGS.md, "Saved streams"), and contain bytes of the message but no secrets. */
#define RAPIDHASH_STREAM_SAVED 208
RAPIDHASH_INLINE_ void rapidhash_stream_save(const struct rapidhash_stream *stream, unsigned char *saved)
{
    const size_t carried = stream->has_rows ? 16 : 0, lanes = stream->has_rows ? stream->lanes : 0;
    unsigned char counted[240];
    memset(saved, 0, RAPIDHASH_STREAM_SAVED);
    memcpy(saved, "rapidV3\2", 8);
    saved[8] = (unsigned char)stream->lanes;
    saved[9] = 1;
    saved[10] = stream->has_rows;
    saved[11] = (unsigned char)stream->len;
    for (size_t i = 0; i < lanes; i++) rapidhash_put8_(stream->lane[i] ^ stream->secrets->seed, saved + 16 + 8 * i);
    memcpy(saved + 88 - carried, stream->buffer + 16 - carried, carried + stream->len);
    /* The CRC finds damage, whatever the message is; the hash of 0 to 239 finds other secrets. */
    for (size_t i = 0; i < sizeof counted; i++) counted[i] = (unsigned char)i;
    rapidhash_put8_(rapidhash_crc64_(saved, 200)
                    ^ rapidhash_v3_protected_with_secrets(counted, sizeof counted, stream->secrets), saved + 200);
}

/* Replaces the message of a started stream by that of a saved one. Returns false and does not modify the stream if
 * rapidhash_stream_save did not write these `len` bytes for a stream of the same version, seed and secrets. Damage
 * within 8 neighbouring bytes is refused for certain, other damage and other secrets but for one in 2^64. */
RAPIDHASH_INLINE_ bool rapidhash_stream_restore(struct rapidhash_stream *stream, const unsigned char *saved, size_t len)
{
    struct rapidhash_stream restored = *stream;
    unsigned char again[RAPIDHASH_STREAM_SAVED];
    unsigned changed = 0;
    if (len != sizeof again || saved[10] > 1 || saved[11] < saved[10] || saved[11] > 16 * stream->lanes) return false;
    for (size_t at = 0; at < 56; at++) {
        if (at % 8 == 0) restored.lane[at / 8] = stream->secrets->seed;
        restored.lane[at / 8] ^= (uint64_t)saved[16 + at] << 8 * (at % 8);
    }
    restored.has_rows = saved[10];
    restored.len = saved[11];
    memcpy(restored.buffer, saved + 72, sizeof restored.buffer);
    rapidhash_stream_save(&restored, again);
    for (size_t at = 0; at < sizeof again; at++) changed |= (unsigned)(again[at] ^ saved[at]);
    if (changed) return false;
    *stream = restored;
    return true;
}

/* Writes a hash as 8 bytes, most significant first, the same on every machine. `bytes` must have room for 8 bytes. */
RAPIDHASH_INLINE_ void rapidhash_to_canonical(uint64_t hash, unsigned char *bytes)
{ for (int at = 7; at >= 0; at--, hash >>= 8) bytes[at] = (unsigned char)(hash & 255); }

/* Returns the hash that rapidhash_to_canonical wrote into these 8 bytes. */
RAPIDHASH_INLINE_ uint64_t rapidhash_from_canonical(const unsigned char *bytes)
{
    uint64_t hash = 0;
    for (int at = 0; at < 8; at++) hash = hash << 8 | bytes[at];
    return hash;
}

/* All names that end with an underscore are private. docs/ALGORITHM.md has the algorithm and its terms.
 * A function with FORCE_INLINE is inlined into a caller whose constant arguments choose its code. Messages above 16
 * bytes leave the caller for a function with NOINLINE; those with rows, which need all registers, for another one. */
#if defined(__GNUC__)
#define RAPIDHASH_FORCE_INLINE_ RAPIDHASH_INLINE_ __attribute__((always_inline))
#ifdef __cplusplus
#define RAPIDHASH_NOINLINE_ RAPIDHASH_INLINE_ __attribute__((noinline))
#else
#define RAPIDHASH_NOINLINE_ static __attribute__((noinline, unused))
#endif
#elif defined(_MSC_VER)
#define RAPIDHASH_FORCE_INLINE_ RAPIDHASH_SHARED_ __forceinline
#define RAPIDHASH_NOINLINE_ RAPIDHASH_SHARED_ __declspec(noinline) inline
#else
#define RAPIDHASH_FORCE_INLINE_ RAPIDHASH_INLINE_
#define RAPIDHASH_NOINLINE_ RAPIDHASH_INLINE_
#endif

/* A debug build may define this as assert. It states the bounds that every load and copy relies on. */
#ifndef RAPIDHASH_ASSERT
#define RAPIDHASH_ASSERT(condition) ((void)0)
#endif
/* Loads and the product. They depend on the machine, and nothing else does. A test replaces them by those of a file. */
#if defined(RAPIDHASH_PRIMITIVES) && !defined(__CPPCHECK__)
#include RAPIDHASH_PRIMITIVES
#undef RAPIDHASH_CONSTANT_
#define RAPIDHASH_CONSTANT_
#else
#if defined(_MSC_VER) || (defined(__BYTE_ORDER__) && __BYTE_ORDER__ == __ORDER_LITTLE_ENDIAN__)
#define RAPIDHASH_C_LITTLE_(bits, word) word
#elif defined(__GNUC__) && defined(__BYTE_ORDER__) && __BYTE_ORDER__ == __ORDER_BIG_ENDIAN__
#define RAPIDHASH_C_LITTLE_(bits, word) __builtin_bswap##bits(word)
#endif

/* Reads 4 bytes as a little-endian number, one at a time if the compiler does not define the byte order. */
RAPIDHASH_FORCE_INLINE_ uint64_t rapidhash_load4_(const uint8_t *p)
{
#ifdef RAPIDHASH_C_LITTLE_
    uint32_t word;
    memcpy(&word, p, sizeof word);
    return RAPIDHASH_C_LITTLE_(32, word);
#else
    return p[0] | (uint64_t)p[1] << 8 | (uint64_t)p[2] << 16 | (uint64_t)p[3] << 24;
#endif
}

/* Returns the little-endian number of 8 bytes. */
RAPIDHASH_FORCE_INLINE_ uint64_t rapidhash_load8_(const uint8_t *p)
{
#ifdef RAPIDHASH_C_LITTLE_
    uint64_t word;
    memcpy(&word, p, sizeof word);
    return RAPIDHASH_C_LITTLE_(64, word);
#else
    return rapidhash_load4_(p) | rapidhash_load4_(p + 4) << 32;
#endif
}

/* Sets the halves of the 128-bit product. WebAssembly has a 128-bit type, but its product is a call. */
RAPIDHASH_FORCE_INLINE_ RAPIDHASH_CONSTANT_ void rapidhash_multiply_(
    uint64_t a, uint64_t b, uint64_t *low, uint64_t *high)
{
#if defined(__SIZEOF_INT128__) && !defined(__wasm__) && !defined(RAPIDHASH_NO_INT128)
    __extension__ typedef unsigned __int128 rapidhash_product_;
    const rapidhash_product_ product = (rapidhash_product_)a * b;
    *low = (uint64_t)product;
    *high = (uint64_t)(product >> 64);
#elif defined(_MSC_VER) && defined(_M_X64) && !defined(RAPIDHASH_NO_INT128)
    *low = _umul128(a, b, high);
#elif defined(_MSC_VER) && defined(_M_ARM64) && !defined(RAPIDHASH_NO_INT128)
    *low = a * b;
    *high = __umulh(a, b);
#else
    const uint64_t half = 0xffffffff, a0 = a & half, a1 = a >> 32, b0 = b & half, b1 = b >> 32;
    const uint64_t bottom = a0 * b0, cross = a1 * b0, middle = (bottom >> 32) + (cross & half) + a0 * b1;
#if UINTPTR_MAX > 0xffffffff || defined(__wasm__)
    *low = a * b;
#else
    *low = middle << 32 | (bottom & half);
#endif
    *high = a1 * b1 + (cross >> 32) + (middle >> 32);
#endif
}
#endif /* RAPIDHASH_PRIMITIVES */

/* The next four functions return what a hash decides. Their results are the same in every language. A count of shards
 * or buckets is at least 1; for 0 the result is 0.
 *
 * Returns the shard of a hash, below `count`: the integer part of hash * count / 2^64. Each shard has 2^64 / count
 * hashes or one more. They follow one another, so that a database can have a shard as a range. Multiplying the count
 * splits each shard. The hashes of a shard share their highest bits: inside it, use the lowest bits. */
RAPIDHASH_INLINE_ RAPIDHASH_CONSTANT_ uint64_t rapidhash_shard(uint64_t hash, uint64_t count)
{
    uint64_t low = 0, high = 0;
    rapidhash_multiply_(hash, count, &low, &high);
    return high;
}

/* Returns the first hash of a shard, which is below `count`; otherwise returns 0. The shard has the hashes from it to
 * before the first of the next shard. */
RAPIDHASH_INLINE_ RAPIDHASH_CONSTANT_ uint64_t rapidhash_first_hash(uint64_t shard, uint64_t count)
{
    uint64_t rest = shard, quotient = 0;
    if (shard >= count) return 0;
    /* Divides shard * 2^64 bit by bit and without a branch: not every machine divides 128 bits without a call. */
    for (int bit = 0; bit < 64; bit++) {
        const uint64_t fits = rest >> 63 | (2 * rest >= count);
        rest = 2 * rest - (count & (0 - fits));
        quotient = 2 * quotient + fits;
    }
    return quotient + (rest > 0);
}

/* Returns the bucket of a hash, below `count`, by jump consistent hashing in integers: among more buckets a hash keeps
 * its bucket or goes to a new one. The time grows with the logarithm of the count: some 14 steps for a million. */
RAPIDHASH_INLINE_ RAPIDHASH_CONSTANT_ uint32_t rapidhash_bucket(uint64_t hash, uint32_t count)
{
    uint64_t at = 0, next = 0;
    while (next < count) {
        at = next;
        hash = hash * UINT64_C(2862933555777941757) + 1;
        next = ((at + 1) << 31) / ((hash >> 33) + 1);
    }
    return (uint32_t)at;
}

/* Returns the fingerprint of a table, from the hashes of its rows in any order: their sum modulo 2^64. The fingerprints
 * of parts add up to that of the whole. Tables with equally many rows and one fingerprint have the same rows, but for a
 * chance of one in 2^64. That does not hold against someone who chooses the rows, nor if rows are repeated very often.
 *
 * `hashes` points to `count` words. If `count` is 0, it may be any pointer. */
RAPIDHASH_INLINE_ RAPIDHASH_CONSTANT_ uint64_t rapidhash_fingerprint(const uint64_t *hashes, size_t count)
{
    uint64_t sum = 0;
    for (size_t at = 0; at < count; at++) sum += hashes[at];
    return sum;
}

#ifndef RAPIDHASH_LINK
/* The default secrets, and the default seeds of V1 and of the other versions. */
RAPIDHASH_TABLE_ uint64_t rapidhash_default_secrets_[7] = {
    UINT64_C(0x2d358dccaa6c78a5), UINT64_C(0x8bb84b93962eacc9), UINT64_C(0x4b33a62ed433d4a3),
    UINT64_C(0x4d5a2da51de1aa47), UINT64_C(0xa0761d6478bd642f), UINT64_C(0xe7037ed1a0b428db),
    UINT64_C(0x90ed1765281c388c)};
RAPIDHASH_TABLE_ uint64_t rapidhash_v1_default_seed_ = UINT64_C(0x763305bbe7bea536);
RAPIDHASH_TABLE_ uint64_t rapidhash_default_seed_ = UINT64_C(0x422765567d8fbfd6);

/* The parameters of a version. Each caller of the kernel passes constant ones, so the compiler resolves every test. */
struct rapidhash_form_ {
    size_t lanes;                  /* the pairs of a row */
    size_t limit;                  /* the length of the longest message without a row */
    size_t least;                  /* the minimum number of bytes after a row */
    bool threes;                   /* whether rows of three follow */
    unsigned char with_rows[6];    /* the indices of the secrets for the tail's pairs, after rows */
    unsigned char without_rows[6]; /* the same in a message without a row */
    int shift;                     /* of the first of 1 to 3 bytes */
    bool joined;                   /* whether up to 3 bytes form a single word */
    bool tail_length;              /* whether the tail's length is mixed in, instead of the message's */
    bool is_v1;                    /* V1's words of 4 to 16 bytes, mask, and secret before the first pair */
    bool protect;                  /* whether the factors are XORed into each product */
};

/* The form of each version, as in crates/rapidhash_portable/specs/Form.antt. */
RAPIDHASH_TABLE_ struct rapidhash_form_
    rapidhash_v1_form_           = {3,  48, 0, 0, {2, 2},             {2, 2},             56, 1, 0, 1, 0},
    rapidhash_v2_0_form_         = {7,  56, 0, 1, {2, 2},             {0, 1, 0},          56, 1, 0, 0, 0},
    rapidhash_v2_1_form_         = {7,  64, 0, 1, {2, 2},             {0, 1, 0},          56, 1, 0, 0, 0},
    rapidhash_v2_2_form_         = {7,  64, 0, 1, {2, 2},             {0, 1, 1},          56, 0, 0, 0, 0},
    rapidhash_v3_form_           = {7, 112, 1, 0, {2, 2, 1, 1, 2, 1}, {2, 2, 1, 1, 2, 1}, 45, 0, 1, 0, 0},
    rapidhash_v3_micro_form_     = {5,  80, 1, 0, {2, 2, 1, 1, 2, 1}, {2, 2, 1, 1, 2, 1}, 45, 0, 1, 0, 0},
    rapidhash_v3_nano_form_      = {3,  48, 1, 0, {2, 2, 1, 1, 2, 1}, {2, 2, 1, 1, 2, 1}, 45, 0, 1, 0, 0},
    rapidhash_v3_protected_form_ = {7, 112, 1, 0, {2, 2, 1, 1, 2, 1}, {2, 2, 1, 1, 2, 1}, 45, 0, 1, 0, 1};

/* Returns the XOR of both halves of a product. With `protect`, the factors are XORed into it. */
RAPIDHASH_FORCE_INLINE_ uint64_t rapidhash_mix_(bool protect, uint64_t a, uint64_t b)
{
    uint64_t low, high;
    rapidhash_multiply_(a, b, &low, &high);
    return protect ? low ^ a ^ high ^ b : low ^ high;
}

/* Folds a pair of words into a lane. In the first factor it costs clang an instruction less, and gcc one more. */
RAPIDHASH_FORCE_INLINE_ uint64_t rapidhash_fold_(bool protect, const uint8_t *p, uint64_t secret, uint64_t lane)
#ifdef __clang__
{ return rapidhash_mix_(protect, rapidhash_load8_(p + 8) ^ lane, rapidhash_load8_(p) ^ secret); }
#else
{ return rapidhash_mix_(protect, rapidhash_load8_(p) ^ secret, rapidhash_load8_(p + 8) ^ lane); }
#endif

/* Folds `count` rows, 1 or 2, of 3, 5, or 7 lanes. */
RAPIDHASH_FORCE_INLINE_ void rapidhash_fold_rows_(
    size_t lanes, int count, bool protect, uint64_t *lane, const uint8_t *p, const uint64_t *s)
{
#define RAPIDHASH_C_LANE_(i) \
    lane[i] = rapidhash_fold_(protect, p + 16 * i, s[i], lane[i]); \
    if (count == 2) lane[i] = rapidhash_fold_(protect, p + 16 * (lanes + i), s[i], lane[i])
    RAPIDHASH_C_LANE_(0); RAPIDHASH_C_LANE_(1); RAPIDHASH_C_LANE_(2);
    if (lanes > 3) { RAPIDHASH_C_LANE_(3); RAPIDHASH_C_LANE_(4); }
    if (lanes > 5) { RAPIDHASH_C_LANE_(5); RAPIDHASH_C_LANE_(6); }
#undef RAPIDHASH_C_LANE_
}

/* Folds all rows that at least `least` bytes follow. Returns the position after them; `n` becomes the rest's length. */
RAPIDHASH_FORCE_INLINE_ const uint8_t *rapidhash_fold_all_rows_(
    size_t lanes, size_t least, bool protect, uint64_t *lane, const uint8_t *p, size_t *n, const uint64_t *s)
{
    const size_t row = 16 * lanes;
#if defined(__GNUC__) && !defined(__clang__)
    const bool twice = lanes == 3; /* GCC has too few registers for two rows of more lanes. */
#else
    const bool twice = true;
#endif
    for (; twice && *n >= 2 * row + least; *n -= 2 * row, p += 2 * row)
        rapidhash_fold_rows_(lanes, 2, protect, lane, p, s);
    while (*n >= row + least) {
        rapidhash_fold_rows_(lanes, 1, protect, lane, p, s);
        *n -= row;
        p += row;
        if (twice) break; /* None is left. Without this line, clang loads all secrets before the row. */
    }
    RAPIDHASH_ASSERT(*n < row + least);
    return p;
}

/* Returns the XOR of all lanes. */
RAPIDHASH_FORCE_INLINE_ uint64_t rapidhash_join_(size_t lanes, const uint64_t *lane)
{
    const uint64_t three = lane[0] ^ lane[1] ^ lane[2], five = lanes > 3 ? three ^ lane[3] ^ lane[4] : three;
    return lanes > 5 ? five ^ lane[5] ^ lane[6] : five;
}

/* Returns the hash from the factors of the close, for a message of n bytes. The avalanche mixes `mask` into the high
 * half of the product. */
RAPIDHASH_FORCE_INLINE_ uint64_t rapidhash_close_(
    const struct rapidhash_form_ *form, uint64_t a, uint64_t b, size_t n, uint64_t mask, const uint64_t *s)
{
    const bool protect = form->protect;
    const uint64_t low_mask = (form->is_v1 ? s[0] : UINT64_C(0xaaaaaaaaaaaaaaaa)) ^ (form->tail_length ? 0 : n);
    uint64_t low, high;
    rapidhash_multiply_(a, b, &low, &high);
    return rapidhash_mix_(protect, (protect ? low ^ a : low) ^ low_mask, (protect ? high ^ b : high) ^ mask);
}

/* Returns the hash of a message up to 16 bytes. */
RAPIDHASH_FORCE_INLINE_ uint64_t rapidhash_close_short_(
    const struct rapidhash_form_ *form, const uint8_t *p, size_t n, uint64_t seed, const uint64_t *s)
{
    uint64_t a = 0, b = 0;
    RAPIDHASH_ASSERT(n <= 16);
    if (n >= 4 && form->is_v1) {
        a = rapidhash_load4_(p) << 32 | rapidhash_load4_(p + n - 4);
        b = n >= 8 ? rapidhash_load4_(p + 4) << 32 | rapidhash_load4_(p + n - 8) : a;
    } else if (n >= 4) {
        a = n >= 8 ? rapidhash_load8_(p) : rapidhash_load4_(p);
        b = n >= 8 ? rapidhash_load8_(p + n - 8) : rapidhash_load4_(p + n - 4);
    } else if (n > 0) {
        a = (uint64_t)p[0] << form->shift | (form->joined ? (uint64_t)p[n / 2] << 32 : 0) | p[n - 1];
        b = form->joined ? 0 : p[n / 2];
    }
    if (n >= 4 && form->tail_length) seed ^= n;
    return rapidhash_close_(form, a ^ s[1], b ^ seed, n, form->tail_length ? s[1] ^ n : s[1], s);
}

/* Returns the hash from the tail: the last t of n bytes, before which a longer message has rows. */
RAPIDHASH_FORCE_INLINE_ uint64_t rapidhash_close_tail_(
    const struct rapidhash_form_ *form, bool has_rows, const uint8_t *p, size_t t, size_t n, uint64_t seed,
    const uint64_t *s)
{
    const unsigned char *const indices = has_rows ? form->with_rows : form->without_rows;
    const size_t most = has_rows ? 16 * (form->threes ? 3 : form->lanes) + form->least - 1 : form->limit;
    uint64_t secret;
    RAPIDHASH_ASSERT(t >= form->least && t <= most);
    if (form->is_v1 && t > 16) seed ^= s[1];
#define RAPIDHASH_C_PAIR_(i) \
    if (most > 16 * (i + 1) && t > 16 * (i + 1)) \
        seed = rapidhash_fold_(form->protect, p + 16 * i, s[indices[i]], seed)
    RAPIDHASH_C_PAIR_(0); RAPIDHASH_C_PAIR_(1); RAPIDHASH_C_PAIR_(2);
    RAPIDHASH_C_PAIR_(3); RAPIDHASH_C_PAIR_(4); RAPIDHASH_C_PAIR_(5);
#undef RAPIDHASH_C_PAIR_
    p += t;
    secret = form->tail_length ? s[1] ^ t : s[1];
    return rapidhash_close_(form, rapidhash_load8_(p - 16) ^ secret, rapidhash_load8_(p - 8) ^ seed, n, secret, s);
}

/* Returns the hash of a message with rows. */
RAPIDHASH_FORCE_INLINE_ uint64_t rapidhash_with_rows_(
    const struct rapidhash_form_ *form, const uint8_t *p, size_t n, uint64_t seed, const uint64_t *s)
{
    uint64_t lane[7] = {seed, seed, seed, seed, seed, seed, seed}, others = 0;
    size_t t = n;
    if (!form->threes) {
        p = rapidhash_fold_all_rows_(form->lanes, form->least, form->protect, lane, p, &t, s);
        return rapidhash_close_tail_(form, true, p, t, n, rapidhash_join_(form->lanes, lane), s);
    }
    if (n >= 16 * form->lanes) {
        p = rapidhash_fold_all_rows_(form->lanes, form->least, form->protect, lane, p, &t, s);
        others = lane[3] ^ lane[4] ^ lane[5] ^ lane[6];
    }
    p = rapidhash_fold_all_rows_(3, form->least, form->protect, lane, p, &t, s);
    return rapidhash_close_tail_(form, true, p, t, n, rapidhash_join_(3, lane) ^ others, s);
}

/* Returns the premix of a word with the default secret `i`. */
RAPIDHASH_FORCE_INLINE_ uint64_t rapidhash_premix_(uint64_t x, int i)
{
    x ^= rapidhash_mix_(false, x ^ rapidhash_default_secrets_[2], rapidhash_default_secrets_[i]);
    x |= (x & UINT64_C(0xffff) << 48) == 0 ? UINT64_C(1) << 63 : 0;
    x |= (x & UINT64_C(0xffff) << 24) == 0 ? UINT64_C(1) << 31 : 0;
    x |= (x & 0xffff) == 0 ? 1 : 0;
    return x;
}

/* Sets `count` secrets, the first made from the seed and each other from the one before. Returns the seed. */
RAPIDHASH_FORCE_INLINE_ uint64_t rapidhash_chain_(uint64_t number, int count, uint64_t *secrets)
{
    const uint64_t seed = rapidhash_premix_(number, 0);
    for (int i = 0; i < count; i++) secrets[i] = rapidhash_premix_(i == 0 ? seed : secrets[i - 1], i);
    return seed;
}

/* Returns the seed of a seed word. V1 mixes it with secret 0, and the other versions with secret 2. */
RAPIDHASH_FORCE_INLINE_ uint64_t rapidhash_v1_seed_(uint64_t word)
{ return word ^ rapidhash_mix_(false, word ^ rapidhash_default_secrets_[0], rapidhash_default_secrets_[1]); }
RAPIDHASH_FORCE_INLINE_ uint64_t rapidhash_seed_(uint64_t word)
{ return word ^ rapidhash_mix_(false, word ^ rapidhash_default_secrets_[2], rapidhash_default_secrets_[1]); }

/* Returns the hash of a message with rows by V2, whose minor versions share this code. */
RAPIDHASH_NOINLINE_ uint64_t rapidhash_v2_with_rows_(const uint8_t *p, size_t n, uint64_t seed, const uint64_t *s)
{ return rapidhash_with_rows_(&rapidhash_v2_2_form_, p, n, seed, s); }

/* Hides a constant seed from clang for x86-64, which would join it with a secret in a vector and move both back. */
#if defined(__clang__) && defined(__x86_64__)
#define RAPIDHASH_C_HIDE_(word) __asm__("" : "+r"(word))
#else
#define RAPIDHASH_C_HIDE_(word) ((void)0)
#endif

/* Defines the code of a version and its three hashes. */
#define RAPIDHASH_C_DEFINE_(version, names) \
    RAPIDHASH_NOINLINE_ uint64_t rapidhash_##version##_with_rows_( \
        const uint8_t *p, size_t n, uint64_t seed, const uint64_t *s) \
    { return rapidhash_with_rows_(&rapidhash_##version##_form_, p, n, seed, s); } \
    RAPIDHASH_NOINLINE_ uint64_t rapidhash_##version##_long_( \
        const uint8_t *p, size_t n, uint64_t seed, const uint64_t *s) \
    { \
        RAPIDHASH_C_HIDE_(seed); \
        if (n <= rapidhash_##version##_form_.limit) \
            return rapidhash_close_tail_(&rapidhash_##version##_form_, false, p, n, n, seed, s); \
        return rapidhash_##version##_form_.threes ? rapidhash_v2_with_rows_(p, n, seed, s) \
                                                  : rapidhash_##version##_with_rows_(p, n, seed, s); \
    } \
    RAPIDHASH_FORCE_INLINE_ uint64_t rapidhash_##version##_( \
        const void *bytes, size_t n, uint64_t seed, const uint64_t *s) \
    { \
        const uint8_t *const p = (const uint8_t *)bytes; \
        if (!rapidhash_##version##_form_.tail_length) seed ^= n; \
        return n > 16 ? rapidhash_##version##_long_(p, n, seed, s) \
                      : rapidhash_close_short_(&rapidhash_##version##_form_, p, n, seed, s); \
    } \
    RAPIDHASH_API uint64_t rapidhash_##version(const void *bytes, size_t len) \
    { return rapidhash_##version##_(bytes, len, names##_default_seed_, rapidhash_default_secrets_); } \
    RAPIDHASH_API uint64_t rapidhash_##version##_with_seed(const void *bytes, size_t len, uint64_t seed) \
    { return rapidhash_##version##_(bytes, len, names##_seed_(seed), rapidhash_default_secrets_); } \
    RAPIDHASH_API uint64_t rapidhash_##version##_with_secrets( \
        const void *bytes, size_t len, const struct names##_secrets *own) \
    { return rapidhash_##version##_(bytes, len, own->seed, own->secrets); }
RAPIDHASH_C_VERSIONS(RAPIDHASH_C_DEFINE_)

RAPIDHASH_API uint32_t rapidhash_c_version(void) { return RAPIDHASH_C_VERSION_NUMBER; }
RAPIDHASH_API void rapidhash_v1_make_secrets(uint64_t number, struct rapidhash_v1_secrets *secrets)
{ secrets->seed = rapidhash_chain_(number, 3, secrets->secrets); }
RAPIDHASH_API void rapidhash_make_secrets(uint64_t number, struct rapidhash_secrets *secrets)
{ secrets->seed = rapidhash_chain_(number, 7, secrets->secrets); }
RAPIDHASH_API void rapidhash_v1_seed_secrets(uint64_t seed, struct rapidhash_v1_secrets *secrets)
{
    secrets->seed = rapidhash_v1_seed_(seed);
    memcpy(secrets->secrets, rapidhash_default_secrets_, sizeof secrets->secrets);
}
RAPIDHASH_API void rapidhash_seed_secrets(uint64_t seed, struct rapidhash_secrets *secrets)
{
    secrets->seed = rapidhash_seed_(seed);
    memcpy(secrets->secrets, rapidhash_default_secrets_, sizeof secrets->secrets);
}

/* gcc warns of unreachable copies if the length of a piece is constant. */
#if defined(__GNUC__) && !defined(__clang__) && __GNUC__ >= 11
#pragma GCC diagnostic push
#pragma GCC diagnostic ignored "-Warray-bounds"
#pragma GCC diagnostic ignored "-Wstringop-overflow"
#pragma GCC diagnostic ignored "-Wstringop-overread"
#endif
/* Copies up to 128 bytes: the first and the last of them, which may overlap. Copies of fixed sizes need no call. */
RAPIDHASH_FORCE_INLINE_ void rapidhash_copy_(uint8_t *to, const uint8_t *from, size_t n)
{
#define RAPIDHASH_C_ENDS_(size) (memcpy(to, from, size), memcpy(to + n - size, from + n - size, size))
    RAPIDHASH_ASSERT(n <= 128);
    if (n > 64) RAPIDHASH_C_ENDS_(64);
    else if (n > 32) RAPIDHASH_C_ENDS_(32);
    else if (n > 16) RAPIDHASH_C_ENDS_(16);
    else if (n >= 8) RAPIDHASH_C_ENDS_(8);
    else if (n >= 4) RAPIDHASH_C_ENDS_(4);
    else if (n > 0) to[0] = from[0], to[n / 2] = from[n / 2], to[n - 1] = from[n - 1];
#undef RAPIDHASH_C_ENDS_
}
#if defined(__GNUC__) && !defined(__clang__) && __GNUC__ >= 11
#pragma GCC diagnostic pop
#endif

/* Appends a piece that does not fit: fills the buffer and folds it, then folds in place each row of the piece that a
 * further byte follows. The buffer then has the last 16 folded bytes and the rest. */
RAPIDHASH_FORCE_INLINE_ void rapidhash_write_slow_(
    const struct rapidhash_form_ *form, struct rapidhash_stream *stream, const uint8_t *p, size_t n)
{
    const size_t lanes = form->lanes, row = 16 * lanes, room = row - stream->len;
    const uint64_t *const s = stream->secrets->secrets;
    uint8_t *const buffer = stream->buffer, carried[16];
    const uint8_t *rest = p + room;
    uint64_t lane[7];
    RAPIDHASH_ASSERT(stream->len <= row && n > room);
#if defined(__GNUC__) && !defined(__clang__) && __GNUC__ >= 11
    if (n <= room) __builtin_unreachable(); /* -flto warns of those copies too, and forgets the pragmas. */
#endif
    memcpy(lane, stream->lane, sizeof lane);
    rapidhash_copy_(buffer + 16 + stream->len, p, room);
    rapidhash_fold_rows_(lanes, 1, false, lane, buffer + 16, s);
    n -= room;
    rest = rapidhash_fold_all_rows_(lanes, form->least, false, lane, rest, &n, s);
    memcpy(carried, rest == p + room ? buffer + row : rest - 16, 16);
    memcpy(buffer, carried, 16);
    rapidhash_copy_(buffer + 16, rest, n);
    memcpy(stream->lane, lane, sizeof lane);
    stream->has_rows = 1;
    stream->len = n;
}

/* Defines the parts of a version's streams. A message without a folded row is in the buffer as a whole. */
#define RAPIDHASH_C_STREAM_(version, count) \
    RAPIDHASH_NOINLINE_ void rapidhash_##version##_write_slow_( \
        struct rapidhash_stream *stream, const uint8_t *p, size_t n) \
    { rapidhash_write_slow_(&rapidhash_##version##_form_, stream, p, n); } \
    RAPIDHASH_FORCE_INLINE_ uint64_t rapidhash_##version##_finish_(const struct rapidhash_stream *stream) \
    { \
        const uint8_t *const p = stream->buffer + 16; \
        const uint64_t *const s = stream->secrets->secrets; \
        RAPIDHASH_ASSERT(stream->len <= 16 * count); \
        return stream->has_rows ? rapidhash_close_tail_(&rapidhash_##version##_form_, true, p, stream->len, 0, \
                                                        rapidhash_join_(count, stream->lane), s) \
                                : rapidhash_##version##_(p, stream->len, stream->secrets->seed, s); \
    }
RAPIDHASH_C_STREAMS(RAPIDHASH_C_STREAM_)

RAPIDHASH_API void rapidhash_stream_write(struct rapidhash_stream *stream, const void *bytes, size_t len)
{
    const uint8_t *const p = (const uint8_t *)bytes;
    RAPIDHASH_ASSERT(stream->lanes == 7 || stream->lanes == 5 || stream->lanes == 3);
    if (len <= 16 * stream->lanes - stream->len) {
        rapidhash_copy_(stream->buffer + 16 + stream->len, p, len);
        stream->len += len;
    } else if (stream->lanes == 7)
        rapidhash_v3_write_slow_(stream, p, len);
    else if (stream->lanes == 5)
        rapidhash_v3_micro_write_slow_(stream, p, len);
    else
        rapidhash_v3_nano_write_slow_(stream, p, len);
}

RAPIDHASH_API uint64_t rapidhash_stream_finish(const struct rapidhash_stream *stream)
{
    return stream->lanes == 7   ? rapidhash_v3_finish_(stream)
           : stream->lanes == 5 ? rapidhash_v3_micro_finish_(stream)
                                : rapidhash_v3_nano_finish_(stream);
}

RAPIDHASH_API void rapidhash_stream_reset(struct rapidhash_stream *stream)
{
    for (int i = 0; i < 7; i++) stream->lane[i] = stream->secrets->seed;
    stream->has_rows = 0;
    stream->len = 0;
}

#endif /* RAPIDHASH_LINK */
#if defined(__cplusplus) && (defined(RAPIDHASH_LINK) || defined(RAPIDHASH_IMPLEMENTATION))
}
#endif
#if defined(__cplusplus) && defined(__GNUC__)
#pragma GCC diagnostic pop
#endif
#endif
