/* Calls every function of the C library, so that each must be there. The known numbers are those of the Rust crate
 * rapidhash 4.5.1: cases.c has more values. Prints each value that differs. The last line counts the values, and the
 * exit status is 1 if one differs. */
#include <inttypes.h>
#include <stdio.h>
#include <stdlib.h>
#include <string.h>

#include "rapidhash_c.h"

/* The bytes 0 to 119. The versions of V2 differ at 60 bytes, and V3 and its relatives at 120. */
static uint8_t bytes[120];
static uint8_t large[1000000];

/* A seed and secrets that all differ, so that each must arrive in its own place. */
static const struct rapidhash_secrets own = {1, {2, 3, 5, 7, 11, 13, 17}};

static int passed, failed;

static void compare(const char *name, const char *what, uint64_t value, uint64_t known)
{
    if (value == known) {
        passed++;
    } else {
        failed++;
        printf("FAILED %s %.60s: %" PRIu64 ", and %" PRIu64 " is right\n", name, what, value, known);
    }
}

/* Calls each function of a version. The secrets of its default word must give the hash without a word. */
#define CHECK(version, own) \
    static void check_##version(void) \
    { \
        const uint64_t hash = rapidhash_##version(bytes, 60); \
        const uint64_t word = sizeof(struct own##_secrets) == 32 ? UINT64_C(0xbdd89aa982704029) : 0; \
        struct own##_secrets secrets; \
        own##_make_secrets(word, &secrets); \
        own##_seed_secrets(word, &secrets); \
        compare(#version, "with its default word", rapidhash_##version##_with_seed(bytes, 60, word), hash); \
        compare(#version, "with secrets", rapidhash_##version##_with_secrets(bytes, 60, &secrets), hash); \
        sprintf(digits + strlen(digits), "%016" PRIx64 "%016" PRIx64, hash, rapidhash_##version(bytes, 120)); \
        sprintf(of_large + strlen(of_large), "%016" PRIx64, rapidhash_##version(large, sizeof large)); \
    }
static char digits[512], of_large[256];
RAPIDHASH_C_VERSIONS(CHECK)

/* One number is known for all versions: the V3 hash of their digits. */
static void check_versions(void)
{
#define CALL(version, own) check_##version();
    RAPIDHASH_C_VERSIONS(CALL)
    compare("all versions", "of two messages", rapidhash_v3(digits, strlen(digits)), 12980804195221024151u);
    compare("all versions", "of a large message", rapidhash_v3(of_large, strlen(of_large)), 4938006591353754719u);
}

/* Alternates the writes to a stream, to its copy and to one restored from it, so that each would disturb the others if
 * they shared anything. */
static void check_stream(void (*start)(struct rapidhash_stream *, const struct rapidhash_secrets *), uint64_t known)
{
    struct rapidhash_stream first, others[2];
    uint8_t saved[RAPIDHASH_STREAM_SAVED];
    size_t i;

    start(&first, &own);
    start(&others[1], &own);
    rapidhash_stream_write(&first, large, 100);
    rapidhash_stream_reset(&first);
    rapidhash_stream_write(&first, NULL, 0);
    rapidhash_stream_write(&first, bytes, 60);
    others[0] = first;
    rapidhash_stream_save(&first, saved);
    compare("a stream", "restored", rapidhash_stream_restore(&others[1], saved, sizeof saved), true);
    rapidhash_stream_write(&first, bytes + 60, 30);
    for (i = 0; i < 2; i++) {
        rapidhash_stream_write(&others[i], bytes + 60, 60);
        compare("a stream", "of the copy", rapidhash_stream_finish(&others[i]), known);
    }
    rapidhash_stream_write(&first, bytes + 90, 30);
    compare("a stream", "that was copied", rapidhash_stream_finish(&first), known);
}

/* Checks that a stream hashes a large piece in place. It copies only the bytes that fill its buffer. Here these are the
 * first chunk of 112 bytes, and at the end the last 2 bytes with the 16 before them. After these 18 bytes, the buffer
 * still has the bytes of the first chunk. It would have those of the third if the stream copied each chunk. No contract
 * states this. */
static void check_copied_bytes(void)
{
    const size_t len = 3 * 112 + 2;
    struct rapidhash_stream stream;
    size_t i, differing = 0;

    rapidhash_v3_start(&stream, &own);
    rapidhash_stream_write(&stream, large, len);
    for (i = 0; i < sizeof stream.buffer; i++)
        differing += stream.buffer[i] != (i < 18 ? large[len - 18 + i] : large[i - 16]);
    compare("v3", "bytes that differ in the buffer", differing, 0);
}

/* Checks that the most significant byte comes first, even if it is above 127. */
static void check_canonical(void)
{
    static const unsigned char known[8] = {0xf0, 0x1e, 0xd2, 0x3c, 0xb4, 0x5a, 0x96, 0x78};
    unsigned char stored[8];

    rapidhash_to_canonical(0xf01ed23cb45a9678u, stored);
    compare("canonical bytes", "stored", memcmp(stored, known, sizeof known) == 0, 1);
    compare("canonical bytes", "read", rapidhash_from_canonical(known), 0xf01ed23cb45a9678u);
}

int main(void)
{
    size_t i;

    for (i = 0; i < sizeof bytes; i++)
        bytes[i] = (uint8_t)i;
    for (i = 0; i < sizeof large; i++)
        large[i] = (uint8_t)(i % 251);
    compare("the library", "version", rapidhash_c_version(), RAPIDHASH_C_VERSION_NUMBER);
    if (sizeof(size_t) == 8)
        compare("a stream", "size", sizeof(struct rapidhash_stream), 216);
    check_versions();
#define STREAM(version, lanes) \
    check_stream(rapidhash_##version##_start, rapidhash_##version##_with_secrets(bytes, sizeof bytes, &own));
    RAPIDHASH_C_STREAMS(STREAM)
    check_copied_bytes();
    check_canonical();
    printf("%d passed, %d failed\n", passed, failed);
    return failed != 0;
}
