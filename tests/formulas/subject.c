/* Computes the hashes that tests/formulas/main.rs requests, by the C header over random loads and a random product. In
 * C++, these are the hashes of constant expressions, computed at run time. */
#include <stdio.h>
#include <stdlib.h>

#include "rapidhash_c.h"
#ifdef __cplusplus
#include "rapidhash_constexpr.hpp"

struct random_primitives {
    struct halves { uint64_t low, high; };

    static uint64_t load4(const char *p) { return rapidhash_load4_((const uint8_t *)p); }
    static uint64_t load8(const char *p) { return rapidhash_load8_((const uint8_t *)p); }
    static halves multiply(uint64_t a, uint64_t b)
    {
        halves product;
        rapidhash_multiply_(a, b, &product.low, &product.high);
        return product;
    }
};
#endif

enum { ROOM = 32768 };

struct record {
    uint64_t form, options, key;
    struct rapidhash_secrets own;
    uint64_t offset, length, streamed, cuts[4], unused[2];
};

static uint64_t in_pieces(const struct record *asked, const uint8_t *bytes)
{
    struct rapidhash_stream stream;
    size_t at = 0;

    rapidhash_stream_start_(&stream, 15 - 2 * asked->form, &asked->own);
    for (int i = 0; i < 5; i++) {
        const size_t end = i < 4 ? (size_t)asked->cuts[i] : (size_t)asked->length, len = end - at;
        /* The pieces lie apart, so that a stream finds no earlier bytes in front of one. */
        uint8_t *const piece = (uint8_t *)malloc(len + 1);

        memcpy(piece + 1, bytes + at, len);
        rapidhash_stream_write(&stream, piece + 1, len);
        free(piece);
        at = end;
    }
    return rapidhash_stream_finish(&stream);
}

static uint64_t hash(const struct record *asked, const uint8_t *bytes)
{
    uint64_t before = asked->form;

#ifdef __cplusplus
    if (asked->form == 4 && asked->options == 1)
        return rapidhash::constant::v3<random_primitives>((const char *)bytes, asked->length, asked->own.seed,
                                                          asked->own.secrets);
#endif
    if (asked->options & 2)
        return rapidhash_v3_protected_with_secrets(bytes, asked->length, &asked->own);
    /* V1 has the first of the secrets. */
#define HASH(version, kind) \
    if (before-- == 0) { \
        struct kind##_secrets secrets; \
        memcpy(&secrets, &asked->own, sizeof secrets); \
        return rapidhash_##version##_with_secrets(bytes, asked->length, &secrets); \
    }
    RAPIDHASH_C_VERSIONS(HASH)
    return 0;
}

int main(void)
{
    static uint8_t room[ROOM];
    struct record asked;

    if (fread(room, 1, ROOM, stdin) != ROOM)
        return 1;
    while (fread(&asked, sizeof asked, 1, stdin) == 1) {
        /* The message ends with its allocation, so that a sanitizer sees each read past its end. */
        uint8_t *const bytes = (uint8_t *)malloc(asked.length + 1);
        uint64_t found;

        memcpy(bytes + 1, room + asked.offset, asked.length);
        key = asked.key;
        found = asked.streamed ? in_pieces(&asked, bytes + 1) : hash(&asked, bytes + 1);
        fwrite(&found, sizeof found, 1, stdout);
        free(bytes);
    }
    return fflush(stdout) != 0;
}
