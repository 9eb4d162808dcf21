/* Times the hashes of the C header, with XXH3 those of XXH3, or with HAND those of hand.h, on the messages of
 * bench/rust.rs and in the same loops. It prints a row per line: the form, the row and the nanoseconds, the minimum of
 * its repeats. With the word hand, it times the forms that the header and a rival have, and streams of 1,024 bytes.
 * With a second word, it times the row of these lengths alone. With a loop and a form as third and fourth word, it
 * makes that row's calls once. */
#define _POSIX_C_SOURCE 200809L
#include <stdbool.h>
#include <stdint.h>
#include <stdio.h>
#include <string.h>
#include <time.h>
#ifdef XXH3
#define XXH_INLINE_ALL
#include <xxhash.h>
#elif defined(HAND)
#include "hand.h"
#else
#include <rapidhash_c.h>
#endif

enum { BYTES = 1 << 17, MOST = 20000, EQUAL = 21, MIXED = 5, REPEATS = 40, LOOPS = 3, EACH = 500, SUM = 1 << 18 };

/* The equal lengths of the messages of a row, and the ranges of its mixed lengths. */
static const size_t equal[EQUAL] = {0, 3, 4, 8, 12, 16, 17, 24, 32, 48, 64, 100, 112, 113, 160, 256, 512, 1024, 4096,
                                    16384, 65536};
static const size_t mixed[MIXED][2] = {{1, 16}, {8, 16}, {1, 32}, {1, 64}, {1, 300}};
static const char *const loops[LOOPS] = {"sum", "chain", "call"};
static uint8_t bytes[BYTES];
static struct { size_t start, length; } parts[MOST];
static struct { const uint8_t *bytes; size_t length; } texts[MOST];
static volatile uint64_t sink;

/* The forms: X(name, title, the hash of `length` bytes at `text`) for each. */
#define STREAMS(X) \
    X(stream, "stream of 16", in_pieces(text, length, 16)) \
    X(stream1, "stream of 1", in_pieces(text, length, 1)) \
    X(stream4, "stream of 4", in_pieces(text, length, 4)) \
    X(stream32, "stream of 32", in_pieces(text, length, 32)) \
    X(stream64, "stream of 64", in_pieces(text, length, 64)) \
    X(stream128, "stream of 128", in_pieces(text, length, 128))
static uint64_t word;
#ifdef XXH3
static XXH3_state_t xxh3_state;

static uint64_t in_pieces(const uint8_t *text, size_t length, size_t size)
{
    XXH3_64bits_reset(&xxh3_state);
    for (; length > size; text += size, length -= size)
        XXH3_64bits_update(&xxh3_state, text, size);
    XXH3_64bits_update(&xxh3_state, text, length);
    return XXH3_64bits_digest(&xxh3_state);
}

#define FORMS(X) \
    X(xxh3, "v3", XXH3_64bits(text, length)) \
    X(xxh3_word, "v3 seed word", XXH3_64bits_withSeed(text, length, word)) \
    STREAMS(X)
#elif defined(HAND)
#define FORMS(X) \
    X(hand, "v3", hand_v3(text, length, 0)) \
    X(hand_word, "v3 seed word", hand_v3(text, length, word))
#else
static struct rapidhash_v1_secrets three;
static struct rapidhash_secrets seven;

/* V3 of a message in pieces. */
static uint64_t in_pieces(const uint8_t *text, size_t length, size_t size)
{
    struct rapidhash_stream stream;
    rapidhash_v3_start(&stream, &seven);
    for (; length > size; text += size, length -= size)
        rapidhash_stream_write(&stream, text, size);
    rapidhash_stream_write(&stream, text, length);
    return rapidhash_stream_finish(&stream);
}

/* V3 of a message in halves, between which the stream is saved and restored. */
static uint64_t in_saved_halves(const uint8_t *text, size_t length)
{
    struct rapidhash_stream stream;
    unsigned char saved[RAPIDHASH_STREAM_SAVED];
    rapidhash_v3_start(&stream, &seven);
    rapidhash_stream_write(&stream, text, length / 2);
    rapidhash_stream_save(&stream, saved);
    rapidhash_v3_start(&stream, &seven);
    rapidhash_stream_restore(&stream, saved, sizeof saved);
    rapidhash_stream_write(&stream, text + length / 2, length - length / 2);
    return rapidhash_stream_finish(&stream);
}

#define FORMS(X) \
    X(v1, "v1", rapidhash_v1(text, length)) \
    X(v1_with_secrets, "v1 seeded", rapidhash_v1_with_secrets(text, length, &three)) \
    X(v2_2, "v2.2", rapidhash_v2_2(text, length)) \
    X(v3, "v3", rapidhash_v3(text, length)) \
    X(v3_with_secrets, "v3 seeded", rapidhash_v3_with_secrets(text, length, &seven)) \
    X(v3_word, "v3 seed word", rapidhash_v3_with_seed(text, length, word)) \
    X(micro, "micro", rapidhash_v3_micro(text, length)) \
    X(nano, "nano", rapidhash_v3_nano(text, length)) \
    X(saved, "stream saved", in_saved_halves(text, length)) \
    STREAMS(X)
#endif

/* The three loops of a form. The compiler may inline the hash into all but the last. */
#define LOOP(name, loop, step) \
    static uint64_t name##_##loop(size_t count) \
    { \
        uint64_t last = 0; \
        for (size_t i = 0; i < count; i++) \
            step; \
        return last; \
    }
#define FORM(name, title, hash) \
    static uint64_t name##_hash(const uint8_t *text, size_t length) { return hash; } \
    __attribute__((noinline)) static uint64_t name##_called(const uint8_t *text, size_t length) { return hash; } \
    LOOP(name, sum, last += name##_hash(texts[i].bytes, texts[i].length)) \
    LOOP(name, chain, last = name##_hash(bytes + last % 64, parts[i].length)) \
    LOOP(name, call, last += name##_called(texts[i].bytes, texts[i].length))
FORMS(FORM)

#define LISTED(name, title, hash) {title, {name##_sum, name##_chain, name##_call}},
static const struct form {
    const char *title;
    uint64_t (*work[LOOPS])(size_t count);
} forms[] = {FORMS(LISTED)};

/* Returns the nanoseconds since a fixed moment. */
static uint64_t now(void)
{
    struct timespec time;
    clock_gettime(CLOCK_MONOTONIC, &time);
    return (uint64_t)time.tv_sec * 1000000000 + (uint64_t)time.tv_nsec;
}

/* Returns the next word of RapidRng, from which the other programs draw. */
static uint64_t next_word(uint64_t *state)
{
    __uint128_t product;
    *state += UINT64_C(0x2d358dccaa6c78a5);
    product = (__uint128_t)*state * (*state ^ UINT64_C(0x8bb84b93962eacc9));
    return (uint64_t)product ^ (uint64_t)(product >> 64);
}

/* Returns the least time of the repeats, per message. */
static double least(uint64_t (*work)(size_t count), size_t count)
{
    uint64_t least = UINT64_MAX;
    for (int repeat = 0; repeat < REPEATS; repeat++) {
        uint64_t start = now(), taken;
        sink = work(count);
        taken = now() - start;
        least = taken < least ? taken : least;
    }
    return (double)least / (double)count;
}

/* Makes calls for callgrind. */
__attribute__((noinline)) void counted(uint64_t (*work)(size_t count), size_t count) { sink = work(count); }

/* The loop whose calls are made once, or NULL. */
static const char *counted_loop;

/* Prints the rows of a form: its loops over the messages of each range, from a first to a last length, or only of the
 * range with a name. Ranges of mixed lengths are for forms from 0 bytes on. */
static void rows(const struct form *form, size_t first, size_t last, const char *only)
{
    uint64_t state = 9;

    for (int i = 0; i < EQUAL + MIXED; i++) {
        if (i < EQUAL ? equal[i] < first || equal[i] > last : first > 0)
            continue;
        const size_t low = i < EQUAL ? equal[i] : mixed[i - EQUAL][0], high = i < EQUAL ? low : mixed[i - EQUAL][1];
        const size_t count = i >= EQUAL ? MOST : SUM / (low + 1) < EACH ? SUM / (low + 1) : EACH;
        char lengths[48];

        snprintf(lengths, sizeof lengths, i < EQUAL ? "%zu" : "%zu-%zu", low, high);
        for (size_t at = 0; at < count; at++) {
            parts[at].start = next_word(&state) % 4096;
            parts[at].length = low + next_word(&state) % (high - low + 1);
            texts[at].bytes = bytes + parts[at].start;
            texts[at].length = parts[at].length;
        }
        for (int loop = 0; loop < LOOPS && (!only || strcmp(only, lengths) == 0); loop++)
            if (!counted_loop)
                printf("%s\t%s %s\t%.3f\n", form->title, lengths, loops[loop],
                       least(form->work[loop], count));
            else if (strcmp(loops[loop], counted_loop) == 0)
                counted(form->work[loop], count);
    }
}

int main(int argc, char **argv)
{
    const bool is_hand = argc > 1 && strcmp(argv[1], "hand") == 0;
    const char *const only = argc > 2 ? argv[2] : NULL, *const form = argc > 4 ? argv[4] : NULL;
    uint64_t state = 7;

    for (size_t at = 0; at < BYTES; at++)
        bytes[at] = (uint8_t)next_word(&state);
    word = next_word(&state);
    counted_loop = argc > 3 ? argv[3] : NULL;
#if !defined(XXH3) && !defined(HAND)
    rapidhash_v1_make_secrets(7, &three);
    rapidhash_make_secrets(7, &seven);
#endif
    for (size_t at = 0; at < sizeof forms / sizeof *forms; at++) {
        const bool is_stream = strncmp(forms[at].title, "stream", 6) == 0;
        if (form && strcmp(forms[at].title, form) != 0)
            continue;
        if (!is_hand && (!is_stream || strcmp(forms[at].title, "stream of 16") == 0))
            rows(&forms[at], 0, SIZE_MAX, only);
        else if (is_hand && is_stream)
            rows(&forms[at], 1024, 1024, only);
        else if (is_hand && (strcmp(forms[at].title, "v3") == 0 || strcmp(forms[at].title, "v3 seed word") == 0))
            rows(&forms[at], 0, 256, only);
    }
    return 0;
}
