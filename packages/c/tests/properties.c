/* Tests properties of the header that no table of values shows. The argument selects one:
 *   product  the loads, the canonical bytes, and the product of words at which a carry or a half could be wrong
 *   streams  a stream that was reset, copied, or assigned to itself after each length up to three rows and at each cut,
 *            and the finish of a stream in memory that cannot be written
 *   count    the fingerprint of more than 2^32 hashes
 *   threads  calls of several threads at a time, under ThreadSanitizer
 *   content  that no branch and no address depends on the contents of messages, seeds or secrets, under memcheck, which
 *            reports each use of undefined bytes. The comparison as formulas, of random contents, relies on it. */
#include <stdio.h>
#include <stdlib.h>
#include <string.h>

#include "rapidhash_c.h"

#ifdef TEST_THREADS
#include <pthread.h>
#endif
#ifdef TEST_CONTENT
#include <valgrind/memcheck.h>
#else
#define VALGRIND_MAKE_MEM_UNDEFINED(bytes, size) ((void)0)
#define VALGRIND_MAKE_MEM_DEFINED(bytes, size) ((void)0)
#endif
#if defined(__unix__) && !defined(TEST_NO_MMAP)
#include <sys/mman.h>
#endif

static uint8_t message[70000];
static struct rapidhash_secrets own;
static struct rapidhash_v1_secrets own_v1;
static int failed;

static void expect(const char *what, uint64_t detail, bool holds)
{
    if (!holds && failed++ < 20)
        printf("FAILED %s: %llu\n", what, (unsigned long long)detail);
}

/* Sets the halves of a product, one bit of the second factor at a time. */
static void add_up(uint64_t a, uint64_t b, uint64_t *low, uint64_t *high)
{
    int bit;

    *low = *high = 0;
    for (bit = 0; bit < 64; bit++) {
        const uint64_t part = b >> bit & 1 ? a << bit : 0;

        *high += b >> bit & 1 && bit > 0 ? a >> (64 - bit) : 0;
        *low += part;
        *high += *low < part;
    }
}

/* The number of random products: 2^24 show an error for a word in 2^20. */
#ifndef TEST_PRODUCTS
#define TEST_PRODUCTS 65536
#endif

static void test_random_products(void)
{
    uint64_t a = 1, b = 2, i;

    for (i = 0; i < TEST_PRODUCTS; i++) {
        uint64_t low, high, known_low, known_high;

        a = a * 6364136223846793005 + 1442695040888963407;
        b = (b ^ a >> 31) * 0x9e3779b97f4a7c15;
        rapidhash_multiply_(a, b, &low, &high);
        add_up(a, b, &known_low, &known_high);
        expect("a random product", i, low == known_low && high == known_high);
    }
}

static void test_product(void)
{
    static const uint64_t words[] = {
        0, 1, 2, 3, 0x7fffffff, 0x80000000, 0xfffffffe, 0xffffffff, 0x100000000, 0x100000001, 0xffffffff00000000,
        0x7fffffffffffffff, 0x8000000000000000, 0x8000000000000001, 0xfffffffffffffffe, 0xffffffffffffffff,
        0x2d358dccaa6c78a5, 0xdeadbeefcafef00d};
    enum { WORDS = sizeof words / sizeof words[0] };
    static const uint8_t stored[] = {0xff, 0x01, 0x82, 0x03, 0x84, 0x05, 0x86, 0x07, 0x88, 0xff};
    static const uint8_t canonical[] = {0x88, 0x07, 0x86, 0x05, 0x84, 0x03, 0x82, 0x01};
    uint8_t written[8];
    size_t i, j;

    for (i = 0; i < WORDS; i++)
        for (j = 0; j < WORDS; j++) {
            uint64_t low, high, known_low, known_high;

            rapidhash_multiply_(words[i], words[j], &low, &high);
            add_up(words[i], words[j], &known_low, &known_high);
            expect("the product of words", i * WORDS + j, low == known_low && high == known_high);
        }
    test_random_products();
    expect("8 bytes", 8, rapidhash_load8_(stored + 1) == 0x8807860584038201);
    expect("4 bytes", 4, rapidhash_load4_(stored + 1) == 0x84038201);
    expect("4 bytes, of which the last is above 127", 4, rapidhash_load4_(stored + 2) == 0x05840382);
    rapidhash_to_canonical(0x8807860584038201, written);
    expect("written canonical bytes", 8, memcmp(written, canonical, 8) == 0);
    expect("read canonical bytes", 8, rapidhash_from_canonical(canonical) == 0x8807860584038201);
}

struct form {
    void (*start)(struct rapidhash_stream *, const struct rapidhash_secrets *);
    uint64_t (*hash)(const void *, size_t, const struct rapidhash_secrets *);
    size_t row;
};
#define STREAM(version, lanes) {rapidhash_##version##_start, rapidhash_##version##_with_secrets, 16 * lanes},
static const struct form forms[] = {RAPIDHASH_C_STREAMS(STREAM)};

/* Writes a message of each length up to three rows, with each cut, to a stream that had another of such a length. */
static void test_streams_of(const struct form *form)
{
    const size_t most = 3 * form->row + 1;
    struct rapidhash_stream stream, copy;
    size_t before, length;

    for (before = 0; before <= most; before++)
        for (length = 0; length <= most; length++) {
            const uint64_t known = form->hash(message, length, &own);
            const size_t cut = before % (length + 1);

            form->start(&stream, &own);
            rapidhash_stream_write(&stream, message + 9, before);
            rapidhash_stream_reset(&stream);
            rapidhash_stream_write(&stream, message, cut);
            copy = stream;
            stream = *&stream;
            rapidhash_stream_write(&stream, message + cut, length - cut);
            expect("a stream after a reset", before * 1000 + length, rapidhash_stream_finish(&stream) == known);
            rapidhash_stream_write(&copy, message + cut, length - cut);
            expect("a copy", before * 1000 + length, rapidhash_stream_finish(&copy) == known);
        }
}

static void test_streams(void)
{
    size_t i, length;

    for (i = 0; i < sizeof forms / sizeof forms[0]; i++)
        test_streams_of(&forms[i]);
#if defined(__unix__) && !defined(TEST_NO_MMAP)
    for (i = 0; i < sizeof forms / sizeof forms[0]; i++)
        for (length = 0; length < 400; length += 7) {
            struct rapidhash_stream *const stream = (struct rapidhash_stream *)mmap(
                NULL, 4096, PROT_READ | PROT_WRITE, MAP_PRIVATE | MAP_ANONYMOUS, -1, 0);

            forms[i].start(stream, &own);
            rapidhash_stream_write(stream, message, length);
            mprotect(stream, 4096, PROT_READ);
            expect("a stream in constant memory", length,
                   rapidhash_stream_finish(stream) == forms[i].hash(message, length, &own));
            munmap(stream, 4096);
        }
#else
    (void)length;
#endif
}

#ifdef TEST_COUNT
/* Zeros that nobody writes need no memory. */
static void test_count(void)
{
    const size_t count = ((size_t)1 << 32) + 2;
    uint64_t *const hashes = (uint64_t *)mmap(NULL, 8 * count, PROT_READ | PROT_WRITE,
                                              MAP_PRIVATE | MAP_ANONYMOUS | MAP_NORESERVE, -1, 0);

    if (hashes == MAP_FAILED || madvise(hashes, 8 * count, MADV_HUGEPAGE) != 0)
        return expect("memory", count, false);
    hashes[0] = 5;
    hashes[count - 1] = 7;
    expect("the fingerprint", count, rapidhash_fingerprint(hashes, count) == 12);
}
#endif

/* Returns a number that depends on each hash of the first n bytes, also in two pieces cut at each `step` bytes. */
static uint64_t all_hashes(size_t n, uint64_t word, size_t step)
{
    const void *const secrets[] = {&own, &own_v1};
    uint64_t all = 0;
    size_t i, cut;

#define ADD(version, kind) \
    all = all * 3 + rapidhash_##version(message, n) + 5 * rapidhash_##version##_with_seed(message, n, word) \
          + 7 * rapidhash_##version##_with_secrets(message, n, (const struct kind##_secrets *) \
                                             secrets[sizeof(struct kind##_secrets) == sizeof own_v1]);
    RAPIDHASH_C_VERSIONS(ADD)
    for (i = 0; n < 500 && i < sizeof forms / sizeof forms[0]; i++)
        for (cut = 0; cut <= n; cut += step) {
            struct rapidhash_stream stream;

            forms[i].start(&stream, &own);
            rapidhash_stream_write(&stream, message, cut);
            rapidhash_stream_write(&stream, message + cut, n - cut);
            all = all * 3 + rapidhash_stream_finish(&stream);
        }
    return all;
}

static void test_content(void)
{
    uint64_t word = 5, all = 0;
    size_t n;

    VALGRIND_MAKE_MEM_UNDEFINED(message, sizeof message);
    VALGRIND_MAKE_MEM_UNDEFINED(&own, sizeof own);
    VALGRIND_MAKE_MEM_UNDEFINED(&own_v1, sizeof own_v1);
    VALGRIND_MAKE_MEM_UNDEFINED(&word, sizeof word);
    for (n = 0; n <= 66000; n += n < 700 ? 1 : n / 5)
        all ^= all_hashes(n, word, 3);
    VALGRIND_MAKE_MEM_DEFINED(&all, sizeof all);
    expect("the hashes", all, all != 0);
}

#ifdef TEST_THREADS
static void *hash_all(void *sum)
{
    struct rapidhash_v1_secrets made_v1;
    struct rapidhash_secrets made;
    struct rapidhash_stream stream;
    unsigned char saved[RAPIDHASH_STREAM_SAVED];
    size_t n;

    for (n = 0; n < 2000; n += 7) {
        *(uint64_t *)sum += all_hashes(n, n, 100);
        rapidhash_make_secrets(n, &made);
        rapidhash_v1_make_secrets(n, &made_v1);
        *(uint64_t *)sum += made.seed + made.secrets[6] + made_v1.seed + made_v1.secrets[2];
        rapidhash_v3_start(&stream, &made);
        rapidhash_key_integer(&stream, (int64_t)n);
        rapidhash_key_bytes(&stream, message, n);
        rapidhash_stream_save(&stream, saved);
        *(uint64_t *)sum += rapidhash_stream_restore(&stream, saved, sizeof saved) + rapidhash_stream_finish(&stream);
    }
    return NULL;
}

static void test_threads(void)
{
    enum { THREADS = 4 };
    pthread_t threads[THREADS];
    uint64_t sums[THREADS] = {0};
    int i;

    for (i = 0; i < THREADS; i++)
        pthread_create(&threads[i], NULL, hash_all, &sums[i]);
    for (i = 0; i < THREADS; i++) {
        pthread_join(threads[i], NULL);
        expect("the sum of a thread", (uint64_t)i, sums[i] == sums[0]);
    }
}
#endif

int main(int count, char **words)
{
    const char *const test = count > 1 ? words[1] : "";
    size_t i;

    for (i = 0; i < sizeof message; i++)
        message[i] = (uint8_t)(i * i % 253);
    rapidhash_make_secrets(7, &own);
    rapidhash_v1_make_secrets(7, &own_v1);
    if (strcmp(test, "product") == 0)
        test_product();
    else if (strcmp(test, "streams") == 0)
        test_streams();
    else if (strcmp(test, "content") == 0)
        test_content();
#ifdef TEST_COUNT
    else if (strcmp(test, "count") == 0)
        test_count();
#endif
#ifdef TEST_THREADS
    else if (strcmp(test, "threads") == 0)
        test_threads();
#endif
    else
        expect("no test of that name", 0, false);
    printf("%d failed\n", failed);
    return failed != 0;
}
