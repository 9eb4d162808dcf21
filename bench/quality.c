/* Prints statistics of 64-bit hashes: a row for each measure, a column for each hash. FNV-1a is the control, which must
 * fail, and with WITH_CONTROLS others, whose faults are small. With WITH_OTHERS it also measures XXH3, XXH64, and what
 * bench/quality.rs exports. Its arguments are the messages per length, the most keys per set, and the seed; standard
 * input has the words of a dictionary, one per line. */
#include "rapidhash_c.h"
#ifdef WITH_OTHERS
#define XXH_INLINE_ALL
#include <xxhash.h>
#endif
#include <math.h>
#include <stdio.h>
#include <stdlib.h>
#include <string.h>

enum { SETS = 9, MEASURES = 6, LONGEST = 400, LONGEST_ZEROS = 1 << 15, MOST_KEYS = 1 << 22 };
enum { BUCKETS = 1 << 16, PRIME = 65521 };
static const char *const measures[MEASURES] = {"equal", "high 32 bits", "low 32 bits", "2^16 buckets, high bits",
                                               "2^16 buckets, low bits", "65521 buckets"};
typedef uint64_t hash(const void *bytes, size_t len, uint64_t seed);
static char dictionary[1 << 22];
#ifdef WITH_OTHERS
hash in_memory_fast, in_memory_quality, generator;
#else
static hash *const generator = NULL;
#endif

static uint64_t fnv1a(const void *bytes, size_t len, uint64_t seed)
{
    const unsigned char *p = bytes;
    uint64_t h = UINT64_C(0xcbf29ce484222325) ^ seed;
    while (len-- > 0)
        h = (h ^ *p++) * UINT64_C(0x100000001b3);
    return h;
}

#ifdef WITH_CONTROLS
/* V3 with a fault in a few bits, which a measure must find. */
#define CONTROL(name, value) \
    static uint64_t name(const void *bytes, size_t len, uint64_t seed) \
    { \
        const uint64_t h = rapidhash_v3_with_seed(bytes, len, seed); \
        return value; \
    }
CONTROL(first_bit_set, h | UINT64_C(1) << 63)
CONTROL(last_bit_clear, h >> 1 << 1)
CONTROL(equal_halves, h >> 32 << 32 | h >> 32)
#endif

#define SUBJECT(version, secrets) {#version, rapidhash_##version##_with_seed},
static const struct { const char *name; hash *call; } subjects[] = {
    RAPIDHASH_C_VERSIONS(SUBJECT)
#ifdef WITH_OTHERS
    {"fast", in_memory_fast}, {"quality", in_memory_quality}, {"generator", generator},
    {"xxh3", XXH3_64bits_withSeed}, {"xxh64", XXH64},
#endif
    {"fnv1a", fnv1a},
#ifdef WITH_CONTROLS
    {"first_bit_set", first_bit_set}, {"last_bit_clear", last_bit_clear}, {"equal_halves", equal_halves},
#endif
};
enum { SUBJECTS = sizeof subjects / sizeof *subjects };

static uint64_t random_state;

/* SplitMix64, which shares no code with the subjects. */
static uint64_t random_word(void)
{
    uint64_t z = random_state += UINT64_C(0x9e3779b97f4a7c15);
    z = (z ^ z >> 30) * UINT64_C(0xbf58476d1ce4e5b9);
    z = (z ^ z >> 27) * UINT64_C(0x94d049bb133111eb);
    return z ^ z >> 31;
}

/* Returns the worst bias of an output bit after one bit is flipped, in the message or else in the seed, divided by the
 * worst that is expected of fair coins. 1 is chance. */
static double avalanche(hash *h, size_t len, int flips_seed, int messages)
{
    static unsigned counts[LONGEST * 8][64];
    size_t inputs = flips_seed ? 64 : len * 8;
    double worst = 0;
    memset(counts, 0, sizeof counts);
    for (int i = 0; i < messages; i++) {
        unsigned char m[LONGEST + 8];
        for (size_t j = 0; j < len; j++)
            m[j] = (unsigned char)random_word();
        uint64_t seed = random_word(), before = h(m, len, seed);
        for (size_t bit = 0; bit < inputs; bit++) {
            unsigned char *byte = &m[flips_seed ? LONGEST : bit / 8], flip = (unsigned char)(1 << bit % 8);
            *byte ^= flip;
            uint64_t changed = before ^ h(m, len, flips_seed ? seed ^ UINT64_C(1) << bit : seed);
            *byte ^= flip;
            for (int output = 0; output < 64; output++)
                counts[bit][output] += changed >> output & 1;
        }
    }
    for (size_t bit = 0; bit < inputs; bit++)
        for (int output = 0; output < 64; output++)
            worst = fmax(worst, fabs(2.0 * counts[bit][output] / messages - 1));
    return worst * sqrt(messages) / sqrt(2 * log(2.0 * (double)inputs * 64));
}

static const char *const sets[] = {"integers", "integers times 2^40", "counters", "URLs", "words",
                                   "zeros of each length", "two bits of 128 bytes", "six small words", "seeds"};
static const char *word;

/* Writes the next word of the dictionary. */
static size_t write_word(char *key)
{
    size_t len = strcspn(word, "\n");
    memcpy(key, word, len);
    word += len + (word[len] == '\n');
    return len;
}

/* Writes the next 128 bytes in which two bits are set: all pairs, in order. */
static size_t write_two_bits(char *key, int is_first)
{
    static unsigned a, b;
    if (is_first)
        a = b = 0;
    if (++b >= a)
        a++, b = 0;
    memset(key, 0, 128);
    key[a / 8] = (char)(key[a / 8] | 1 << a % 8);
    key[b / 8] = (char)(key[b / 8] | 1 << b % 8);
    return a < 1024 ? 128 : 0;
}

/* Writes the key of this number in a set, and returns its length. 0 ends the set. */
static size_t write_key(int set, uint64_t k, char *key)
{
    uint64_t shifted = k << 40, nibbles[6];
    switch (set) {
    case 0: memcpy(key, &k, 8); return 8;
    case 1: memcpy(key, &shifted, 8); return 8;
    case 2: return (size_t)sprintf(key, "user:%lu", (unsigned long)k);
    case 3: return (size_t)sprintf(key, "https://example.org/shop/%lu/index.html?page=1&sort=price", (unsigned long)k);
    case 4: return write_word(key);
    case 5: key[k % LONGEST_ZEROS] = 0; return k < LONGEST_ZEROS ? (size_t)k + 1 : 0;
    case 6: return write_two_bits(key, k == 0);
    case 7:
        for (int j = 0; j < 6; j++)
            nibbles[j] = k >> 4 * j & 15;
        memcpy(key, nibbles, 48);
        return 48;
    default: memcpy(key, "message", 7); return 7;
    }
}

/* Hashes the keys of a set, at most `count`, and returns their number. The last set has one key and many seeds. */
static size_t hash_set(int set, hash *h, uint64_t seed, uint64_t *hashes, size_t count)
{
    static char key[LONGEST_ZEROS];
    size_t k = 0, len;
    word = dictionary;
    for (; k < count && (len = write_key(set, k, key)) > 0; k++)
        hashes[k] = h(key, len, set == SETS - 1 ? seed + k : seed);
    return k;
}

/* Sorts by the digits of 16 bits from `first` on: radix sort. */
static void sort(uint64_t *hashes, uint64_t *room, size_t count, int first)
{
    for (int shift = first; shift < 64; shift += 16) {
        static size_t starts[BUCKETS + 1];
        memset(starts, 0, sizeof starts);
        for (size_t i = 0; i < count; i++)
            starts[(hashes[i] >> shift & 0xffff) + 1]++;
        for (size_t i = 1; i < BUCKETS; i++)
            starts[i] += starts[i - 1];
        for (size_t i = 0; i < count; i++)
            room[starts[hashes[i] >> shift & 0xffff]++] = hashes[i];
        memcpy(hashes, room, count * sizeof *room);
    }
}

/* Returns how often two sorted neighbours agree above `shift`. */
static double equal_neighbours(const uint64_t *sorted, size_t count, int shift)
{
    size_t equal = 0;
    for (size_t i = 1; i < count; i++)
        equal += sorted[i] >> shift == sorted[i - 1] >> shift;
    return (double)equal;
}

/* Returns a count's distance from its expectation in standard deviations (Anscombe's transform of Poisson counts). */
static double z_of_count(double count, double expected) { return 2 * (sqrt(count + 0.375) - sqrt(expected + 0.375)); }

/* Returns the distance of chi-square from its expectation in standard deviations. */
static double z_of_buckets(const uint64_t *hashes, size_t count, int shift, size_t buckets)
{
    static unsigned filled[BUCKETS];
    double sum = 0, share = (double)count / (double)buckets, freedom = (double)buckets - 1;
    memset(filled, 0, sizeof filled);
    for (size_t i = 0; i < count; i++)
        filled[(hashes[i] >> shift) % buckets]++;
    for (size_t i = 0; i < buckets; i++)
        sum += (filled[i] - share) * (filled[i] - share) / share;
    return (sum - freedom) / sqrt(2 * freedom);
}

static void judge(uint64_t *hashes, uint64_t *room, size_t count, double *results)
{
    double expected = (double)count * ((double)count - 1) / 2 / 4294967296.0;
    results[3] = z_of_buckets(hashes, count, 48, BUCKETS);
    results[4] = z_of_buckets(hashes, count, 0, BUCKETS);
    results[5] = z_of_buckets(hashes, count, 0, PRIME);
    sort(hashes, room, count, 0);
    results[0] = equal_neighbours(hashes, count, 0);
    results[1] = z_of_count(equal_neighbours(hashes, count, 32), expected);
    for (size_t i = 0; i < count; i++)
        hashes[i] <<= 32;
    sort(hashes, room, count, 32);
    results[2] = z_of_count(equal_neighbours(hashes, count, 32), expected);
}

static void print_row(const char *what, const char *unit, const double *results)
{
    printf("%s\t%s", what, unit);
    for (int i = 0; i < SUBJECTS; i++)
        if (isnan(results[i]))
            printf("\t");
        else
            printf(*unit == 'k' ? "\t%.0f" : "\t%.2f", results[i]);
    puts("");
}

static void print_avalanche(size_t len, int flips_seed, int messages, uint64_t seed)
{
    double results[SUBJECTS];
    for (int i = 0; i < SUBJECTS; i++) {
        int is_left_out = subjects[i].call == generator && (flips_seed || len != 8);
        random_state = seed;
        results[i] = is_left_out ? NAN : avalanche(subjects[i].call, len, flips_seed, messages);
    }
    printf("avalanche of %s, ", flips_seed ? "the seed" : "the message");
    printf("%lu ", (unsigned long)len);
    print_row("bytes", "noise", results);
}

static void print_sets(size_t count, uint64_t seed)
{
    static uint64_t hashes[MOST_KEYS], room[MOST_KEYS];
    for (int s = 0; s < SETS; s++) {
        double results[MEASURES][SUBJECTS], of_subject[MEASURES];
        for (int i = 0; i < SUBJECTS; i++) {
            int is_left_out = subjects[i].call == generator && s > 1 && s < SETS - 1;
            if (!is_left_out)
                judge(hashes, room, hash_set(s, subjects[i].call, seed, hashes, count), of_subject);
            for (int m = 0; m < MEASURES; m++)
                results[m][i] = is_left_out ? NAN : of_subject[m];
        }
        for (int m = 0; m < MEASURES; m++) {
            printf("%s: ", sets[s]);
            print_row(measures[m], m == 0 ? "keys" : "z", results[m]);
        }
    }
}

int main(int count, char **arguments)
{
    static const size_t lens[] = {1, 2, 3, 4, 7, 8, 9, 16, 17, 32, 33, 48, 49, 64, 80, 81, 112, 113, 128, 256, LONGEST};
    if (count != 4 || fread(dictionary, 1, sizeof dictionary - 1, stdin) == 0)
        return fputs("usage: quality MESSAGES KEYS SEED <WORDS\n", stderr), 2;
    int messages = atoi(arguments[1]);
    size_t keys = (size_t)strtoull(arguments[2], NULL, 0);
    uint64_t seed = strtoull(arguments[3], NULL, 0);
    printf("what\tunit");
    for (int i = 0; i < SUBJECTS; i++)
        printf("\t%s", subjects[i].name);
    puts("");
    for (size_t i = 0; i < sizeof lens / sizeof *lens; i++)
        print_avalanche(lens[i], 0, messages, seed);
    for (size_t i = 0; i < 3; i++)
        print_avalanche((const size_t[]){3, 16, 128}[i], 1, messages, seed);
    print_sets(keys < MOST_KEYS ? keys : MOST_KEYS, seed);
    return 0;
}
