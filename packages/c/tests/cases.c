/* Replays the cases that every language has: cc cases.c && ./a.out <cases.tsv. The README.md beside that file has the
 * format. Compiles as C and as C++. Prints each case that differs. The last line counts the cases. */
#include <inttypes.h>
#include <stdio.h>
#include <stdlib.h>
#include <string.h>

#include "rapidhash_c.h"

/* Without optimizations, most versions take a minute for a message above 4 GiB, and V3 alone hashes one. */
#ifndef IS_FAST
#ifdef __OPTIMIZE__
#define IS_FAST 1
#else
#define IS_FAST 0
#endif
#endif

enum { SAVED = RAPIDHASH_STREAM_SAVED };

static const char *row;
static unsigned differing;

static void expect(const char *what, bool holds)
{
    if (!holds && differing++ < 20) printf("FAILED %s: %.100s\n", what, row);
}

/* Defines a hash with secrets as words: the seed and then 3 others in V1, and 7 in each other version. */
#define SEEDED(version, own) \
    static uint64_t with_secrets_##version(const void *message, size_t len, const uint64_t *words) \
    { \
        struct own##_secrets secrets; \
        memcpy(&secrets, words, sizeof secrets); \
        return rapidhash_##version##_with_secrets(message, len, &secrets); \
    }
RAPIDHASH_C_VERSIONS(SEEDED)
#define FORM(version, own) \
    {#version, sizeof(struct own##_secrets) == sizeof(struct rapidhash_v1_secrets), \
     rapidhash_##version, rapidhash_##version##_with_seed, with_secrets_##version, 0},

static struct form {
    const char *name; /* as in the file */
    bool is_v1;
    uint64_t (*hash)(const void *, size_t);
    uint64_t (*with_seed)(const void *, size_t, uint64_t);
    uint64_t (*with_secrets)(const void *, size_t, const uint64_t *words);
    unsigned cases;
} forms[] = {RAPIDHASH_C_VERSIONS(FORM)};
enum { FORMS = sizeof forms / sizeof forms[0] };

#define STREAM(version, lanes) {#version, rapidhash_##version##_start},
static const struct {
    const char *name;
    void (*start)(struct rapidhash_stream *, const struct rapidhash_secrets *);
} streams[] = {RAPIDHASH_C_STREAMS(STREAM)};
enum { STREAMS = sizeof streams / sizeof streams[0] };

/* Makes the seed and secrets of a rule, and returns whether it is one of a seed, which the first word then is. */
static bool make(bool is_v1, const char *rule, uint64_t *words, uint64_t *seed)
{
    struct rapidhash_v1_secrets of_v1;
    struct rapidhash_secrets others;
    const char *at = strchr(rule, ':');
    const bool is_made = strncmp(rule, "make:", 5) == 0, is_default = strcmp(rule, "default") == 0;
    int i;

    for (i = 0; at != NULL && i < 8; i++) {
        words[i] = strtoull(at + 1, NULL, 10);
        at = strchr(at + 1, ',');
    }
    if (strncmp(rule, "own:", 4) == 0) return false;
    expect("secrets", is_made || is_default || strncmp(rule, "word:", 5) == 0);
    *seed = !is_default ? words[0] : is_v1 ? UINT64_C(0xbdd89aa982704029) : 0;
    (is_made ? rapidhash_v1_make_secrets : rapidhash_v1_seed_secrets)(*seed, &of_v1);
    (is_made ? rapidhash_make_secrets : rapidhash_seed_secrets)(*seed, &others);
    memcpy(words, &others, sizeof others);
    if (is_v1) memcpy(words, &of_v1, sizeof of_v1);
    return !is_made;
}

/* Returns the bytes of hexadecimal digits or of a rule, in memory of their length, so that a tool sees each read past
 * its end, or NULL if there is no memory or no time for them. Bytes of 0 that nobody writes need no memory. */
static unsigned char *message_of(const char *text, size_t *len)
{
    unsigned long long size = strspn(text, "0123456789abcdef") / 2;
    const bool is_ramp = sscanf(text, "ramp:%llu", &size) == 1;
    unsigned char *message;
    unsigned byte;
    size_t i;

    if (sscanf(text, "zeros:%llu", &size) == 1 && (size > SIZE_MAX || (!IS_FAST && strncmp(row, "hash\tv3\t", 8) != 0)))
        return NULL;
    *len = (size_t)size;
    message = (unsigned char *)calloc(*len + (size == 0), 1);
    for (i = 0; is_ramp && i < *len; i++) message[i] = (unsigned char)(i % 251);
    for (i = 0; *text != 'z' && !is_ramp && i < *len && sscanf(text + 2 * i, "%2x", &byte) == 1; i++)
        message[i] = (unsigned char)byte;
    return message;
}

static int stream_of(const char *version)
{
    int i = STREAMS - 1;

    while (i >= 0 && strcmp(streams[i].name, version) != 0) i--;
    return i;
}

/* Compares a message's hash by each call. Above 4 GiB, all but V3's are by one. */
static void replay_hash(const char *version, const char *rule, const char *argument, uint64_t known)
{
    uint64_t words[8] = {0}, seed = 0;
    size_t len = 0, at, size;
    unsigned char *const message = message_of(argument, &len);
    struct form *form = forms;
    const int of = stream_of(version);
    bool is_seed;

    while (form < forms + FORMS && strcmp(form->name, version) != 0) form++;
    expect("version", form < forms + FORMS);
    if (form == forms + FORMS || message == NULL) return;
    form->cases++;
    is_seed = make(form->is_v1, rule, words, &seed);
    if (strcmp(rule, "default") == 0) expect("hash", form->hash(message, len) == known);
    if (len >> 20 == 0 || strcmp(version, "v3") == 0) {
        if (is_seed) expect("with a seed", form->with_seed(message, len, seed) == known);
        expect("with secrets", form->with_secrets(message, len, words) == known);
    }
    if (of >= 0 && (len >> 20 == 0 || IS_FAST)) {
        struct rapidhash_secrets secrets;
        struct rapidhash_stream stream;

        memcpy(&secrets, words, sizeof secrets);
        streams[of].start(&stream, &secrets);
        for (at = 0, size = 1; at < len; at += size, size++) {
            if (size > len - at || len >> 20 != 0) size = len - at;
            rapidhash_stream_write(&stream, message + at, size);
        }
        expect("in pieces", rapidhash_stream_finish(&stream) == known);
    }
    free(message);
}

static void replay_secrets(const char *version, const char *rule, char *value)
{
    const bool is_v1 = strcmp(version, "v1") == 0;
    uint64_t words[8], seed;
    int i;

    make(is_v1, rule, words, &seed);
    for (i = 0; i < (is_v1 ? 4 : 8); i++) expect("word", words[i] == strtoull(value, &value, 10));
}

static void replay_key(const char *rule, char *argument, uint64_t known)
{
    uint64_t words[8], seed;
    struct rapidhash_secrets secrets;
    struct rapidhash_stream stream;
    char *field;

    make(false, rule, words, &seed);
    memcpy(&secrets, words, sizeof secrets);
    rapidhash_v3_start(&stream, &secrets);
    for (field = strcmp(argument, "()") == 0 ? NULL : strtok(argument, " "); field != NULL; field = strtok(NULL, " ")) {
        if (strcmp(field, "-") == 0) {
            rapidhash_key_nothing(&stream);
        } else if (*field == 'x' || *field == 'z') {
            size_t len = 0;
            unsigned char *const bytes = message_of(field + (*field == 'x'), &len);

            if (bytes == NULL) return;
            rapidhash_key_bytes(&stream, bytes, len);
            free(bytes);
        } else {
            rapidhash_key_integer(&stream, strtoll(field, NULL, 10));
        }
    }
    expect("key", rapidhash_stream_finish(&stream) == known);
}

/* Checks that a stream refuses bytes and keeps its message. */
static void refuse(struct rapidhash_stream *stream, const unsigned char *bytes, size_t size)
{
    const struct rapidhash_stream before = *stream;

    expect("refused", !rapidhash_stream_restore(stream, bytes, size));
    expect("unchanged", memcmp(stream, &before, sizeof before) == 0);
}

/* Writes the bytes of digits to a place. */
static void put(unsigned char *place, const char *digits)
{
    size_t size = 0;
    unsigned char *const bytes = message_of(digits, &size);

    memcpy(place, bytes, size);
    free(bytes);
}

/* Plays an operation on the last saved bytes that changes them. */
static void change(const char *operation, struct rapidhash_stream *stream, const unsigned char *saved)
{
    unsigned char changed[SAVED];
    unsigned bit;

    memcpy(changed, saved, SAVED);
    for (bit = 0; *operation == '~' && bit < 8 * SAVED; bit++) {
        changed[bit / 8] ^= (unsigned char)(1 << bit % 8);
        refuse(stream, changed, SAVED);
        changed[bit / 8] ^= (unsigned char)(1 << bit % 8);
    }
    if (*operation == '~') return;
    put(changed + strtoul(operation + 1, NULL, 10), strchr(operation, ':') + 1);
    put(changed + SAVED - 8, strrchr(operation, ':') + 1);
    if (*operation == '^') refuse(stream, changed, SAVED);
    else expect("accepted", rapidhash_stream_restore(stream, changed, SAVED));
}

/* Plays the operations of a stream. The value has its hashes and saved bytes. */
static void replay_stream(const char *version, const char *rule, char *operations, char *value)
{
    const int of = stream_of(version);
    uint64_t words[8], seed;
    unsigned char saved[SAVED], *bytes;
    struct rapidhash_secrets secrets;
    struct rapidhash_stream stream;
    size_t size;
    char *it;

    expect("version", of >= 0);
    if (of < 0) return;
    make(false, rule, words, &seed);
    memcpy(&secrets, words, sizeof secrets);
    streams[of].start(&stream, &secrets);
    for (it = strtok(operations, " "); it != NULL; it = strtok(NULL, " ")) {
        bytes = strchr("w=!", *it) != NULL ? message_of(it + 1, &size) : NULL;
        if (*it == 'w') rapidhash_stream_write(&stream, bytes, size);
        else if (*it == 'r') rapidhash_stream_reset(&stream);
        else if (*it == 'f') expect("hash", rapidhash_stream_finish(&stream) == strtoull(value, &value, 10));
        else if (*it == '=') expect("restored", rapidhash_stream_restore(&stream, bytes, size));
        else if (*it == '!') refuse(&stream, bytes, size);
        else if (strchr("~^+", *it) != NULL) change(it, &stream, saved);
        else if (*it == 's') {
            unsigned char *const known = message_of(value + 1, &size);

            value += 1 + 2 * size;
            rapidhash_stream_save(&stream, saved);
            expect("saved", size == SAVED && memcmp(saved, known, SAVED) == 0);
            free(known);
            rapidhash_stream_write(&stream, "other", 5);
            expect("restored", rapidhash_stream_restore(&stream, saved, SAVED));
        } else expect("operation", false);
        free(bytes);
    }
}

/* Compares what hashes decide. What other languages refuse is 0 here. */
static void replay_shards(const char *kind, char *numbers, const char *value)
{
    static uint64_t hashes[1000];
    const uint64_t known = strtoull(value, NULL, 10); /* 0 for `refused` */
    size_t count = 0;

    for (; *numbers != 0 && *numbers != '-'; numbers += strspn(numbers, " "))
        hashes[count++] = strtoull(numbers, &numbers, 10);
    if (strcmp(kind, "fingerprint") == 0)
        expect(kind, rapidhash_fingerprint(hashes, count) == known);
    else if (strcmp(kind, "first_hash") == 0)
        expect(kind, rapidhash_first_hash(hashes[0], hashes[1]) == known);
    else if (strcmp(kind, "shard") == 0)
        expect(kind, rapidhash_shard(hashes[0], hashes[1]) == known);
    else if (strcmp(kind, "bucket") == 0 && hashes[1] <= UINT32_MAX)
        expect(kind, rapidhash_bucket(hashes[0], (uint32_t)hashes[1]) == known);
    else
        expect("kind", strcmp(kind, "bucket") == 0 && strcmp(value, "refused") == 0);
}

static void replay(char **words)
{
    const uint64_t known = strtoull(words[4], NULL, 10);

    if (strcmp(words[0], "hash") == 0) replay_hash(words[1], words[2], words[3], known);
    else if (strcmp(words[0], "secrets") == 0) replay_secrets(words[1], words[2], words[4]);
    else if (strcmp(words[0], "key") == 0) replay_key(words[2], words[3], known);
    else if (strcmp(words[0], "stream") == 0) replay_stream(words[1], words[2], words[3], words[4]);
    else replay_shards(words[0], words[3], words[4]);
}

int main(void)
{
    static char line[20000];
    unsigned cases = 0;
    size_t i;

    while (fgets(line, sizeof line, stdin) != NULL) {
        char *words[5] = {line};

        for (i = 1; i < 5 && words[i - 1] != NULL; i++) {
            words[i] = strchr(words[i - 1], '\t');
            if (words[i] != NULL) *words[i]++ = 0;
        }
        row = line;
        if (*line == '#' || strcmp(line, "kind") == 0) continue;
        expect("five words", words[4] != NULL);
        if (words[4] == NULL) continue;
        words[4][strcspn(words[4], "\n")] = 0;
        cases++;
        replay(words);
    }
    for (row = "cases", i = 0; i < FORMS; i++) expect(forms[i].name, forms[i].cases > 400);
    expect("too few", cases > 5000);
    printf("%u cases, %u differ\n", cases, differing);
    return differing != 0;
}
