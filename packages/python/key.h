/* The encoding of a key of several fields. A short one is hashed in one call, and a long one by a stream. */
#ifndef RAPIDHASH_KEY_H
#define RAPIDHASH_KEY_H

#include "extension.h"

/* The encoding of a key. A long one is in the stream, but for its last bytes. `integers` is NULL, or a type that is
 * known to have integers, and `out` is NULL, or the buffer of the hashes of rows. */
struct key {
    PyObject *module;
    const struct rapidhash_secrets *secrets;
    void *integers;
    const void *out;
    struct rapidhash_stream stream;
    int is_long;
    size_t len;
    unsigned char bytes[256];
};

/* Appends bytes to the encoding. */
static void append(struct key *key, const void *bytes, size_t len)
{
    if (len > sizeof key->bytes - key->len) {
        if (!key->is_long)
            rapidhash_v3_start(&key->stream, key->secrets);
        key->is_long = 1;
        rapidhash_stream_write(&key->stream, key->bytes, key->len);
        key->len = 0;
        if (len > sizeof key->bytes) {
            rapidhash_stream_write(&key->stream, bytes, len);
            return;
        }
    }
    memcpy(key->bytes + key->len, bytes, len);
    key->len += len;
}

/* Appends a tag and a number, least significant byte first. */
static void append_number(struct key *key, unsigned char tag, uint64_t number)
{
    unsigned char bytes[9];
    int at;
    bytes[0] = tag;
    for (at = 1; at < 9; at++, number >>= 8)
        bytes[at] = (unsigned char)(number & 255);
    append(key, bytes, sizeof bytes);
}

/* Returns the hash of the key. */
static uint64_t finish(struct key *key)
{
    if (!key->is_long)
        return rapidhash_v3_with_secrets(key->bytes, key->len, key->secrets);
    rapidhash_stream_write(&key->stream, key->bytes, key->len);
    return rapidhash_stream_finish(&key->stream);
}

#ifdef __GNUC__
#pragma GCC visibility push(hidden)
#endif

/* Appends a field. Returns 0, or -1 with an error set that names its place: fields[at], or columns[at][row]. */
int add_field(PyObject *field, Py_ssize_t at, Py_ssize_t row, struct key *key);

/* Releases the type that a key holds. */
void release_key(struct key *key);

/* Reads the secrets of a call into `own`. Returns 0, or -1 with an error set. */
int read_own(PyObject *module, PyObject *seed, PyObject *secrets, struct rapidhash_secrets *own);

#ifdef __GNUC__
#pragma GCC visibility pop
#endif
#endif
