/* What the files of the extension share: forms, arguments, columns, and the functions over several messages. */
#ifndef RAPIDHASH_EXTENSION_H
#define RAPIDHASH_EXTENSION_H

#define PY_SSIZE_T_CLEAN
#include <Python.h>
#include <rapidhash_c.h>

/* A wheel counts references by functions of the interpreter. From 3.12 on, interpreters with a lock of their own share
 * objects that are not counted, such as None and b"a", and the headers of 3.11 would count them without a lock. */
#ifdef Py_LIMITED_API
#undef Py_NewRef
#undef Py_INCREF
#undef Py_XINCREF
#undef Py_DECREF
#undef Py_XDECREF
#define Py_INCREF(object) Py_IncRef((PyObject *)(object))
#define Py_XINCREF(object) Py_IncRef((PyObject *)(object))
#define Py_DECREF(object) Py_DecRef((PyObject *)(object))
#define Py_XDECREF(object) Py_DecRef((PyObject *)(object))
#endif

/* Other threads can run while more than this many bytes are hashed. */
#define LONG 65536

/* Signals are handled after each of so many items. */
#define ITEMS 65536

/* Keeps these names apart from those of other libraries in the process. */
#ifdef __GNUC__
#pragma GCC visibility push(hidden)
#endif

/* The header's functions for a version. */
struct form {
    const char *name;
    uint64_t (*plain)(const void *bytes, size_t len);
    uint64_t (*with_seed)(const void *bytes, size_t len, uint64_t seed);
    uint64_t (*with_secrets)(const void *bytes, size_t len, const void *secrets);
    int is_v1;
};

/* Secrets of either kind. */
union secrets {
    struct rapidhash_secrets others;
    struct rapidhash_v1_secrets v1;
};

/* The seed or the secrets of a call. `own` and `seed` are valid only if has_secrets or has_seed is not 0. */
struct start {
    union secrets own;
    int has_secrets;
    uint64_t seed;
    int has_seed;
};

/* A message that its object keeps readable until release_message. */
struct message {
    const void *bytes;
    size_t len;
    Py_buffer buffer;
};

/* Each of these functions returns 0, or -1 with an error set that names the argument, unless the name is empty.
 * open_argument refuses a masked array. */
int read_word(PyObject *number, const char *name, uint64_t *word);
int read_message(PyObject *data, const char *name, struct message *message);
int open_argument(PyObject *object, const char *name, int flags, Py_buffer *buffer);
int read_start(PyObject *module, const struct form *form, PyObject *seed, PyObject *secrets, struct start *start);

void release_message(struct message *message);

/* Returns a new reference to an attribute, or NULL with an error set. */
PyObject *attribute_of(PyObject *object, const char *name);

/* Clears the error that is set, but not one of memory: an answer without it could be wrong. Returns 0, or -1 with the
 * error set. */
int forget(void);

/* Returns whether the class of an object has an attribute, or -1 with an error set. An object can have one that its
 * user named, such as a field of a structure or a label of a Series. */
int class_has(PyObject *object, const char *name);

/* Returns whether an object is an array of NumPy with masked items, or -1 with an error set. */
int is_masked(PyObject *object);

/* Returns whether such an array lends a buffer, also by a view, or -1 with an error set. */
int lends_masked(const Py_buffer *buffer);

/* Returns the letter of the kind that an array or a scalar of NumPy has, such as b for a bool, 0 for any other, or -1
 * with an error set. */
int kind_of(PyObject *object);

/* Adds the place of an argument to the error that is set, if the error is about its value. */
void name_error(const char *place);

/* Returns the form of a version's name, or NULL with an error set. */
const struct form *form_of(PyObject *version);

/* Returns a hash as 16 hexadecimal digits. */
PyObject *digits_of(uint64_t hash);

/* V3. */
extern const struct form *const form_v3;

/* Returns the format of a buffer, which is that of bytes if its object did not say. */
static inline const char *format_of(const Py_buffer *buffer)
{ return buffer->format == NULL ? "B" : buffer->format; }

/* Returns b, h, i or q for a buffer of integers of 1, 2, 4 or 8 bytes in the machine's byte order, in capitals if they
 * are unsigned, and 0 for any other. A letter of a standard format, such as =l, has another size than its type in C. */
char letter_of(const Py_buffer *buffer);

/* Opens the room for `count` hashes. Returns 0, or -1 with an error set. */
int open_out(PyObject *out, size_t count, Py_buffer *buffer);

/* Returns whether the hashes would overwrite a buffer that is read. If so, sets an error. */
int overlaps(const Py_buffer *out, const Py_buffer *buffer, const char *name);

/* Does the same for the items of a buffer in one dimension, which have this stride. */
int overlaps_items(const Py_buffer *out, const Py_buffer *items, Py_ssize_t stride, const char *name);

/* Returns whether the first hashes have overwritten a message. If so, sets an error. */
int is_overwritten(const Py_buffer *out, Py_ssize_t hashes, const struct message *message, const char *name);

/* Returns a new reference to an item of a list or tuple, or NULL with an error set. */
PyObject *item_of(PyObject *items, int is_list, Py_ssize_t at);

/* The buffer of the hashes, the secrets of all messages, and the hash of a missing one, which is valid only if
 * has_missing is not 0. */
struct column {
    uint64_t (*hash)(const void *bytes, size_t len, const void *secrets);
    union secrets own;
    Py_buffer out;
    uint64_t missing;
    int has_missing;
};

/* Reads the arguments version, seed, secrets, out and missing. Returns 0, or -1 with an error set. */
int open_column(PyObject *module, PyObject *const *args, size_t count, struct column *column);

/* Write the hash of a message, or of a missing one, to `at`, which need not be aligned. */
static inline void put_hash(const struct column *column, Py_ssize_t at, uint64_t hash)
{ memcpy((char *)column->out.buf + 8 * at, &hash, sizeof hash); }
static inline void put(const struct column *column, Py_ssize_t at, const void *bytes, size_t len)
{ put_hash(column, at, column->hash(bytes, len, &column->own)); }

/* Hashes an item into its element. Returns 0, or -1 with an error set. */
int hash_item(const struct column *column, Py_ssize_t at, PyObject *item);

/* The structures of Arrow's C data interface, which an object with __arrow_c_array__ lends in two capsules. */
struct ArrowSchema {
    const char *format, *name, *metadata;
    int64_t flags, n_children;
    struct ArrowSchema **children, *dictionary;
    void (*release)(struct ArrowSchema *schema);
    void *private_data;
};

struct ArrowArray {
    int64_t length, null_count, offset, n_buffers, n_children;
    const void **buffers;
    struct ArrowArray **children, *dictionary;
    void (*release)(struct ArrowArray *array);
    void *private_data;
};

struct ArrowStream {
    int (*get_schema)(struct ArrowStream *stream, struct ArrowSchema *schema);
    int (*get_next)(struct ArrowStream *stream, struct ArrowArray *array);
    const char *(*get_last_error)(struct ArrowStream *stream);
    void (*release)(struct ArrowStream *stream);
    void *private_data;
};

/* What a format says: i for integers, u for offsets, v for views, w for bytes of one width, b for bits, d for decimals,
 * t for times, and n for nulls; the sort of the fields, as of the function arrow; the letter of a buffer's format; the
 * width of an item. A time is times / per microseconds or days, and a decimal has so many digits after its point. */
struct layout {
    char kind, sort, letter;
    int is_cut, digits;
    int64_t times, per;
    Py_ssize_t width;
};

/* An array, and its first integer, offset or view. */
struct part {
    const struct ArrowArray *array;
    struct layout layout;
    const char *first;
};

/* An array of a column. With a dictionary, `codes` are the places of its values. */
struct chunk {
    struct ArrowArray array;
    struct part codes, values;
};

/* A column, in a capsule of the name ARROW. */
#define ARROW "rapidhash.arrow"
struct arrow {
    struct ArrowSchema schema;
    struct layout layout;
    struct chunk *chunks;
    Py_ssize_t size, rows;
};

/* Read the layout of a format, or of an array. If it cannot be hashed, they write why not to a text. */
void read_format(const struct ArrowSchema *schema, struct layout *layout, char *why, size_t size);
void read_array(const struct ArrowSchema *schema, struct chunk *chunk, char *why, size_t size);

/* The field of a row, whose sort is the tag of a key's field, or OBJECT for one that is held. */
enum { NOTHING, NUMBER, BYTES, OBJECT };
struct row {
    int sort, is_negative;
    uint64_t number;
    const char *bytes;
    size_t len;
    PyObject *object;
    char text[96];
};

/* Why a row has no field. If it is REFUSED, an error is set. */
enum { READ, REFUSED, NOT_ASCENDING, OUTSIDE, NOT_WHOLE, TOO_FAR, NO_FIELD, NO_WORD, NO_SHARD };

/* Reads a row of an array. */
int read_chunk(const struct chunk *chunk, Py_ssize_t at, struct row *row);

/* Returns whether the hashes would overwrite a part of a column. If so, sets an error. */
int overlaps_arrow(const Py_buffer *out, const struct arrow *arrow, const char *name);

/* A column that rapidhash/_columns.py has described: a list or tuple, the pointers of an array of objects, a buffer of
 * integers, or Arrow's. It may have a mask with a byte of 1 for each missing row, or codes, the places of its values.
 * `isna` is NULL, or a function of pandas that knows a missing object, and `missing` the last one. A plain one has only
 * values. */
struct source {
    PyObject *items, *isna, *missing;
    const struct arrow *arrow;
    Py_buffer values, mask, codes;
    Py_ssize_t rows, size, chunk, before;
    char letter;
    int has_objects, is_plain;
};

/* Returns the place of a row in a buffer of one dimension. */
static inline const char *place_of(const Py_buffer *buffer, Py_ssize_t at)
{ return (const char *)buffer->buf + at * buffer->strides[0]; }

/* Opens a tuple of values, mask, codes and isna. Returns 0, or -1 with an error set. */
int open_source(PyObject *described, const char *place, struct source *source);
void close_source(struct source *source);

/* Reads a row. The rows are read in ascending order. Returns READ or why it has no field. */
int read_row(struct source *source, Py_ssize_t at, struct row *row);

/* Sets the error of a row that was not read, if none is set. */
void refuse_row(int why, const char *place, Py_ssize_t at);

/* Returns whether the hashes would overwrite a part of a column. If so, sets an error. */
int overlaps_source(const Py_buffer *out, const struct source *source, const char *name);

/* Lets other threads run and signals be handled after each ITEMS rows. Returns 0, or -1 with an error set. */
static inline int pause_at(Py_ssize_t at)
{
    if (at % ITEMS != ITEMS - 1)
        return 0;
    Py_BEGIN_ALLOW_THREADS
    Py_END_ALLOW_THREADS
    return PyErr_CheckSignals();
}

/* Returns the integer of a buffer at a place, whose letter letter_of returns. A bool is not 0. */
static inline uint64_t number_at(const char *place, char letter)
{
#define NUMBER_OF(letter, type, wide) \
    case letter: { \
        type number; \
        memcpy(&number, place, sizeof number); \
        return (uint64_t)(wide)number; \
    }
    switch (letter) {
        NUMBER_OF('b', int8_t, int64_t)
        NUMBER_OF('h', int16_t, int64_t)
        NUMBER_OF('i', int32_t, int64_t)
        NUMBER_OF('B', uint8_t, uint64_t)
        NUMBER_OF('H', uint16_t, uint64_t)
        NUMBER_OF('I', uint32_t, uint64_t)
        case '?':
            return *place != 0;
        default: /* q or Q */
        NUMBER_OF('q', uint64_t, uint64_t)
    }
}

PyObject *arrow(PyObject *module, PyObject *const *args, Py_ssize_t count);
PyObject *each_source(PyObject *module, PyObject *const *args, Py_ssize_t count);
PyObject *key_of(PyObject *module, PyObject *const *args, Py_ssize_t count);
PyObject *each_key(PyObject *module, PyObject *const *args, Py_ssize_t count);
PyObject *each(PyObject *module, PyObject *const *args, Py_ssize_t count);
PyObject *each_next(PyObject *module, PyObject *const *args, Py_ssize_t count);
PyObject *kept(PyObject *module, PyObject *field);
PyObject *kept_number(PyObject *module, PyObject *hash);
PyObject *each_row(PyObject *module, PyObject *const *args, Py_ssize_t count);
PyObject *each_slice(PyObject *module, PyObject *const *args, Py_ssize_t count);
PyObject *shard(PyObject *module, PyObject *const *args, Py_ssize_t count);
PyObject *first_hash(PyObject *module, PyObject *const *args, Py_ssize_t count);
PyObject *bucket(PyObject *module, PyObject *const *args, Py_ssize_t count);
PyObject *fingerprint(PyObject *module, PyObject *described);

/* Adds the base classes of the hashers to the module. Returns 0, or -1 with an error set. */
int add_streams(PyObject *module);

#ifdef __GNUC__
#pragma GCC visibility pop
#endif
#endif
