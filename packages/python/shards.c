/* What a hash decides: a shard or a bucket, the first hash of a shard, each of one or of a column, and the fingerprint
 * of a column. */
#include "extension.h"

/* What a hash, or a shard, and a count decide. */
struct decision {
    uint64_t (*call)(uint64_t hash, uint64_t count);
    const char *one, *many;
    uint64_t most;
};

static uint64_t bucket_of(uint64_t hash, uint64_t count)
{ return rapidhash_bucket(hash, (uint32_t)count); }

static const struct decision by_shard = {rapidhash_shard, "hash", "hashes", UINT64_MAX},
                             by_bucket = {bucket_of, "hash", "hashes", UINT32_MAX},
                             by_first = {rapidhash_first_hash, "shard", "shards", UINT64_MAX};

/* Reads a count from 1 to `most`. Returns 0, or -1 with an error set. */
static int read_count(PyObject *number, uint64_t most, uint64_t *count)
{
    if (read_word(number, "count", count) < 0)
        return -1;
    if (*count >= 1 && *count <= most)
        return 0;
    PyErr_Format(PyExc_ValueError, "count must be from 1 to %llu, not %S", (unsigned long long)most, number);
    return -1;
}

/* Reads the integer of a row. Returns READ or why it has none. */
static int read_number(struct source *source, const char *name, Py_ssize_t at, uint64_t *number)
{
    char place[64];
    struct row row;
    int status;
    if (source->is_plain && source->letter == 'Q')
        return *number = number_at(place_of(&source->values, at), 'Q'), READ;
    status = read_row(source, at, &row);
    *number = row.number;
    if (status != READ || row.sort != OBJECT)
        return status != READ ? status : row.sort != NUMBER ? NO_FIELD : row.is_negative ? NO_WORD : READ;
    *number = PyLong_CheckExact(row.object) ? PyLong_AsUnsignedLongLong(row.object) : UINT64_MAX;
    if (*number == UINT64_MAX) {
        PyErr_Clear();
        PyOS_snprintf(place, sizeof place, "%s[%zd]", name, at);
        status = read_word(row.object, place, number) < 0 ? REFUSED : READ;
    }
    Py_DECREF(row.object);
    return status == READ && pause_at(at) < 0 ? REFUSED : status;
}

/* Decides for each row, or adds up the rows without a decision. Returns READ or why a row has no hash. */
static int decide_rows(struct source *source, const struct decision *by, uint64_t count, char *out, uint64_t *sum,
                       Py_ssize_t *at)
{
    for (*at = 0; *at < source->rows; (*at)++) {
        uint64_t number, result;
        const int status = read_number(source, by == NULL ? "hashes" : by->many, *at, &number);
        if (status != READ)
            return status;
        if (by == NULL) {
            *sum += number;
            continue;
        }
        if (by == &by_first && number >= count)
            return NO_SHARD;
        result = by->call(number, count);
        memcpy(out + 8 * *at, &result, sizeof result);
    }
    return READ;
}

/* Does so without the global lock, if no row is an object. Returns 0, or -1 with an error set. */
static int run_rows(struct source *source, const struct decision *by, uint64_t count, char *out, uint64_t *sum)
{
    const char *const name = by == NULL ? "hashes" : by->many;
    Py_ssize_t at;
    int status;
    if (source->has_objects) {
        status = decide_rows(source, by, count, out, sum, &at);
    } else {
        Py_BEGIN_ALLOW_THREADS
        status = decide_rows(source, by, count, out, sum, &at);
        Py_END_ALLOW_THREADS
    }
    if (status == NO_WORD)
        PyErr_Format(PyExc_OverflowError, "%s[%zd] must be from 0 to 2**64 - 1", name, at);
    else if (status == NO_FIELD)
        PyErr_Format(PyExc_TypeError, "%s[%zd] is missing: .dropna() leaves out those of a Series", name, at);
    else if (status == NO_SHARD)
        PyErr_Format(PyExc_ValueError, "shards[%zd] must be below count, %llu", at,
                     (unsigned long long)count);
    else
        refuse_row(status, name, at);
    return status == READ ? 0 : -1;
}

/* Decides for each row of a column. The results may be the column itself: each is written after its hash is read. */
static int decide_each(PyObject *const *args, const struct decision *by, uint64_t count)
{
    struct source source;
    Py_buffer out;
    int status = -1, is_own;
    if (open_source(args[0], by->many, &source) < 0)
        return -1;
    if (open_out(args[2], (size_t)source.rows, &out) == 0) {
        is_own = source.values.obj != NULL && source.values.buf == out.buf && source.values.strides[0] == 8 &&
                 source.letter == 'Q' && source.mask.obj == NULL && source.codes.obj == NULL;
        if (is_own || !overlaps_source(&out, &source, by->many))
            status = run_rows(&source, by, count, out.buf, NULL);
        PyBuffer_Release(&out);
    }
    close_source(&source);
    return status;
}

static PyObject *decide(PyObject *const *args, const struct decision *by)
{
    uint64_t number, count;
    if (read_count(args[1], by->most, &count) < 0)
        return NULL;
    if (args[2] != Py_None)
        return decide_each(args, by, count) < 0 ? NULL : (Py_INCREF(args[2]), args[2]);
    if (read_word(args[0], by->one, &number) < 0)
        return NULL;
    if (by == &by_first && number >= count)
        return PyErr_Format(PyExc_ValueError, "shard must be below count, %S, not %S", args[1], args[0]);
    return PyLong_FromUnsignedLongLong(by->call(number, count));
}

/* Each has the arguments hashes, count, out: an integer and None, or a described column and a buffer. */
PyObject *shard(PyObject *module, PyObject *const *args, Py_ssize_t count)
{ return (void)module, (void)count, decide(args, &by_shard); }

PyObject *bucket(PyObject *module, PyObject *const *args, Py_ssize_t count)
{ return (void)module, (void)count, decide(args, &by_bucket); }

PyObject *first_hash(PyObject *module, PyObject *const *args, Py_ssize_t count)
{ return (void)module, (void)count, decide(args, &by_first); }

/* fingerprint(described): the sum of a column modulo 2^64. */
PyObject *fingerprint(PyObject *module, PyObject *described)
{
    struct source source;
    uint64_t sum = 0;
    int status;
    (void)module;
    if (open_source(described, "hashes", &source) < 0)
        return NULL;
    status = run_rows(&source, NULL, 0, NULL, &sum);
    close_source(&source);
    return status < 0 ? NULL : PyLong_FromUnsignedLongLong(sum);
}
