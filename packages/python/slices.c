/* The hashes of the strings of a column in Apache Arrow's layout: data, offsets, and a bit for each string. */
#include "extension.h"

/* The arguments of a call. Without validity, no string is missing. */
struct slices {
    struct message data;
    Py_buffer offsets, validity;
    int is_signed;
    size_t size;
};

/* Returns the offset `at` of a buffer of 32-bit or 64-bit integers. It is negative if it is above 2^63 - 1. */
static int64_t offset_of(const Py_buffer *offsets, int is_signed, size_t at)
{
    const char *const place = (const char *)offsets->buf + at * (size_t)offsets->itemsize;
    int64_t wide;
    int32_t narrow;
    if (offsets->itemsize == 8)
        return memcpy(&wide, place, sizeof wide), wide;
    memcpy(&narrow, place, sizeof narrow);
    return is_signed ? narrow : (int64_t)(uint32_t)narrow;
}

/* Hashes the slice between each two offsets. Returns the number of hashed slices, less than `size` if the next one is
 * not inside the data. Each offset is read once, since another thread may write to them. */
static size_t hash_slices(const struct column *column, const struct slices *slices)
{
    const unsigned char *const bits = slices->validity.buf;
    int64_t from = slices->size > 0 ? offset_of(&slices->offsets, slices->is_signed, 0) : 0;
    size_t at;
    for (at = 0; at < slices->size; at++) {
        const int64_t to = offset_of(&slices->offsets, slices->is_signed, at + 1);
        if (from < 0 || to < from || (uint64_t)to > slices->data.len)
            break;
        if (bits != NULL && (bits[at / 8] >> at % 8 & 1) == 0)
            put_hash(column, (Py_ssize_t)at, column->missing);
        else
            put(column, (Py_ssize_t)at, (const char *)slices->data.bytes + from, (size_t)(to - from));
        from = to;
    }
    return at;
}

/* Hashes all slices into an open column. Returns their number, or NULL with an error set. */
static PyObject *run_slices(const struct column *column, const struct slices *slices)
{
    const Py_buffer *const out = &column->out, *const data = &slices->data.buffer, *const validity = &slices->validity;
    size_t done;
    if (overlaps(out, &slices->offsets, "offsets") || (data->obj != NULL && overlaps(out, data, "data")) ||
        (validity->buf != NULL && overlaps(out, validity, "validity")))
        return NULL;
    Py_BEGIN_ALLOW_THREADS
    done = hash_slices(column, slices);
    Py_END_ALLOW_THREADS
    if (done == slices->size)
        return PyLong_FromSize_t(done);
    return PyErr_Format(PyExc_ValueError, "offsets[%zu] and offsets[%zu] must ascend from 0 to at most %zu, the bytes "
                        "of data", done, done + 1, slices->data.len);
}

/* Opens the offsets. Returns 0, or -1 with an error set. */
static int open_offsets(PyObject *offsets, struct slices *slices)
{
    Py_buffer *const buffer = &slices->offsets;
    char letter;
    if (open_argument(offsets, "offsets", PyBUF_FORMAT | PyBUF_C_CONTIGUOUS, buffer) < 0)
        return -1;
    letter = letter_of(buffer);
    if (letter == 0 || strchr("iqIQ", letter) == NULL || buffer->ndim != 1) {
        PyErr_SetString(PyExc_TypeError, "offsets must be a buffer of 32-bit or 64-bit integers");
        PyBuffer_Release(buffer);
        return -1;
    }
    slices->is_signed = strchr("iq", letter) != NULL;
    slices->size = (size_t)(buffer->len / buffer->itemsize);
    slices->size -= slices->size > 0;
    return 0;
}

/* Opens the bits of the strings, if any. Wider items could be one for each string, as bools are. Returns 0, or -1 with
 * an error set. */
static int open_validity(PyObject *validity, PyObject *missing, struct slices *slices)
{
    Py_buffer *const buffer = &slices->validity;
    buffer->buf = NULL;
    buffer->obj = NULL;
    if (validity == Py_None)
        return 0;
    if (missing == Py_None)
        return PyErr_SetString(PyExc_TypeError, "pass `missing`, the hash of a missing string, with validity"), -1;
    if (open_argument(validity, "validity", PyBUF_FORMAT | PyBUF_C_CONTIGUOUS, buffer) < 0)
        return -1;
    if (buffer->itemsize != 1 || strchr(format_of(buffer), '?') != NULL)
        PyErr_Format(PyExc_TypeError, "validity must have a bit for each string, in bytes, and it is %R of the format "
                     "'%s'", Py_TYPE(validity), format_of(buffer));
    else if (slices->size <= 8 * (size_t)buffer->len)
        return 0;
    else
        PyErr_Format(PyExc_ValueError, "validity must have a bit for each of %zu strings, and it has %zd bytes",
                     slices->size, buffer->len);
    PyBuffer_Release(buffer);
    return -1;
}

/* each_slice(data, version, seed, secrets, out, missing, offsets, validity) */
PyObject *each_slice(PyObject *module, PyObject *const *args, Py_ssize_t count)
{
    struct column column;
    struct slices slices;
    PyObject *result = NULL;
    if (count != 8 || open_offsets(args[6], &slices) < 0)
        return NULL;
    if (open_validity(args[7], args[5], &slices) == 0) {
        if (read_message(args[0], "data", &slices.data) == 0) {
            if (open_column(module, args + 1, slices.size, &column) == 0) {
                result = run_slices(&column, &slices);
                PyBuffer_Release(&column.out);
            }
            release_message(&slices.data);
        }
        PyBuffer_Release(&slices.validity);
    }
    PyBuffer_Release(&slices.offsets);
    return result;
}
