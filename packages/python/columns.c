/* The hashes of many messages in one call, written to an array of unsigned 64-bit integers. */
#include "extension.h"

/* V1's default secrets are those of this seed word. */
#define V1_WORD UINT64_C(0xbdd89aa982704029)

static void read_secrets(const struct form *form, const struct start *start, struct column *column)
{
    column->hash = form->with_secrets;
    if (start->has_secrets)
        column->own = start->own;
    else if (form->is_v1)
        rapidhash_v1_seed_secrets(start->has_seed ? start->seed : V1_WORD, &column->own.v1);
    else
        rapidhash_seed_secrets(start->has_seed ? start->seed : 0, &column->own.others);
}

char letter_of(const Py_buffer *buffer)
{
    const char *format = format_of(buffer), *letters;
    if (*format == '@' || *format == '=' || *format == (PY_LITTLE_ENDIAN ? '<' : '>'))
        format++;
    if (*format == 0 || format[1] != 0 || strchr("bhilqBHILQ?", *format) == NULL || buffer->itemsize > 8 ||
        (strchr("bB?", *format) == NULL) == (buffer->itemsize == 1))
        return 0;
    if (*format == '?')
        return '?';
    letters = strchr("bhilq", *format) != NULL ? "\0bh\0i\0\0\0q" : "\0BH\0I\0\0\0Q";
    return letters[buffer->itemsize];
}

int open_out(PyObject *out, size_t count, Py_buffer *buffer)
{
    char letter;
    if (open_argument(out, "out", PyBUF_WRITABLE | PyBUF_FORMAT | PyBUF_C_CONTIGUOUS, buffer) < 0)
        return -1;
    letter = letter_of(buffer);
    if (letter != 'Q')
        PyErr_SetString(PyExc_TypeError, "out must be a buffer of unsigned 64-bit integers, such as array('Q')");
    else if ((size_t)buffer->len / 8 != count)
        PyErr_Format(PyExc_ValueError, "out must have room for exactly %zu hashes, and it has %zd", count,
                     buffer->len / 8);
    else
        return 0;
    PyBuffer_Release(buffer);
    return -1;
}

/* As open_column, but for out. */
static int start_column(PyObject *module, PyObject *const *args, struct column *column)
{
    const struct form *form = form_of(args[0]);
    struct start start;
    column->has_missing = args[4] != Py_None;
    if (form == NULL || read_start(module, form, args[1], args[2], &start) < 0 ||
        (column->has_missing && read_word(args[4], "missing", &column->missing) < 0))
        return -1;
    read_secrets(form, &start, column);
    return 0;
}

int open_column(PyObject *module, PyObject *const *args, size_t count, struct column *column)
{ return start_column(module, args, column) < 0 ? -1 : open_out(args[3], count, &column->out); }

int overlaps(const Py_buffer *out, const Py_buffer *buffer, const char *name)
{
    const char *const hashes = out->buf, *const bytes = buffer->buf;
    if (bytes >= hashes + out->len || hashes >= bytes + buffer->len)
        return 0;
    PyErr_Format(PyExc_ValueError, "out must not overlap %s", name);
    return 1;
}

int overlaps_items(const Py_buffer *out, const Py_buffer *items, Py_ssize_t stride, const char *name)
{
    Py_buffer range = *items;
    if (items->shape[0] == 0)
        return 0;
    range.len = (items->shape[0] - 1) * stride;
    if (range.len < 0) {
        range.buf = (char *)range.buf + range.len;
        range.len = -range.len;
    }
    range.len += range.itemsize;
    return overlaps(out, &range, name);
}

/* Names the item of an error about it. Numbers are no messages, because equal ones may have different bytes. */
static void name_item(Py_ssize_t at, PyObject *item)
{
    char place[64];
    if (item == Py_None) {
        PyErr_Format(PyExc_TypeError, "items[%zd] is None: pass `missing`, the hash of a missing item", at);
    } else if (PyErr_ExceptionMatches(PyExc_TypeError)) {
        PyErr_Format(PyExc_TypeError, "items[%zd] must be bytes, another buffer, or a str, not %R: each_key hashes "
                     "integers and other fields", at, Py_TYPE(item));
    } else {
        PyOS_snprintf(place, sizeof place, "items[%zd]", at);
        name_error(place);
    }
}

/* Returns whether an item is a number or a time of NumPy, which has a buffer, or -1 with an error set. Arrays of times
 * have none. */
static int is_number(PyObject *item, const Py_buffer *buffer)
{
    const int kind = buffer->obj == NULL || PyByteArray_Check(item) || PyMemoryView_Check(item) ? 0 : kind_of(item);
    const char *const kinds = buffer->ndim == 0 ? "mMbiufc" : "mM";
    return kind < 0 ? -1 : kind != 0 && strchr(kinds, kind) != NULL;
}

/* Reads an item. Returns 0, or -1 with an error set. */
static int read_item(PyObject *item, struct message *message)
{
    int is;
    if (read_message(item, "", message) < 0)
        return -1;
    is = is_number(item, &message->buffer);
    if (is == 0)
        return 0;
    release_message(message);
    if (is > 0)
        PyErr_SetNone(PyExc_TypeError);
    return -1;
}

int is_overwritten(const Py_buffer *out, Py_ssize_t hashes, const struct message *message, const char *name)
{
    Py_buffer written = *out;
    written.len = 8 * hashes;
    return hashes > 0 && message->buffer.obj != NULL && message->len > 0 &&
           overlaps(&written, &message->buffer, name);
}

/* Without the global lock, another thread can remove the item before this one holds it. */
PyObject *item_of(PyObject *items, int is_list, Py_ssize_t at)
{
#ifdef Py_GIL_DISABLED
    (void)is_list;
    return PySequence_GetItem(items, at);
#else
    PyObject *item = is_list ? PyList_GetItem(items, at) : PyTuple_GetItem(items, at);
    Py_XINCREF(item);
    return item;
#endif
}

int hash_item(const struct column *column, Py_ssize_t at, PyObject *item)
{
    struct message message;
    if (item == NULL)
        return -1;
    if (item == Py_None && column->has_missing)
        return put_hash(column, at, column->missing), 0;
    if (read_item(item, &message) < 0)
        return name_item(at, item), -1;
    if (is_overwritten(&column->out, at, &message, "an item")) {
        release_message(&message);
        return -1;
    }
    if (message.len > LONG) {
        Py_BEGIN_ALLOW_THREADS
        put(column, at, message.bytes, message.len);
        Py_END_ALLOW_THREADS
    } else {
        put(column, at, message.bytes, message.len);
    }
    release_message(&message);
    return 0;
}

/* each(list or tuple, version, seed, secrets, out, missing). Other code may change a list meanwhile, so each item is
 * held. */
PyObject *each(PyObject *module, PyObject *const *args, Py_ssize_t count)
{
    struct column column;
    Py_ssize_t at, size = count == 6 ? PySequence_Size(args[0]) : -1;
    int status = 0, is_list = count == 6 && PyList_Check(args[0]);
    if (size < 0 || open_column(module, args + 1, (size_t)size, &column) < 0)
        return NULL;
    for (at = 0; at < size && status == 0; at++) {
        PyObject *item = item_of(args[0], is_list, at);
        status = hash_item(&column, at, item);
        Py_XDECREF(item);
        if (status == 0)
            status = pause_at(at);
    }
    PyBuffer_Release(&column.out);
    return status == 0 ? PyLong_FromSsize_t(size) : NULL;
}

/* Hashes the items of an iterator into a bytearray, which grows. Returns their number, or -1 with an error set. */
static Py_ssize_t hash_next(struct column *column, PyObject *items, PyObject *room)
{
    Py_ssize_t at = 0;
    int status = 0;
    PyObject *item;
    while (status == 0 && (item = PyIter_Next(items)) != NULL) {
        if (PyByteArray_Size(room) == 8 * at)
            status = PyByteArray_Resize(room, 16 * at + 256);
        column->out.buf = PyByteArray_AsString(room);
        if (status == 0)
            status = hash_item(column, at++, item);
        Py_DECREF(item);
        if (status == 0)
            status = pause_at(at - 1);
    }
    return status == 0 && !PyErr_Occurred() && PyByteArray_Resize(room, 8 * at) == 0 ? at : -1;
}

/* each_next(iterator, version, seed, secrets, out, missing): the hashes, which are copied to out unless it is None. The
 * iterator may fill one buffer again, so each item is hashed before the next. */
PyObject *each_next(PyObject *module, PyObject *const *args, Py_ssize_t count)
{
    struct column column;
    PyObject *room = count == 6 && start_column(module, args + 1, &column) == 0
        ? PyByteArray_FromStringAndSize(NULL, 0) : NULL;
    const Py_ssize_t size = room == NULL ? -1 : hash_next(&column, args[0], room);
    int status = size < 0 ? -1 : 0;
    if (size >= 0 && args[4] != Py_None) {
        status = open_out(args[4], (size_t)size, &column.out);
        if (status == 0) {
            memcpy(column.out.buf, PyByteArray_AsString(room), 8 * (size_t)size);
            PyBuffer_Release(&column.out);
        }
    }
    if (status < 0)
        Py_CLEAR(room);
    return room;
}

/* each_row(buffer, version, seed, secrets, out, None, width), in which the width is a positive divisor of the
 * length. */
PyObject *each_row(PyObject *module, PyObject *const *args, Py_ssize_t count)
{
    struct column column;
    struct message data;
    PyObject *result = NULL;
    const Py_ssize_t width = count == 7 ? PyLong_AsSsize_t(args[6]) : -1;
    if (width <= 0 || read_message(args[0], "data", &data) < 0)
        return NULL;
    if (open_column(module, args + 1, data.len / (size_t)width, &column) == 0) {
        if (data.buffer.obj == NULL || !overlaps(&column.out, &data.buffer, "data")) {
            const char *bytes = data.bytes;
            Py_ssize_t at, size = (Py_ssize_t)data.len / width;
            Py_BEGIN_ALLOW_THREADS
            for (at = 0; at < size; at++)
                put(&column, at, bytes + at * width, (size_t)width);
            Py_END_ALLOW_THREADS
            result = PyLong_FromSsize_t(size);
        }
        PyBuffer_Release(&column.out);
    }
    release_message(&data);
    return result;
}
