/* The methods of the hashers, which hash a message in pieces. Threads can share a hasher. */
#include "hasher.h"

int need_lock(struct hasher *self)
{
    if (self->lock == NULL)
        self->lock = PyThread_allocate_lock();
    if (self->lock == NULL)
        PyErr_NoMemory();
    return self->lock == NULL ? -1 : 0;
}

void take_lock(struct hasher *self)
{
    if (self->lock == NULL || PyThread_acquire_lock(self->lock, NOWAIT_LOCK))
        return;
    Py_BEGIN_ALLOW_THREADS
    PyThread_acquire_lock(self->lock, WAIT_LOCK);
    Py_END_ALLOW_THREADS
}

void leave(struct hasher *self)
{
    if (self->lock != NULL)
        PyThread_release_lock(self->lock);
}

int enter(struct hasher *self)
{
    take_lock(self);
    if (self->stream.lanes != 0)
        return 0;
    leave(self);
    PyErr_SetString(PyExc_ValueError, "the hasher is not initialized: its class must call V3.__init__");
    return -1;
}

static PyObject *update(PyObject *object, PyObject *data)
{
    struct hasher *self = (struct hasher *)object;
    struct message message;
    if (read_message(data, "data", &message) < 0)
        return NULL;
    if ((message.len > LONG && need_lock(self) < 0) || enter(self) < 0) {
        release_message(&message);
        return NULL;
    }
    if (message.len > LONG) {
        Py_BEGIN_ALLOW_THREADS
        rapidhash_stream_write(&self->stream, message.bytes, message.len);
        Py_END_ALLOW_THREADS
    } else {
        rapidhash_stream_write(&self->stream, message.bytes, message.len);
    }
    leave(self);
    release_message(&message);
    Py_INCREF(object);
    return object;
}

/* Reads the hash of the message so far. Returns 0, or -1 with an error set. */
static int finish(PyObject *object, uint64_t *value)
{
    struct hasher *self = (struct hasher *)object;
    if (enter(self) < 0)
        return -1;
    *value = rapidhash_stream_finish(&self->stream);
    leave(self);
    return 0;
}

static PyObject *intdigest(PyObject *object, PyObject *none)
{
    uint64_t value;
    (void)none;
    return finish(object, &value) < 0 ? NULL : PyLong_FromUnsignedLongLong(value);
}

static PyObject *digest(PyObject *object, PyObject *none)
{
    unsigned char bytes[8];
    uint64_t value;
    (void)none;
    if (finish(object, &value) < 0)
        return NULL;
    rapidhash_to_canonical(value, bytes);
    return PyBytes_FromStringAndSize((const char *)bytes, sizeof bytes);
}

static PyObject *hexdigest(PyObject *object, PyObject *none)
{
    uint64_t value;
    (void)none;
    return finish(object, &value) < 0 ? NULL : digits_of(value);
}

static PyObject *reset(PyObject *object, PyObject *none)
{
    struct hasher *self = (struct hasher *)object;
    (void)none;
    if (enter(self) < 0)
        return NULL;
    rapidhash_stream_reset(&self->stream);
    leave(self);
    Py_RETURN_NONE;
}

static PyObject *save(PyObject *object, PyObject *none)
{
    struct hasher *self = (struct hasher *)object;
    unsigned char saved[RAPIDHASH_STREAM_SAVED];
    (void)none;
    if (enter(self) < 0)
        return NULL;
    rapidhash_stream_save(&self->stream, saved);
    leave(self);
    return PyBytes_FromStringAndSize((const char *)saved, sizeof saved);
}

/* Sets the error of a saved hasher that a hasher with so many lanes does not accept. */
static void refuse_saved(const Py_buffer *buffer, size_t lanes)
{
    const unsigned char *const saved = buffer->buf;
    if (buffer->len != RAPIDHASH_STREAM_SAVED)
        PyErr_Format(PyExc_ValueError, "a saved hasher has %d bytes, not %zd", RAPIDHASH_STREAM_SAVED, buffer->len);
    else if (memcmp(saved, "rapidV3\2", 8) != 0)
        PyErr_SetString(PyExc_ValueError, "saved is no saved hasher, or one of another version of the format");
    else if (saved[8] != lanes || saved[9] != 1)
        PyErr_Format(PyExc_ValueError, "the hasher was saved with %d lanes and options %d, not %zu and 1", saved[8],
                     saved[9], lanes);
    else
        PyErr_SetString(PyExc_ValueError, "the saved hasher was changed, or has another seed or other secrets");
}

static PyObject *restore(PyObject *object, PyObject *data)
{
    struct hasher *self = (struct hasher *)object;
    Py_buffer saved;
    size_t lanes;
    bool is_restored;
    if (open_argument(data, "saved", PyBUF_SIMPLE, &saved) < 0)
        return NULL;
    if (enter(self) < 0) {
        PyBuffer_Release(&saved);
        return NULL;
    }
    is_restored = rapidhash_stream_restore(&self->stream, saved.buf, (size_t)saved.len);
    lanes = self->stream.lanes;
    leave(self);
    if (!is_restored)
        refuse_saved(&saved, lanes);
    PyBuffer_Release(&saved);
    if (!is_restored)
        return NULL;
    Py_RETURN_NONE;
}

/* Returns the words of the secrets. */
static PyObject *words(PyObject *object, PyObject *none)
{
    struct hasher *self = (struct hasher *)object;
    struct rapidhash_secrets secrets;
    (void)none;
    if (enter(self) < 0)
        return NULL;
    secrets = self->secrets;
    leave(self);
    return PyBytes_FromStringAndSize((const char *)&secrets, sizeof secrets);
}

PyMethodDef hasher_methods[] = {
    {"_start", start, METH_VARARGS, NULL},
    {"update", update, METH_O,
     PyDoc_STR("update($self, data, /)\n--\n\nAppends a piece to the message. Returns the hasher, unlike hashlib.")},
    {"intdigest", intdigest, METH_NOARGS,
     PyDoc_STR("intdigest($self)\n--\n\nReturns the hash of the message so far as an integer.")},
    {"digest", digest, METH_NOARGS,
     PyDoc_STR("digest($self)\n--\n\nReturns the hash of the message so far as 8 bytes, most significant first.")},
    {"hexdigest", hexdigest, METH_NOARGS,
     PyDoc_STR("hexdigest($self)\n--\n\nReturns the same hash as 16 hexadecimal digits.")},
    {"reset", reset, METH_NOARGS, PyDoc_STR("reset($self)\n--\n\nEmpties the message but keeps the secrets.")},
    {"save", save, METH_NOARGS,
     PyDoc_STR("save($self)\n--\n\n"
               "Returns the saved hasher: 208 bytes, the same on every machine and in every language.\n\n"
               "They contain bytes of the message, but no secrets.")},
    {"_restore", restore, METH_O, NULL},
    {"_words", words, METH_NOARGS, NULL},
    {"_copy", copy, METH_NOARGS, NULL},
    {NULL, NULL, 0, NULL}};
