/* The arguments of all calls: words, messages, and the seed or the secrets. */
#include "extension.h"

int read_word(PyObject *number, const char *name, uint64_t *word)
{
    PyObject *index;
    const int is_none = PyIndex_Check(number) ? is_masked(number) : 1;
    if (is_none < 0)
        return -1;
    if (is_none) {
        PyErr_Format(PyExc_TypeError, "%s must be an integer, not %R", name, Py_TYPE(number));
        return -1;
    }
    index = PyNumber_Index(number);
    if (index == NULL && PyErr_ExceptionMatches(PyExc_TypeError))
        name_error(name);
    if (index == NULL)
        return -1;
    *word = PyLong_AsUnsignedLongLong(index);
    Py_DECREF(index);
    if (*word != UINT64_MAX || !PyErr_Occurred())
        return 0;
    if (PyErr_ExceptionMatches(PyExc_OverflowError))
        PyErr_Format(PyExc_OverflowError, "%s must be from 0 to 2**64 - 1", name);
    return -1;
}

/* The interpreter keeps names that it has looked up. An interned one is the same object each time. */
PyObject *attribute_of(PyObject *object, const char *name)
{
    PyObject *const interned = PyUnicode_InternFromString(name);
    PyObject *const value = interned == NULL ? NULL : PyObject_GetAttr(object, interned);
    Py_XDECREF(interned);
    return value;
}

int forget(void)
{
    if (PyErr_ExceptionMatches(PyExc_MemoryError))
        return -1;
    PyErr_Clear();
    return 0;
}

int class_has(PyObject *object, const char *name)
{
    PyObject *const interned = PyUnicode_InternFromString(name);
    const int has = interned == NULL ? -1 : PyObject_HasAttr((PyObject *)Py_TYPE(object), interned);
    Py_XDECREF(interned);
    return has;
}

#ifndef Py_TPFLAGS_IMMUTABLETYPE /* before 3.10 */
#define Py_TPFLAGS_IMMUTABLETYPE 0
#endif

/* Masked arrays have a class in Python, whose names may change. To ask others for a name that they lack is slow. A
 * field of a structure or of a named tuple is no method. */
int is_masked(PyObject *object)
{
    const unsigned long flags = PyType_GetFlags(Py_TYPE(object));
    PyObject *method;
    int is;
    if ((flags & Py_TPFLAGS_HEAPTYPE) == 0 || (flags & Py_TPFLAGS_IMMUTABLETYPE) != 0)
        return 0;
    is = class_has(object, "mask");
    is = is > 0 ? class_has(object, "filled") : is;
    if (is <= 0)
        return is;
    method = attribute_of((PyObject *)Py_TYPE(object), "filled");
    is = method == NULL ? forget() : PyCallable_Check(method);
    Py_XDECREF(method);
    return is;
}

/* Returns a new reference to the object that lends the memory of a view, or to any other object itself, or NULL with an
 * error set. The object of an open buffer is behind a PickleBuffer, too, which may be that of another view. */
static PyObject *owner_of(PyObject *object)
{
    Py_INCREF(object);
    while (object != NULL && PyMemoryView_Check(object)) {
        PyObject *const view = object;
        object = attribute_of(view, "obj");
        Py_DECREF(view);
    }
    return object;
}

int lends_masked(const Py_buffer *buffer)
{
    PyObject *const owner = owner_of(buffer->obj);
    const int lends = owner == NULL ? forget() : is_masked(owner);
    Py_XDECREF(owner);
    return lends;
}

int kind_of(PyObject *object)
{
    const int has = class_has(object, "dtype");
    PyObject *const dtype = has > 0 ? attribute_of(object, "dtype") : NULL;
    PyObject *const kind = dtype == NULL ? NULL : attribute_of(dtype, "kind");
    PyObject *const text = kind != NULL && PyUnicode_Check(kind) ? PyUnicode_AsASCIIString(kind) : NULL;
    int letter = text == NULL ? 0 : *PyBytes_AsString(text);
    Py_XDECREF(dtype);
    Py_XDECREF(kind);
    Py_XDECREF(text);
    if (has < 0 || (PyErr_Occurred() && forget() < 0))
        return -1;
    return letter;
}

/* Returns whether a buffer of this format has addresses: of objects, or those of ctypes. The names of fields stand
 * between colons, and a complex number of NumPy has two letters, such as Zd. */
static int has_addresses(const char *format)
{
    int is_name = 0;
    for (; *format != 0; format++) {
        const int is_complex = *format == 'Z' && format[1] != 0 && strchr("fdg", format[1]) != NULL;
        if (!is_name && !is_complex && strchr("OPXZz&", *format) != NULL)
            return 1;
        is_name ^= *format == ':';
    }
    return 0;
}

/* Returns whether a buffer of ctypes has addresses that its format hides, or -1 with an error set.
 * Unions and packed structures have the format of a byte, but are larger. A structure's format begins with T, and lacks
 * the fields of its base class. The classes of ctypes have metaclasses of their own. */
static int hides_addresses(const Py_buffer *buffer)
{
    PyObject *owner, *package, *answer;
    int hides;
    if (buffer->itemsize == 1 || strpbrk(format_of(buffer), "BT") == NULL)
        return 0;
    owner = owner_of(buffer->obj);
    if (owner != NULL && Py_TYPE((PyObject *)Py_TYPE(owner)) == &PyType_Type) {
        Py_DECREF(owner);
        return 0;
    }
    package = owner == NULL ? NULL : PyImport_ImportModule("rapidhash");
    answer = package == NULL ? NULL : PyObject_CallMethod(package, "_has_addresses", "O", Py_TYPE(owner));
    hides = answer == NULL ? -1 : PyObject_IsTrue(answer);
    Py_XDECREF(owner);
    Py_XDECREF(package);
    Py_XDECREF(answer);
    return hides;
}

/* Refuses an array whose bytes are addresses. */
static int refuse_addresses(PyObject *data, const char *name, const Py_buffer *buffer)
{
    const int are = has_addresses(format_of(buffer)) ? 1 : hides_addresses(buffer);
    if (are > 0)
        PyErr_Format(PyExc_TypeError, "%s must not be an array of objects or pointers, whose bytes are addresses: %R",
                     name, Py_TYPE(data));
    return are == 0 ? 0 : -1;
}

/* Opens a buffer. Some objects leave out the shape and the strides of an array, which their view has. */
static int open_view(PyObject *object, int flags, Py_buffer *buffer)
{
    const int is_array = flags == (PyBUF_FORMAT | PyBUF_STRIDES);
    PyObject *const view = is_array ? PyMemoryView_FromObject(object) : (Py_INCREF(object), object);
    const int status = view == NULL ? -1 : PyObject_GetBuffer(view, buffer, flags);
    Py_XDECREF(view);
    return status;
}

int open_argument(PyObject *object, const char *name, int flags, Py_buffer *buffer)
{
    if (!PyObject_CheckBuffer(object)) {
        PyErr_Format(PyExc_TypeError, "%s must be a buffer, not %R", name, Py_TYPE(object));
    } else if (open_view(object, flags, buffer) < 0) {
        if (*name != 0)
            name_error(name);
    } else {
        const int are_masked = lends_masked(buffer);
        if (are_masked == 0)
            return 0;
        PyBuffer_Release(buffer);
        if (are_masked > 0)
            PyErr_Format(PyExc_TypeError, "%s must not be a masked array, whose bytes are also those of masked values: "
                         "%R", name, Py_TYPE(object));
    }
    return -1;
}

/* A str is immutable and keeps its UTF-8. The contents of bytes need no buffer, but a subclass may have its own. */
int read_message(PyObject *data, const char *name, struct message *message)
{
    Py_ssize_t len;
    char *bytes;
    message->buffer.obj = NULL;
    if (PyBytes_CheckExact(data)) {
        PyBytes_AsStringAndSize(data, &bytes, &len);
        message->bytes = bytes;
    } else if (PyUnicode_Check(data)) {
        message->bytes = PyUnicode_AsUTF8AndSize(data, &len);
        if (message->bytes == NULL)
            return -1;
    } else if (PyObject_CheckBuffer(data)) {
        if (open_argument(data, name, PyBUF_FORMAT | PyBUF_C_CONTIGUOUS, &message->buffer) < 0)
            return -1;
        if (refuse_addresses(data, name, &message->buffer) < 0) {
            PyBuffer_Release(&message->buffer);
            return -1;
        }
        message->bytes = message->buffer.buf;
        len = message->buffer.len;
    } else {
        PyErr_Format(PyExc_TypeError, "%s must be bytes, another buffer, or a str, not %R", name, Py_TYPE(data));
        return -1;
    }
    message->len = (size_t)len;
    return 0;
}

/* Adds the place to the reason of a str that has no UTF-8. */
static void name_reason(PyObject *error, const char *place)
{
    PyObject *const old = PyUnicodeEncodeError_GetReason(error);
    PyObject *const reason = old == NULL ? NULL : PyUnicode_FromFormat("%U in %s", old, place);
    PyObject *const text = reason == NULL ? NULL : PyUnicode_AsUTF8String(reason);
    if (text != NULL)
        PyUnicodeEncodeError_SetReason(error, PyBytes_AsString(text));
    Py_XDECREF(old);
    Py_XDECREF(reason);
    Py_XDECREF(text);
}

/* An error of a class of its own, or for want of memory, is not about the value. */
void name_error(const char *place)
{
    PyObject *type, *error, *trace;
    PyErr_Fetch(&type, &error, &trace);
    PyErr_NormalizeException(&type, &error, &trace);
    if (type == PyExc_UnicodeEncodeError) {
        name_reason(error, place);
    } else if (type == PyExc_TypeError || type == PyExc_ValueError || type == PyExc_BufferError) {
        PyErr_Format(type, "%s: %S", place, error);
        Py_XDECREF(type);
        Py_XDECREF(error);
        Py_XDECREF(trace);
        return;
    }
    PyErr_Restore(type, error, trace);
}

void release_message(struct message *message)
{
    if (message->buffer.obj != NULL)
        PyBuffer_Release(&message->buffer);
}

/* Copies secrets. Returns whether they have the class and the size of those for a form, or -1 with an error set. */
static int copy_secrets(PyObject *module, const struct form *form, PyObject *secrets, union secrets *own)
{
    PyObject **classes = PyModule_GetState(module), *class = classes[form->is_v1], *packed;
    const Py_ssize_t size = form->is_v1 ? sizeof own->v1 : sizeof own->others;
    int are = PyObject_IsInstance(secrets, class);
    if (are <= 0)
        return are;
    packed = PyObject_GetAttr(secrets, classes[2]);
    if (packed == NULL && !PyErr_ExceptionMatches(PyExc_AttributeError))
        return -1;
    if (packed == NULL)
        return PyErr_Clear(), 0;
    are = PyBytes_Check(packed) && PyBytes_Size(packed) == size;
    if (are)
        memcpy(own, PyBytes_AsString(packed), (size_t)size);
    Py_DECREF(packed);
    return are;
}

int read_start(PyObject *module, const struct form *form, PyObject *seed, PyObject *secrets, struct start *start)
{
    start->has_secrets = 0;
    start->has_seed = seed != NULL && seed != Py_None;
    if (secrets == NULL || secrets == Py_None)
        return start->has_seed ? read_word(seed, "seed", &start->seed) : 0;
    if (start->has_seed) {
        PyErr_SetString(PyExc_TypeError, "pass either seed or secrets, not both");
        return -1;
    }
    start->has_secrets = copy_secrets(module, form, secrets, &start->own);
    if (start->has_secrets == 0)
        PyErr_Format(PyExc_TypeError, "secrets of %s must come from make_secrets(number%s), and these are %R",
                     form->name, form->is_v1 ? ", version=1" : "", Py_TYPE(secrets));
    return start->has_secrets > 0 ? 0 : -1;
}
