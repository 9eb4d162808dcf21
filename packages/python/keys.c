/* The fields of a key, and the hash of one. Other fields than None, a bool, an integer, a str or bytes become such in
 * rapidhash/_fields.py. */
#include "key.h"

/* Names the place of an error: fields[at], or columns[at][row]. */
static void name_place(char *place, size_t size, Py_ssize_t at, Py_ssize_t row)
{
    if (row < 0)
        PyOS_snprintf(place, size, "fields[%zd]", at);
    else
        PyOS_snprintf(place, size, "columns[%zd][%zd]", at, row);
}

/* Names the place of the error that is set. */
static int refuse_field(Py_ssize_t at, Py_ssize_t row)
{
    char place[64];
    name_place(place, sizeof place, at, row);
    name_error(place);
    return -1;
}

static int add_integer(PyObject *field, Py_ssize_t at, Py_ssize_t row, struct key *key)
{
    PyObject *const index = PyNumber_Index(field);
    int overflow;
    uint64_t value = index == NULL ? 0 : (uint64_t)PyLong_AsLongLongAndOverflow(index, &overflow);
    char place[64];
    if (index == NULL)
        return refuse_field(at, row);
    if (overflow > 0)
        value = PyLong_AsUnsignedLongLong(index);
    Py_DECREF(index);
    if (overflow != 0 && (overflow < 0 || PyErr_Occurred())) {
        name_place(place, sizeof place, at, row);
        PyErr_Format(PyExc_OverflowError, "%s must be from -2**63 to 2**64 - 1", place);
        return -1;
    }
    append_number(key, 1, value);
    return 0;
}

/* Opens the bytes of a str, or of a buffer of single bytes, which are B, or c as char of ctypes. A buffer of numbers is
 * none, and neither is a scalar of NumPy or ctypes, such as a date, which has a buffer too. Returns whether a field has
 * bytes, or -1 with an error set. */
static int open_bytes(PyObject *field, struct message *message)
{
    const Py_buffer *const buffer = &message->buffer;
    int has, are_masked;
    message->buffer.obj = NULL;
    if (PyUnicode_Check(field) || PyBytes_Check(field))
        return read_message(field, "the field", message) < 0 ? -1 : 1;
    has = PyObject_CheckBuffer(field) ? class_has(field, "dtype") : 1;
    if (has != 0)
        return has < 0 ? -1 : 0;
    if (PyObject_GetBuffer(field, &message->buffer, PyBUF_FORMAT | PyBUF_C_CONTIGUOUS) < 0)
        return -1;
    message->bytes = buffer->buf;
    message->len = (size_t)buffer->len;
    if ((letter_of(buffer) != 'B' && (buffer->itemsize != 1 || strchr(format_of(buffer), 'c') == NULL)) ||
        buffer->ndim == 0)
        return 0;
    are_masked = lends_masked(buffer);
    if (are_masked < 0)
        release_message(message);
    return are_masked < 0 ? -1 : !are_masked;
}

/* Sets the error of a field of another type. Returns -1. */
static int refuse_type(PyObject *field, Py_ssize_t at, Py_ssize_t row)
{
    char place[64];
    name_place(place, sizeof place, at, row);
    PyErr_Format(PyExc_TypeError, "%s must be None, a bool, an int, a str, bytes, a date, a datetime with an offset, "
                 "a Decimal, a UUID, or a list or tuple of these, not %R%s", place, Py_TYPE(field),
                 !PyFloat_Check(field) ? "" : row < 0 ? "; float_bits makes an int of a float"
                 : "; float_bits makes an int of a float, and .astype(\"Int64\") ints of a Series");
    return -1;
}

/* Appends the fields of a value that is neither None, an integer, a str nor bytes. */
static int add_converted(PyObject *field, Py_ssize_t at, Py_ssize_t row, struct key *key)
{
    PyObject *const fields_of = attribute_of(key->module, "fields_of"); /* __init__.py sets it. */
    PyObject *const fields = fields_of == NULL ? NULL : PyObject_CallFunctionObjArgs(fields_of, field, NULL);
    Py_ssize_t item, size;
    Py_XDECREF(fields_of);
    if (fields == NULL)
        return refuse_field(at, row);
    size = fields == Py_None ? refuse_type(field, at, row) : PyTuple_Size(fields);
    for (item = 0; item < size; item++)
        if (add_field(PyTuple_GetItem(fields, item), at, row, key) < 0)
            break;
    Py_DECREF(fields);
    return item == size ? 0 : -1;
}

/* Appends the bytes of a field. Returns 0, or -1 with an error set. */
static int add_bytes(PyObject *field, Py_ssize_t at, Py_ssize_t row, struct key *key)
{
    struct message message;
    const int are_bytes = open_bytes(field, &message);
    int status = 0;
    if (are_bytes < 0)
        return refuse_field(at, row);
    if (are_bytes && key->out != NULL && is_overwritten(key->out, row, &message, "a field")) {
        status = -1;
    } else if (are_bytes) {
        append_number(key, 2, message.len);
        append(key, message.bytes, message.len);
    }
    release_message(&message);
    return are_bytes ? status : add_converted(field, at, row, key);
}

/* Returns whether an object is an integer, but neither a bool, another scalar of NumPy, nor masked, or -1 with an error
 * set. The key holds the type of the last one. */
static int is_integer(PyObject *field, struct key *key)
{
    PyTypeObject *const type = Py_TYPE(field);
    int kind, are_masked;
    if (PyLong_CheckExact(field) || type == key->integers)
        return 1;
    if (PyBool_Check(field) || !PyIndex_Check(field))
        return 0;
    kind = kind_of(field);
    if (kind < 0 || (kind != 0 && strchr("iu", kind) == NULL))
        return kind < 0 ? -1 : 0;
    are_masked = is_masked(field);
    if (are_masked != 0)
        return are_masked < 0 ? -1 : 0;
    release_key(key);
    Py_INCREF((PyObject *)type);
    key->integers = type;
    return 1;
}

void release_key(struct key *key)
{
    Py_XDECREF((PyObject *)key->integers);
    key->integers = NULL;
}

/* Returns the integer of the field of an iterator. Returns the field if it has none, or NULL with an error set. */
static PyObject *kept_integer(PyObject *field)
{
    PyObject *const index = PyNumber_Index(field);
    if (index != NULL || !PyErr_ExceptionMatches(PyExc_Exception) || forget() < 0)
        return index;
    return Py_INCREF(field), field;
}

/* Sets a number to the integer of a field that has one, else to the field, or to NULL with an error set. Returns
 * whether it is the field for want of an integer. */
static int keep_number(PyObject *field, PyObject **number)
{
    struct key key;
    int is;
    key.integers = NULL;
    is = is_integer(field, &key);
    release_key(&key);
    *number = is < 0 ? NULL : is ? kept_integer(field) : (Py_INCREF(field), field);
    return is == 0;
}

/* kept_number(hash): a hash of an iterator, which may fill one again, so its integer is read. */
PyObject *kept_number(PyObject *module, PyObject *hash)
{
    PyObject *number;
    (void)module;
    (void)keep_number(hash, &number);
    return number;
}

/* kept(field): the field of an iterator, which may fill one buffer again, so its bytes are copied, and its integer is
 * read. A later call sets the error of a field that has none. */
PyObject *kept(PyObject *module, PyObject *field)
{
    struct message message;
    PyObject *it = field;
    int are_bytes;
    (void)module;
    if (PyUnicode_Check(field) || PyBytes_CheckExact(field))
        return Py_INCREF(field), field;
    if (!keep_number(field, &it))
        return it;
    are_bytes = open_bytes(field, &message);
    if (are_bytes > 0 || (are_bytes < 0 && forget() < 0))
        Py_CLEAR(it);
    if (are_bytes > 0)
        it = PyBytes_FromStringAndSize(message.bytes, (Py_ssize_t)message.len);
    if (are_bytes >= 0)
        release_message(&message);
    return it;
}

int add_field(PyObject *field, Py_ssize_t at, Py_ssize_t row, struct key *key)
{
    int is;
    if (field == Py_None)
        return append(key, "", 1), 0;
    if (PyBool_Check(field))
        return append_number(key, 1, field == Py_True), 0;
    is = is_integer(field, key);
    return is < 0 ? refuse_field(at, row) : is ? add_integer(field, at, row, key) : add_bytes(field, at, row, key);
}

int read_own(PyObject *module, PyObject *seed, PyObject *secrets, struct rapidhash_secrets *own)
{
    struct start start;
    if (read_start(module, form_v3, seed, secrets, &start) < 0)
        return -1;
    if (start.has_secrets)
        *own = start.own.others;
    else
        rapidhash_seed_secrets(start.has_seed ? start.seed : 0, own);
    return 0;
}

/* key(fields, seed, secrets), of a tuple */
PyObject *key_of(PyObject *module, PyObject *const *args, Py_ssize_t count)
{
    struct rapidhash_secrets own;
    struct key key;
    Py_ssize_t at, size = count == 3 ? PyTuple_Size(args[0]) : -1;
    if (size < 0 || read_own(module, args[1], args[2], &own) < 0)
        return NULL;
    key.module = module;
    key.secrets = &own;
    key.integers = NULL;
    key.out = NULL;
    key.is_long = 0;
    key.len = 0;
    for (at = 0; at < size; at++)
        if (add_field(PyTuple_GetItem(args[0], at), at, -1, &key) < 0)
            break;
    release_key(&key);
    return at < size ? NULL : PyLong_FromUnsignedLongLong(finish(&key));
}
