/* The rows of any column, which rapidhash/_columns.py has described. */
#include "extension.h"

/* Opens a buffer of integers or of the pointers of objects. Returns 0, or -1 with an error set. */
static int open_values(PyObject *object, const char *place, struct source *source)
{
    Py_buffer *const values = &source->values;
    if (open_argument(object, place, PyBUF_FORMAT | PyBUF_STRIDES, values) < 0)
        return -1;
    source->letter = letter_of(values);
    source->has_objects = strcmp(format_of(values), "O") == 0 && values->itemsize == sizeof(PyObject *);
    if (values->ndim == 1 && (source->letter != 0 || source->has_objects)) {
        source->size = values->shape[0];
        return 0;
    }
    PyErr_Format(PyExc_TypeError, "%s must be a list, a tuple, or a buffer of integers in a row, and it is %R of the "
                 "format '%s'", place, Py_TYPE(object), format_of(values));
    PyBuffer_Release(values);
    return -1;
}

/* Opens the mask and the codes, which have a place for each row. Returns 0, or -1 with an error set. */
static int open_places(PyObject *mask, PyObject *codes, const char *place, struct source *source)
{
    Py_buffer *const buffers[] = {&source->mask, &source->codes};
    PyObject *const objects[] = {mask, codes};
    int at;
    source->rows = source->size;
    for (at = 1; at >= 0; at--) {
        if (objects[at] == Py_None)
            continue;
        if (open_argument(objects[at], place, PyBUF_FORMAT | PyBUF_STRIDES, buffers[at]) < 0)
            return -1;
        if (at == 1 && buffers[at]->ndim == 1)
            source->rows = buffers[at]->shape[0];
        if (buffers[at]->ndim != 1 || letter_of(buffers[at]) == 0 || (at == 0 && buffers[at]->itemsize != 1) ||
            buffers[at]->shape[0] != source->rows)
            return PyErr_Format(PyExc_ValueError, "%s has a mask or codes of other rows", place), -1;
    }
    return 0;
}

int open_source(PyObject *described, const char *place, struct source *source)
{
    PyObject *values, *mask, *codes, *isna;
    memset(source, 0, sizeof *source);
    if (!PyArg_ParseTuple(described, "OOOO", &values, &mask, &codes, &isna))
        return -1;
    source->isna = isna == Py_None ? NULL : isna;
    if (PyList_Check(values) || PyTuple_Check(values)) {
        source->items = values;
        source->has_objects = 1;
        source->size = PySequence_Size(values);
    } else if (PyCapsule_IsValid(values, ARROW)) {
        source->arrow = PyCapsule_GetPointer(values, ARROW);
        source->size = source->arrow->rows;
    } else if (open_values(values, place, source) < 0) {
        return -1;
    }
    source->is_plain = isna == Py_None && mask == Py_None && codes == Py_None;
    if (open_places(mask, codes, place, source) == 0)
        return 0;
    close_source(source);
    return -1;
}

void close_source(struct source *source)
{
    Py_buffer *const buffers[] = {&source->values, &source->mask, &source->codes};
    size_t at;
    for (at = 0; at < sizeof buffers / sizeof *buffers; at++)
        if (buffers[at]->obj != NULL)
            PyBuffer_Release(buffers[at]);
    Py_XDECREF(source->missing);
}

/* Returns whether an object is missing to pandas, or -1 with an error set. Remembers the last one, since most missing
 * rows have the same object. */
static int is_missing(struct source *source, PyObject *item)
{
    PyObject *is;
    int known = item == source->missing;
    if (known || source->isna == NULL || PyUnicode_CheckExact(item) || PyUnicode_Check(item) || PyBytes_Check(item) ||
        PyLong_Check(item))
        return known;
    is = PyObject_CallFunctionObjArgs(source->isna, item, NULL);
    known = is == NULL ? -1 : is == Py_True;
    Py_XDECREF(is);
    if (known == 1) {
        Py_XDECREF(source->missing);
        Py_INCREF(item);
        source->missing = item;
    }
    return known;
}

/* Holds the object of a row, which may be missing to pandas. Other code may change a list meanwhile. */
static int read_object(struct source *source, Py_ssize_t at, struct row *row)
{
    PyObject *item;
    int missing;
    if (source->items != NULL)
        item = item_of(source->items, PyList_Check(source->items), at);
    else
        memcpy(&item, place_of(&source->values, at), sizeof item), Py_XINCREF(item);
    row->object = item;
    row->sort = item == NULL && source->items == NULL ? NOTHING : OBJECT;
    if (item == NULL)
        return row->sort == NOTHING ? READ : REFUSED;
    missing = is_missing(source, item);
    if (missing == 1)
        row->sort = NOTHING;
    if (missing != 0)
        Py_DECREF(item);
    return missing < 0 ? REFUSED : READ;
}

int read_row(struct source *source, Py_ssize_t at, struct row *row)
{
    row->sort = NOTHING;
    row->is_negative = 0;
    if (source->mask.obj != NULL && *place_of(&source->mask, at) != 0)
        return READ;
    if (source->codes.obj != NULL) {
        const Py_ssize_t code = (Py_ssize_t)number_at(place_of(&source->codes, at), letter_of(&source->codes));
        if (code < 0 || code >= source->size)
            return code == -1 ? READ : OUTSIDE;
        at = code;
    }
    if (source->has_objects)
        return read_object(source, at, row);
    if (source->arrow != NULL) {
        while (at - source->before >= source->arrow->chunks[source->chunk].array.length)
            source->before += (Py_ssize_t)source->arrow->chunks[source->chunk++].array.length;
        return read_chunk(&source->arrow->chunks[source->chunk], at - source->before, row);
    }
    row->sort = NUMBER;
    row->number = number_at(place_of(&source->values, at), source->letter);
    row->is_negative = source->letter >= 'a' && (int64_t)row->number < 0;
    return READ;
}

void refuse_row(int why, const char *place, Py_ssize_t at)
{
    static const char *const reasons[] = {
        "", "", "offsets that do not ascend from 0", "a place outside of its data",
        "no whole number of microseconds: .floor('us') cuts times", "a time outside of 64 bits of microseconds"};
    if (why != READ && why != REFUSED)
        PyErr_Format(PyExc_ValueError, "%s[%zd] has %s", place, at, reasons[why]);
}

int overlaps_source(const Py_buffer *out, const struct source *source, const char *name)
{
    const Py_buffer *const buffers[] = {&source->values, &source->mask, &source->codes};
    size_t at;
    for (at = 0; at < sizeof buffers / sizeof *buffers; at++)
        if (buffers[at]->obj != NULL && overlaps_items(out, buffers[at], buffers[at]->strides[0], name))
            return 1;
    return source->arrow != NULL && overlaps_arrow(out, source->arrow, name);
}

/* Hashes a row into its element. Returns READ or why it has no hash. */
static int hash_row(const struct column *column, struct source *source, Py_ssize_t at)
{
    struct row row;
    int status = read_row(source, at, &row);
    if (status == READ && row.sort == OBJECT) {
        status = hash_item(column, at, row.object) < 0 ? REFUSED : READ;
        Py_DECREF(row.object);
        if (status == READ && pause_at(at) < 0)
            status = REFUSED;
    } else if (status == READ && row.sort == BYTES) {
        put(column, at, row.bytes, row.len);
    } else if (status == READ && row.sort == NOTHING && column->has_missing) {
        put_hash(column, at, column->missing);
    } else if (status == READ) {
        status = NO_FIELD;
    }
    return status;
}

/* each_source(described, version, seed, secrets, out, missing) */
PyObject *each_source(PyObject *module, PyObject *const *args, Py_ssize_t count)
{
    struct column column;
    struct source source;
    Py_ssize_t at = 0;
    int status = count == 6 ? open_source(args[0], "items", &source) : -1;
    if (status < 0)
        return NULL;
    if (open_column(module, args + 1, (size_t)source.rows, &column) < 0) {
        close_source(&source);
        return NULL;
    }
    status = overlaps_source(&column.out, &source, "items") ? REFUSED : READ;
    if (status == READ && source.has_objects) {
        while (at < source.rows && (status = hash_row(&column, &source, at)) == READ)
            at++;
    } else if (status == READ) {
        Py_BEGIN_ALLOW_THREADS
        while (at < source.rows && (status = hash_row(&column, &source, at)) == READ)
            at++;
        Py_END_ALLOW_THREADS
    }
    PyBuffer_Release(&column.out);
    close_source(&source);
    if (status == NO_FIELD)
        PyErr_Format(PyExc_TypeError, "items[%zd] is None: pass `missing`, the hash of a missing item", at);
    else
        refuse_row(status, "items", at);
    return status == READ ? PyLong_FromSsize_t(at) : NULL;
}
