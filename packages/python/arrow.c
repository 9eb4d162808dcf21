/* The columns of other packages, by Apache Arrow's C data interface: an array, or the arrays of a stream. */
#include "extension.h"

static void release(PyObject *capsule)
{
    struct arrow *const arrow = PyCapsule_GetPointer(capsule, ARROW);
    PyObject *type, *error, *trace;
    Py_ssize_t at;
    PyErr_Fetch(&type, &error, &trace); /* What is released may be code in Python. */
    for (at = 0; at < arrow->size; at++)
        if (arrow->chunks[at].array.release != NULL)
            arrow->chunks[at].array.release(&arrow->chunks[at].array);
    if (arrow->schema.release != NULL)
        arrow->schema.release(&arrow->schema);
    PyMem_Free(arrow->chunks);
    PyMem_Free(arrow);
    PyErr_Restore(type, error, trace);
}

/* Returns an empty column in a capsule, or NULL with an error set. */
static PyObject *new_column(struct arrow **arrow)
{
    PyObject *capsule;
    *arrow = PyMem_Calloc(1, sizeof **arrow);
    if (*arrow == NULL)
        return PyErr_NoMemory();
    capsule = PyCapsule_New(*arrow, ARROW, release);
    if (capsule == NULL)
        PyMem_Free(*arrow);
    return capsule;
}

/* Moves an array into a column, which releases it. Returns 0, or -1 with an error set. */
static int add_chunk(struct arrow *arrow, struct ArrowArray *array)
{
    struct chunk *const chunks = PyMem_Realloc(arrow->chunks, ((size_t)arrow->size + 1) * sizeof *chunks);
    if (chunks == NULL)
        return PyErr_NoMemory(), -1;
    arrow->chunks = chunks;
    memset(&chunks[arrow->size], 0, sizeof *chunks);
    chunks[arrow->size++].array = *array;
    array->release = NULL;
    return 0;
}

/* Moves a column out of the two capsules of an array. Returns 0, or -1 with an error set. */
static int take_array(PyObject *pair, PyObject *place, struct arrow *arrow)
{
    PyObject *schemas, *arrays;
    struct ArrowSchema *schema;
    struct ArrowArray *array;
    /* Another sequence could create its items anew, which nothing holds. */
    if (!PyTuple_Check(pair))
        PyErr_Format(PyExc_TypeError, "%S: __arrow_c_array__ must return a tuple, not %R", place, Py_TYPE(pair));
    if (!PyTuple_Check(pair) || !PyArg_ParseTuple(pair, "OO", &schemas, &arrays))
        return -1;
    schema = PyCapsule_GetPointer(schemas, "arrow_schema");
    array = schema == NULL ? NULL : PyCapsule_GetPointer(arrays, "arrow_array");
    if (array == NULL || add_chunk(arrow, array) < 0)
        return -1;
    arrow->schema = *schema;
    schema->release = NULL;
    return 0;
}

/* Moves a column out of the capsule of a stream, which is read to its end. Returns 0, or -1 with an error set. */
static int take_stream(PyObject *capsule, PyObject *place, struct arrow *arrow)
{
    struct ArrowStream *const stream = PyCapsule_GetPointer(capsule, "arrow_array_stream");
    struct ArrowArray array;
    int failed;
    if (stream == NULL)
        return -1;
    if (stream->release == NULL)
        return PyErr_Format(PyExc_TypeError, "%S must be an Arrow stream, not a released one", place), -1;
    failed = stream->get_schema(stream, &arrow->schema);
    while (!failed) {
        memset(&array, 0, sizeof array);
        failed = stream->get_next(stream, &array);
        if (failed || array.release == NULL)
            break;
        if (add_chunk(arrow, &array) < 0 || PyErr_CheckSignals() < 0) {
            if (array.release != NULL)
                array.release(&array);
            return -1;
        }
    }
    if (failed) {
        const char *const why = stream->get_last_error(stream);
        PyErr_Clear();
        PyErr_Format(PyExc_ValueError, "%S: the Arrow stream failed: %s", place, why == NULL ? "it says no more" : why);
    }
    return failed ? -1 : 0;
}

/* Reads the layout of the chunks, and adds up their rows. If one cannot be hashed, writes why not to a text. */
static void lay_out(struct arrow *arrow, char *why, size_t size)
{
    Py_ssize_t at;
    if (arrow->schema.release == NULL)
        PyOS_snprintf(why, size, "not a released one");
    else
        read_format(&arrow->schema, &arrow->layout, why, size);
    for (at = 0; at < arrow->size && *why == 0; at++) {
        struct chunk *const chunk = &arrow->chunks[at];
        if (chunk->array.release == NULL)
            PyOS_snprintf(why, size, "not a released one");
        else
            read_array(&arrow->schema, chunk, why, size);
        /* More rows have no room for their hashes. */
        if (*why == 0 && chunk->array.length > PY_SSIZE_T_MAX / 8 - arrow->rows)
            PyOS_snprintf(why, size, "not one of %lld rows", (long long)chunk->array.length);
        else if (*why == 0)
            arrow->rows += (Py_ssize_t)chunk->array.length;
    }
}

/* arrow(object, place, is_stream): a capsule with the column of the object, its number of rows, and the sort of its
 * fields: b for texts and bytes, i for integers, f for others, and n if all are null. */
PyObject *arrow(PyObject *module, PyObject *const *args, Py_ssize_t count)
{
    const int is_stream = count == 3 && args[2] == Py_True;
    PyObject *const lend = attribute_of(args[0], is_stream ? "__arrow_c_stream__" : "__arrow_c_array__");
    PyObject *const lent = lend == NULL ? NULL : PyObject_CallObject(lend, NULL);
    PyObject *capsule, *result = NULL;
    struct arrow *arrow;
    char why[96] = "";
    (void)module;
    Py_XDECREF(lend);
    capsule = lent == NULL ? NULL : new_column(&arrow);
    if (capsule != NULL && (is_stream ? take_stream(lent, args[1], arrow) : take_array(lent, args[1], arrow)) == 0) {
        lay_out(arrow, why, sizeof why);
        if (*why == 0)
            result = Py_BuildValue("(OnC)", capsule, arrow->rows, (int)arrow->layout.sort);
        else
            PyErr_Format(PyExc_TypeError, "%S must be an Arrow array of fields, %s",
                         args[1], why);
    }
    /* Foreign code may release the rest, and must not see an error. */
    if (capsule != NULL || lent != NULL) {
        PyObject *type, *error, *trace;
        PyErr_Fetch(&type, &error, &trace);
        Py_XDECREF(lent);
        Py_XDECREF(capsule);
        PyErr_Restore(type, error, trace);
    }
    return result;
}

/* As overlaps_arrow, of a range that may be missing. */
static int overlaps_range(const Py_buffer *out, const void *start, int64_t len, const char *name)
{
    Py_buffer range = *out;
    range.buf = (void *)start;
    range.len = (Py_ssize_t)len;
    return start != NULL && len > 0 && overlaps(out, &range, name);
}

/* Does so for an array. Of views, all bytes count. */
static int overlaps_part(const Py_buffer *out, const struct part *part, const char *name)
{
    const struct ArrowArray *const array = part->array;
    const char kind = part->layout.kind;
    const int64_t start = array->offset / 8, bits = (array->offset + array->length + 7) / 8 - start;
    const char *const validity = kind == 'n' || array->null_count == 0 ? NULL : array->buffers[0];
    const char *const offsets = part->first;
    const char letter = part->layout.width == 8 ? 'q' : 'i';
    int64_t at, from, to;
    if ((validity != NULL && overlaps_range(out, validity + start, bits, name)) ||
        (kind == 'b' && array->length > 0 &&
         overlaps_range(out, (const char *)array->buffers[1] + start, bits, name)) ||
        overlaps_range(out, offsets, (array->length + (kind == 'u')) * part->layout.width, name))
        return 1;
    for (at = 2; kind == 'v' && at < array->n_buffers - 1 && array->buffers[array->n_buffers - 1] != NULL; at++) {
        to = (int64_t)number_at((const char *)array->buffers[array->n_buffers - 1] + 8 * (at - 2), 'q');
        if (overlaps_range(out, array->buffers[at], to, name))
            return 1;
    }
    if (kind != 'u' || offsets == NULL)
        return 0;
    from = (int64_t)number_at(offsets, letter);
    to = (int64_t)number_at(offsets + array->length * part->layout.width, letter);
    return from >= 0 && from < to && array->buffers[2] != NULL &&
           overlaps_range(out, (const char *)array->buffers[2] + from, to - from, name);
}

int overlaps_arrow(const Py_buffer *out, const struct arrow *arrow, const char *name)
{
    Py_ssize_t at;
    for (at = 0; at < arrow->size; at++)
        if (overlaps_part(out, &arrow->chunks[at].codes, name) ||
            (arrow->schema.dictionary != NULL && overlaps_part(out, &arrow->chunks[at].values, name)))
            return 1;
    return 0;
}
