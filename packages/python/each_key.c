/* The hashes of the rows of columns of fields. */
#include "key.h"

/* Appends the field of a row. It needs the global lock only for an object. Returns READ or why there is none. */
static int add_row(struct source *source, Py_ssize_t at, Py_ssize_t row, struct key *key)
{
    struct row field;
    int status;
    if (source->is_plain && source->letter != 0)
        return append_number(key, 1, number_at(place_of(&source->values, row), source->letter)), READ;
    if (source->is_plain && source->items != NULL) {
        field.object = item_of(source->items, PyList_Check(source->items), row);
        field.sort = OBJECT;
        status = field.object == NULL ? REFUSED : READ;
    } else {
        status = read_row(source, row, &field);
    }
    if (status != READ)
        return status;
    if (field.sort == OBJECT) {
        status = add_field(field.object, at, row, key);
        Py_DECREF(field.object);
        return status < 0 || pause_at(row) < 0 ? REFUSED : READ;
    }
    if (field.sort == NOTHING)
        append(key, "", 1);
    else
        append_number(key, (unsigned char)field.sort, field.sort == NUMBER ? field.number : field.len);
    if (field.sort == BYTES)
        append(key, field.bytes, field.len);
    return READ;
}

/* Hashes the rows of a single column of integers, whose keys have one length each. Some are written before the first
 * is hashed, since a processor waits for bytes that it has just written in another size. */
static void hash_integers(const struct source *source, const struct rapidhash_secrets *secrets, char *out)
{
    enum { BLOCK = 64 };
    unsigned char keys[BLOCK][16];
    const uint64_t none = rapidhash_v3_with_secrets("", 1, secrets);
    Py_ssize_t start, row;
    for (start = 0; start < source->rows; start += BLOCK) {
        const Py_ssize_t end = source->rows - start < BLOCK ? source->rows : start + BLOCK;
        for (row = start; row < end; row++) {
            uint64_t number = number_at(place_of(&source->values, row), source->letter);
            int at;
            keys[row - start][0] = 1;
            for (at = 1; at < 9; at++, number >>= 8)
                keys[row - start][at] = (unsigned char)(number & 255);
        }
        for (row = start; row < end; row++) {
            const int is_missing = source->mask.obj != NULL && *place_of(&source->mask, row) != 0;
            const uint64_t hash = is_missing ? none : rapidhash_v3_with_secrets(keys[row - start], 9, secrets);
            memcpy(out + 8 * row, &hash, sizeof hash);
        }
    }
}

/* Hashes each row into `out`. If one has no hash, returns why not, and its column and row. */
static int hash_rows(struct source *sources, Py_ssize_t columns, Py_ssize_t rows, struct key *key, char *out,
                     Py_ssize_t place[2])
{
    Py_ssize_t at, row;
    if (columns == 1 && sources->letter != 0 && sources->codes.obj == NULL)
        return hash_integers(sources, key->secrets, out), READ;
    for (row = 0; row < rows; row++) {
        uint64_t hash;
        key->is_long = 0;
        key->len = 0;
        for (at = 0; at < columns; at++) {
            const int status = add_row(&sources[at], at, row, key);
            place[0] = at;
            place[1] = row;
            if (status != READ)
                return status;
        }
        hash = finish(key);
        memcpy(out + 8 * row, &hash, sizeof hash);
    }
    return READ;
}

/* Hashes the rows, without the global lock if no column has objects. Returns 0, or -1 with an error set. */
static int run_rows(PyObject *module, struct source *sources, Py_ssize_t columns, Py_ssize_t rows,
                    const struct rapidhash_secrets *secrets, const Py_buffer *out)
{
    struct key key;
    Py_ssize_t at, place[2];
    int status, has_objects = 0;
    char name[64];
    key.module = module;
    key.secrets = secrets;
    key.integers = NULL;
    key.out = out;
    for (at = 0; at < columns; at++)
        has_objects |= sources[at].has_objects;
    if (has_objects) {
        status = hash_rows(sources, columns, rows, &key, out->buf, place);
        release_key(&key);
    } else {
        Py_BEGIN_ALLOW_THREADS
        status = hash_rows(sources, columns, rows, &key, out->buf, place);
        Py_END_ALLOW_THREADS
    }
    if (status == READ)
        return 0;
    PyOS_snprintf(name, sizeof name, "columns[%zd]", place[0]);
    refuse_row(status, name, place[1]);
    return -1;
}

/* Opens the columns, and checks their rows. Returns how many were opened, all unless an error is set. */
static Py_ssize_t open_sources(PyObject *columns, struct source *sources, Py_ssize_t count)
{
    char name[64];
    Py_ssize_t at;
    for (at = 0; at < count; at++) {
        PyOS_snprintf(name, sizeof name, "columns[%zd]", at);
        if (open_source(PyTuple_GetItem(columns, at), name, &sources[at]) < 0)
            return at;
        if (sources[at].rows != sources->rows) {
            PyErr_Format(PyExc_ValueError, "%s has %zd rows, and columns[0] has %zd", name, sources[at].rows,
                         sources->rows);
            return at + 1;
        }
    }
    return at;
}

/* Returns whether the hashes would overwrite the fields of a column. If so, sets an error. */
static int overwrites(const Py_buffer *out, const struct source *sources, Py_ssize_t columns)
{
    char name[64];
    Py_ssize_t at;
    for (at = 0; at < columns; at++) {
        PyOS_snprintf(name, sizeof name, "columns[%zd]", at);
        if (overlaps_source(out, &sources[at], name))
            return 1;
    }
    return 0;
}

/* each_key(columns, seed, secrets, out), of a tuple of described columns */
PyObject *each_key(PyObject *module, PyObject *const *args, Py_ssize_t count)
{
    struct rapidhash_secrets own;
    Py_buffer out;
    const Py_ssize_t columns = count == 4 ? PyTuple_Size(args[0]) : -1;
    struct source *const sources = PyMem_Calloc((size_t)columns + 1, sizeof *sources);
    Py_ssize_t opened;
    int status = -1;
    if (sources == NULL)
        return PyErr_NoMemory();
    opened = open_sources(args[0], sources, columns);
    if (!PyErr_Occurred() && read_own(module, args[1], args[2], &own) == 0 &&
        open_out(args[3], (size_t)sources->rows, &out) == 0) {
        if (!overwrites(&out, sources, columns))
            status = run_rows(module, sources, columns, sources->rows, &own, &out);
        PyBuffer_Release(&out);
    }
    while (opened-- > 0)
        close_source(&sources[opened]);
    PyMem_Free(sources);
    if (status < 0)
        return NULL;
    Py_RETURN_NONE;
}
