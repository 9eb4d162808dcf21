/* The base classes of the hashers: how they are created, started and copied. */
#include "hasher.h"

/* Creates a hasher, whose stream is not started. */
static PyObject *new_hasher(PyTypeObject *type, size_t lanes)
{
    allocfunc allocate = (allocfunc)PyType_GetSlot(type, Py_tp_alloc);
    struct hasher *self = (struct hasher *)allocate(type, 0);
    if (self == NULL)
        return NULL;
    self->lanes = lanes;
#ifdef Py_GIL_DISABLED
    if (need_lock(self) < 0)
        Py_CLEAR(self);
#endif
    return (PyObject *)self;
}

static void end_hasher(PyObject *object)
{
    PyTypeObject *type = Py_TYPE(object);
    freefunc release = (freefunc)PyType_GetSlot(type, Py_tp_free);
    struct hasher *self = (struct hasher *)object;
    if (self->lock != NULL)
        PyThread_free_lock(self->lock);
    release(object);
    Py_DECREF(type);
}

/* Starts a hasher with secrets, which need not be aligned, and with their seed word or NULL. */
static void start_with(struct hasher *self, const void *secrets, const uint64_t *seed)
{
    take_lock(self);
    memcpy(&self->secrets, secrets, sizeof self->secrets);
    self->has_seed = seed != NULL;
    self->seed = seed == NULL ? 0 : *seed;
    rapidhash_stream_start_(&self->stream, self->lanes, &self->secrets);
    leave(self);
}

/* _start(secrets, seed=None): starts a hasher with secrets as bytes. */
PyObject *start(PyObject *object, PyObject *args)
{
    const char *words;
    Py_ssize_t size;
    PyObject *seed = Py_None;
    uint64_t word;
    if (!PyArg_ParseTuple(args, "y#|O", &words, &size, &seed) ||
        (seed != Py_None && read_word(seed, "seed", &word) < 0))
        return NULL;
    if (size != sizeof(struct rapidhash_secrets)) {
        PyErr_SetString(PyExc_ValueError, "the secrets of a hasher have 64 bytes");
        return NULL;
    }
    start_with((struct hasher *)object, words, seed == Py_None ? NULL : &word);
    Py_RETURN_NONE;
}

/* Starts a hasher with a seed word or secrets, either of which may be None. Returns 0, or -1 with an error set. */
static int begin(PyObject *object, PyObject *seed, PyObject *secrets)
{
    struct rapidhash_secrets own;
    uint64_t word = 0;
    PyObject *done;
    if (secrets != Py_None) {
        done = PyObject_CallMethod(object, "_accept", "OO", seed, secrets);
        Py_XDECREF(done);
        return done == NULL ? -1 : 0;
    }
    if (seed != Py_None && read_word(seed, "seed", &word) < 0)
        return -1;
    rapidhash_seed_secrets(word, &own);
    start_with((struct hasher *)object, &own, &word);
    return 0;
}

/* Calls `update`, which a subclass or an instance may override. */
static int first_update(PyObject *object, PyObject *data)
{
    PyObject *const name = PyUnicode_InternFromString("update");
    PyObject *const done = name == NULL ? NULL : PyObject_CallMethodObjArgs(object, name, data, NULL);
    Py_XDECREF(name);
    Py_XDECREF(done);
    return done == NULL ? -1 : 0;
}

/* Most calls have at most one argument, and need no parser. */
static int init(PyObject *object, PyObject *args, PyObject *named)
{
    static char *names[] = {"data", "seed", "secrets", "usedforsecurity", NULL};
    PyObject *data = NULL, *seed = Py_None, *secrets = Py_None;
    Py_ssize_t count = PyTuple_Size(args);
    int security;
    if (named == NULL && count <= 1)
        data = count == 0 ? NULL : PyTuple_GetItem(args, 0);
    else if (!PyArg_ParseTupleAndKeywords(args, named, "|OOO$p:__init__", names, &data, &seed, &secrets, &security))
        return -1;
    if (begin(object, seed, secrets) < 0)
        return -1;
    return data == NULL ? 0 : first_update(object, data);
}

static PyObject *seed_of(PyObject *object, void *none)
{
    struct hasher *self = (struct hasher *)object;
    uint64_t seed;
    int has_seed;
    (void)none;
    take_lock(self);
    has_seed = self->has_seed;
    seed = self->seed;
    leave(self);
    if (has_seed)
        return PyLong_FromUnsignedLongLong(seed);
    Py_RETURN_NONE;
}

PyObject *copy(PyObject *object, PyObject *none)
{
    struct hasher *self = (struct hasher *)object;
    struct hasher *other = (struct hasher *)new_hasher(Py_TYPE(object), self->lanes);
    (void)none;
    if (other == NULL)
        return NULL;
    if (enter(self) < 0) {
        Py_DECREF(other);
        return NULL;
    }
    other->seed = self->seed;
    other->has_seed = self->has_seed;
    other->secrets = self->secrets;
    other->stream = self->stream;
    leave(self);
    other->stream.secrets = &other->secrets;
    return (PyObject *)other;
}

static PyGetSetDef members[] = {
    {"seed", seed_of, NULL, PyDoc_STR("The seed word, or None if the hasher was made with secrets."), NULL},
    {NULL, NULL, NULL, NULL, NULL}};

static PyType_Slot slots[] = {
    {Py_tp_init, (void *)init}, {Py_tp_dealloc, (void *)end_hasher}, {Py_tp_methods, hasher_methods},
    {Py_tp_getset, members},
    {Py_tp_doc, (void *)PyDoc_STR("Stream(data=b'', seed=None, secrets=None, *, usedforsecurity=True)\n--\n\n"
                                  "Hashes a message in pieces.")},
    {0, NULL}};

/* Defines a subclass of Stream by its number of lanes. */
#define STREAM(version, count) \
    static PyObject *new_##count(PyTypeObject *type, PyObject *args, PyObject *named) \
    { \
        (void)args; \
        (void)named; \
        return new_hasher(type, count); \
    } \
    static PyType_Slot slots_##count[] = {{Py_tp_new, (void *)new_##count}, {0, NULL}};
#define SPEC(name, slots) \
    {"rapidhash._extension." name, sizeof(struct hasher), 0, Py_TPFLAGS_DEFAULT | Py_TPFLAGS_BASETYPE, slots}
#define STREAM_SPEC(version, count) SPEC("Stream" #count, slots_##count),
RAPIDHASH_C_STREAMS(STREAM)

static PyType_Spec base_spec = SPEC("Stream", slots);
static PyType_Spec specs[] = {RAPIDHASH_C_STREAMS(STREAM_SPEC)};

/* Adds a class to the module, and steals the reference to it. Returns 0, or -1 with an error set. */
static int add_class(PyObject *module, const char *name, PyObject *added)
{
    const int status = added == NULL ? -1 : PyObject_SetAttrString(module, strrchr(name, '.') + 1, added);
    Py_XDECREF(added);
    return status;
}

int add_streams(PyObject *module)
{
    PyObject *const base = PyType_FromSpec(&base_spec), *const bases = base == NULL ? NULL : PyTuple_Pack(1, base);
    int status = bases == NULL ? -1 : 0;
    size_t at;
    for (at = 0; at < sizeof specs / sizeof *specs && status == 0; at++)
        status = add_class(module, specs[at].name, PyType_FromSpecWithBases(&specs[at], bases));
    Py_XDECREF(bases);
    if (status < 0)
        Py_XDECREF(base);
    return status < 0 ? -1 : add_class(module, base_spec.name, base);
}
