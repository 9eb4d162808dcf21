/* The extension module: one call per version, the calls that make secrets, and the functions over several messages. */
#include "extension.h"

/* Binds positional and keyword arguments to data, seed and secrets, each NULL if it is missing. Returns 0, or -1 with
 * an error set. */
static int bind_arguments(
    const struct form *form, PyObject *const *args, Py_ssize_t count, PyObject *names, PyObject *sorted[3])
{
    static const char *const known[3] = {"data", "seed", "secrets"};
    Py_ssize_t at, named = names == NULL ? 0 : PyTuple_Size(names);
    if (count > 3)
        return PyErr_Format(PyExc_TypeError, "%s() takes at most three arguments: data, seed, secrets", form->name), -1;
    for (at = 0; at < count; at++)
        sorted[at] = args[at];
    for (at = 0; at < named; at++) {
        PyObject *name = PyTuple_GetItem(names, at);
        int which = 0;
        while (which < 3 && PyUnicode_CompareWithASCIIString(name, known[which]) != 0)
            which++;
        if (which == 3 || sorted[which] != NULL) {
            PyErr_Format(PyExc_TypeError, which == 3 ? "%s() has no argument %R: expected data, seed, or secrets"
                                                     : "%s() got the argument %R twice", form->name, name);
            return -1;
        }
        sorted[which] = args[count + at];
    }
    if (sorted[0] != NULL)
        return 0;
    PyErr_Format(PyExc_TypeError, "%s() is missing its argument data", form->name);
    return -1;
}

static uint64_t hash_of(const struct form *form, const struct start *start, const struct message *message)
{
    if (start->has_secrets)
        return form->with_secrets(message->bytes, message->len, &start->own);
    if (start->has_seed)
        return form->with_seed(message->bytes, message->len, start->seed);
    return form->plain(message->bytes, message->len);
}

/* Hashes the message of a call. Returns 0, or -1 with an error set. */
static int hash(const struct form *form, PyObject *module, PyObject *const *args, Py_ssize_t count, PyObject *names,
                uint64_t *value)
{
    PyObject *sorted[3] = {NULL, NULL, NULL};
    struct start start;
    struct message message;
    if (bind_arguments(form, args, count, names, sorted) < 0 ||
        read_start(module, form, sorted[1], sorted[2], &start) < 0 || read_message(sorted[0], "data", &message) < 0)
        return -1;
    if (message.len > LONG) {
        Py_BEGIN_ALLOW_THREADS
        *value = hash_of(form, &start, &message);
        Py_END_ALLOW_THREADS
    } else {
        *value = hash_of(form, &start, &message);
    }
    release_message(&message);
    return 0;
}

PyObject *digits_of(uint64_t hash)
{
    char digits[16];
    int at;
    for (at = 15; at >= 0; at--, hash >>= 4)
        digits[at] = "0123456789abcdef"[hash & 15];
    return PyUnicode_FromStringAndSize(digits, sizeof digits);
}

/* Defines a version and its two calls. */
#define FORM(version, own) \
    static uint64_t with_secrets_##version(const void *bytes, size_t len, const void *secrets) \
    { return rapidhash_##version##_with_secrets(bytes, len, secrets); } \
    static const struct form version##_form = { \
        #version, rapidhash_##version, rapidhash_##version##_with_seed, with_secrets_##version, \
        sizeof(struct own##_secrets) == sizeof(struct rapidhash_v1_secrets)}; \
    static PyObject *call_##version(PyObject *module, PyObject *const *args, Py_ssize_t count, PyObject *names) \
    { \
        uint64_t value; \
        if (hash(&version##_form, module, args, count, names, &value) < 0) return NULL; \
        return PyLong_FromUnsignedLongLong(value); \
    } \
    static PyObject *hex_##version(PyObject *module, PyObject *const *args, Py_ssize_t count, PyObject *names) \
    { \
        uint64_t value; \
        return hash(&version##_form, module, args, count, names, &value) < 0 ? NULL : digits_of(value); \
    }
RAPIDHASH_C_VERSIONS(FORM)
#define PLACE(version, own) &version##_form,

const struct form *const form_v3 = &v3_form;

const struct form *form_of(PyObject *version)
{
    static const struct form *const forms[] = {RAPIDHASH_C_VERSIONS(PLACE)};
    size_t at;
    for (at = 0; PyUnicode_Check(version) && at < sizeof forms / sizeof *forms; at++)
        if (PyUnicode_CompareWithASCIIString(version, forms[at]->name) == 0)
            return forms[at];
    PyErr_Format(PyUnicode_Check(version) ? PyExc_ValueError : PyExc_TypeError,
                 "version must be the name of a hash, such as 'v3', not %R", version);
    return NULL;
}

/* Defines a call that derives secrets from the word `argument`: its name, the header's function, the struct to fill. */
#define MAKER(name, argument, function, type) \
    static PyObject *name(PyObject *module, PyObject *number) \
    { \
        uint64_t word; \
        struct type words; \
        (void)module; \
        if (read_word(number, argument, &word) < 0) return NULL; \
        function(word, &words); \
        return PyBytes_FromStringAndSize((const char *)&words, sizeof words); \
    }
MAKER(make_secrets, "number", rapidhash_make_secrets, rapidhash_secrets)
MAKER(make_secrets_v1, "number", rapidhash_v1_make_secrets, rapidhash_v1_secrets)
MAKER(seed_secrets, "seed", rapidhash_seed_secrets, rapidhash_secrets)

#define FAST(function) (PyCFunction)(void (*)(void))function
#define CALLS(name, own) \
    {#name, FAST(call_##name), METH_FASTCALL | METH_KEYWORDS, \
     PyDoc_STR(#name "($module, data, seed=None, secrets=None)\n--\n\nReturns the " #name " hash of `data`.\n\n" \
               "A str is hashed as its UTF-8. Pass `seed`, a word for the default secrets, or `secrets` from\n" \
               "make_secrets. A seed word does not protect against chosen input. Raises BufferError if `data` is\n" \
               "not contiguous, OverflowError for a seed outside 0 to 2**64 - 1, UnicodeEncodeError for half a\n" \
               "surrogate pair, and TypeError if both are passed.")}, \
    {#name "_hexdigest", FAST(hex_##name), METH_FASTCALL | METH_KEYWORDS, \
     PyDoc_STR(#name "_hexdigest($module, data, seed=None, secrets=None)\n--\n\n" \
               "Returns the same hash as " #name ", as 16 hexadecimal digits.")},

static PyObject *masked(PyObject *module, PyObject *object)
{
    const int is = is_masked(object);
    return (void)module, is < 0 ? NULL : PyBool_FromLong(is);
}

static PyMethodDef calls[] = {
    RAPIDHASH_C_VERSIONS(CALLS)
    {"make_secrets", make_secrets, METH_O, NULL}, {"make_secrets_v1", make_secrets_v1, METH_O, NULL},
    {"seed_secrets", seed_secrets, METH_O, NULL},
    {"each", FAST(each), METH_FASTCALL, NULL}, {"each_row", FAST(each_row), METH_FASTCALL, NULL},
    {"each_next", FAST(each_next), METH_FASTCALL, NULL}, {"kept", kept, METH_O, NULL},
    {"kept_number", kept_number, METH_O, NULL},
    {"each_slice", FAST(each_slice), METH_FASTCALL, NULL}, {"key", FAST(key_of), METH_FASTCALL, NULL},
    {"each_key", FAST(each_key), METH_FASTCALL, NULL}, {"arrow", FAST(arrow), METH_FASTCALL, NULL},
    {"each_source", FAST(each_source), METH_FASTCALL, NULL}, {"shard", FAST(shard), METH_FASTCALL, NULL},
    {"first_hash", FAST(first_hash), METH_FASTCALL, NULL}, {"bucket", FAST(bucket), METH_FASTCALL, NULL},
    {"fingerprint", fingerprint, METH_O, NULL}, {"is_masked", masked, METH_O, NULL}, {NULL, NULL, 0, NULL}};

/* The module's state: the classes of secrets, that of V1 second, and the name of their words. Each interpreter has its
 * own. */
static int exec_module(PyObject *module)
{
    PyObject **classes = PyModule_GetState(module), *secrets = PyImport_ImportModule("rapidhash._secrets");
    if (secrets == NULL)
        return -1;
    classes[0] = PyObject_GetAttrString(secrets, "Secrets");
    classes[1] = PyObject_GetAttrString(secrets, "SecretsV1");
    Py_DECREF(secrets);
    classes[2] = PyUnicode_InternFromString("_packed");
    return classes[0] == NULL || classes[1] == NULL || classes[2] == NULL ? -1 : add_streams(module);
}

/* Before 3.9, the garbage collector also visits a module that has no state yet. */
static int visit_classes(PyObject *module, visitproc visit, void *arg)
{
    PyObject **classes = PyModule_GetState(module);
    if (classes == NULL)
        return 0;
    Py_VISIT(classes[0]);
    Py_VISIT(classes[1]);
    return 0;
}

static int clear_classes(PyObject *module)
{
    PyObject **classes = PyModule_GetState(module);
    if (classes == NULL)
        return 0;
    Py_CLEAR(classes[0]);
    Py_CLEAR(classes[1]);
    Py_CLEAR(classes[2]);
    return 0;
}

/* The slots that only later versions know: slot 3 allows each interpreter a lock of its own from 3.12 on, and slot 4
 * tells a free-threaded build from 3.13 on that the module needs no global lock. */
static PyModuleDef_Slot slots[] = {{Py_mod_exec, (void *)exec_module}, {0, NULL}, {0, NULL}, {0, NULL}};

static struct PyModuleDef definition = {
    PyModuleDef_HEAD_INIT, "_extension", PyDoc_STR("The hashes, compiled."), 3 * sizeof(PyObject *), calls, slots,
    visit_classes, clear_classes, NULL};

PyMODINIT_FUNC PyInit__extension(void)
{
#if PY_VERSION_HEX >= 0x030b0000
    if (Py_Version >= 0x030c0000)
        slots[1].slot = 3, slots[1].value = (void *)2;
    if (Py_Version >= 0x030d0000)
        slots[2].slot = 4, slots[2].value = (void *)1;
#endif
    return PyModuleDef_Init(&definition);
}
