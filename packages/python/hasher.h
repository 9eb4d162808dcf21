/* What the two files of the hashers share. */
#ifndef RAPIDHASH_HASHER_H
#define RAPIDHASH_HASHER_H

#include "extension.h"
#include <pythread.h>

/* The lock is NULL as long as the global lock is enough. `seed` is valid only if has_seed is not 0. `lanes` is the
 * number of the class; that of the stream is 0 until the stream is started. */
struct hasher {
    PyObject_HEAD
    PyThread_type_lock lock;
    size_t lanes;
    uint64_t seed;
    int has_seed;
    struct rapidhash_secrets secrets;
    struct rapidhash_stream stream;
};

#ifdef __GNUC__
#pragma GCC visibility push(hidden)
#endif

/* Creates the lock of a hasher, which a piece needs that is hashed without the global lock. Returns 0, or -1 with an
 * error set. */
int need_lock(struct hasher *self);

/* Acquires the lock. Lets other threads run while it waits. */
void take_lock(struct hasher *self);

/* Releases the lock. */
void leave(struct hasher *self);

/* Acquires the lock of a hasher and returns 0. If the hasher was not started, returns -1 with an error set instead. */
int enter(struct hasher *self);

/* The methods in Python. */
extern PyMethodDef hasher_methods[];
PyObject *start(PyObject *object, PyObject *args);
PyObject *copy(PyObject *object, PyObject *none);

#ifdef __GNUC__
#pragma GCC visibility pop
#endif

#endif
