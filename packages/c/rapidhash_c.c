/* The C library for machines without the Rattle toolchain: the functions of the header as external symbols. */
#define RAPIDHASH_IMPLEMENTATION
#include "rapidhash_c.h"
