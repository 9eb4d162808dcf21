/* The part of string.h that the C header needs, for a target without a C library. The compiler inlines each copy. */
#define memcpy __builtin_memcpy
#define memset __builtin_memset
