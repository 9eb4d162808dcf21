/* Stands in for the intrinsic functions of MSVC, so that another compiler can test the code that calls them. */
#include <stdint.h>

__extension__ typedef unsigned __int128 wide;

static inline uint64_t __umulh(uint64_t a, uint64_t b)
{ return (uint64_t)((wide)a * b >> 64); }

static inline uint64_t _umul128(uint64_t a, uint64_t b, uint64_t *high)
{
    *high = __umulh(a, b);
    return a * b;
}
