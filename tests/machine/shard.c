/* A shard by the header, for machine.py. */
#include "rapidhash_c.h"

uint64_t shard(uint64_t hash, uint64_t count)
{
    return rapidhash_shard(hash, count);
}
