/* Is V1 with the bug of the crate: 48 bytes are a row. gcc -Os tests each row at the head of the loop, so that messages
 * without a row reach it too. */
#include <stdint.h>
#include <string.h>

static inline uint64_t word(const uint8_t *p)
{
    uint64_t result;
    memcpy(&result, p, 8);
    return result;
}

static inline uint64_t half(const uint8_t *p)
{
    uint32_t result;
    memcpy(&result, p, 4);
    return result;
}

static uint64_t mix(uint64_t a, uint64_t b)
{
    unsigned __int128 product = (unsigned __int128)a * b;
    return (uint64_t)product ^ (uint64_t)(product >> 64);
}

static uint64_t fold(uint64_t lane, uint64_t secret, const uint8_t *p)
{
    return mix(word(p) ^ secret, word(p + 8) ^ lane);
}

/* Has the name of the first code in refused.tsv. */
static __attribute__((used)) void code0(void)
{
}

uint64_t rapidhash_v1_with_secrets(const uint8_t *p, size_t n, const uint64_t *secrets)
{
    const uint64_t *s = secrets + 1;
    uint64_t seed = secrets[0] ^ n, first = 0, second = 0, length = n;
    if (n > 16) {
        uint64_t x = seed, y = seed, z = seed;
        for (; n >= 48; p += 48, n -= 48) {
            x = fold(x, s[0], p);
            y = fold(y, s[1], p + 16);
            z = fold(z, s[2], p + 32);
        }
        seed = x ^ y ^ z ^ (n > 16 ? s[1] : 0);
        if (n > 16) seed = fold(seed, s[2], p);
        if (n > 32) seed = fold(seed, s[2], p + 16);
        first = word(p + n - 16);
        second = word(p + n - 8);
    } else if (n >= 4) {
        first = half(p) << 32 | half(p + n - 4);
        second = n < 8 ? first : half(p + 4) << 32 | half(p + n - 8);
    } else if (n > 0) {
        first = (uint64_t)p[0] << 56 | (uint64_t)p[n / 2] << 32 | p[n - 1];
    }
    unsigned __int128 product = (unsigned __int128)(first ^ s[1]) * (second ^ seed);
    return mix((uint64_t)product ^ s[0] ^ length, (uint64_t)(product >> 64) ^ s[1]);
}
