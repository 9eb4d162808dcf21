/* V3 with a seed word, written by hand as C programmers write it, to compare the header's speed with. */
#include <stddef.h>
#include <stdint.h>
#include <string.h>

#define HAND_INLINE static inline __attribute__((always_inline))

static const uint64_t hand_secret[7] = {
    UINT64_C(0x2d358dccaa6c78a5), UINT64_C(0x8bb84b93962eacc9), UINT64_C(0x4b33a62ed433d4a3),
    UINT64_C(0x4d5a2da51de1aa47), UINT64_C(0xa0761d6478bd642f), UINT64_C(0xe7037ed1a0b428db),
    UINT64_C(0x90ed1765281c388c)};

HAND_INLINE uint64_t hand_mix(uint64_t a, uint64_t b)
{
    __uint128_t product = (__uint128_t)a * b;
    return (uint64_t)product ^ (uint64_t)(product >> 64);
}

HAND_INLINE uint64_t hand_read64(const uint8_t *p)
{
    uint64_t word;
    memcpy(&word, p, 8);
    return word;
}

HAND_INLINE uint64_t hand_read32(const uint8_t *p)
{
    uint32_t word;
    memcpy(&word, p, 4);
    return word;
}

#define HAND_STEP(lane, at, place) \
    lane = hand_mix(hand_read64(p + (at)) ^ hand_secret[place], hand_read64(p + (at) + 8) ^ lane)
#define HAND_ROW(at) \
    HAND_STEP(seed, at, 0), HAND_STEP(see1, at + 16, 1), HAND_STEP(see2, at + 32, 2), HAND_STEP(see3, at + 48, 3), \
        HAND_STEP(see4, at + 64, 4), HAND_STEP(see5, at + 80, 5), HAND_STEP(see6, at + 96, 6)

HAND_INLINE uint64_t hand_v3(const uint8_t *p, size_t length, uint64_t seed)
{
    uint64_t a = 0, b = 0;
    size_t i = length;
    seed ^= hand_mix(seed ^ hand_secret[2], hand_secret[1]);
    if (__builtin_expect(length <= 16, 1)) {
        if (length >= 4) {
            seed ^= length;
            a = length >= 8 ? hand_read64(p) : hand_read32(p);
            b = length >= 8 ? hand_read64(p + length - 8) : hand_read32(p + length - 4);
        } else if (length > 0) {
            a = (uint64_t)p[0] << 45 | p[length - 1];
            b = p[length >> 1];
        }
    } else {
        if (length > 112) {
            uint64_t see1 = seed, see2 = seed, see3 = seed, see4 = seed, see5 = seed, see6 = seed;
            for (; i > 224; p += 224, i -= 224)
                HAND_ROW(0), HAND_ROW(112);
            if (i > 112)
                HAND_ROW(0), p += 112, i -= 112;
            seed ^= see1 ^ see2 ^ see3 ^ see4 ^ see5 ^ see6;
        }
        if (i > 16) {
            HAND_STEP(seed, 0, 2);
            if (i > 32) {
                HAND_STEP(seed, 16, 2);
                if (i > 48) {
                    HAND_STEP(seed, 32, 1);
                    if (i > 64) {
                        HAND_STEP(seed, 48, 1);
                        if (i > 80) {
                            HAND_STEP(seed, 64, 2);
                            if (i > 96)
                                HAND_STEP(seed, 80, 1);
                        }
                    }
                }
            }
        }
        a = hand_read64(p + i - 16) ^ i;
        b = hand_read64(p + i - 8);
    }
    a ^= hand_secret[1];
    b ^= seed;
    __uint128_t product = (__uint128_t)a * b;
    return hand_mix((uint64_t)product ^ UINT64_C(0xaaaaaaaaaaaaaaaa), (uint64_t)(product >> 64) ^ hand_secret[1] ^ i);
}
