/* V3 in constant expressions. rapidhash.hpp includes this header, so that from C++17 on, with gcc and clang, the hash
 * of a text is a constant if its seed and secrets are:
 *
 *     static_assert(rapidhash::hash("hello") == 3327445792987248966);
 *
 * At run time rapidhash.hpp calls rapidhash_c.h, which is faster. docs/ALGORITHM.md has the algorithm and its terms.
 */
#ifndef RAPIDHASH_CONSTEXPR_HPP
#define RAPIDHASH_CONSTEXPR_HPP

#include <cstddef>
#include <cstdint>

/* A function with RAPIDHASH_CONSTEXPR begins with RAPIDHASH_IF_CONSTANT, which returns its value in a constant
 * expression. An older compiler or standard inlines the function and has no such value. */
#if __cplusplus >= 201703L && defined(__has_builtin)
#if __has_builtin(__builtin_is_constant_evaluated)
#define RAPIDHASH_IF_CONSTANT(value) if (__builtin_is_constant_evaluated()) return value
#endif
#endif
#ifndef RAPIDHASH_IF_CONSTANT
#define RAPIDHASH_CONSTEXPR inline
#define RAPIDHASH_IF_CONSTANT(value) static_cast<void>(0)
#else
#define RAPIDHASH_CONSTEXPR constexpr

namespace rapidhash { namespace constant {

inline constexpr std::uint64_t default_secrets[7] = {
    0x2d358dccaa6c78a5, 0x8bb84b93962eacc9, 0x4b33a62ed433d4a3, 0x4d5a2da51de1aa47,
    0xa0761d6478bd642f, 0xe7037ed1a0b428db, 0x90ed1765281c388c};

/* Loads of little-endian numbers and the product. A test replaces them by random functions. */
struct primitives {
    struct halves { std::uint64_t low, high; };

    static constexpr std::uint64_t load4(const char *p) noexcept
    {
        std::uint64_t word = 0;
        for (int at = 3; at >= 0; at--) word = word << 8 | static_cast<unsigned char>(p[at]);
        return word;
    }
    static constexpr std::uint64_t load8(const char *p) noexcept { return load4(p + 4) << 32 | load4(p); }
    static constexpr halves multiply(std::uint64_t a, std::uint64_t b) noexcept
    {
        const std::uint64_t half = 0xffffffff, a0 = a & half, a1 = a >> 32, b0 = b & half, b1 = b >> 32;
        const std::uint64_t cross = a1 * b0 + (a0 * b0 >> 32), middle = (cross & half) + a0 * b1;
        return {a * b, a1 * b1 + (cross >> 32) + (middle >> 32)};
    }
};

template <class P = primitives>
constexpr std::uint64_t mix(std::uint64_t a, std::uint64_t b) noexcept
{
    const auto product = P::multiply(a, b);
    return product.low ^ product.high;
}

/* Returns the seed of a seed word. */
constexpr std::uint64_t seed_of(std::uint64_t word) noexcept
{ return word ^ mix(word ^ default_secrets[2], default_secrets[1]); }

/* Returns V3 of `n` bytes with a seed and seven secrets. */
template <class P = primitives>
constexpr std::uint64_t v3(const char *p, std::size_t n, std::uint64_t seed, const std::uint64_t *s) noexcept
{
    constexpr int places[6] = {2, 2, 1, 1, 2, 1};
    std::uint64_t lane[7] = {seed, seed, seed, seed, seed, seed, seed}, a = 0, b = 0;
    std::size_t t = n;
    for (; t > 112; t -= 112)
        for (int i = 0; i < 7; i++, p += 16) lane[i] = mix<P>(P::load8(p) ^ s[i], P::load8(p + 8) ^ lane[i]);
    if (t < n) seed = lane[0] ^ lane[1] ^ lane[2] ^ lane[3] ^ lane[4] ^ lane[5] ^ lane[6];
    for (std::size_t i = 0; 16 * i + 16 < t; i++)
        seed = mix<P>(P::load8(p + 16 * i) ^ s[places[i]], P::load8(p + 16 * i + 8) ^ seed);
    if (n > 3) {
        a = n > 16 ? P::load8(p + t - 16) ^ t : n > 7 ? P::load8(p) : P::load4(p);
        b = n > 7 ? P::load8(p + t - 8) : P::load4(p + t - 4);
        seed ^= n > 16 ? 0 : n;
    } else if (n > 0) {
        a = std::uint64_t{static_cast<unsigned char>(p[0])} << 45 | static_cast<unsigned char>(p[n - 1]);
        b = static_cast<unsigned char>(p[n / 2]);
    }
    const auto product = P::multiply(a ^ s[1], b ^ seed);
    return mix<P>(product.low ^ 0xaaaaaaaaaaaaaaaa, product.high ^ s[1] ^ t);
}

}} /* namespace rapidhash::constant */
#endif
#endif
