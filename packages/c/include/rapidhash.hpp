/* rapidhash for C++: hashes of strings and bytes, hashers for std::unordered_map and std::unordered_set, streams, and
 * conversions of a hash to bytes and digits.
 *
 *     std::uint64_t hash = rapidhash::hash("hello");
 *
 * From C++17 on, with gcc and clang, the hash of a text is also a constant, as in a case of a switch. Everything but
 * two streams is V3; rapidhash_c.h has the other versions, the preconditions, and notes on linking, values, and
 * security. Works with C++11 to C++23, with or without exceptions, and needs nothing to link. A program that includes
 * the C++ library's rapidhash.h cannot use this header: that file has a function with the name of this namespace.
 */
#ifndef RAPIDHASH_HPP
#define RAPIDHASH_HPP

#include "rapidhash_c.h"
#include "rapidhash_constexpr.hpp"

#include <array>
#include <climits>
#include <cstddef>
#include <cstdint>
#include <string>
#include <type_traits>
#include <utility>

namespace rapidhash {

/* A seed and seven secrets: the struct of rapidhash_c.h. */
using secrets = ::rapidhash_secrets;

static_assert(CHAR_BIT == 8, "the library is for bytes of 8 bits");
static_assert(sizeof(secrets) == 64 && (sizeof(std::size_t) != 8 || sizeof(::rapidhash_stream) == 216),
              "the structs are laid out as in the library");
static_assert(std::is_standard_layout<secrets>::value && std::is_trivially_copyable<secrets>::value,
              "secrets are plain");
static_assert(std::is_standard_layout<::rapidhash_stream>::value
                  && std::is_trivially_copyable<::rapidhash_stream>::value,
              "a stream of C is plain");

/* A seed word for the default secrets. It is a separate type, so that a length is never mistaken for a seed.
 *
 * Security: a seed word does not stop an attacker, since the default secrets are public. See make_secrets. */
struct seed {
    std::uint64_t word;
    explicit constexpr seed(std::uint64_t number) noexcept : word{number} {} // word() is a macro of some systems.
};

/* Derives a seed and secrets from `number`. If others choose the keys, use a random number. */
inline secrets make_secrets(std::uint64_t number) noexcept
{
    secrets made;
    ::rapidhash_make_secrets(number, &made);
    return made;
}

/* Returns the default secrets with a seed derived from the word `start`. */
inline secrets seed_secrets(seed start) noexcept
{
    secrets made;
    ::rapidhash_seed_secrets(start.word, &made);
    return made;
}

/* Detects an enumeration that has 8 bits only because of -fshort-enums: elsewhere, a list of its enumerators is not
 * bytes. One whose type the program names is none of these; in C++17 and later, braces can initialize it. */
enum shortest {};
template <class Value, bool IsSmall = std::is_enum<Value>::value && sizeof(Value) == 1 && sizeof(shortest) == 1,
          class = void>
struct is_short : std::conditional<IsSmall, std::is_convertible<Value, int>, std::false_type>::type {};
template <class Value>
struct is_short<Value, true, typename std::enable_if<sizeof(Value{0}) == 1>::type> : std::false_type {};

/* A view of bytes, the argument of the functions below. A std::string, string_view, vector, array, or span of bytes or
 * characters converts implicitly, and so do a C string, without its terminating zero, an array of characters, up to its
 * first zero or its end, if it has a known one, and an array of other bytes as a whole. It owns nothing. */
class bytes {
    template <class Range>
    using element = typename std::remove_pointer<decltype(std::declval<const Range &>().data())>::type;
    template <class Element>
    using if_byte = typename std::enable_if<
        sizeof(Element) == 1 && (std::is_integral<Element>::value || std::is_enum<Element>::value)
        && !std::is_same<typename std::remove_const<Element>::type, bool>::value && !is_short<Element>::value
        && !std::is_volatile<Element>::value>::type;
#ifdef __cpp_char8_t
    using utf8 = char8_t;
#else
    using utf8 = char;
#endif
    template <class Element>
    using is_character = std::integral_constant<bool, std::is_same<Element, char>::value
                                                          || std::is_same<Element, utf8>::value>;
    template <class Text>
    using if_text = typename std::enable_if<std::is_pointer<Text>::value && is_character<
        typename std::remove_const<typename std::remove_pointer<Text>::type>::type>::value, int>::type;
    template <class Text> struct pointer_of { using type = Text; };
    template <class Element> struct pointer_of<Element[]> { using type = Element *; };

public:
    bytes(const void *data, std::size_t size) noexcept : data_(chars(data)), size_(size) {}
    template <class Text, if_text<typename std::decay<Text>::type> = 0>
    RAPIDHASH_CONSTEXPR bytes(const Text &text, std::size_t size) noexcept : data_(chars(text)), size_(size) {}
    template <class Text, if_text<typename pointer_of<Text>::type> = 0>
    RAPIDHASH_CONSTEXPR bytes(const Text &text) noexcept : data_(chars(text)), size_(length(text)) {}
    template <class Element, std::size_t Size, class = if_byte<Element>>
    RAPIDHASH_CONSTEXPR bytes(const Element (&array)[Size]) noexcept : data_(chars(array)), size_(Size)
    {
        if (is_character<Element>::value)
            size_ = length_below(data_, Size);
    }
    bytes(std::nullptr_t) = delete;
    template <class Range, class = if_byte<element<Range>>>
    RAPIDHASH_CONSTEXPR bytes(const Range &range) noexcept : data_(chars(range.data())), size_(range.size()) {}

    RAPIDHASH_CONSTEXPR const char *data() const noexcept { return data_; }
    RAPIDHASH_CONSTEXPR std::size_t size() const noexcept { return size_; }

private:
    static constexpr const char *chars(const char *data) noexcept { return data; }
    static const char *chars(const void *data) noexcept { return static_cast<const char *>(data); }
    template <class Character> static RAPIDHASH_CONSTEXPR std::size_t length(const Character *text) noexcept
    {
        return std::char_traits<Character>::length(text);
    }
    static RAPIDHASH_CONSTEXPR std::size_t length_below(const char *text, std::size_t size) noexcept
    {
        const char *const end = std::char_traits<char>::find(text, size, '\0');
        return end ? static_cast<std::size_t>(end - text) : size;
    }

    const char *data_;
    std::size_t size_;
};

/* Selects a function for secrets, which a list in braces does not become. */
template <class Secrets>
using if_secrets = typename std::enable_if<std::is_base_of<secrets, Secrets>::value, int>::type;

/* Returns the hash with the default seed and secrets, with a seed word, or with the caller's seed and secrets. A number
 * is neither: pass a pointer and a length as {pointer, length}, and a seed word as seed(word). */
RAPIDHASH_CONSTEXPR std::uint64_t hash(bytes message) noexcept
{
    RAPIDHASH_IF_CONSTANT(constant::v3(message.data(), message.size(), constant::seed_of(0),
                                       constant::default_secrets));
    return ::rapidhash_v3(message.data(), message.size());
}

RAPIDHASH_CONSTEXPR std::uint64_t hash(bytes message, seed start) noexcept
{
    RAPIDHASH_IF_CONSTANT(constant::v3(message.data(), message.size(), constant::seed_of(start.word),
                                       constant::default_secrets));
    return ::rapidhash_v3_with_seed(message.data(), message.size(), start.word);
}

template <class Secrets, if_secrets<Secrets> = 0>
RAPIDHASH_CONSTEXPR std::uint64_t hash(bytes message, const Secrets &own) noexcept
{
    RAPIDHASH_IF_CONSTANT(constant::v3(message.data(), message.size(), own.seed, own.secrets));
    return ::rapidhash_v3_with_secrets(message.data(), message.size(), &own);
}

/* Hashes a message in pieces, by V3 with 7, 5 or 3 lanes. It contains its secrets and can be copied and moved. One
 * thread at a time. */
template <std::size_t Lanes>
class basic_stream {
    static_assert(Lanes == 7 || Lanes == 5 || Lanes == 3, "a stream has 7, 5 or 3 lanes");

public:
    basic_stream() noexcept : basic_stream(seed(0)) {}
    explicit basic_stream(seed start) noexcept : basic_stream(seed_secrets(start)) {}
    template <class Secrets, if_secrets<Secrets> = 0>
    explicit basic_stream(const Secrets &own) noexcept : secrets_(own), state_()
    {
        ::rapidhash_stream_start_(&state_, Lanes, &secrets_);
    }
    basic_stream(const basic_stream &other) noexcept : secrets_(other.secrets_), state_(other.state_)
    {
        state_.secrets = &secrets_;
    }

    basic_stream &operator=(const basic_stream &other) noexcept
    {
        secrets_ = other.secrets_;
        state_ = other.state_;
        state_.secrets = &secrets_;
        return *this;
    }

    /* Appends a piece to the message. */
    basic_stream &update(bytes piece) noexcept
    {
        ::rapidhash_stream_write(&state_, piece.data(), piece.size());
        return *this;
    }

    basic_stream &update(const void *data, std::size_t size) noexcept { return update(bytes(data, size)); }

    /* Returns the hash of the message so far. Does not modify the stream; more pieces may follow. */
    std::uint64_t finish() const noexcept { return ::rapidhash_stream_finish(&state_); }

    /* Empties the message but keeps the secrets. */
    void reset() noexcept { ::rapidhash_stream_reset(&state_); }

    /* Returns the saved stream, the same on every machine and in every language. It has bytes of the message but no
     * secrets. */
    std::array<unsigned char, RAPIDHASH_STREAM_SAVED> save() const noexcept
    {
        std::array<unsigned char, RAPIDHASH_STREAM_SAVED> saved;
        ::rapidhash_stream_save(&state_, saved.data());
        return saved;
    }

    /* Replaces the message by that of a saved stream. Returns false and does not modify the stream if save() did not
     * return these bytes for a stream with the same seed and secrets. */
    bool restore(bytes saved) noexcept
    {
        const void *const start = saved.data();
        return ::rapidhash_stream_restore(&state_, static_cast<const unsigned char *>(start), saved.size());
    }

    /* Restores from a whole buffer of char, in which a zero ends no text. */
    template <std::size_t Size> bool restore(const char (&saved)[Size]) noexcept { return restore(bytes(saved, Size)); }

private:
    secrets secrets_;
    ::rapidhash_stream state_;
};

using stream = basic_stream<7>;
using micro_stream = basic_stream<5>;
using nano_stream = basic_stream<3>;

/* Convert a hash to 8 bytes, most significant first, and back: the same on every machine, so they can be stored. */
inline std::array<unsigned char, 8> to_canonical(std::uint64_t hash) noexcept
{
    std::array<unsigned char, 8> stored;
    ::rapidhash_to_canonical(hash, stored.data());
    return stored;
}

inline std::uint64_t from_canonical(const std::array<unsigned char, 8> &stored) noexcept
{
    return ::rapidhash_from_canonical(stored.data());
}

/* Return what a hash decides among `count`, which is at least 1: its shard, the first hash of a shard, or its bucket.
 * rapidhash_c.h describes them. From C++14 on, the results can be constants of gcc and clang. */
RAPIDHASH_CONSTANT_ inline std::uint64_t shard(std::uint64_t hash, std::uint64_t count) noexcept
{
    return ::rapidhash_shard(hash, count);
}

RAPIDHASH_CONSTANT_ inline std::uint64_t first_hash(std::uint64_t shard, std::uint64_t count) noexcept
{
    return ::rapidhash_first_hash(shard, count);
}

RAPIDHASH_CONSTANT_ inline std::uint32_t bucket(std::uint64_t hash, std::uint32_t count) noexcept
{
    return ::rapidhash_bucket(hash, count);
}

/* Returns the fingerprint of a table, from the hashes of its rows in any order. */
RAPIDHASH_CONSTANT_ inline std::uint64_t fingerprint(const std::uint64_t *hashes, std::size_t count) noexcept
{
    return ::rapidhash_fingerprint(hashes, count);
}

/* Returns the same of a range, as a std::vector of hashes. */
template <class Hashes>
RAPIDHASH_CONSTANT_ std::uint64_t fingerprint(Hashes &&hashes) noexcept
{
    std::uint64_t sum = 0;
    for (const auto &hash : hashes) {
        static_assert(std::is_unsigned<typename std::decay<decltype(hash)>::type>::value && sizeof(hash) == 8,
                      "a hash of a fingerprint is an unsigned integer of 64 bits");
        sum += hash;
    }
    return sum;
}

/* Returns the same bytes as 16 hexadecimal digits, as rapidsum prints them. */
inline std::string to_hex(std::uint64_t hash)
{
    std::string digits(16, '0');
    for (std::size_t at = digits.size(); at-- > 0; hash >>= 4)
        digits[at] = "0123456789abcdef"[hash & 15];
    return digits;
}

/* Parses exactly 16 hexadecimal digits, in either case. For anything else, returns false and does not modify `hash`. */
inline bool from_hex(bytes digits, std::uint64_t &hash) noexcept
{
    const char *const text = digits.data();
    std::uint64_t read = 0;

    if (digits.size() != 16)
        return false;
    for (std::size_t at = 0; at < 16; at++) {
        const char digit = text[at];
        if (digit >= '0' && digit <= '9')
            read = read << 4 | static_cast<std::uint64_t>(digit - '0');
        else if ((digit >= 'a' && digit <= 'f') || (digit >= 'A' && digit <= 'F'))
            read = read << 4 | static_cast<std::uint64_t>((digit | 32) - 'a' + 10);
        else
            return false;
    }
    hash = read;
    return true;
}

} /* namespace rapidhash */

#include "rapidhash_keys.hpp"
#include "rapidhash_types.hpp"

#endif
