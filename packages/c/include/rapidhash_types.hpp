/* Values of types that the library of C++ lacks, as fields of keys. rapidhash.hpp includes this header. */
#ifndef RAPIDHASH_TYPES_HPP
#define RAPIDHASH_TYPES_HPP

#include "rapidhash_fields.h"
#include "rapidhash_keys.hpp"

#include <array>
#include <cstring>
#include <stdexcept>
#include <string>
#include <type_traits>

#if defined(__cpp_exceptions) || defined(__EXCEPTIONS) || defined(_CPPUNWIND)
#define RAPIDHASH_THROWS_ 1
#else
#define RAPIDHASH_THROWS_ 0
#endif

/* On some machines a cast to std::size_t or std::int64_t changes no type, of which g++ can warn. */
#if defined(__GNUC__) && !defined(__clang__)
#pragma GCC diagnostic push
#pragma GCC diagnostic ignored "-Wuseless-cast"
#endif

namespace rapidhash {

/* A decimal number: the same for each way to write it, as 1.5, "+1.50" and "15e-1", or 0 and "-0.00". Its field is its
 * text without an exponent. */
class decimal {
public:
    decimal() : text_("0") {}
#if RAPIDHASH_THROWS_
    /* Throws std::invalid_argument for a text of which from_text makes no number. */
    explicit decimal(bytes text);
#endif
    /* Returns the text without an exponent, a sign of 0, and zeros that say nothing. */
    const std::string &text() const noexcept { return text_; }
    friend bool operator==(const decimal &one, const decimal &other) noexcept { return one.text_ == other.text_; }
    friend bool operator!=(const decimal &one, const decimal &other) noexcept { return one.text_ != other.text_; }

private:
    friend bool from_text(bytes text, decimal &made);
    std::string text_;
};

/* Reads a decimal number: digits, with or without a sign, a point and an exponent. For anything else, and a number of
 * more than 150,000 bytes without an exponent, returns false and does not modify `made`. Only memory can run out. */
inline bool from_text(bytes text, decimal &made)
{
    ::rapidhash_decimal_ read;
    if (!::rapidhash_read_decimal_(text.data(), text.size(), &read))
        return false;
    std::string whole;
    whole.reserve(static_cast<std::size_t>(read.len));
    for (std::size_t at = 0; at < read.count; at++)
        if (read.piece[at].bytes)
            whole.append(read.piece[at].bytes, static_cast<std::size_t>(read.piece[at].len));
        else
            whole.append(static_cast<std::size_t>(read.piece[at].len), '0');
    made.text_.swap(whole);
    return true;
}

template <> struct field<decimal> {
    static void add(::rapidhash_stream *state, const decimal &value) noexcept
    {
        ::rapidhash_key_bytes(state, value.text().data(), value.text().size());
    }
};

/* Reads the 16 bytes, which are a field, of the 36 characters of a UUID, in either case. For anything else, returns
 * false and does not modify `made`. */
inline bool from_text(bytes text, std::array<std::uint8_t, 16> &made) noexcept
{
    std::uint64_t halves[2];
    char digits[32];
    std::size_t count = 0;

    if (text.size() != 36)
        return false;
    for (std::size_t at = 0; at < 36; at++)
        if (at != 8 && at != 13 && at != 18 && at != 23)
            digits[count++] = text.data()[at];
        else if (text.data()[at] != '-')
            return false;
    if (!from_hex(bytes(digits, 16), halves[0]) || !from_hex(bytes(digits + 16, 16), halves[1]))
        return false;
    ::rapidhash_to_canonical(halves[0], made.data());
    ::rapidhash_to_canonical(halves[1], made.data() + 8);
    return true;
}

/* Selects the types of numbers whose bits a double has. */
template <class Number>
using if_double = typename std::enable_if<std::is_same<Number, double>::value || std::is_same<Number, float>::value,
                                          int>::type;

/* Returns the number as a double. With -ffast-math a processor takes a small float for 0, but not the integer in it. */
inline double to_double(double number) noexcept { return number; }
inline double to_double(float number) noexcept
{
    std::uint32_t bits;
    static_assert(sizeof bits == sizeof number, "a float has 32 bits");
    std::memcpy(&bits, &number, sizeof bits);
    const double least = static_cast<double>(bits & 0x7fffff) * 1.40129846432481707092e-45;
    return (bits & 0x7f800000) != 0 ? static_cast<double>(number) : bits >> 31 != 0 ? -least : least;
}

/* Reads the bits of a number, as an integer that is a field: those of 0 for -0. For NaN, which has many bits, returns
 * false and does not modify `bits`. */
template <class Number, if_double<Number> = 0>
bool float_bits(Number number, std::int64_t &bits) noexcept
{
    std::uint64_t read;
    if (!::rapidhash_float_bits_(to_double(number), &read))
        return false;
    bits = static_cast<std::int64_t>(read);
    return true;
}

#if RAPIDHASH_THROWS_
inline decimal::decimal(bytes text) : text_()
{
    if (!from_text(text, *this))
        throw std::invalid_argument("rapidhash::decimal: no decimal number, or one of more than 150000 bytes");
}

/* Returns them, and throws std::invalid_argument for NaN. */
template <class Number, if_double<Number> = 0>
std::int64_t float_bits(Number number)
{
    std::int64_t bits = 0;
    if (!float_bits(number, bits))
        throw std::invalid_argument("rapidhash::float_bits: NaN has many bits");
    return bits;
}
#endif

} /* namespace rapidhash */

#undef RAPIDHASH_THROWS_
#if defined(__GNUC__) && !defined(__clang__)
#pragma GCC diagnostic pop
#endif

#endif
