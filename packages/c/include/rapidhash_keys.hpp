/* Hashes of keys of several fields, and hashers for unordered containers. rapidhash.hpp includes this header. If a
 * program includes this one first, the next line defines all of it. */
#include "rapidhash.hpp"
#ifndef RAPIDHASH_KEYS_HPP
#define RAPIDHASH_KEYS_HPP

#include <array>
#include <chrono>
#include <iterator>
#include <ratio>
#include <tuple>
#include <type_traits>
#include <utility>
#include <vector>
#if __cplusplus >= 201703L
#include <filesystem>
#include <optional>
#endif
#if __cplusplus >= 202002L
#include <span>
#endif

/* On some machines a cast to std::size_t or std::int64_t changes no type, of which g++ can warn. */
#if defined(__GNUC__) && !defined(__clang__)
#pragma GCC diagnostic push
#pragma GCC diagnostic ignored "-Wuseless-cast"
#endif

namespace rapidhash {

/* Finds pointers that are no text, also those of the library that own what they point to, and variants. */
template <class Value, class = void>
struct is_pointer : std::integral_constant<bool, std::is_pointer<Value>::value
                                                     && !std::is_convertible<const Value &, bytes>::value> {};
template <class Value>
struct is_pointer<Value, typename std::enable_if<
    std::is_same<decltype(std::declval<const Value &>().get()), typename Value::element_type *>::value>::type>
    : std::true_type {};
template <class Value, class = void> struct is_variant : std::false_type {};
template <class Value>
struct is_variant<Value, decltype(static_cast<void>(std::declval<const Value &>().valueless_by_exception()))>
    : std::true_type {};

/* Finds texts that compare by traits of a program, so that equal ones can have different bytes. */
template <class Value, class = void> struct has_own_traits : std::false_type {};
template <class Value>
struct has_own_traits<Value, decltype(static_cast<void>(sizeof(typename Value::traits_type)
                                                        + sizeof(typename Value::value_type)))>
    : std::integral_constant<bool, !std::is_same<typename Value::traits_type,
                                                 std::char_traits<typename Value::value_type>>::value> {};

/* Appends a value to a V3 stream of C, as the fields of a key. Different values of a type are different messages:
 *
 * - nullptr is nothing (as SQL's NULL), an integer or an enumerator an integer, and a text or bytes are bytes;
 * - a pair or a tuple has the fields of its elements, one after another;
 * - a vector, an array or a span is a list, if it is not bytes: the number of its items, and then their fields;
 * - an optional is nothing or its value, which is itself no optional, pair or tuple;
 * - a path has the number of its elements, and then each of them as bytes;
 * - a time of the system clock has the microseconds since 1970-01-01 in UTC, and its type no part of one, but a date of
 *   it, such as std::chrono::sys_days, the days since then;
 * - a duration, also of days, is its microseconds. Beyond 64 bits, those of two times or durations can be equal.
 *
 * A program can specialize it for its own types. */
template <class Value, class = void> struct field {
    static constexpr bool is_refused = is_pointer<Value>::value || is_variant<Value>::value;
    static_assert(!is_pointer<Value>::value,
                  "a pointer is no field: pass what it points to, nullptr, or rapidhash::bytes(pointer, length)");
    static_assert(!is_variant<Value>::value,
                  "a variant is no field: pass its index(), and then its value by std::visit");
    static_assert(!has_own_traits<Value>::value,
                  "a text that compares in its own way has no field: specialize rapidhash::field, or pass its bytes");
    static_assert(is_refused || std::is_convertible<const Value &, bytes>::value,
                  "a field is nullptr, an integer, an enumerator, a text, bytes, a time, a duration, or a std::pair, "
                  "tuple, vector, array, span, optional or path, but of no derived class: cast it to that");
    static void add(::rapidhash_stream *state, bytes value) noexcept
    {
        ::rapidhash_key_bytes(state, value.data(), value.size());
    }
};

template <class Value> void add_field(::rapidhash_stream *state, const Value &value) noexcept
{
    field<typename std::remove_cv<Value>::type>::add(state, value);
}

template <> struct field<std::nullptr_t> {
    static void add(::rapidhash_stream *state, std::nullptr_t) noexcept { ::rapidhash_key_nothing(state); }
};

/* The type of an integer or an enumerator. A wchar_t of 32 bits, and an enumerator of it or of char, has a sign on each
 * machine, although the types have not. */
template <class Integer, bool = std::is_enum<Integer>::value> struct integer_of { using type = Integer; };
template <class Integer> struct integer_of<Integer, true> {
    using base = typename std::underlying_type<Integer>::type;
    using type = typename std::conditional<std::is_same<base, char>::value, signed char,
                                           typename integer_of<base>::type>::type;
};
template <> struct integer_of<wchar_t, false> { using type = std::int32_t; };

template <class Integer>
struct field<Integer, typename std::enable_if<std::is_integral<Integer>::value || std::is_enum<Integer>::value>::type> {
    static_assert(sizeof(Integer) <= 8, "an integer of a key has at most 64 bits");
    static_assert(!std::is_same<Integer, char>::value,
                  "a char has a sign on some machines alone: cast it to an unsigned char, or pass a text");
    static void add(::rapidhash_stream *state, Integer value) noexcept
    {
        using type = typename integer_of<Integer>::type;
        ::rapidhash_key_integer(state, static_cast<std::int64_t>(static_cast<type>(value)));
    }
};

template <class First, class Second> struct field<std::pair<First, Second>> {
    static void add(::rapidhash_stream *state, const std::pair<First, Second> &value) noexcept
    {
        rapidhash::add_field(state, value.first);
        rapidhash::add_field(state, value.second);
    }
};

template <class... Values> struct field<std::tuple<Values...>> {
    template <std::size_t At>
    using from = std::integral_constant<std::size_t, At>;

    static void add(::rapidhash_stream *, const std::tuple<Values...> &, from<sizeof...(Values)>) noexcept {}
    template <std::size_t At>
    static void add(::rapidhash_stream *state, const std::tuple<Values...> &value, from<At>) noexcept
    {
        rapidhash::add_field(state, std::get<At>(value));
        add(state, value, from<At + 1>());
    }
    static void add(::rapidhash_stream *state, const std::tuple<Values...> &value) noexcept
    {
        add(state, value, from<0>());
    }
};

/* Appends the items of a list after their number. */
template <class List> void add_list(::rapidhash_stream *state, const List &items) noexcept
{
    static_assert(!std::is_volatile<typename std::remove_reference<decltype(*items.begin())>::type>::value,
                  "a list of a key has no volatile items: copy them, perhaps into a vector");
    static_assert(!is_short<typename std::remove_cv<typename List::value_type>::type>::value,
                  "with -fshort-enums, name the type of an enumeration in a list, as enum class letter : char");
    ::rapidhash_key_integer(state, static_cast<std::int64_t>(items.size()));
    for (auto &&item : items)
        rapidhash::add_field<typename std::remove_cv<typename List::value_type>::type>(state, item);
}

/* Selects a list whose memory is not bytes. */
template <class List>
using if_list = typename std::enable_if<!std::is_convertible<const List &, bytes>::value>::type;

template <class Item, class Allocator>
struct field<std::vector<Item, Allocator>, if_list<std::vector<Item, Allocator>>> {
    static void add(::rapidhash_stream *state, const std::vector<Item, Allocator> &value) noexcept
    {
        rapidhash::add_list(state, value);
    }
};

template <class Item, std::size_t Size>
struct field<std::array<Item, Size>, if_list<std::array<Item, Size>>> {
    static void add(::rapidhash_stream *state, const std::array<Item, Size> &value) noexcept
    {
        rapidhash::add_list(state, value);
    }
};

#if __cplusplus >= 202002L
template <class Item, std::size_t Size>
struct field<std::span<Item, Size>, if_list<std::span<Item, Size>>> {
    static void add(::rapidhash_stream *state, const std::span<Item, Size> &value) noexcept
    {
        rapidhash::add_list(state, value);
    }
};
#endif

/* Returns the microseconds of a duration that has whole ones. Above 64 bits they are its two's complement. */
template <class Number, class Period>
std::int64_t to_microseconds(const std::chrono::duration<Number, Period> &value) noexcept
{
    static_assert(std::is_integral<Number>::value && std::is_signed<Number>::value && sizeof(Number) <= 8,
                  "a time or duration of a key has a signed integer of at most 64 bits: convert it by duration_cast");
    return static_cast<std::int64_t>(static_cast<std::uint64_t>(value.count())
                                     * static_cast<std::uint64_t>(std::ratio_divide<Period, std::micro>::num));
}

template <class Number, class Period> struct field<std::chrono::duration<Number, Period>> {
    static_assert(std::ratio_divide<Period, std::micro>::den == 1,
                  "a duration of a key has whole microseconds: round it by duration_cast<microseconds>");
    static void add(::rapidhash_stream *state, const std::chrono::duration<Number, Period> &value) noexcept
    {
        ::rapidhash_key_integer(state, to_microseconds(value));
    }
};

template <class Clock, class Duration> struct field<std::chrono::time_point<Clock, Duration>> {
    static_assert(std::is_same<Clock, std::chrono::system_clock>::value,
                  "a time of a key is of the system clock, which counts from 1970-01-01 in UTC: convert it");
    static_assert(std::ratio_divide<typename Duration::period, std::micro>::den == 1,
                  "a time of a key has whole microseconds, because other programs round it: cut it by "
                  "time_point_cast<microseconds>, or since C++17 by floor<microseconds>");
    static constexpr bool is_date = std::ratio_equal<typename Duration::period, std::ratio<86400>>::value;

    static void add(::rapidhash_stream *state, const std::chrono::time_point<Clock, Duration> &value) noexcept
    {
        const std::int64_t micros = to_microseconds(value.time_since_epoch());
        ::rapidhash_key_integer(state, is_date ? static_cast<std::int64_t>(value.time_since_epoch().count()) : micros);
    }
};

#if __cplusplus >= 201703L
template <class Value> struct is_compound : std::false_type {};
template <class Value> struct is_compound<std::optional<Value>> : std::true_type {};
template <class... Values> struct is_compound<std::pair<Values...>> : std::true_type {};
template <class... Values> struct is_compound<std::tuple<Values...>> : std::true_type {};
template <> struct is_compound<std::nullptr_t> : std::true_type {};

template <class Value> struct field<std::optional<Value>> {
    static_assert(!is_compound<typename std::remove_cv<Value>::type>::value,
                  "an optional field is itself no optional, pair, tuple or nullptr");
    static void add(::rapidhash_stream *state, const std::optional<Value> &value) noexcept
    {
        value ? rapidhash::add_field(state, *value) : rapidhash::add_field(state, nullptr);
    }
};

/* Returns UTF-16 as UTF-8. An unpaired surrogate, which a file name of Windows may contain, becomes the 3 bytes of its
 * number; u8string() would throw. */
template <class Text> std::string to_utf8(const Text &text)
{
    std::string utf8;
    for (std::size_t at = 0; at < text.size(); at++) {
        const std::uint32_t next = at + 1 < text.size() ? static_cast<std::uint16_t>(text[at + 1]) : 0U;
        std::uint32_t point = static_cast<std::uint16_t>(text[at]);
        if (point >> 10 == 0xd800 >> 10 && next >> 10 == 0xdc00 >> 10) {
            point = ((point & 0x3ff) << 10 | (next & 0x3ff)) + 0x10000;
            at++;
        }
        const int more = point < 0x80 ? 0 : point < 0x800 ? 1 : point < 0x10000 ? 2 : 3;
        utf8 += static_cast<char>((more ? 0xff00U >> (more + 1) & 0xffU : 0U) | point >> 6 * more);
        for (int bits = 6 * more; bits > 0;) utf8 += static_cast<char>(0x80 | (point >> (bits -= 6) & 0x3f));
    }
    return utf8;
}

/* Equal paths have equal elements but may have different texts, and so may a root directory of several separators. */
template <> struct field<std::filesystem::path> {
    static void add(::rapidhash_stream *state, const std::filesystem::path &value) noexcept
    {
        ::rapidhash_key_integer(state, std::distance(value.begin(), value.end()));
        for (const std::filesystem::path &element : value)
            if (element.has_root_directory())
                rapidhash::add_field(state, "/");
            else if constexpr (sizeof(std::filesystem::path::value_type) == 1)
                rapidhash::add_field(state, element.native());
            else
                rapidhash::add_field(state, rapidhash::to_utf8(element.native()));
    }
};
#endif

/* Returns the hash of a key of several fields, the same in every language. An integer of more than 63 bits is its two's
 * complement. Different keys are different messages. */
template <class Secrets, class... Fields, if_secrets<Secrets> = 0>
std::uint64_t key(const Secrets &own, const Fields &...fields) noexcept
{
    ::rapidhash_stream state;
    ::rapidhash_v3_start(&state, &own);
    const int in_order[] = {0, (rapidhash::add_field(&state, fields), 0)...};
    static_cast<void>(in_order);
    return ::rapidhash_stream_finish(&state);
}

template <class... Fields>
std::uint64_t key(seed start, const Fields &...fields) noexcept
{
    return rapidhash::key(seed_secrets(start), fields...);
}

template <class... Fields>
std::uint64_t key(const Fields &...fields) noexcept
{
    return rapidhash::key(seed(0), fields...);
}

/* Finds values that are neither a text nor bytes, or whose field a program has specialized. */
template <class Value, bool = std::is_convertible<const Value &, bytes>::value && !has_own_traits<Value>::value,
          class = void>
struct is_key : std::true_type {};
template <class Value>
struct is_key<Value, true, decltype(static_cast<void>(field<Value>::is_refused))> : std::false_type {};
template <class Value> using if_key = typename std::enable_if<is_key<Value>::value, int>::type;

/* Hashes the keys of an unordered container with the default seed and secrets: a text or bytes by hash, and every other
 * value, also one with a field of the program, by key. It has no state, so that a table is as small as with std::hash.
 * Every bit of a hash depends on each bit of the key, as is_avalanching tells other tables. */
class hasher {
public:
    using is_avalanching = void;

    RAPIDHASH_CONSTEXPR std::size_t operator()(bytes value) const noexcept
    {
        return static_cast<std::size_t>(rapidhash::hash(value));
    }
    template <class Value, if_key<Value> = 0>
    std::size_t operator()(const Value &value) const noexcept { return std::size_t(rapidhash::key(value)); }
};

/* The same with a seed word, or with a seed and secrets. If others choose the keys, make them from a random number:
 * std::unordered_set<std::string, rapidhash::seeded_hasher> names(
 *     0, rapidhash::seeded_hasher(rapidhash::make_secrets(number))); */
class seeded_hasher {
public:
    using is_avalanching = void;

    explicit seeded_hasher(seed start) noexcept : secrets_(seed_secrets(start)) {}
    template <class Secrets, if_secrets<Secrets> = 0>
    explicit seeded_hasher(const Secrets &own) noexcept : secrets_(own) {}

    std::size_t operator()(bytes value) const noexcept { return std::size_t(rapidhash::hash(value, secrets_)); }
    template <class Value, if_key<Value> = 0>
    std::size_t operator()(const Value &value) const noexcept { return std::size_t(rapidhash::key(secrets_, value)); }

private:
    secrets secrets_;
};

/* Hash texts and bytes alone. Since C++20, a container with std::equal_to<> finds a std::string by a string_view or a C
 * string, without a copy. Values of other types may be equal and have different hashes, such as a path and a text. */
template <class Hasher>
class basic_text_hasher : private Hasher {
public:
    using is_transparent = void;
    using is_avalanching = void;
    using Hasher::Hasher;

    RAPIDHASH_CONSTEXPR std::size_t operator()(bytes value) const noexcept { return Hasher::operator()(value); }
    template <class Value, typename std::enable_if<has_own_traits<Value>::value, int>::type = 0>
    std::size_t operator()(const Value &value) const = delete;
};

using text_hasher = basic_text_hasher<hasher>;
using seeded_text_hasher = basic_text_hasher<seeded_hasher>;

} /* namespace rapidhash */

#if defined(__GNUC__) && !defined(__clang__)
#pragma GCC diagnostic pop
#endif

#endif
