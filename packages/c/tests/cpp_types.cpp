/* Checks the types of rapidhash.hpp. This is the second file of the program of cpp_header.cpp, so that a function of a
 * header that is not inline is defined twice. */
#include <rapidhash.hpp>

#include <string>
#include <type_traits>
#include <unordered_set>
#include <utility>
#include <vector>

using namespace rapidhash;
template <class From, class To> using converts = std::is_convertible<From, To>;
extern const secrets own;
extern const char of_any_length[];
extern const unsigned char bytes_of_any_length[];
const char of_any_length[] = "hello";

/* Finds whether hash can be called with a text and a number, which could be its length or a seed. */
template <class Number, class = void> struct takes_a_number : std::false_type {};
template <class Number>
struct takes_a_number<Number, decltype(void(hash("hello", std::declval<Number>())))> : std::true_type {};
static_assert(takes_a_number<seed>::value, "the test sees a call that compiles");
static_assert(!takes_a_number<int>::value && !takes_a_number<std::size_t>::value, "a number is no length of a text");

/* Only a range of bytes converts to bytes, and a length does not convert to a seed. */
static_assert(!converts<std::wstring, bytes>::value, "a wide string is no bytes");
static_assert(!converts<std::vector<std::uint16_t>, bytes>::value, "numbers of 16 bits are no bytes");
static_assert(!converts<std::nullptr_t, bytes>::value, "nothing is no text");
static_assert(!converts<volatile char *, bytes>::value && !converts<const volatile unsigned char (&)[2], bytes>::value,
              "volatile bytes are not read");
static_assert(converts<decltype((of_any_length)), bytes>::value
                  && !converts<decltype((bytes_of_any_length)), bytes>::value,
              "an array of no known length is a C string");
static_assert(!converts<int, seed>::value, "a number is no seed");
static_assert(std::is_copy_assignable<stream>::value, "a stream can be copied");
static_assert(!converts<seed, seeded_hasher>::value && !converts<secrets, seeded_hasher>::value
                  && !converts<seed, stream>::value && !converts<secrets, stream>::value,
              "a seed is neither a hasher nor a stream");
static_assert(std::is_same<decltype(stream().update("").update("", 0)), stream &>::value, "update copies no stream");
static_assert(seed(7).word == 7, "a seed can be a constant");
static_assert(std::is_empty<hasher>::value && sizeof(std::unordered_set<std::string, hasher>)
                  == sizeof(std::unordered_set<std::string>), "a table is as small as with std::hash");
static_assert(!std::is_default_constructible<seeded_hasher>::value, "a seeded hasher has a seed");
static_assert(std::is_void<hasher::is_avalanching>::value && std::is_void<seeded_hasher::is_avalanching>::value
                  && std::is_void<text_hasher::is_avalanching>::value,
              "other tables need not mix a hash");

/* A container with std::equal_to<> must not look up a value that is equal and has another hash. */
template <class Hasher, class = void> struct is_transparent : std::false_type {};
template <class Hasher>
struct is_transparent<Hasher, typename std::enable_if<std::is_void<typename Hasher::is_transparent>::value>::type>
    : std::true_type {};
template <class Value, class = void> struct takes : std::false_type {};
template <class Value>
struct takes<Value, decltype(void(text_hasher()(std::declval<Value>())))> : std::true_type {};
static_assert(is_transparent<text_hasher>::value && is_transparent<seeded_text_hasher>::value
                  && !is_transparent<hasher>::value && !is_transparent<seeded_hasher>::value
                  && takes<const char *>::value && takes<std::string>::value && !takes<int>::value,
              "texts alone are looked up as other types");
static_assert(std::is_empty<text_hasher>::value && !noexcept(to_hex(1)), "a hash of texts has no state");
static_assert(noexcept(hasher()(std::string())) && noexcept(text_hasher()("")) && noexcept(seeded_hasher(seed(1))(""))
                  && noexcept(seeded_hasher(own)({"", 0}))
                  && noexcept(hash("")) && noexcept(hash({bytes("").data(), 0}, own))
                  && noexcept(bytes("").size())
                  && noexcept(hash("", seed_secrets(seed(make_secrets(1).seed))))
                  && noexcept(hash("", seed(1))) && noexcept(stream(stream())) && noexcept(stream().reset())
                  && noexcept(stream(seed(1)) = stream(own)) && noexcept(stream().update("").update("", 0).finish())
                  && noexcept(from_canonical(to_canonical(1)))
                  && noexcept(shard(1, first_hash(1, bucket(1, 2))))
                  && noexcept(fingerprint(nullptr, 0) + fingerprint(std::array<std::uint64_t, 2>()))
                  && noexcept(from_hex("", std::declval<std::uint64_t &>())),
              "a hash throws nothing");
