/* Calls everything in rapidhash.hpp and compares the results with those of the Rust crate rapidhash 4.5.1. Prints each
 * value that differs. The last line counts the values, and the exit status is 1 if one differs. cases.cpp has more. */
#include <rapidhash.hpp>

#include <algorithm>
#include <cstdio>
#include <cstdlib>
#include <fstream>
#include <functional>
#include <iterator>
#include <memory>
#include <numeric>
#include <sstream>
#include <unordered_map>
#include <unordered_set>
#include <vector>
#if __cplusplus >= 201703L
#include <string_view>
#endif
#if __cplusplus >= 202002L
#include <span>
#endif

/* The other files of the program: cpp_constants.cpp and cpp_keys.cpp. */
int differing_constants();
int number_of(const std::string &word);
void check_keys();

extern const char of_any_length[]; /* of cpp_types.cpp */
static int passed, failed;

void compare(const std::string &name, std::uint64_t value, std::uint64_t known);
void compare(const std::string &name, std::uint64_t value, std::uint64_t known)
{
    if (value == known) {
        passed++;
    } else {
        failed++;
        std::printf("FAILED %s: %llu, and %llu is right\n", name.c_str(), static_cast<unsigned long long>(value),
                    static_cast<unsigned long long>(known));
    }
}

static const std::uint64_t hash_of_hello = 3327445792987248966U;
static const rapidhash::secrets own = {1, {2, 3, 5, 7, 11, 13, 17}};

/* Returns the bytes 0 to 119. */
static std::vector<unsigned char> counted()
{
    std::vector<unsigned char> message(120);

    std::iota(message.begin(), message.end(), 0);
    return message;
}

static void check_texts()
{
    const std::string text = "hello";
    const std::vector<signed char> vector(text.begin(), text.end());
    const std::array<unsigned char, 5> array = {{'h', 'e', 'l', 'l', 'o'}};

    const char unterminated[5] = {'h', 'e', 'l', 'l', 'o'};
    const char *const pointer = text.c_str();
    char buffer[16] = "hello";
    const unsigned char octets[8] = {'h', 'e', 'l', 'l', 'o'};

    compare("a literal", rapidhash::hash("hello"), hash_of_hello);
    compare("an array that no zero ends", rapidhash::hash(unterminated), hash_of_hello);
    compare("a buffer", rapidhash::hash(buffer), hash_of_hello);
    compare("a buffer of bytes", rapidhash::hash(octets), 11466462472174515294U);
    compare("a text of UTF-8", rapidhash::hash(u8"hello"), hash_of_hello);
    compare("a C string of UTF-8", rapidhash::hash(&u8"hello"[0]), hash_of_hello);
    compare("a part of a text of UTF-8", rapidhash::hash({u8"hello, world", 5}), hash_of_hello);
    compare("a C string", rapidhash::hash(pointer), hash_of_hello);
    compare("a text of another file", rapidhash::hash(of_any_length), hash_of_hello);
    compare("its field", rapidhash::key(of_any_length), rapidhash::key("hello"));
    compare("its hash in a table", rapidhash::hasher()(of_any_length), static_cast<std::size_t>(hash_of_hello));
    compare("a string", rapidhash::hash(text), hash_of_hello);
    compare("a vector", rapidhash::hash(vector), hash_of_hello);
    compare("an array", rapidhash::hash(array), hash_of_hello);
    compare("a pointer and a length", rapidhash::hash({"hello, world", 5}), hash_of_hello);
    compare("a part of a string", rapidhash::hash({text.data(), 5}), hash_of_hello);
    compare("no bytes", rapidhash::hash(std::string()), 232177599295442350U);
    compare("no bytes at no address", rapidhash::hash({nullptr, 0}), 232177599295442350U);
#if __cplusplus >= 201703L
    compare("a view", rapidhash::hash(std::string_view("hello, world").substr(0, 5)), hash_of_hello);
    const std::array<std::byte, 5> plain = {{std::byte{0x68}, std::byte{0x65}, std::byte{0x6c}, std::byte{0x6c},
                                             std::byte{0x6f}}};
    compare("an array of std::byte", rapidhash::hash(plain), hash_of_hello);
#endif
#if __cplusplus >= 202002L
    compare("a span", rapidhash::hash(std::as_bytes(std::span(text))), hash_of_hello);
    compare("a view of UTF-8", rapidhash::hash(std::u8string_view(u8"hello")), hash_of_hello);
#endif
}

static void check_constants()
{
    compare("constants that differ", static_cast<std::uint64_t>(differing_constants()), 0);
    compare("words by a switch", static_cast<std::uint64_t>(100 * number_of("one") + 10 * number_of("two")
                                                            + number_of("three")), 120);
}

/* Returns the hash of the bytes 0 to 119 and hello by a function of C. */
static std::uint64_t of_counted_and_hello(
    std::uint64_t (*function)(const void *, std::size_t, const rapidhash::secrets *))
{
    std::vector<unsigned char> message = counted();

    for (const char letter : std::string("hello"))
        message.push_back(static_cast<unsigned char>(letter));
    return function(message.data(), message.size(), &own);
}

static void check_defaults()
{
    compare("a hasher", rapidhash::hasher()("hello"), static_cast<std::size_t>(hash_of_hello));
    compare("a stream", rapidhash::stream().update("hel").update("lo!", 2).finish(), hash_of_hello);
    compare("a stream of micro", rapidhash::micro_stream(own).update(counted()).update("hel").update("lo").finish(),
            of_counted_and_hello(rapidhash_v3_micro_with_secrets));
    compare("a stream of nano", rapidhash::nano_stream(own).update(counted()).update("hello").finish(),
            of_counted_and_hello(rapidhash_v3_nano_with_secrets));
}

/* Checks that a copy has its own secrets: the first stream gets other secrets and is then destroyed. A stream that is
 * assigned to itself keeps its message. */
static void check_copies()
{
    const std::vector<unsigned char> message = counted();
    const std::uint64_t known = rapidhash::hash(message, own);
    std::unique_ptr<rapidhash::stream> first(new rapidhash::stream(own));
    rapidhash::stream assigned;

    first->update(message.data(), 60);
    rapidhash::stream copy(*first);
    assigned = *first;
    const rapidhash::stream &same = assigned;
    assigned = same;
    *first = rapidhash::stream(rapidhash::seed(1)).update("other");
    first.reset();
    compare("a copied stream", copy.update(message.data() + 60, 60).finish(), known);
    compare("an assigned stream", assigned.update(message.data() + 60, 60).finish(), known);
    char buffer[RAPIDHASH_STREAM_SAVED];
    const auto saved = copy.save();
    std::copy(saved.begin(), saved.end(), buffer);
    compare("a stream from a buffer", assigned.restore(buffer) ? assigned.finish() : 0, known);
    assigned.reset();
    compare("a stream after a reset", assigned.update(message).finish(), known);
}

/* Checks that a moved stream has its own secrets: the place that it leaves gets others, and a vector that grows moves
 * its streams. */
static void check_moves()
{
    const std::vector<unsigned char> message = counted();
    rapidhash::stream source(own);
    std::vector<rapidhash::stream> streams;

    source.update(message.data(), 60);
    rapidhash::stream moved(std::move(source));
    source = rapidhash::stream(rapidhash::seed(1));
    compare("a moved stream", moved.update(message.data() + 60, 60).finish(), rapidhash::hash(message, own));
    for (std::uint64_t number = 0; number < 20; number++) {
        streams.emplace_back(rapidhash::make_secrets(number));
        streams.back().update(message.data(), 60);
    }
    for (std::uint64_t number = 0; number < 20; number++)
        compare("a stream in a vector",
                streams[static_cast<std::size_t>(number)].update(message.data() + 60, 60).finish(),
                rapidhash::hash(message, rapidhash::make_secrets(number)));
}

static void check_tables()
{
    std::unordered_map<std::string, int, rapidhash::hasher> counts;
    const rapidhash::seeded_hasher seeded(rapidhash::make_secrets(1));
    std::unordered_set<std::string, rapidhash::seeded_hasher> names(0, seeded);

    for (int number = 0; number < 1000; number++) {
        counts[std::to_string(number % 100)]++;
        names.insert(std::to_string(number));
    }
    compare("the keys of a map", counts.size(), 100);
    compare("a value of a map", static_cast<std::uint64_t>(counts["77"]), 10);
    compare("the keys of a set", names.size(), 1000);
    compare("a key that is not there", names.count("1000"), 0);
#if __cplusplus >= 202002L
    std::unordered_map<std::string, int, rapidhash::text_hasher, std::equal_to<>> found(counts.begin(), counts.end());
    std::unordered_set<std::string, rapidhash::seeded_text_hasher, std::equal_to<>> seeds(
        {"77"}, 0, rapidhash::seeded_text_hasher(rapidhash::seed(7)));
    compare("a key by a view", found.count(std::string_view("77")), 1);
    compare("a key by a text", static_cast<std::uint64_t>(found.find("77")->second), 10);
    compare("a key by a view with a seed", seeds.count(std::string_view("77")), 1);
#endif
}

static void check_stored()
{
    const std::array<unsigned char, 8> known = {{0x2e, 0x2d, 0x76, 0x51, 0xb4, 0x5f, 0x79, 0x46}};
    std::uint64_t read = 7;

    compare("bytes", rapidhash::to_canonical(hash_of_hello) == known && rapidhash::to_canonical(~0ULL)[0] == 255, 1);
    compare("a hash of bytes", rapidhash::from_canonical(known), hash_of_hello);
    compare("digits", rapidhash::to_hex(0x0e2d7a115cd0b9f6U) == "0e2d7a115cd0b9f6", 1);
    for (const char *wrong : {"", "0e2d7a115cd0b9f", "0e2d7a115cd0b9f66", "0e2d7a115cd0b9fg", "0e2d7a115cd0b9f/",
                              "0e2d7a115cd0b9f:", "0e2d7a115cd0b9f@", "0e2d7a115cd0b9f`", "0e2d7a115cd0b9fG",
                              " 0e2d7a115cd0b9f", "0x2d7a115cd0b9f6"})
        compare(std::string("what are no digits: ") + wrong, rapidhash::from_hex(wrong, read), 0);
    compare("15 digits before another one", rapidhash::from_hex({"0e2d7a115cd0b9f6", 15}, read), 0);
    compare("the hash after that", read, 7);
    compare("a hash of digits", rapidhash::from_hex("0e2d7a115cd0b9f6", read) ? read : 0, 0x0e2d7a115cd0b9f6U);
    compare("16 zeros", rapidhash::from_hex("0000000000000000", read) ? read : 7, 0);
    compare("digits in upper case", rapidhash::from_hex(std::string("ABCDEF0123456789"), read) ? read : 0,
            0xabcdef0123456789U);
}

int main()
{
    check_texts();
    check_keys();
    check_constants();
    check_defaults();
    check_copies();
    check_moves();
    check_tables();
    check_stored();
    std::printf("%d passed, %d failed\n", passed, failed);
    return failed != 0;
}
