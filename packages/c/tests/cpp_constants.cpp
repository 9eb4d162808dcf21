/* Compares hashes that the compiler computes with those of the C header at run time, at every length up to 1,100 bytes.
 * This is the third file of the program of cpp_header.cpp, which also has the vectors. */
#include <rapidhash.hpp>

int differing_constants();
int number_of(const std::string &word);

#if __cplusplus >= 201703L
#include <string_view>
#include <utility>

static_assert(rapidhash::hash("hello") == 3327445792987248966, "a literal");
static_assert(rapidhash::hash(std::string_view("hello, world").substr(0, 5)) == 3327445792987248966, "a view");
static_assert(rapidhash::hash("") == 232177599295442350, "no bytes");
static_assert(rapidhash::hasher()("hello") == static_cast<std::size_t>(3327445792987248966), "a hasher");
static_assert(noexcept(rapidhash::constant::v3("", 0, 0, rapidhash::constant::default_secrets)), "it throws nothing");

static constexpr rapidhash::secrets own = {1, {2, 3, 5, 7, 11, 13, 17}};
static constexpr int most = 1100;

/* The bytes that all messages begin with. Each bit of a byte is set in some of them. */
struct text_of_the_test {
    char text[most];
    constexpr text_of_the_test() : text()
    {
        for (unsigned at = 0, number = 1; at < most; at++, number = number * 69069 + 1)
            text[at] = static_cast<char>(number >> 24 & 255);
    }
};
static constexpr text_of_the_test all;

/* Hashes of the first bytes: in turn with the default seed, with a seed word, and with secrets. */
template <std::size_t Length>
static constexpr std::uint64_t constant_of =
    Length % 3 == 0   ? rapidhash::hash(std::string_view(all.text, Length))
    : Length % 3 == 1 ? rapidhash::hash({&all.text[0], Length}, rapidhash::seed(~Length))
                      : rapidhash::hash({&all.text[0], Length}, own);

/* Returns the number of constants that differ from the value of a call of C, which is no constant. */
template <std::size_t... Lengths> static int differing(std::index_sequence<Lengths...>)
{
    static constexpr std::uint64_t constants[] = {constant_of<Lengths>...};
    int count = 0;
    for (std::size_t length = 0; length <= most; length++)
        count += constants[length] != (length % 3 == 0   ? rapidhash_v3(all.text, length)
                                       : length % 3 == 1 ? rapidhash_v3_with_seed(all.text, length, ~length)
                                                         : rapidhash_v3_with_secrets(all.text, length, &own));
    return count;
}

int differing_constants() { return differing(std::make_index_sequence<most + 1>()); }

/* Returns the number of a word by a switch over hashes. */
int number_of(const std::string &word)
{
    switch (rapidhash::hash(word)) {
    case rapidhash::hash("one"): return 1;
    case rapidhash::hash("two"): return 2;
    default: return 0;
    }
}
#else
int differing_constants() { return 0; }
int number_of(const std::string &word) { return word == "one" ? 1 : word == "two" ? 2 : 0; }
#endif
