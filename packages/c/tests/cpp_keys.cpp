/* Checks keys and hashers of rapidhash.hpp by fields of each type. This is a file of the program of cpp_header.cpp. The
 * values are those of tests/model.py; some are in crates/test_replay/data/cases.tsv too. */
#include <rapidhash.hpp>

#include <array>
#include <chrono>
#include <numeric>
#include <unordered_map>
#include <unordered_set>
#include <vector>
#if __cplusplus >= 201703L
#include <string_view>
#endif

void compare(const std::string &name, std::uint64_t value, std::uint64_t known);
void check_keys();

namespace {

enum class port : std::uint16_t { of_tests = 4711 };
enum plain { minus_five = -5 };
enum class letter : char {};
enum class wide : wchar_t {};

struct point {
    int x, y, z;
};

/* A text that a program compares in its own way, here by its length. */
struct any_text : std::string { using std::string::string; };

/* Functions of a program that the header must not call instead of its own. */
template <class Any> std::uint64_t key(const Any &) { return 0; }
template <class Any> std::uint64_t key(const rapidhash::secrets &, const Any &) { return 0; }
template <class Any> void add_field(::rapidhash_stream *, const Any &) {}
template <class Any> void add_list(::rapidhash_stream *, const std::vector<Any> &) {}

/* Compares a hash by the default seed, and by seed word 7. Both are cut to the size of a word of the machine. */
template <class Value>
void compare_hashers(const std::string &name, const Value &value, std::uint64_t known, std::uint64_t seeded)
{
    compare(name, rapidhash::hasher()(value), static_cast<std::size_t>(known));
    compare(name + " with a seed", rapidhash::seeded_hasher(rapidhash::seed(7))(value),
            static_cast<std::size_t>(seeded));
    compare(name + " as a key", rapidhash::key(value), known);
}

} /* namespace */

namespace rapidhash {
template <> struct field<point> {
    static void add(::rapidhash_stream *state, const point &value) noexcept
    {
        for (int coordinate : {value.x, value.y, value.z}) add_field(state, coordinate);
    }
};
template <> struct field<any_text> {
    static void add(::rapidhash_stream *state, const any_text &value) noexcept { add_field(state, value.size()); }
};
} /* namespace rapidhash */

static void check_hashers()
{
    using std::make_pair;
    const std::string user = "user";

    compare_hashers("an integer", 4711, 17387702299298608986U, 3930916115193605498U);
    compare_hashers("an integer of 64 bits", std::uint64_t(4711), 17387702299298608986U, 3930916115193605498U);
    compare_hashers("an integer of 8 bits", static_cast<unsigned char>(200), 2158476182241621136U, 812482810406273927U);
    compare_hashers("an enumerator", port::of_tests, 17387702299298608986U, 3930916115193605498U);
    compare_hashers("an enumerator of a plain type", minus_five, 7077718965458860014U, 12242059137079312251U);
    const wchar_t wide_minus_five = static_cast<wchar_t>(-5);
    const int as_integer = sizeof(wchar_t) == 4 ? -5 : 65531;
    compare("a wide character", rapidhash::key(wide_minus_five), rapidhash::key(as_integer));
    compare("an enumerator of it", rapidhash::key(static_cast<wide>(wide_minus_five)), rapidhash::key(as_integer));
    compare_hashers("an enumerator of char", static_cast<letter>('\xfb'), 7077718965458860014U, 12242059137079312251U);
    compare_hashers("a truth value", false, 2551358084531978446U, 10397672620287050828U);
    compare_hashers("nothing", nullptr, 5702620981742189058U, 9713595378912556722U);
    compare_hashers("a pair", make_pair(user, 4711), 16744121781784268497U, 2625609725954621428U);
    compare_hashers("a constant pair", std::pair<const std::string, const long>(user, 4711), 16744121781784268497U,
                    2625609725954621428U);
    compare_hashers("a tuple", std::make_tuple(user, port::of_tests, nullptr), 14742763072502883419U,
                    4558979304646042975U);
    compare_hashers("a tuple of references", std::tie(user, user), rapidhash::key("user", "user"),
                    rapidhash::key(rapidhash::seed(7), "user", "user"));
    compare_hashers("an empty tuple", std::tuple<>(), 232177599295442350U, rapidhash::key(rapidhash::seed(7)));
    compare_hashers("a pair in a pair", make_pair(1, make_pair(2, 3)), 6441087399367438507U, 8866160986004792078U);
    compare_hashers("a text of a program", any_text(4711, 'a'), 17387702299298608986U, 3930916115193605498U);
    compare_hashers("a type of a program", point{1, 2, 3}, 6441087399367438507U, 8866160986004792078U);
#if __cplusplus >= 201703L
    compare_hashers("an optional", std::optional<int>(4711), 17387702299298608986U, 3930916115193605498U);
    compare_hashers("an empty optional", std::optional<std::string>(), 5702620981742189058U, 9713595378912556722U);
    compare_hashers("an empty optional of bool", std::optional<bool>(), 5702620981742189058U, 9713595378912556722U);
    compare_hashers("an optional of false", std::optional<bool>(false), rapidhash::key(0),
                    rapidhash::key(rapidhash::seed(7), 0));
    compare_hashers("a pair of optionals", make_pair(std::optional<int>(), std::optional<int>(4711)),
                    5737980471343670974U, 14629814074638691538U);
#endif
}

/* Checks lists of items, and vectors and arrays of bytes, which are no lists. */
static void check_lists()
{
    using std::make_pair;
    const std::vector<unsigned char> bytes = {1, 2, 3};
    const std::vector<std::vector<int>> lists = {{1, 2}, {3}};
    const std::vector<std::pair<std::string, long>> pairs = {{"user", 4711}, {"", -5}};
    const std::array<bool, 3> truths = {{true, false, true}};
    const std::array<const std::pair<int, int>, 1> constant = {{{2, 3}}};
    std::vector<int> many(300);
    std::iota(many.begin(), many.end(), 0);

    compare_hashers("a vector", std::vector<short>{1, 2, 3}, 5274283684956059766U, 8846790870064972352U);
    compare_hashers("an array", std::array<const std::uint64_t, 3>{{1, 2, 3}}, 5274283684956059766U,
                    8846790870064972352U);
    compare_hashers("an empty vector", std::vector<int>(), 2551358084531978446U, 10397672620287050828U);
    compare_hashers("an empty array", std::array<int, 0>(), 2551358084531978446U, 10397672620287050828U);
    compare_hashers("a vector of bool", std::vector<bool>{true, false, true}, 296724802962120459U,
                    7868970583480082777U);
    compare_hashers("an array of bool", truths, 296724802962120459U, 7868970583480082777U);
    compare_hashers("a vector of texts", std::vector<std::string>{"user", ""}, 3107895578776183965U,
                    12594252446880725228U);
    compare_hashers("a vector of vectors", lists, 16365743134400273687U, 17557123899752749624U);
    compare_hashers("a vector of pairs", pairs, 4633099409459385466U, 10745796545195027368U);
    compare_hashers("a vector of 300 integers", many, 3262792477141326892U, 58619643111436865U);
    compare_hashers("a vector of ports", std::vector<port>{port::of_tests}, rapidhash::key(1, 4711),
                    rapidhash::key(rapidhash::seed(7), 1, 4711));
    compare("an array of constant pairs", rapidhash::key(constant), rapidhash::key(1, 2, 3));
    compare("a list in a key", rapidhash::key(std::vector<int>{1, 2}, std::vector<int>{3}),
            rapidhash::key(2, 1, 2, 1, 3));
    const unsigned char array[] = {1, 2, 3};
    const char *const text = "user";
    volatile int changing = 4711;
    compare("a vector of bytes", rapidhash::key(bytes), 15013185985414520456U);
    compare("an array of C", rapidhash::key(array), 15013185985414520456U);
    compare("a C string", rapidhash::key(text), 3380280911089133350U);
    compare("a volatile integer", rapidhash::key(changing), 17387702299298608986U);
    compare("an array of bytes", rapidhash::key(std::array<signed char, 3>{{1, 2, 3}}), 15013185985414520456U);
    compare("the hash of a vector of bytes", rapidhash::hasher()(bytes),
            static_cast<std::size_t>(1935367403401278886U));
#if __cplusplus >= 201703L
    const std::array<std::byte, 3> three = {{std::byte(1), std::byte(2), std::byte(3)}};
    compare("an array of std::byte", rapidhash::key(three), 15013185985414520456U);
    compare_hashers("a vector of optionals", std::vector<std::optional<int>>(1), 15989114710758558975U,
                    6381286949908111888U);
    compare_hashers("an optional vector", std::optional<std::vector<int>>({1, 2, 3}), 5274283684956059766U,
                    8846790870064972352U);
    compare_hashers("an empty optional vector", std::optional<std::vector<int>>(), 5702620981742189058U,
                    9713595378912556722U);
#endif
#if __cplusplus >= 202002L
    const int numbers[] = {1, 2, 3};
    compare_hashers("a span", std::span(numbers), 5274283684956059766U, 8846790870064972352U);
    compare("a span of bytes", rapidhash::key(std::span(bytes)), 15013185985414520456U);
#endif
}

/* Checks times, dates and durations. The time is 2026-11-29 03:04:05.678901 in UTC. */
static void check_times()
{
    using namespace std::chrono;
    using time = std::chrono::system_clock;
    using days_of_c11 = duration<int, std::ratio<86400>>;
    using weeks_of_c11 = duration<int, std::ratio<604800>>;
    const microseconds now(1795921445678901);

    compare_hashers("a time", time_point<time, microseconds>(now), 12441909187889453402U, 2776045618874950061U);
    compare_hashers("a microsecond before 1970", time_point<time, microseconds>(microseconds(-1)),
                    8262727485331911684U, 13414414892000826377U);
    compare_hashers("a time before that", time_point<time, microseconds>(microseconds(-2)), 6299518586499656803U,
                    290012365531764315U);
    compare_hashers("a time in seconds", time_point<time, seconds>(seconds(5400)), 1140894827498793034U,
                    5122025725715897668U);
    compare_hashers("a date", time_point<time, days_of_c11>(days_of_c11(20786)), 5326882408246747049U,
                    1226254199588022146U);
    compare_hashers("a date before 1970", time_point<time, days_of_c11>(days_of_c11(-1)), 8262727485331911684U,
                    13414414892000826377U);
    compare_hashers("a date of 2100", time_point<time, days_of_c11>(days_of_c11(47482)), 17387444946565547109U,
                    17551301660944293196U);
    compare_hashers("a date of 1800", time_point<time, days_of_c11>(days_of_c11(-62091)), 11672669946971207733U,
                    2692211593521990345U);
    compare("a time in weeks", rapidhash::key(time_point<time, weeks_of_c11>(weeks_of_c11(1))),
            rapidhash::key(hours(168)));
    compare_hashers("a duration in minutes", minutes(90), 1140894827498793034U, 5122025725715897668U);
    compare_hashers("a duration in microseconds", microseconds(-1), 8262727485331911684U, 13414414892000826377U);
    compare_hashers("a duration in days", days_of_c11(3), 13367503737575725187U, 14921215492117392322U);
    compare_hashers("the same in hours", hours(72), 13367503737575725187U, 14921215492117392322U);
    compare("the time of the clock", rapidhash::key(time_point_cast<microseconds>(time::time_point(seconds(5400)))),
            1140894827498793034U);
#if __cplusplus >= 202002L && defined(__cpp_lib_chrono) && __cpp_lib_chrono >= 201907L
    compare_hashers("a calendar date", sys_days(year(2026) / 11 / 29), 5326882408246747049U, 1226254199588022146U);
#endif
}

static void check_tables_of_values()
{
    std::unordered_map<std::pair<std::string, int>, int, rapidhash::hasher> counts;
    std::unordered_set<std::tuple<int, int>, rapidhash::seeded_hasher> seeded(
        0, rapidhash::seeded_hasher(rapidhash::make_secrets(1)));

    for (int number = 0; number < 1000; number++) {
        counts[std::make_pair("user", number % 100)]++;
        seeded.insert(std::make_tuple(number, -number));
    }
    compare("pairs in a map", counts.size(), 100);
    compare("a pair in a map", static_cast<std::uint64_t>(counts[std::make_pair("user", 77)]), 10);
    compare("tuples in a set", seeded.size(), 1000);
    compare("a tuple that is not there", seeded.count(std::make_tuple(1, 1)), 0);
}

/* Checks that paths have equal hashes if and only if they are equal. */
static void check_paths()
{
#if __cplusplus >= 201703L
    using std::filesystem::path;
    std::vector<path> paths;

    compare_hashers("a path", path("a/b"), 5202109186597098771U, 474524611879222922U);
    compare_hashers("a path with a double separator", path("a//b"), 5202109186597098771U, 474524611879222922U);
    compare_hashers("a path of a directory", path("a/"), 17023329294646540568U, 10367494501462004303U);
    compare_hashers("an absolute path", path("/a"), 12437492058980502919U, 11125785741845916570U);
    compare_hashers("an empty path", path(), 2551358084531978446U, 10397672620287050828U);
    compare_hashers("an optional path", std::optional<path>("user"), 4577825560782533357U, 16994940450081834038U);
    for (const char *text : {"", "/", "//", "a", "a/", "a//", "/a", "//a", "///a", "a/b", "a//b", "a/./b", "./a", "ab",
                             "a/b/"})
        paths.push_back(text);
    for (const path &one : paths)
        for (const path &other : paths)
            compare("paths " + one.string() + " and " + other.string(),
                    rapidhash::hasher()(one) == rapidhash::hasher()(other), one == other);
    const std::u16string halves = {0xd83d, 0xde00, 0xde00, 0xd83d, 0x7f, 0xd83d};
    const std::string texts[] = {"", "a\x7f\u0080\u07ff\u0800\uffff\U00010000\U0010ffff",
                                 "\U0001f600\xed\xb8\x80\xed\xa0\xbd\x7f\xed\xa0\xbd"};
    compare("an empty name in UTF-16", rapidhash::to_utf8(std::u16string()) == texts[0], 1);
    compare("a name in UTF-16",
            rapidhash::to_utf8(std::u16string(u"a\x7f\u0080\u07ff\u0800\uffff\U00010000\U0010ffff")) == texts[1], 1);
    compare("unpaired surrogates", rapidhash::to_utf8(halves) == texts[2], 1);
#endif
}

void check_keys()
{
    const std::string user = "user";
    const std::uint64_t hash_of_user = 14742763072502883419U;

    compare("no field", rapidhash::key(), 232177599295442350U);
    compare("a key", rapidhash::key(user, 4711, nullptr), hash_of_user);
    compare("a key of other types", rapidhash::key("user", std::uint64_t(4711), nullptr), hash_of_user);
    compare("a key with a seed", rapidhash::key(rapidhash::seed(7), user, short(4711), nullptr), 4558979304646042975U);
    compare("a key with secrets", rapidhash::key(rapidhash::make_secrets(42), user, 4711L, nullptr),
            889031379977575174U);
    compare("a negative integer", rapidhash::key(-1), 8262727485331911684U);
    compare("an integer of 64 bits", rapidhash::key(std::uint64_t(1) << 63), 5746365357831264740U);
#if __cplusplus >= 201703L
    const std::optional<std::string> name = user;
    compare("optional fields", rapidhash::key(name, std::optional<int>(4711), std::optional<long>()), hash_of_user);
#endif
    check_hashers();
    check_lists();
    check_times();
    check_tables_of_values();
    check_paths();
}
