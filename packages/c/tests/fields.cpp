/* Replays the values of types by the types of C++: c++ fields.cpp && ./a.out <fields.tsv. Prints each line that
 * differs, and then the lines, with those that it passes over: lists of several types of items, or of others than
 * integers and texts without escapes, and refused values that a type of C++ cannot have. */
#include <rapidhash.hpp>

#include <cstdlib>
#include <cstring>
#include <iostream>
#include <sstream>
#include <stdexcept>
#include <string>
#include <unordered_set>
#include <vector>

using std::string;
using days = std::chrono::duration<int, std::ratio<86400>>;
using clock_of_days = std::chrono::time_point<std::chrono::system_clock, days>;
using clock_of_micros = std::chrono::time_point<std::chrono::system_clock, std::chrono::microseconds>;

static unsigned differing, passed;

/* Returns the bytes that hexadecimal digits are. */
static string bytes_of(const string &digits)
{
    string made;
    for (std::size_t at = 0; at < digits.size(); at += 2)
        made += static_cast<char>(std::strtol(digits.substr(at, 2).c_str(), nullptr, 16));
    return made;
}

template <class Value> static void compare(const string &line, const Value &value, const string &encoding)
{
    const bool holds = encoding != "refused" && rapidhash::key(value) == rapidhash::hash(bytes_of(encoding));
    if (!holds && differing++ < 20)
        std::cout << "FAILED " << line.substr(0, 100) << "\n";
}

static void expect(const string &what, bool holds)
{
    if (!holds && differing++ < 20)
        std::cout << "FAILED " << what << "\n";
}

/* Returns the integer of an encoding, for types that have no text in C++11. */
static std::int64_t integer_of(const string &encoding)
{
    std::uint64_t number = 0;
    for (std::size_t at = 8; at > 0; at--)
        number = number << 8 | static_cast<unsigned char>(bytes_of(encoding)[at]);
    return static_cast<std::int64_t>(number);
}

static void compare_integer(const string &line, const string &value, const string &encoding)
{
    if (value[0] == '-')
        compare(line, static_cast<std::int64_t>(std::strtoll(value.c_str(), nullptr, 10)), encoding);
    else
        compare(line, static_cast<std::uint64_t>(std::strtoull(value.c_str(), nullptr, 10)), encoding);
}

/* Compares a list of integers below 2^63, or of texts, and passes over another list. */
static void compare_list(const string &line, const string &value, const string &encoding)
{
    const bool is_text = value.find('"') != string::npos, is_other = value.find_first_of("\\nft", 1) != string::npos;
    std::vector<std::int64_t> integers;
    std::vector<string> texts;
    std::istringstream items(value.substr(1, value.size() - 2));
    bool is_mixed = is_other || encoding == "refused" || value.find("18446744073709551615") != string::npos;

    for (string item; std::getline(items, item, ',');) {
        is_mixed = is_mixed || (item[0] == '"') != is_text;
        integers.push_back(std::strtoll(item.c_str(), nullptr, 10));
        texts.push_back(item.size() < 2 ? "" : item.substr(1, item.size() - 2));
    }
    if (is_mixed && !(is_text && value == "[\"a\",\"bc\"]"))
        passed++;
    else if (is_text)
        compare(line, texts, encoding);
    else
        compare(line, integers, encoding);
}

/* Compares a value that a text can have or not: a decimal, or the bytes of a UUID. */
template <class Value> static void compare_read(const string &line, const string &value, const string &encoding)
{
    Value made = Value(), other = made;
    if (rapidhash::from_text(value, made))
        compare(line, made, encoding);
    else
        expect(line, encoding == "refused" && made == other);
}

static void compare_float(const string &line, const string &value, const string &encoding)
{
    std::int64_t bits = 7;
    if (rapidhash::float_bits(std::strtod(value.c_str(), nullptr), bits))
        compare(line, bits, encoding);
    else
        expect(line, encoding == "refused" && bits == 7);
}

static void replay(const string &line, const string &type, const string &value, const string &encoding)
{
    if (value == "null")
        compare(line, nullptr, encoding);
    else if (type == "decimal")
        compare_read<rapidhash::decimal>(line, value, encoding);
    else if (type == "uuid")
        compare_read<std::array<std::uint8_t, 16>>(line, value, encoding);
    else if (type == "float")
        compare_float(line, value, encoding);
    else if (type == "list")
        compare_list(line, value, encoding);
    else if (encoding == "refused")
        passed++;
    else if (type == "boolean")
        compare(line, value == "true", encoding);
    else if (type == "integer")
        compare_integer(line, value, encoding);
    else if (type == "date")
        compare(line, clock_of_days(days(static_cast<int>(integer_of(encoding)))), encoding);
    else
        compare(line, clock_of_micros(std::chrono::microseconds(integer_of(encoding))), encoding);
}

/* Checks what throws, and decimals in a table. */
static void check_types()
{
    const std::unordered_set<rapidhash::decimal, rapidhash::hasher> prices = {
        rapidhash::decimal("1.50"), rapidhash::decimal("+15e-1"), rapidhash::decimal("-0"), rapidhash::decimal()};
    bool is_thrown = false;

    expect("decimals in a set", prices.size() == 2 && prices.count(rapidhash::decimal("1.5")) == 1);
    std::array<std::uint8_t, 16> bytes = {{}};
    for (const char *text : {"00112233_4455-6677-8899-aabbccddeeff", "00112233-4455-6677-88990aabbccddeeff",
                             "001122334455-6677-8899-aabbccddeeff-", "00112233-4455-6677-8899-aabbccddeef",
                             "00112233-4455-6677-8899-aabbccddeeff0", "-0112233-4455-6677-8899-aabbccddeeff"})
        expect(text, !rapidhash::from_text(text, bytes) && bytes[15] == 0);
    expect("the text of a decimal", rapidhash::decimal("-1e3").text() == "-1000");
    expect("decimals that differ", rapidhash::decimal("1") != rapidhash::decimal("-1"));
    expect("bits of a float", rapidhash::float_bits(1.5F) == rapidhash::float_bits(1.5));
    const std::uint32_t small[] = {1, 3, 0x7fffff, 0x80000001};
    const std::uint64_t wanted[] = {0x36a0000000000000, 0x36b8000000000000, 0x380fffffc0000000, 0xb6a0000000000000};
    for (std::size_t at = 0; at < 4; at++) {
        float number;
        std::memcpy(&number, &small[at], sizeof number);
        expect("bits of a small float", rapidhash::float_bits(number) == static_cast<std::int64_t>(wanted[at]));
    }
#if defined(__cpp_exceptions) || defined(__EXCEPTIONS)
    try {
        rapidhash::decimal refused("1.5.");
    } catch (const std::invalid_argument &) {
        is_thrown = true;
    }
    expect("no decimal", is_thrown);
    try {
        is_thrown = rapidhash::float_bits(std::strtod("nan", nullptr)) == 0;
    } catch (const std::invalid_argument &) {
        is_thrown = false;
    }
    expect("NaN", !is_thrown);
#endif
}

int main()
{
    unsigned lines = 0;
    for (string line; std::getline(std::cin, line);) {
        const std::size_t first = line.find('\t'), second = line.rfind('\t');
        if (line[0] == '#' || line.compare(0, 5, "type\t") == 0)
            continue;
        replay(line, line.substr(0, first), line.substr(first + 1, second - first - 1), line.substr(second + 1));
        lines++;
    }
    check_types();
    expect("lines", lines > 400 && passed < 80);
    std::cout << lines << " lines, " << passed << " of them passed over: " << differing << " failures\n";
    return differing != 0;
}
