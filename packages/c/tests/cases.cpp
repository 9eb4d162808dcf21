/* Replays the cases of V3, of keys, of streams, and of what hashes decide by rapidhash.hpp: c++ cases.cpp && ./a.out
 * <cases.tsv. cases.c replays all cases by the header of C, and cpp_keys.cpp has keys of further types. */
#include <rapidhash.hpp>

#include <cstdio>
#include <cstdlib>
#include <iostream>
#include <memory>
#include <sstream>
#include <vector>

#if __cplusplus >= 201402L
/* Values of tests/model.py as constants. */
constexpr std::uint64_t of_rows[2] = {UINT64_C(0xfffffffffffffffe), 5};
static_assert(rapidhash::shard(3327445792987248966, 10) == 1 && rapidhash::first_hash(1, 10) == 1844674407370955162
                  && rapidhash::bucket(3327445792987248966, 10) == 4 && rapidhash::fingerprint(of_rows, 2) == 3,
              "what a hash decides is a constant");
#endif

using bytes = std::vector<unsigned char>;

static std::string row;
static unsigned replayed, differing;

static void expect(const char *what, bool holds)
{
    if (!holds && differing++ < 20)
        std::printf("FAILED %s: %.100s\n", what, row.c_str());
}

static std::uint64_t number(const std::string &text) { return std::strtoull(text.c_str(), nullptr, 10); }

static std::vector<std::uint64_t> numbers(const std::string &text, char between)
{
    std::istringstream words(text);
    std::vector<std::uint64_t> found;

    for (std::string word; std::getline(words, word, between);)
        if (word != "-")
            found.push_back(number(word));
    return found;
}

static bytes message_of(const std::string &digits)
{
    bytes found;

    if (digits.compare(0, 5, "ramp:") == 0)
        for (std::uint64_t at = 0; at < number(digits.substr(5)); at++)
            found.push_back(static_cast<unsigned char>(at % 251));
    else
        for (std::size_t at = 0; digits != "-" && at < digits.size(); at += 2)
            found.push_back(static_cast<unsigned char>(std::strtoul(digits.substr(at, 2).c_str(), nullptr, 16)));
    return found;
}

#if __cplusplus >= 201703L
/* Compute a hash at run time by the code of constants. */
static std::uint64_t by_constants(const std::string &text, const rapidhash::secrets &start)
{
    return rapidhash::constant::v3(text.data(), text.size(), start.seed, start.secrets);
}

static std::uint64_t by_constants(const std::string &text, rapidhash::seed start)
{
    return rapidhash::constant::v3(text.data(), text.size(), rapidhash::constant::seed_of(start.word),
                                   rapidhash::constant::default_secrets);
}
#endif

/* Compares a hash with a seed or secrets: whole, by a hasher, and in pieces of 1, 2, 3 bytes, and so on. */
template <class Start>
static void compare(const Start &start, const bytes &message, std::uint64_t known)
{
    const std::string text(message.begin(), message.end());
    rapidhash::stream pieces(start);

    expect("hash", rapidhash::hash(text, start) == known && rapidhash::hash(message, start) == known);
    expect("hasher", rapidhash::seeded_hasher(start)(text) == static_cast<std::size_t>(known));
#if __cplusplus >= 201703L
    expect("code of constants", by_constants(text, start) == known);
#endif
    for (std::size_t at = 0, size = 1; at < text.size(); at += size, size++)
        pieces.update(text.data() + at, size = size > text.size() - at ? text.size() - at : size);
    expect("in pieces", pieces.finish() == known);
}

/* Compares the hash of so many bytes of 0, which need no memory if nobody writes them, as a message or as a key. */
static void compare_zeros(std::uint64_t size, std::uint64_t known, bool is_key = false)
{
    const std::unique_ptr<void, void (*)(void *)> zeros(
        size <= SIZE_MAX ? std::calloc(static_cast<std::size_t>(size), 1) : nullptr, std::free);
    const rapidhash::bytes range(zeros.get(), static_cast<std::size_t>(zeros ? size : 0));

    if (zeros && is_key)
        expect("key of zeros", rapidhash::key(range) == known);
    else if (zeros)
        expect("zeros", rapidhash::hash(range) == known && rapidhash::hash(range, rapidhash::seed(0)) == known
                            && rapidhash::stream().update(range).finish() == known);
}

static rapidhash::secrets secrets_of(const std::string &rule)
{
    const std::vector<std::uint64_t> words = numbers(rule.substr(rule.find(':') + 1), ',');
    rapidhash::secrets own = {words[0], {}};

    if (rule.compare(0, 4, "own:") != 0)
        return rule[0] == 'm' ? rapidhash::make_secrets(words[0])
                              : rapidhash::seed_secrets(rapidhash::seed(rule == "default" ? 0 : words[0]));
    for (std::size_t at = 1; at < words.size(); at++)
        own.secrets[at - 1] = words[at];
    return own;
}

static void replay_hash(const std::string &rule, const std::string &argument, std::uint64_t known)
{
    std::uint64_t read = ~known;
    char digits[17];

    std::snprintf(digits, sizeof digits, "%016llx", static_cast<unsigned long long>(known));
    expect("digits", rapidhash::to_hex(known) == digits && rapidhash::from_hex(digits, read) && read == known);
    if (argument.compare(0, 6, "zeros:") == 0)
        return compare_zeros(number(argument.substr(6)), known);
    const bytes message = message_of(argument);
    compare(secrets_of(rule), message, known);
    if (rule == "default")
        expect("default", rapidhash::hash(message) == known);
    if (rule == "default" || rule[0] == 'w')
        compare(rapidhash::seed(rule == "default" ? 0 : number(rule.substr(5))), message, known);
}

/* Appends a field to a key, and returns the hash of the key of this field alone. */
template <class Field>
static std::uint64_t append(::rapidhash_stream *state, const rapidhash::secrets &own, const Field &field)
{
    rapidhash::add_field(state, field);
    return rapidhash::key(own, field);
}

static std::uint64_t append_text(::rapidhash_stream *state, const rapidhash::secrets &own, const std::string &text)
{
    if (text == "-")
        return append(state, own, nullptr);
    if (text[0] == 'x')
        return append(state, own, message_of(text.substr(1)));
    if (text[0] == '-')
        return append(state, own, std::strtoll(text.c_str(), nullptr, 10));
    return append(state, own, number(text));
}

static void replay_key(const std::string &rule, const std::string &argument, std::uint64_t known)
{
    const rapidhash::secrets own = secrets_of(rule);
    std::istringstream fields(argument);
    ::rapidhash_stream state;
    std::uint64_t last = known, count = 0;

    if (argument.compare(0, 6, "zeros:") == 0)
        return compare_zeros(number(argument.substr(6)), known, true);
    ::rapidhash_v3_start(&state, &own);
    for (std::string text; fields >> text && text != "()"; count++)
        last = append_text(&state, own, text);
    expect("key", ::rapidhash_stream_finish(&state) == known && (count != 1 || last == known));
}

/* Plays the operations of a stream that change no saved bytes with the right check: cases.c plays those. */
template <class Stream>
static void replay_stream(const std::string &rule, const std::string &operations, const std::string &value)
{
    std::istringstream words(operations), values(value);
    Stream stream(secrets_of(rule));
    bytes saved;

    for (std::string word, known; words >> word;) {
        const bytes given = message_of(word.find_first_of(":-") == std::string::npos ? word.substr(1) : "-");

        if (word[0] == 'f' || word[0] == 's')
            expect("a value", static_cast<bool>(values >> known));
        const Stream before = stream;
        if (word[0] == 'w')
            stream.update(given);
        else if (word[0] == 'r')
            stream.reset();
        else if (word[0] == 'f')
            expect("hash", stream.finish() == number(known));
        else if (word[0] == 's') {
            const auto state = stream.save();
            saved.assign(state.begin(), state.end());
            expect("saved", saved == message_of(known) && stream.update("other").restore(state));
        } else if (word[0] == '=')
            expect("restored", stream.restore(given));
        else if (word[0] == '!')
            expect("refused", !stream.restore(given) && stream.finish() == before.finish());
        else if (word == "~")
            for (std::size_t bit = 0; bit < 8 * saved.size(); bit++) {
                bytes changed = saved;
                changed[bit / 8] ^= static_cast<unsigned char>(1 << bit % 8);
                expect("a changed bit", !stream.restore(changed) && stream.finish() == before.finish());
            }
        else
            expect("operation", word[0] == '^' || word[0] == '+');
    }
}

/* Compares what hashes decide. What other languages refuse is 0 here. */
static void replay_shards(const std::string &kind, const std::string &argument, const std::string &value)
{
    const std::vector<std::uint64_t> of = numbers(argument, ' ');

    if (kind == "fingerprint")
        expect("fingerprint", rapidhash::fingerprint(of) == number(value)
                                  && rapidhash::fingerprint(of.data(), of.size()) == number(value));
    else if (kind == "bucket" && of[1] > UINT32_MAX)
        expect("count of 32 bits", value == "refused");
    else if (kind == "bucket")
        expect("bucket", rapidhash::bucket(of[0], static_cast<std::uint32_t>(of[1])) == number(value));
    else if (kind == "shard")
        expect("shard", rapidhash::shard(of[0], of[1]) == number(value));
    else
        expect("first hash", kind == "first_hash" && rapidhash::first_hash(of[0], of[1]) == number(value));
}

int main()
{
    for (std::string kind, version, rule, argument, value; std::getline(std::cin, row); replayed++) {
        std::istringstream columns(row);

        for (std::string *word : {&kind, &version, &rule, &argument, &value})
            std::getline(columns, *word, '\t');
        if (kind == "hash" && version == "v3")
            replay_hash(rule, argument, number(value));
        else if (kind == "key")
            replay_key(rule, argument, number(value));
        else if (kind == "stream" && version == "v3")
            replay_stream<rapidhash::stream>(rule, argument, value);
        else if (kind == "stream" && version == "v3_micro")
            replay_stream<rapidhash::micro_stream>(rule, argument, value);
        else if (kind == "stream")
            replay_stream<rapidhash::nano_stream>(rule, argument, value);
        else if (kind != "hash" && version == "-")
            replay_shards(kind, argument, value);
        else if (kind != "hash" && kind != "secrets" && row[0] != '#' && kind != "kind")
            expect("kind", false);
    }
    expect("too few", replayed > 5000);
    std::printf("%u cases, %u differ\n", replayed, differing);
    return differing != 0;
}
