#!/usr/bin/python3
# reads: packages/sqlite packages/c/include tests/sql.py tests/fields.tsv scripts/fields.py crates/test_replay/data docs
"""Builds the SQLite extension with the commands on its page, loads it, and tests each function. Replays the cases of
every language. Others cover types, errors, aggregates, the examples on the page, and each failing allocation."""

import sqlite3
import sys
from pathlib import Path

sys.path += [str(Path(__file__).parents[3] / "tests"), str(Path(__file__).parent)]
from cases import ROOM, TOP, blocks, compare, finish, needs, shell, skip_all, tell  # noqa: E402
from fields import ask, columns, lists, refused, replayed  # noqa: E402
from sql import DIGITS, HELLO, NOTHING, STREAMS, TEXT, TEXT_HASH, VERSIONS  # noqa: E402
from sql import case_queries, lines_with_results, refused_calls, signed, unpack  # noqa: E402

PAGE = "packages/sqlite/README.md"
REAL = "a REAL cannot be hashed: cast it to TEXT, BLOB or INTEGER"
ERRORS = {
    "rapidhash_v3(1.5)": f"rapidhash_v3: {REAL}",
    "rapidhash_v2_0(NULL, 'a')": "rapidhash_v2_0: the seed must be an INTEGER",
    "rapidhash_v3_nano(1, x'00')": "rapidhash_v3_nano: the seed must be an INTEGER",
    "rapidhash_v3_with_secrets(1, 2.0)": "rapidhash_v3_with_secrets: the number must be an INTEGER",
    "rapidhash_hex('1')": "rapidhash_hex: the hash must be an INTEGER",
    "rapidhash_v3_agg(2.0)": f"rapidhash_v3_agg: {REAL}",
    "rapidhash_v3_micro_agg(NULL, '1')": "rapidhash_v3_micro_agg: the seed must be an INTEGER",
    "rapidhash_v3_nano_agg(1, place << 32) FROM many": "rapidhash_v3_nano_agg: the seed must be the same in every row",
    "rapidhash_v3_agg(1) OVER (ROWS 1 PRECEDING) FROM many":
        "rapidhash_v3_agg: the window must begin with UNBOUNDED PRECEDING",
    "rapidhash_v3()": "wrong number of arguments to function rapidhash_v3()",
    "rapidhash_v3_with_secrets(1)": "wrong number of arguments to function rapidhash_v3_with_secrets()",
    "rapidhash_v3_agg(1, 2, 3)": "wrong number of arguments to function rapidhash_v3_agg()",
    "rapidhash_v3_key('a', 2.0)":
        "rapidhash_v3_key: argument 2 is a REAL, and no field of a key: pass rapidhash_float_bits(x), or "
        "rapidhash_decimal of TEXT",
    # An asterisk passes no arguments, so all rows would have the same key.
    "rapidhash_v3_key(*) FROM (VALUES (1))":
        "rapidhash_v3_key: a key has fields: list the columns, because * passes none",
    "rapidhash_v3_key_with_seed(7)":
        "rapidhash_v3_key_with_seed: a key has fields: list the columns, because * passes none",
    "rapidhash_v3_key_with_secrets('1', 2)": "rapidhash_v3_key_with_secrets: the number must be an INTEGER",
    "rapidhash_shard(7, 0)": "rapidhash_shard: the count must be from 1 to 9223372036854775807, not 0",
    "rapidhash_shard(7, -1)": "rapidhash_shard: the count must be from 1 to 9223372036854775807, not -1",
    "rapidhash_shard('7', 1)": "rapidhash_shard: the hash must be an INTEGER",
    "rapidhash_first_hash(10, 10)": "rapidhash_first_hash: the shard must be from 0 to the count less 1, not 10",
    "rapidhash_bucket(7, 4294967296)": "rapidhash_bucket: the count must be from 1 to 4294967295, not 4294967296",
    "rapidhash_fingerprint(1.5)": "rapidhash_fingerprint: the hash must be an INTEGER",
    f"load_extension('{TOP}/build/rapidhash')":
        "error during initialization: unable to delete/modify user-function due to active statements",
}
# Writes headers without the flag that SQLite 3.31 introduced.
OLDER = """mkdir older
for header in sqlite3.h sqlite3ext.h; do grep -v 'define SQLITE_INNOCUOUS' /usr/include/$header >older/$header; done"""
MEMORY = """cc -std=c99 -g -Wall -Wextra -Werror -fsanitize=address,undefined -fno-sanitize-recover=all \
    -Ipackages/c/include packages/sqlite/rapidhash.c packages/sqlite/tests/test_memory.c \
    -lsqlite3 -o "$ROOM/test_memory"
"$ROOM/test_memory" """


def commands():
    """Runs the commands in an empty directory, that on the archive's page, and make without the toolchain."""
    [page] = blocks(PAGE, "sh")
    (ROOM / "first").mkdir()
    compare("page", (page.count("\n"), shell(page, ROOM / "first")), (2, (0, f"{HELLO}\n")))
    command, query = unpack(ROOM, "sqlite"), page.splitlines()[1]
    older = f"{OLDER}\n{command.replace(' -I', ' -Iolder -I', 1)}"
    compare("unpacked_archive", shell(f"{command}\n{query}\n{older}\n{query}", ROOM), (0, f"{HELLO}\n" * 2))
    compare("make_without_the_toolchain", shell("make -s -B sqlite", PATH="/usr/bin:/bin"), (0, ""))


def opened(encoding="UTF-8"):
    database = sqlite3.connect(":memory:")
    database.execute(f"PRAGMA encoding = '{encoding}'")
    database.enable_load_extension(True)
    database.load_extension(str(TOP / "build/rapidhash"))
    return database


def is_refused(database, call):
    try:
        return not ask(database, f"SELECT {call}")
    except sqlite3.OperationalError:
        return True


def cases(database):
    queries = case_queries(lambda message: f"x'{message.hex()}'", str)
    tell("cases", *[query[:200] for query in queries if ask(database, query) != [(1,)]])
    tell("refused_cases", *[call for call in refused_calls(str) if not is_refused(database, call)])


def keys(database):
    found = ask(database, """SELECT rapidhash_v3_key('user', 4711, NULL),
        rapidhash_v3_key_with_seed(7, x'75736572', 4711, NULL), rapidhash_v3_key_with_seed(NULL, 1)""")
    compare("keys_of_each_type", found, [(signed(14742763072502883419), 4558979304646042975, None)])


def shards(database):
    rows = "(SELECT column1 AS place, column2 AS hash FROM (VALUES (1, 5), (2, NULL), (3, -7), (4, 9)))"
    found = ask(database, f"""SELECT rapidhash_fingerprint(hash) OVER (ORDER BY place ROWS 1 PRECEDING) FROM {rows}""")
    compare("fingerprints_of_windows", found, [(5,), (5,), (-7,), (2,)])
    found = ask(database, f"""SELECT rapidhash_fingerprint(hash),
        (SELECT rapidhash_fingerprint(hash) FROM {rows} WHERE 0), rapidhash_shard(NULL, 3), rapidhash_shard(7, NULL),
        rapidhash_bucket(NULL, 3), rapidhash_first_hash(NULL, 3) FROM {rows}""")
    compare("fingerprints_and_null", found, [(7, 0, None, None, None, None)])


def types(database, name):
    """Checks which bytes of each type are hashed."""
    found = ask(database, f"""SELECT rapidhash_v3('hello'), rapidhash_v3('{TEXT}'), rapidhash_v3_agg('{TEXT}'),
        rapidhash_v3(''), rapidhash_v3(x''), rapidhash_v3(zeroblob(3)) = rapidhash_v3(x'000000'),
        rapidhash_v3(?) = rapidhash_v3(x'610062'), rapidhash_v3(42), rapidhash_v3(-42),
        rapidhash_v3(CAST(42 AS TEXT)) = rapidhash_v3(x'3432'), rapidhash_v3(NULL), rapidhash_v3(NULL, 1),
        rapidhash_v3('a', NULL), rapidhash_v1_with_secrets(1, NULL), rapidhash_hex(NULL),
        rapidhash_v3_key('user', 4711, NULL), rapidhash_v3_agg(''), rapidhash_v3_agg(x'')""", "a\0b")
    compare(name, found, [(HELLO, TEXT_HASH, TEXT_HASH, NOTHING, NOTHING, 1, 1, 5044168950324010207,
                           2463112363380910024, 1, None, None, None, None, None, signed(14742763072502883419), NOTHING,
                           NOTHING)])
    found = [ask(database, "SELECT rapidhash_hex(?)", number) for number in DIGITS]
    compare(f"{name}_hex", found, [[(digits,)] for digits in DIGITS.values()])


def errors(database):
    for query, wanted in ERRORS.items():
        try:
            found = ask(database, f"SELECT {query}")
        except sqlite3.OperationalError as error:
            found = str(error)
        compare(f"refuses {query}", found, wanted)


def aggregates(database):
    """Tests the aggregates on a hundred thousand rows, in an order different from the table's."""
    rows = [(place, place % 3, f"user:{place}") for place in range(100_000)]
    database.executemany("INSERT INTO many VALUES (?, ?, ?)", sorted(rows, key=lambda row: row[2][::-1]))

    def whole(*parts):
        return ask(database, "SELECT rapidhash_v3(?)", "".join(word for _, part, word in rows if part in parts))[0][0]

    query = "SELECT rapidhash_v3_agg(word) FROM (SELECT word FROM many ORDER BY place)"
    compare("many_rows", ask(database, query), [(whole(0, 1, 2),)])
    query = """SELECT DISTINCT part, rapidhash_v3_agg(word) OVER (PARTITION BY part ORDER BY place
        ROWS BETWEEN UNBOUNDED PRECEDING AND UNBOUNDED FOLLOWING) FROM many ORDER BY part"""
    compare("windows", ask(database, query), [(part, whole(part)) for part in range(3)])
    query = "SELECT rapidhash_v3_agg(column1) OVER (ORDER BY column2) FROM (VALUES ('lo', 2), ('hel', 1), (NULL, 0))"
    compare("running_hash", ask(database, query), [(None,), *ask(database, "SELECT rapidhash_v3('hel')"), (HELLO,)])
    values = "(VALUES ('a', 'hello'), ('b', NULL), ('b', 'hello'), ('c', NULL))"
    query = f"SELECT rapidhash_v3_agg(column2) FROM {values} GROUP BY column1"
    compare("groups_with_nulls", ask(database, query), [(HELLO,), (HELLO,), (None,)])
    query = "SELECT rapidhash_v3_agg(column1, column2) FROM (VALUES ('x', NULL), ('hel', 0), (NULL, 0), ('lo', 0))"
    compare("rows_without_a_seed", ask(database, query), [(HELLO,)])
    compare("no_rows", ask(database, "SELECT rapidhash_v3_agg(1), rapidhash_v3_agg(1, 2) FROM many WHERE 0"),
            [(None, None)])


def schema(database):
    """Checks that a call may be in an index, and in a view of an untrusted schema."""
    database.execute("PRAGMA trusted_schema = OFF")
    database.execute("CREATE INDEX by_hash ON many (rapidhash_v3(word, 1), rapidhash_v3_key(word, part), "
                     "rapidhash_hex(part))")
    database.execute("""CREATE VIEW hashes AS SELECT rapidhash_v3_agg(column1), rapidhash_v3_agg(column1, 0),
        rapidhash_v3('hello', 0), rapidhash_v3_key('user', 4711, NULL), rapidhash_hex(0) FROM (VALUES ('hello'))""")
    compare("schema", ask(database, "SELECT * FROM hashes"),
            [(HELLO, HELLO, HELLO, signed(14742763072502883419), "0" * 16)])


def page(database):
    """Checks each line with a result. The query over lines must have the moves that the program prints."""
    for query, wanted in lines_with_results(PAGE):
        compare(query, [tuple(map(str, row)) for row in ask(database, query)], [(wanted,)])
    crate = TOP / "crates/example_shards"
    database.execute("CREATE TABLE lines (line)")
    database.executemany("INSERT INTO lines VALUES (?)", zip((crate / "stdin").read_text().splitlines()))
    found = {"\t".join(map(str, row)) for row in ask(database, blocks(PAGE, "sql")[1])}
    compare("moves", found, set((crate / "stdout").read_text().splitlines()))
    database.execute("CREATE TABLE pages (url)")
    database.executemany("INSERT INTO pages VALUES (?)", [("https://example.org/",), ("https://example.org",)])
    *steps, question = blocks("docs/MIGRATING.md", "sql")[0].strip().splitlines()
    database.executescript("".join(steps))
    compare("a_column_that_moves", ask(database, question), [("https://example.org/",)])


needs("cc", "sqlite3", "/usr/include/sqlite3.h")
if not hasattr(sqlite3.Connection, "enable_load_extension"):
    skip_all("this Python loads no extensions")
commands()
loaded = opened()
loaded.execute("CREATE TABLE many (place INTEGER, part INTEGER, word TEXT)")
cases(loaded)
keys(loaded)
shards(loaded)
types(loaded, "types")
types(opened("UTF-16le"), "types_in_utf_16le")
types(opened("UTF-16be"), "types_in_utf_16be")
replayed(loaded)
replayed(opened("UTF-16le"))
columns(loaded)
lists(loaded)
refused(loaded)
aggregates(loaded)
errors(loaded)
schema(loaded)
page(loaded)
# The values of the Rust crate for 140 million bytes of 0, as in packages/tools/tests/rapidhash_cli.sh and
# packages/javascript/tests/javascript.sh.
query = "SELECT rapidhash_v1(zeroblob(140000000)), rapidhash_v2_2(CAST(zeroblob(140000000) AS TEXT))"
compare("long_values", ask(loaded, query), [(signed(15042570400923500380), signed(1949155381881807616))])
query = ("SELECT rapidhash_v3_agg(word, 1) = rapidhash_v3('hello', 1), "
         "rapidhash_v3_agg(word, 2) = rapidhash_v3('hello', 2)")
compare("two_aggregates", ask(loaded, query + " FROM (SELECT 'hel' AS word UNION ALL SELECT 'lo')"), [(1, 1)])
query = "SELECT rapidhash_v3_agg(value) = rapidhash_v3(value) FROM (SELECT CAST(zeroblob(1100000) AS {}) AS value)"
compare("long_rows", ask(loaded, query.format("TEXT")) + ask(loaded, query.format("BLOB")), [(1,), (1,)])
compare("names", (ask(loaded, "SELECT count(*) FROM pragma_function_list WHERE name LIKE 'rapidhash%'"),
                  shell("nm -D --defined-only build/rapidhash.so | cut -d ' ' -f 3")[1]),
        ([(3 * len(VERSIONS) + 2 * len(STREAMS) + 14,)], "sqlite3_rapidhash_init\n"))
compare("failing_memory", shell(MEMORY), (0, "every failed allocation ended in SQLITE_NOMEM\n"))
finish()
