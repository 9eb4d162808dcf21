#!/usr/bin/env python3
# reads: packages/postgresql packages/c/include tests/sql.py tests/fields.tsv scripts/fields.py crates/test_replay/data
"""Builds the PostgreSQL extension with the commands on its page and installs it into a copy of the server. Starts the
copy as a user without rights and tests each function. The machine's own server is not affected. The values are those of
the Rust crate."""

import re
import shutil
import sys
from itertools import zip_longest
from pathlib import Path

sys.path += [str(Path(__file__).parents[3] / "tests"), str(Path(__file__).parent)]
from cases import ROOM, TOP, blocks, compare, finish, needs, shell, tell  # noqa: E402
from fields import columns, encodings, refused, replayed, same_keys  # noqa: E402
from sql import (DATA, HELLO, SERVER, STREAMS, VERSIONS, ask, case_queries, lines_with_results,  # noqa: E402
                 refused_calls, signed, start_server, unpack)

PAGE = "packages/postgresql/README.md"
FUNCTIONS = """SELECT prokind, proisstrict, count(*), count(*) FILTER (WHERE proargnames && '{seed,number}'),
    bool_and(provolatile = 'i' AND proparallel = 's')
    FROM pg_proc WHERE proname LIKE 'rapidhash%' GROUP BY 1, 2 ORDER BY 1, 2"""
STORED = """CREATE TABLE stored (word text); ALTER TABLE stored ALTER word SET STORAGE {0};
    INSERT INTO stored SELECT repeat('hello', {1}); SELECT rapidhash_v3(word) = rapidhash_v3(repeat('hello', {1})),
    (SELECT rapidhash_v3_agg(word) FROM stored) = rapidhash_v3(repeat('hello', {1})),
    rapidhash_v3_key(word) = rapidhash_v3_key(repeat('hello', {1})),
    pg_column_size(word) < octet_length(word) FROM stored; DROP TABLE stored"""
# The server stores a value compressed, in pieces, or with a shorter header.
STORAGES = (("EXTENDED", 220000, "t"), ("EXTERNAL", 220000, "f"), ("PLAIN", 1, "f"))


def newer_server():
    """Builds for the server that PG_CONFIG names, whose postgres.h has a part of its own as from PostgreSQL 16 on."""
    above, server = (Path(shell(f"pg_config --{name}")[1].strip()) for name in ("pkgincludedir", "includedir-server"))
    newer = shutil.copytree(server, ROOM / "newer" / server.relative_to(above))
    text = (newer / "postgres.h").read_text()
    for part in re.findall(r"/\* -+\n \*\s+Section 1:.*?(?=/\* -+\n \*\s+Section 2:)", text, re.S):
        (newer / "postgres.h").write_text(text.replace(part, ""))
        (newer / "varatt.h").write_text(part)
    shell(rf"sed -i 's/\(define PG_VERSION_NUM\) .*/\1 160000/' {newer}/pg_config.h")
    (newer / "pg_config").write_text(f"""#!/bin/sh
        case $1 in --pkgincludedir) echo {ROOM}/newer ;; --includedir-server) echo {newer} ;;
            *) pg_config "$1" ;; esac""")
    (newer / "pg_config").chmod(0o755)
    compare("newer_server", shell(f"make -s postgresql PG_CONFIG={newer}/pg_config"), (0, ""))
    compare("no_pg_config", shell(f"make -s postgresql PG_CONFIG={newer}/none")[0], 2)


def install():
    """Runs the commands of the page. The second installs into the copy."""
    words = {"PGHOST": str(DATA), "PGUSER": "test", "PGDATABASE": "postgres", "DESTDIR": str(ROOM)}
    [commands] = blocks(PAGE, "sh")
    status, printed = shell(commands.replace("sudo ", ""), ROOM, **words)
    compare("three_commands", (commands.count("\n"), status, printed.splitlines()[-2:]),
            (3, 0, ["CREATE EXTENSION", str(HELLO)]))


def unpacked_archive():
    """Checks that the command on the archive's page builds and installs the same functions."""
    place = ROOM / "unpacked"
    status, printed = shell(unpack(place, "postgresql").replace("sudo ", ""), place, DESTDIR=str(place))
    names = [shell(f"nm -D --defined-only {folder}/rapidhash.so | cut -d ' ' -f 2-") for folder in (
        TOP / "build/postgresql", next(place.glob("usr/**/rapidhash.so"), place).parent)]
    tell("unpacked_archive", *[printed[-600:]] * (status != 0 or names[0] != names[1]))


def cases():
    queries = [*case_queries(lambda message: f"'\\x{message.hex()}'::bytea", "'{}'::bigint".format)]
    found = ask("\n".join(queries))
    tell("cases", *[query[:200] for query, line in zip_longest(queries, found, fillvalue="") if line != "t"])
    calls = refused_calls("'{}'::bigint".format)
    tell("refused_cases", *[call for call in calls if f"ERROR:  {call.partition('(')[0]}: the " not in "".join(
        ask(f"SELECT {call}"))])


def keys():
    user = signed(14742763072502883419)
    for fields in ("'user', 4711, NULL", "'user'::text, 4711::smallint, NULL::text",
                   "'user'::varchar, 4711::information_schema.cardinal_number, NULL"):
        compare(f"key of {fields}", ask(f"SELECT rapidhash_v3_key({fields})"), [str(user)])
    for number in (-1, -2**15, 2**15 - 1, 2**31 - 1, -2**31):
        types = ["smallint"] * (-2**15 <= number < 2**15) + ["integer", "bigint"]
        keys = ", ".join(f"rapidhash_v3_key('{number}'::{type})" for type in types)
        compare(f"key of {number}", ask(f"SELECT count(DISTINCT key) FROM unnest(ARRAY[{keys}]) key"), ["1"])
    label = "CREATE DOMAIN pg_temp.label AS text; SELECT rapidhash_v3_key('user'::pg_temp.label, 4711, NULL)"
    compare("key of a domain of texts", ask(label), [str(user)])
    compare("key with no seed", ask("SELECT rapidhash_v3_key_with_seed(NULL, 1) IS NULL"), ["t"])


def shards():
    rows = "(VALUES (1, 5), (2, NULL), (3, -7), (4, 9)) AS rows(place, hash)"
    found = ask(f"SELECT rapidhash_fingerprint(hash) OVER (ORDER BY place ROWS 1 PRECEDING) FROM {rows}")
    compare("fingerprints_of_windows", found, ["5", "5", "-7", "2"])
    compare("fingerprints_and_null", ask(f"""SELECT rapidhash_fingerprint(hash), rapidhash_fingerprint(hash) FILTER
        (WHERE false), rapidhash_shard(NULL, 3) IS NULL, rapidhash_bucket(7, NULL) IS NULL FROM {rows}"""), ["7|0|t|t"])
    parallel = """CREATE TABLE many AS SELECT rapidhash_v3(number) AS hash FROM generate_series(1, 200000) AS number;
        SET parallel_setup_cost = 0; SET parallel_tuple_cost = 0; SET min_parallel_table_scan_size = 0;
        SELECT rapidhash_fingerprint(hash) FROM many; SET max_parallel_workers_per_gather = 0;
        SELECT rapidhash_fingerprint(hash) FROM many; SET max_parallel_workers_per_gather = 4;
        EXPLAIN (COSTS OFF) SELECT rapidhash_fingerprint(hash) FROM many; DROP TABLE many"""
    one, other, *plan = ask(parallel)
    compare("fingerprint_by_workers", (one == other, "Partial Aggregate" in "".join(plan)), (True, True))
    for call, reason in (("shard(7, 0)", "the count must be from 1 to 9223372036854775807, not 0"),
                         ("bucket(7, 4294967296)", "the count must be from 1 to 4294967295, not 4294967296"),
                         ("first_hash(10, 10)", "the shard must be from 0 to the count less 1, not 10")):
        tell(f"no {call}", *[line for line in ask(f"SELECT rapidhash_{call}")[:1]
                             if not line.endswith(f"ERROR:  rapidhash_{call.partition('(')[0]}: {reason}")])


def installcheck():
    """Runs the extension's own tests, as its users do, which compare types, errors and NULL with a stored output."""
    status, printed = shell("make -s -C build/postgresql installcheck", PGHOST=str(DATA), PGUSER="test")
    tell("installcheck", *[shell("cat build/postgresql/regression.diffs")[1] or printed] * (status != 0))


def storages():
    for storage, count, is_compressed in STORAGES:
        compare(f"storage {storage}", ask(STORED.format(storage, count)), [f"t|t|t|{is_compressed}"])


def aggregates():
    """Tests the aggregates on 300,000 rows, in an order different from the table's, and over windows."""
    ask("CREATE TABLE many AS SELECT place, place % 3 AS part, 'user:' || place AS word "
        "FROM generate_series(0, 299999) place ORDER BY reverse(place::text)")
    whole = "string_agg(word, '' ORDER BY place)"
    for version in STREAMS:
        for seed in ("", ", 1", ", 4294967296", ", -1"):
            agg = f"rapidhash_{version}_agg"
            found = ask(f"SELECT part, {agg}(word{seed} ORDER BY place) = rapidhash_{version}({whole}{seed}) "
                        "FROM many GROUP BY part ORDER BY part")
            compare(f"{agg}{seed}", found, [f"{part}|t" for part in range(3)])
            compare(f"{agg}{seed} of integers", ask(
                f"SELECT {agg}(n::bigint{seed} ORDER BY n DESC) = rapidhash_{version}("
                f"'\\x01{'00' * 7}fe{'ff' * 7}'::bytea{seed}) FROM (VALUES (1), (-2)) v(n)"), ["t"])
    values = "(VALUES (1, 'x', NULL), (2, 'hel', 0), (3, NULL, 0), (4, 'lo', 0)) v(place, word, seed)"
    for frame in ("", " ROWS 1 PRECEDING"):
        query = f"""SELECT rapidhash_v3_agg(word) OVER rows = rapidhash_v3(string_agg(word, '') OVER rows)
            FROM {values} WINDOW rows AS (ORDER BY place{frame})"""
        compare(f"window{frame}", ask(query), ["t"] * 4)
    query = "SELECT rapidhash_v3_agg(word, {0}) = rapidhash_v3('hello', {0})"
    compare("two_aggregates", ask(query.format(1) + query.format(2).replace("SELECT", ",") +
                                  " FROM (VALUES ('hel'), ('lo')) v(word)"), ["t|t"])
    # Each row is compressed, so its bytes are in memory that the server frees before the next row.
    ask("CREATE TABLE compressed AS SELECT repeat('hello', 600) AS word FROM generate_series(1, 3)")
    compare("compressed_rows", ask("SELECT rapidhash_v3_agg(word) = rapidhash_v3(repeat('hello', 1800)) "
                                   "FROM compressed; DROP TABLE compressed"), ["t"])
    ask("DROP TABLE many")


def parallel_workers():
    """Tests a sum of keys by parallel workers over 300,000 rows."""
    ask("""CREATE TABLE visits AS SELECT nullif('user:' || place % 1000, 'user:7') AS name,
        nullif(place % 50000, 7) AS number FROM generate_series(1, 300000) place""")
    query = "SELECT count(*), sum(rapidhash_v3_key(name, number)::numeric) FROM visits"
    workers = ("SET max_parallel_workers_per_gather = {}; SET parallel_setup_cost = 0; SET parallel_tuple_cost = 0; "
               "SET min_parallel_table_scan_size = 0; {}")
    plan = "".join(ask(workers.format(3, f"EXPLAIN ANALYZE {query}")))
    tell("parallel_plan", *[plan] * ("Partial Aggregate" not in plan or not re.search("Workers Launched: [1-9]", plan)))
    compare("parallel_query", ask(workers.format(3, query)), ask(workers.format(0, query)))
    ask("DROP TABLE visits")


def hash_partitions():
    """Tests the operator classes: the partitions of the page by its rule and by the server's own check, also after a
    restored dump, and a plan, a join, an index and a collation that is refused."""
    [commands] = [block for block in blocks(PAGE, "sql") if "BY HASH" in block]
    seed, added = re.search(r"seed=(\d+)\) \+ (\d+) & 2\*\*64 - 1\) % 4`", (TOP / PAGE).read_text()).groups()
    rule = f"((rapidhash_v3(name, {seed})::numeric + {2**64 + int(added)}) % {2**64} % 4)::int"
    shards = f"""SELECT tableoid::regclass, count(*) > 20000, bool_and(tableoid::regclass::text = 'users' || {rule}),
        bool_and(satisfies_hash_partition('users'::regclass, 4, {rule}, name))
        FROM users WHERE name <> '' GROUP BY 1 ORDER BY 1"""
    wanted = [f"users{shard}|t|t|t" for shard in range(4)]
    for type, text in (("bytea", "sha256(place::text::bytea)"), ("text", "'user:' || place")):
        ask(f"DROP TABLE IF EXISTS users; {commands.replace('text', type)} INSERT INTO users SELECT {text} "
            "FROM generate_series(1, 100000) place; INSERT INTO users VALUES (NULL)")
        compare(f"hash_partitions of {type}", ask(shards), wanted)
    status, printed = shell("psql -qc 'CREATE DATABASE restored' && "
                            "pg_dump | psql -qv ON_ERROR_STOP=1 -o /dev/null restored",
                            PGHOST=str(DATA), PGUSER="test", PGDATABASE="postgres")
    compare("restored", (status, printed, ask(f"\\c restored \n {shards}")), (0, "", wanted))
    compare("partition_of_null", ask("SELECT tableoid::regclass FROM users WHERE name IS NULL"), ["users0"])
    compare("classes", ask("SELECT amvalidate(oid) FROM pg_opclass WHERE opcname LIKE 'rapidhash%'"), ["t", "t"])
    halves = "SELECT bool_and(rapidhash_v3_ops(name) = rapidhash_v3_ops(name, 0) << 32 >> 32) FROM users"
    compare("lower_half", ask(halves), ["t"])
    plan = "".join(ask("EXPLAIN SELECT * FROM users WHERE name = 'user:7'"))
    compare("pruned_partitions", len(set(re.findall(r"users\d", plan))), 1)
    join = ("SET enable_nestloop = off; SET enable_mergejoin = off; "
            "{} SELECT count(*) FROM {} a JOIN {} b ON a.name = b.name")
    compare("join", ("Hash Join" in "".join(ask(join.format("EXPLAIN", "users", "users0"))),
                     *ask(join.format("", "users", "users0"))), (True, *ask("SELECT count(name) FROM users0")))
    find = "SET enable_seqscan = off; {} SELECT count(*) FROM users WHERE name IN ('user:1', 'user:100000', 'user:0')"
    ask("CREATE INDEX ON users USING hash (name rapidhash_v3_text_ops)")
    compare("index", ("Index Cond" in "".join(ask(find.format("EXPLAIN"))), ask(find.format(""))), (True, ["2"]))
    ask("""CREATE COLLATION ci (provider = icu, locale = 'und-u-ks-level2', deterministic = false);
        CREATE TABLE loose AS SELECT word COLLATE ci AS name FROM (VALUES ('a'), ('A')) v(word)""")
    compare("join_of_equal_texts", ask(join.format("", "loose", "loose")), ["4"])
    found = [ask("CREATE INDEX ON loose USING hash (name rapidhash_v3_text_ops)"),
             ask("SELECT rapidhash_v3_ops(name, 7) FROM loose")]
    compare("collation", [line.rpartition("ERROR:  ")[2] for lines in found for line in lines], [
        "rapidhash_v3_text_ops does not support nondeterministic collations"] * 2)
    ask("DROP TABLE loose, users; DROP COLLATION ci; DROP DATABASE restored")


def rest():
    # The calls and rapidhash_hex, the aggregates, and the functions that these are made of.
    of_all, streams = len(VERSIONS), len(STREAMS)
    compare("functions", ask(FUNCTIONS), [
        f"a|f|{1 + 6 * streams}|{3 * streams}|t", f"f|f|{4 + 6 * streams}|{2 + 3 * streams}|t",
        f"f|t|{11 + 9 * of_all}|{2 + 6 * of_all}|t"])
    exports = shell("nm -D --defined-only build/postgresql/rapidhash.so | cut -d ' ' -f 3 | grep -v '^pg_finfo_'")[1]
    called = ask("SELECT DISTINCT prosrc FROM pg_proc WHERE probin LIKE '%rapidhash'")
    compare("exports", sorted(exports.split()), sorted(["Pg_magic_func", *called]))
    for query, wanted in lines_with_results(PAGE):
        compare(query, ask(query), [wanted])
    [query] = re.findall(r"^SELECT .*_agg.*;$", blocks(PAGE, "sql")[0], re.M)
    compare("rows_in_order", ask(query), [str(HELLO)])
    ask("DROP EXTENSION rapidhash; CREATE ROLE owner; GRANT CREATE ON DATABASE postgres TO owner")
    # A function of the owner's, which must not run with the rights of the script.
    own = "CREATE FUNCTION one.format(text, VARIADIC text[]) RETURNS text LANGUAGE sql AS 'SELECT current_user'"
    query = f"SET ROLE owner; CREATE SCHEMA one; CREATE SCHEMA two; {own}; CREATE EXTENSION rapidhash SCHEMA one; "
    query += "RESET ROLE; ALTER EXTENSION rapidhash SET SCHEMA two; SELECT two.rapidhash_v3('hello')"
    compare("owner_and_schema", ask(query), [str(HELLO)])
    compare("dropped", ask(f"DROP EXTENSION rapidhash; {FUNCTIONS}"), [])
    compare("hint", ask(f"\\i '{TOP}/packages/postgresql/rapidhash--1.0.sql'"), [
        'Use "CREATE EXTENSION rapidhash" to load this file.'])


needs("cc", *SERVER)
stop = start_server()
try:
    for step in (newer_server, install, installcheck, unpacked_archive, cases, keys, shards, encodings, replayed,
                 columns, same_keys, refused, storages, aggregates, parallel_workers, hash_partitions, rest):
        step()
finally:
    shell(stop, "/")
finish()
