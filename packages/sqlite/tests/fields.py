"""Tests the fields of keys in SQLite: the values of types that every language has, columns of each type, the ways of a
list into a key, and what the functions refuse."""

import json
import random
import struct
import uuid
from datetime import datetime, timedelta, timezone

from cases import compare, tell
from sql import ENCODING, key_of, values_of_types

CALLS = {"date": "rapidhash_date({})", "time": "rapidhash_time({})", "uuid": "rapidhash_uuid({})",
         "decimal": "rapidhash_decimal({})", "list": "rapidhash_list({})", "float": "rapidhash_float_bits({})"}
# Integers that SQLite reads as REAL, and NaN, which it stores as NULL.
LACKS = ("integer", "9223372036854775808"), ("integer", "18446744073709551615"), ("float", "nan")


def ask(database, query, *values):
    return database.execute(query, values).fetchall()


def error_of(database, query, *values):
    """Returns the error of a query, or its rows."""
    try:
        return ask(database, query, *values)
    except Exception as error:
        return str(error)


def literal(kind, value):
    """Returns a value as an SQL literal, and what is bound to it: SQLite reads few digits of a REAL right."""
    if value == "null" or kind in ("boolean", "integer"):
        return value, ()
    return ("?", (float(value),)) if kind == "float" else ("'" + value.replace("'", "''") + "'", ())


def replayed(database):
    """Tests each value of tests/fields.tsv that SQLite has."""
    lines, wrong = [line for line in values_of_types() if (line[0], line[1]) not in LACKS], []
    for kind, value, encoding in lines:
        text, bound = literal(kind, value)
        found = error_of(database, f"SELECT rapidhash_v3_key({CALLS.get(kind, '{}').format(text)})", *bound)
        name = CALLS.get(kind, "rapidhash_v3_key(").partition("(")[0]
        is_right = found.startswith(f"{name}: ") if isinstance(found, str) else found == [(key_of(encoding),)]
        wrong += [f"{kind} {value[:80]}: {found}"] * (not is_right or isinstance(found, str) != (encoding == "refused"))
    tell("values_of_types", *[len(lines)] * (len(lines) != len(values_of_types()) - 3), *wrong)


def random_values(source):
    """Returns by type the declared type of a column, and a maker of values, each with the text of the rule."""
    def day():
        it = datetime(1, 1, 2, tzinfo=timezone.utc) + timedelta(microseconds=source.randrange(315537724800 * 10**6))
        return it if source.random() < 0.7 else it.replace(microsecond=0)

    def date():
        it = day().date().isoformat()
        return it, it

    def time():
        it = day()
        zone = timezone(timedelta(seconds=source.choice((900, 37)) * source.randrange(-48, 56)))
        text = it.astimezone(zone).isoformat(source.choice(" T")) if 2 < it.year < 9998 else it.isoformat()
        whole = text.removesuffix("+00:00")
        return whole + source.choice(("Z", "+00", text[len(whole):])) * (whole != text), (
            it.replace(tzinfo=None).isoformat() + "Z")

    def identifier():
        it = uuid.UUID(int=source.getrandbits(128))
        return source.choice((str(it), str(it).upper(), it.bytes)), str(it)

    def decimal():
        digits = str(source.randrange(-10**source.randrange(1, 40), 10**source.randrange(1, 40)))
        text = source.choice((digits, f"{digits}.{source.randrange(10**9)}0", f"{digits}e{source.randrange(-99, 99)}"))
        return text, text

    def items():
        words = None, True, False, "", "é€😀", 'a"\\/\b\f\n\r\t\x01', "0", 2**64 - 1, -2**63
        it = [source.choice((source.getrandbits(60), *words)) for _ in range(source.randrange(6))]
        return json.dumps(it, ensure_ascii=source.random() < 0.5, indent=source.choice((None, 1))), json.dumps(it)

    def real():
        it = struct.unpack("<d", source.randrange(0x7FE << 52).to_bytes(8, "little"))[0] * source.choice((1, -1))
        it = float(source.randrange(-10**6, 10**6)) if source.random() < 0.3 else it
        return it, repr(it)

    return {"date": ("DATE", date), "time": ("TIMESTAMP", time), "uuid": ("UUID", identifier),
            "decimal": ("TEXT", decimal), "list": ("JSON", items), "float": ("REAL", real)}


def columns(database):
    """Tests a thousand random rows of each type, a tenth of them missing, and an index of their keys."""
    for kind, (declared, make) in random_values(random.Random(98)).items():
        rows = [(None, "null") if at % 10 == 7 else make() for at in range(1000)]
        database.execute(f"CREATE TABLE typed (place INTEGER PRIMARY KEY, it {declared})")
        database.executemany("INSERT INTO typed (it) VALUES (?)", [row[:1] for row in rows])
        key = f"rapidhash_v3_key({CALLS[kind].format('it')})"
        found = ask(database, f"SELECT {key} FROM typed ORDER BY place")
        wrong = [f"{row}: {key}" for row, (key,) in zip(rows, found) if key != key_of(ENCODING(kind, row[1]))]
        database.execute(f"CREATE INDEX keys ON typed ({key})")
        [(place,)] = ask(database, f"SELECT place FROM typed INDEXED BY keys WHERE {key} = ? LIMIT 1", found[499][0])
        tell(f"column of {declared}", *wrong, *[place] * (rows[place - 1] != rows[499]))
        database.execute("DROP TABLE typed")


LIST = "argument {} is a list that rapidhash_list has not made in this call, and no field of a key"
# The ways of a list into a key, some with their FROM, that have its key.
DIRECT = (
    "rapidhash_list('[7,\"a\"]'))", "rapidhash_list(line)) FROM lists", "rapidhash_list(json_array(7, 'a')))",
    "rapidhash_list(json_group_array(column1))) FROM (VALUES (7), ('a'))",
    "CASE WHEN line THEN 1 ELSE rapidhash_list(line) END) FROM lists", "rapidhash_list(line)) FROM lists GROUP BY 1",
    "rapidhash_list(line)) FROM lists UNION ALL SELECT rapidhash_v3_key(rapidhash_list(line)) FROM lists WHERE 0",
)
# Rows of a list that may have lost that it is one, and rows that have.
INDIRECT = (
    "SELECT rapidhash_list(line) AS it FROM lists", "SELECT made AS it FROM lists",
    "SELECT max(rapidhash_list(line)) AS it FROM lists GROUP BY line",
    "SELECT DISTINCT rapidhash_list(line) AS it FROM lists ORDER BY 1 DESC LIMIT 9",
    "WITH made AS MATERIALIZED (SELECT rapidhash_list(line) AS it FROM lists) SELECT it FROM made",
    "SELECT (SELECT rapidhash_list(line)) AS it FROM lists", "SELECT rapidhash_list('[7,\"a\"]') AS it",
    "SELECT coalesce(rapidhash_list(line), 1) AS it FROM lists",
    "SELECT first_value(rapidhash_list(line)) OVER () AS it FROM lists",
)
LOST = (
    "SELECT kept AS it FROM lists", "SELECT rapidhash_list(line) AS it FROM lists GROUP BY 1",
    "SELECT rapidhash_list(line) AS it FROM lists UNION SELECT rapidhash_list(line) FROM lists",
)


def lists(database):
    """Tests that a list has its own key or is refused, whichever way it comes, and that no BLOB is one."""
    database.execute("CREATE TABLE lists (line, kept, made AS (rapidhash_list(line)))")
    database.execute("""INSERT INTO lists VALUES ('[7,"a"]', rapidhash_list('[7,"a"]'))""")
    wanted = ask(database, "SELECT rapidhash_v3_key(2, 7, 'a')")
    for call, at in (("rapidhash_v3_key(", 1), ("rapidhash_v3_key_with_seed(0, ", 2)):
        found = [(way, error_of(database, f"SELECT {call}{way}")) for way in DIRECT]
        tell(f"{call}list)", *(f"{way}: {it}" for way, it in found if it != wanted))
        found = [(way, error_of(database, f"SELECT {call}it) FROM ({way})")) for way in (*INDIRECT, *LOST)]
        error = f"{call.partition('(')[0]}: {LIST.format(at)}: write rapidhash_list(json) as the argument"
        tell(f"{call}list from elsewhere)", *(f"{way}: {it}" for way, it in found
                                               if it != error and (way in LOST or it != wanted)))
    database.execute("CREATE INDEX by_list ON lists (rapidhash_list(line))")
    found = error_of(database, "SELECT rapidhash_v3_key(rapidhash_list(line)) FROM lists INDEXED BY by_list "
                     "WHERE rapidhash_list(line) > 0")
    tell("list of an index", *[found] * (found != wanted and not str(found).startswith("rapidhash_v3_key: argument 1")))
    for call in ("rapidhash_v3(kept)", "rapidhash_v3_agg(kept)", "rapidhash_v1(rapidhash_list(line), 7)"):
        name = call.partition("(")[0]
        compare(f"no {call}", error_of(database, f"SELECT {call} FROM lists"),
                f"{name}: a list can be hashed as a field of a key only")
    [(blob,)] = ask(database, "SELECT kept FROM lists")
    bare = bytes.fromhex(ENCODING("list", '[7,"a"]'))
    tell("mark", *[blob] * (not blob.endswith(bare) or len(blob) != 24 + len(bare)))
    compare("no list", ask(database, """SELECT rapidhash_v3_key(?), rapidhash_v3_key(?),
        rapidhash_v3_key(json('[7,"a"]')), rapidhash_v3_key(CAST(? AS TEXT))""", bare, blob[1:], blob), [tuple(key_of((
            b"\2" + len(it).to_bytes(8, "little") + it).hex()) for it in (bare, blob[1:], b'[7,"a"]', blob))])
    long = ["x" * 10**6, *range(10**5)]
    found = ask(database, "SELECT rapidhash_v3_key('u', rapidhash_list(?), NULL)", json.dumps(long))
    items = ENCODING("list", json.dumps(long))
    compare("long list", found, [(key_of("02" + "01".ljust(16, "0") + b"u".hex() + items + "00"),)])
    [(found,)] = ask(database, "SELECT length(rapidhash_list(?))", json.dumps(["," * 240_000_000]))
    compare("commas in an item", found, 24 + 9 + 9 + 240_000_000)  # Room for 9 bytes a comma would be above 2 GiB.
    compare("items with zeros", ask(database, "SELECT rapidhash_v3_key(rapidhash_list(?))", '["a\\u0000b"]'),
            [(key_of(ENCODING("list", '["a\\u0000b"]')),)])
    database.execute("DROP TABLE lists")


DATE, DAY = "a date is TEXT of the form YYYY-MM-DD", "no such day in the years 0001 to 9999"
TIME = "a time is TEXT of the form YYYY-MM-DD HH:MM:SS.ffffff, and its offset from UTC, such as +01:00 or Z"
CLOCK, FINER = "the time of day is from 00:00:00 to 23:59:59", "the time is finer than a microsecond: cut it before"
UUID, LONG = "a UUID is TEXT of 36 characters, or a BLOB of 16 bytes", "the decimal has more than 150000 characters"
DECIMAL = "a decimal is an INTEGER, or TEXT such as -12.50 or 1e3"
REAL = "a REAL has no digits of its own: store a decimal as TEXT, or pass rapidhash_float_bits(x)"
ARRAY, NESTED = "a list is TEXT of a JSON array", "an item is a list or an object: pass it as an argument of its own"
ITEM_REAL, ITEM_LONG = "an item is a floating-point number: write it as a text", "an item has more than 64 bits"
HALF, BITS = "an item has half of a surrogate pair", "only a REAL, or an INTEGER that is equal to one, has such bits"
REFUSED = {
    "date": {DATE: ("19782", "2024.5", "'2024-02-29 00:00'", "'2024-2-29'", "'20240229'", "' 2024-02-29'", "''",
                    "'10000-01-01'", "'-001-01-01'", "'infinity'", "'0044-03-15 BC'", "x'323032342d30322d3239'",
                    "'2024-02-2' || char(1641)", "'2024-02-29' || char(0)", "'2024/02/29'", "'now'"),
             DAY: ("'2024-02-30'", "'0000-01-01'", "'2100-02-29'", "'2024-00-01'", "'2024-06-31'", "'2024-01-00'")},
    "time": {TIME: ("1709210096", "'2024-02-29'", "'2024-02-29T12:34Z'", "'2024-02-29 12:34:56.Z'",
                    "'2024-02-29 12:34:56 Z'", "'2024-02-29 12:34:56+1'", "'2024-02-29 12:34:56+01:0'",
                    "'2024-02-29 12:34:56+01:00:60'", "'2024-02-29 12:34:56+24:00'", "'2024-02-29 12:34:56+01:60'",
                    "'0044-03-15 00:00:00+00 BC'", "'2024-02-29  12:34:56Z'", "'2024-02-29 12:34:56Z' || char(0)",
                    "'infinity'", "'2024-02-29 12:34:56z'", "'2024-02-29 12:34:56+0100'", "'2024-02-29 12:34:56,5Z'"),
             "the time has no offset from UTC: append one, such as +01:00 or Z":
                 ("'2024-02-29 12:34:56'", "'2024-02-29T12:34:56.789'", "datetime('now')"),
             DAY: ("'2024-02-30 12:34:56Z'",), CLOCK: ("'2024-02-29 24:00:00Z'", "'2016-12-31 23:59:60Z'",
                                                       "'2024-02-29 23:60:00Z'"),
             FINER: ("'2024-02-29 12:34:56.7890125Z'", "'2024-02-29 12:34:56.0000000000000000001Z'")},
    "uuid": {UUID: ("'00112233445566778899aabbccddeeff'", "'{00112233-4455-6677-8899-aabbccddeeff}'", "zeroblob(15)",
                    "zeroblob(17)", "'00112233-4455-6677-8899-aabbccddeef'", "7", "1.5", "zeroblob(36)",
                    "'0011223304455-6677-8899-aabbccddeeff'", "'00112233-4455-66778899-aabbccddeeff'",
                    "'00112233-4455-6677-8899aabb-ccddeeff'", "'00112233-4455-6677-8899-aabbccddee--'")},
    "decimal": {REAL: ("1.5", "1e20", "9e999", "9223372036854775808"), LONG: (
        "'1e150000'", "'-1e149999'", "'1e-149999'", "'1e99999999999999999999'", "'1e-99999999999999999999'",
        "printf('%.*c', 150001, '1')", "'0.' || printf('%.*c', 150000, '0') || '1'"),
        DECIMAL: ("' 1'", "'1 '", "'1_000'", "'1,5'", "''", "'.'", "'-'", "'1e'", "'1e+'", "'1.2.3'", "x'31'", "'+-1'",
                  "'1' || char(0)", "'0x10'", "'NaN'", "'inf'", "'e5'", "'.e5'", "'1e5.0'", "'' || char(1633)")},
    "list": {ARRAY: ("''", "'{}'", "'[1,]'", "'[,1]'", "'[1'", "'[1]]'", "'[01]'", "'[-]'", "'[+1]'", "'[\"a]'", "7",
                     "'[\"' || char(10) || '\"]'", "'[\"\\x\"]'", "'[\"\\u00g0\"]'", "'[nul]'", "'[nulll]'", "'[TRUE]'",
                     "x'5b5d'", "'[1 2]'", "'[1]' || char(0)", "'[\"' || char(0) || '\"]'", "'null'", "'[\"\\'", "1.5"),
             NESTED: ("'[[]]'", "'[1,{}]'", "'[1,[2]]'"),
             ITEM_REAL: ("'[1.0]'", "'[1e2]'", "'[-0.5]'", "'[99999999999999999999E1]'"),
             ITEM_LONG: ("'[18446744073709551616]'", "'[-9223372036854775809]'", "'[99999999999999999999999]'"),
             HALF: ("'[\"\\ud800\"]'", "'[\"\\udc00\"]'", "'[\"\\ud800\\u0041\"]'", "'[\"\\ud800x\"]'")},
    "float": {BITS: ("'1.5'", "9007199254740993", "9223372036854775807", "x'31'", "''")},
}
# Fields, and others that have the same keys.
SAME = {"0": "rapidhash_decimal(0) = '0'", "x": "rapidhash_float_bits(2) = rapidhash_float_bits(2.0)",
        "digits": "rapidhash_decimal(-9223372036854775808) = '-9223372036854775808'",
        "one": "rapidhash_decimal(printf('%.*c', 150001, '0') || '1.' || printf('%.*c', 150001, '0')) = '1'",
        "longest": "length(rapidhash_decimal('1e149999')) = 150000 AND length(rapidhash_decimal('1e-149998')) = 150000",
        "bytes": "rapidhash_decimal('1' || printf('%.*c', 400000, '0') || 'e-400000') = '1'",
        "types": "typeof(rapidhash_date('2024-02-29')) || typeof(rapidhash_time('2024-02-29 00:00:00Z')) || "
        "typeof(rapidhash_uuid(zeroblob(16))) || typeof(rapidhash_decimal(5)) || typeof(rapidhash_float_bits(0.5))"
        " = 'integerintegerblobtextinteger'",
        "of_postgresql": "rapidhash_time('2024-02-29 12:34:56.5+00') = 1709210096500000",
        "of_new_york": "rapidhash_time('2024-02-29 07:34:56-05') = 1709210096000000"}


def refused(database):
    """Tests the errors of each function, and that it takes one argument."""
    for kind, reasons in REFUSED.items():
        wrong = [f"{value}: {found}" for reason, values in reasons.items() for value in values
                 if (found := error_of(database, f"SELECT {CALLS[kind].format(value)}"))
                 != f"{CALLS[kind].partition('(')[0]}: {reason}"]
        name = CALLS[kind].partition("(")[0]
        found = error_of(database, f"SELECT {name}()")
        tell(f"refused by {name}", *wrong, *[found] * (found != f"wrong number of arguments to function {name}()"))
    for name, query in SAME.items():
        compare(f"field {name}", error_of(database, f"SELECT {query}"), [(1,)])
