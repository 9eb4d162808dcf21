"""Tests the fields of keys in PostgreSQL: texts in databases of other encodings, the values of types that every
language has, columns of each type, and types that are no field."""

import json
import re

from cases import compare, tell
from model import field_bytes
from sql import ENCODING, ask, key_of, values_of_types


def known(*fields):
    """Returns the key of fields by the model, as SQL has it."""
    texts = (field if isinstance(field, str) else f"x{field.hex()}" for field in fields)
    return str(key_of(b"".join(map(field_bytes, texts)).hex()))


def encodings():
    """Tests that a key's texts are UTF-8 in databases of other encodings, where SQL_ASCII can convert nothing."""
    texts = "é", "naïve ÿ", "a" * 300 + "é", "user", ""
    query = """CREATE EXTENSION rapidhash; CREATE TABLE texts AS SELECT * FROM (VALUES (1, 'é'), (2, 'naïve ÿ'),
        (3, repeat('a', 300) || 'é'), (4, 'user'), (5, '')) v(place, word);
        SELECT rapidhash_v3_key(word) FROM texts ORDER BY place;
        SELECT rapidhash_v3_key(word::varchar, 'é', ARRAY[word], word::bytea) FROM texts WHERE place = 1"""
    for encoding, text in (("LATIN1", "é".encode("latin-1")), ("SQL_ASCII", "é".encode())):
        ask(f"CREATE DATABASE other ENCODING '{encoding}' LOCALE 'C' TEMPLATE template0")
        client = "UTF8" if encoding == "LATIN1" else "SQL_ASCII"
        found = ask(f"\\c other\nSET client_encoding = '{client}'; {query}")
        compare(f"keys in {encoding}", found, [*(known(word.encode()) for word in texts),
                                               known(*["é".encode()] * 2, "1", "é".encode(), text)])
        if encoding == "SQL_ASCII":
            found = ask("\\c other\nSELECT rapidhash_v3_key(convert_from('\\xe9', 'SQL_ASCII'))")
            tell("no UTF-8 in SQL_ASCII",
                 *[found] * ('invalid byte sequence for encoding "UTF8": 0xe9' not in found[0]))
        ask("DROP DATABASE other")


TYPES = {"boolean": "boolean", "integer": "bigint", "date": "date", "uuid": "uuid", "decimal": "numeric"}
ITEMS = {int: "bigint", bool: "boolean", str: "text", list: "bigint[]"}
# Values that the server reads as others, or has no type for: times that it rounds, integers from 2^63 on, and a list of
# empty lists, which would be an empty one. Beside them it has no lists that mix types.
LACKS = re.compile(r"time .*\.\d{6}\d*[1-9]\d*Z|time .*:60Z|\w+ \[?(9223372036854775808|18446.*15)\]?|list \[\[\],.*")


def literal(kind, value):
    """Returns a value of a type as an SQL expression, or nothing if the server has no such value."""
    if kind == "list" and value != "null":
        found = {*map(type, json.loads(value))} - {type(None)}
        type_of_items = ITEMS[min(found, default=str, key=str)]
        items = value[1:-1] if list in found else ", ".join(
            f"'{it}'" if isinstance(it, str) else json.dumps(it) for it in json.loads(value))
        is_mixed = len(found) > 1 and list not in found
        return None if is_mixed or LACKS.fullmatch(f"list {value}") else (
            f"ARRAY[{items.replace('[', 'ARRAY[')}]::{type_of_items.rstrip('[]')}[]")
    text = "NULL" if value == "null" else f"'{value}'"
    if kind == "float":
        return f"rapidhash_float_bits({text}::float8)"
    is_local = kind == "time" and not re.search("Z$|[+-]..:..$|null|infinity", value)
    type_of_it = "timestamp" if is_local else {**TYPES, "time": "timestamptz", "list": "text[]"}[kind]
    return None if LACKS.fullmatch(f"{kind} {value}") else f"{text}::{type_of_it}"


# Returns the key of a field, or the error.
TRIED = """CREATE FUNCTION pg_temp.tried(field text) RETURNS text LANGUAGE plpgsql AS $$ DECLARE found text; BEGIN
    EXECUTE 'SELECT rapidhash_v3_key(' || field || ')' INTO found; RETURN found; EXCEPTION WHEN OTHERS THEN
    RETURN CASE WHEN SQLSTATE = '42601' THEN SQLERRM ELSE 'refused' END; END $$;"""
PASSED_OVER = {"integer": 2, "time": 4, "list": 20}


def replayed():
    """Tests each value of tests/fields.tsv that the server has, in any time zone and style of dates."""
    lines = [(kind, value, encoding, literal(kind, value)) for kind, value, encoding in values_of_types()]
    left_out = [kind for kind, _, _, text in lines if text is None]
    compare("values_passed_over", {kind: left_out.count(kind) for kind in left_out}, PASSED_OVER)
    lines = [line for line in lines if line[3]]
    for settings in ("", "SET timezone = 'Asia/Kolkata'; SET datestyle = 'German'; SET extra_float_digits = -15; "):
        found = ask(settings + TRIED + "".join(f"SELECT pg_temp.tried($field${text}$field$);" for *_, text in lines))
        tell(f"{len(lines)} values of types {settings[:12]}", *[found] * (len(found) != len(lines)), *(
            f"{kind} {value[:80]}: {key}" for (kind, value, encoding, _), key in zip(lines, found)
            if key != str(key_of(encoding))))


# The columns of a table of random rows, with the type of the rule, and the text from which the rule reads a value.
COLUMNS = {
    "boolean": ("boolean", "random() < 0.5", "{}::text"),
    "smallint": ("integer", "(random() * 65535 - 32768)::int", "{}"),
    "bigint": ("integer", "('x' || left(md5(random()::text), 16))::bit(64)::bigint", "{}"),
    "date": ("date", "date '0001-01-01' + (random() * 3652058)::int", "{}"),
    "timestamptz(6)": ("time", "timestamptz '0001-01-02Z' + random() * 315537724800 * interval '1 s'",
                       """to_char({} AT TIME ZONE 'UTC', 'YYYY-MM-DD"T"HH24:MI:SS.US"Z"')"""),
    "uuid": ("uuid", "md5(random()::text)::uuid", "{}"),
    "numeric": ("decimal", "((random() - 0.5)::numeric(90, 60) * (10 ^ (random() * 40)::int::numeric))", "{}"),
    "numeric(12, 2)": ("decimal", "(random() - 0.5) * 1e6", "{}"),
    "float8": ("float", "(random() - 0.5) * 10 ^ (random() * 600 - 300)", "{}"),
    "bigint[]": ("list", "ARRAY(SELECT nullif(item % 7, 0) * (random() * 1e18)::bigint FROM "
                 "generate_series(place, place + place % 6) item)", "to_json({})"),
    "text[]": ("list", "string_to_array(rtrim(repeat(md5(random()::text) || 'é\"\\,', place % 4), ','), ',')",
               "to_json({})"),
    "boolean[]": ("list", "ARRAY[random() < 0.3, NULL, random() < 0.6]", "to_json({})"),
}


def columns():
    """Tests a thousand random rows of each type, which the rule reads from the server's own texts."""
    names = [f"c{at}" for at in range(len(COLUMNS))]
    declared = ", ".join(f"{name} {type_of_it}" for name, type_of_it in zip(names, COLUMNS))
    made = ", ".join(f"CASE WHEN random() < 0.9 THEN {value} END" for _, value, _ in COLUMNS.values())
    ask(f"CREATE TABLE typed ({declared}); SET timezone = 'UTC'; SELECT setseed(0.5); "
        f"INSERT INTO typed SELECT {made} FROM generate_series(1, 1000) place")
    for name, (type_of_it, (kind, _, text)) in zip(names, COLUMNS.items()):
        field = f"rapidhash_float_bits({name})" if kind == "float" else name
        found = ask(f"SET timezone = 'America/New_York'; SELECT rapidhash_v3_key({field}), "
                    f"coalesce({text.format(name)}::text, 'null') FROM typed")
        rows = [line.partition("|") for line in found]
        values = {value for *_, value in rows} - {"null"}
        if len(rows) != 1000 or len(values) < (2 if kind == "boolean" else 4 if type_of_it == "boolean[]" else 600):
            tell(f"column of {type_of_it}", *found[:2], f"{len(values)} values in {len(rows)} rows")
            continue
        tell(f"column of {type_of_it}",
             *(f"{value}: {key}" for key, _, value in rows if key != str(key_of(ENCODING(kind, value)))))
    ask(f"CREATE INDEX ON typed (rapidhash_v3_key({', '.join(set(names) - {'c8'})}, rapidhash_float_bits(c8)))")
    compare("index of all types", ask("SELECT count(*) FROM pg_indexes WHERE tablename = 'typed'"), ["1"])
    ask("DROP TABLE typed")


# Fields, and others that have the same keys.
SAME = {
    "ARRAY[7, 8]": ("'[0:1]={7,8}'::bigint[]", "'[-5:-4]={7,8}'::smallint[]", "'7 8'::int2vector", "2, 7, 8",
                    "(ARRAY[6, 7, 8])[2:3]", "ARRAY[7, 8]::pg_temp.numbers", "ARRAY[7, 8]::pg_temp.number[]"),
    "2, 'a', NULL": ("ARRAY['a', NULL]", "ARRAY['a', NULL]::varchar[]", "ARRAY['a', NULL]::bytea[]",
                     "ARRAY['a', NULL]::pg_temp.word[]"),
    "0": ("ARRAY[]::uuid[]", "false", "'1970-01-01'::date", "'1970-01-01 02:00+02'::timestamptz"),
    "2, 1, 0": ("ARRAY[true, false]", "ARRAY['1970-01-02', '1970-01-01']::date[]"),
    "1, '1.5'": ("ARRAY[1.50]", "1, 1.500", "ARRAY[1.5]::pg_temp.price[]"),
    "NULL": ("NULL::boolean", "NULL::date", "NULL::timestamptz", "NULL::uuid", "NULL::numeric", "NULL::bigint[]",
             "NULL::pg_temp.price", "rapidhash_float_bits(NULL)"),
    "1, repeat('x', 100000)": ("ARRAY[repeat('x', 100000)]",),
    "'1' || repeat('0', 131071)": ("10::numeric ^ 131071",),
    "repeat('9', 131072) || '.' || repeat('9', 16383)":
        ("(repeat('9', 131072) || '.' || repeat('9', 16383))::numeric",),
}
DOMAINS = """CREATE DOMAIN pg_temp.number AS integer; CREATE DOMAIN pg_temp.numbers AS bigint[];
    CREATE DOMAIN pg_temp.word AS text; CREATE DOMAIN pg_temp.price AS numeric(9, 3);
    CREATE DOMAIN pg_temp.rate AS real; CREATE TYPE pg_temp.pair AS (a int, b int);
    CREATE TYPE pg_temp.mood AS ENUM ('ok');"""


def same_keys():
    """Tests the bounds of arrays, domains, a stored array, and the longest numbers."""
    pairs = [(field, other) for field, others in SAME.items() for other in others]
    found = ask(DOMAINS + "".join(f"SELECT rapidhash_v3_key({it}) = rapidhash_v3_key({field});" for field, it in pairs))
    tell(f"{len(pairs)} other forms of fields", *[found] * (len(found) != len(pairs)),
         *(f"{other} is not {field}: {line}" for (field, other), line in zip(pairs, found) if line != "t"))
    stored = ("CREATE TABLE lists AS SELECT array_agg(md5(place::text)) AS l, array_agg(-place::numeric / 4) AS n "
              "FROM generate_series(1, 40000) place; SELECT pg_column_size(l) > 100000, ")
    encoding = (b"\1" + (40000).to_bytes(8, "little") + b"".join(
        field_bytes("x" + it.encode().hex()) for it in ask("SELECT md5(p::text) FROM generate_series(1, 40000) p")))
    numbers = (b"\1" + (40000).to_bytes(8, "little") + b"".join(
        bytes.fromhex(ENCODING("decimal", str(-it / 4))) for it in range(1, 40001)))
    compare("stored lists", ask(stored + "rapidhash_v3_key(l), rapidhash_v3_key(n) FROM lists; DROP TABLE lists"),
            [f"t|{key_of(encoding.hex())}|{key_of(numbers.hex())}"])


OTHER = "Pass a text, bytea or bigint that does not depend on settings, and make it alike in all programs."
# Values that are no field, the reason, and the hint.
REFUSED = {
    **{f"NULL::{its}": (f"is of type {its.replace('pg_temp.', '')}", OTHER) for its in (
        "json", "jsonb", "name", "interval", "inet", "time without time zone", "oid", "oidvector", "json[]",
        "pg_temp.pair", "pg_temp.mood", "pg_temp.mood[]", "int4range")},
    **{f"NULL::{its}": (f"is of type {its}", "Pass its 64 bits: rapidhash_float_bits(x).") for its in (
        "real", "double precision", "real[]")},
    "1.5::pg_temp.rate": ("is of type real", "Pass its 64 bits: rapidhash_float_bits(x)."),
    "'{}'::pg_temp.rate[]": ("is of type rate[]", "Pass its 64 bits: rapidhash_float_bits(x)."),
    **{f"NULL::{its}": (f"is of type {its}", "Pass an instant, by its offset or time zone: t AT TIME ZONE 'UTC'.")
       for its in ("timestamp without time zone", "timestamp without time zone[]")},
    **{f"NULL::{its}": (f"is of type {its}", "Pass it as text, without trailing spaces: c::text.")
       for its in ("character", "character[]")},
    **{f"ARRAY{its}": ("is an array of 2 dimensions",
                       "Pass each list as an argument of its own, or its items as one list: array(SELECT unnest(l)).")
       for its in ("[[1, 2], [3, 4]]", "[['a'], ['b']]")},
    "ARRAY[ARRAY[1]::pg_temp.numbers]": ("is of type numbers[]", OTHER),
    **{its: ("is infinite", "Pass NULL or another value in its place.") for its in (
        "'infinity'::date", "'-infinity'::date", "'infinity'::timestamptz", "'-infinity'::timestamptz",
        "'infinity'::numeric", "'-infinity'::numeric", "ARRAY['infinity'::date]", "'{1,-infinity}'::numeric[]")},
    "'294247-01-10 04:00:54.775808+00'::timestamptz": (
        "is a time of more than 64 bits", "Pass NULL or another value in its place."),
    "'NaN'::numeric": ("is NaN", "Pass NULL or another value in its place."),
    "'{NaN}'::numeric[]": ("is NaN", "Pass NULL or another value in its place."),
}


# Returns the error and the hint of a field.
ERRORS = """CREATE FUNCTION pg_temp.error(field text) RETURNS text LANGUAGE plpgsql AS $$ DECLARE hint text; BEGIN
    EXECUTE 'SELECT rapidhash_v3_key(7, ' || field || ')' INTO hint; RETURN hint; EXCEPTION WHEN OTHERS THEN
    GET STACKED DIAGNOSTICS hint = PG_EXCEPTION_HINT; RETURN SQLERRM || ': ' || hint; END $$;"""


def refused():
    """Tests that a value that is no field is refused, also as NULL, with what to write for it."""
    found = ask(DOMAINS + ERRORS + "".join(f"SELECT pg_temp.error($field${field}$field$);" for field in REFUSED))
    tell("refused_fields", *[found] * (len(found) != len(REFUSED)), *(
        f"{field}: {line}" for (field, (reason, hint)), line in zip(REFUSED.items(), found)
        if line != f"rapidhash_v3_key: argument 2 {reason}, and no field of a key: {hint}"))
    last = "'294247-01-10 04:00:54.775807+00'::timestamptz"
    compare("the last time", ask(f"SELECT rapidhash_v3_key({last})"), [known(str(2**63 - 1))])
    found = ask("SELECT rapidhash_float_bits('NaN'::real)")
    compare("no bits of NaN", [line.partition(":  ")[2] for line in found], [
        "rapidhash_float_bits: NaN is no field of a key", "Pass NULL in its place: nullif(x, 'NaN')."])
    found = ask("CREATE TABLE zoned (t timestamp); CREATE INDEX ON zoned (rapidhash_v3_key(t AT TIME ZONE 'UTC')); "
                "CREATE INDEX ON zoned (rapidhash_v3_key(t)); INSERT INTO zoned VALUES (NULL)")
    compare("NULL in an index", [line.rpartition("ERROR:  ")[2] for line in found][:1], [
        "rapidhash_v3_key: argument 1 is of type timestamp without time zone, and no field of a key"])
    ask("DROP TABLE zoned")
    call = "PREPARE key AS SELECT rapidhash_v3_key({}, $2); EXECUTE key('user', {})"
    compare("parameter", ask(call.format("$1::text", 4711).replace("$2", "$2::bigint")), [known(b"user", "4711")])
    compare("untyped parameter", ask(call.format("$1", 4711))[0].rpartition("ERROR:  ")[2],
            "could not determine data type of parameter $1")
