"""Finds the rows that differ between a table in two databases, by DB-API connections to PostgreSQL with the extension
rapidhash, or to SQLite, which needs none:

    python3 differences.py FIRST.db SECOND.db TABLE KEY ..

KEY names the columns of the table's key, of which NULL is one too. It compares one fingerprint, then those of the
shards of the key, and reads only rows of shards that differ. It prints a line for each key whose rows only the second
table has, or only the first, or that has other rows: added, removed or changed, and the key. A table has at most 100
columns, or 127 between files of SQLite."""

import datetime
import decimal
import pathlib
import re
import sqlite3
import sys
import uuid

from rapidhash import fingerprint, shard, v3_key

if sys.version_info < (3, 11):
    raise ImportError("differences.py needs CPython 3.11, which reads the texts and times of databases as they are")

SHARDS = 1000


def instant(text):
    if re.search(r"[.,]\d{6}0*[1-9]", text):  # which Python would cut
        raise ValueError(f"{text!r} is finer than a microsecond")
    return datetime.datetime.fromisoformat(text)


def boolean(value):
    if value not in (0, 1, "f", "t"):
        raise ValueError(f"{value!r} is no boolean")
    return value in (1, "t")


def number(value):
    if not re.fullmatch(r"[-+.\dEe]+", str(value), re.ASCII):
        raise ValueError(f"{value!r} is no decimal number")
    return decimal.Decimal(str(value))


def identifier(text):
    if not re.fullmatch(r"[\da-fA-F-]{32,36}", text, re.ASCII):
        raise ValueError(f"{text!r} is no UUID")
    return uuid.UUID(text)


# How a value of SQLite is read, by the declared type of its column.
READERS = {"date": datetime.date.fromisoformat, "timestamptz": instant, "timestamp with time zone": instant,
           "uuid": identifier, "numeric": number, "decimal": number, "boolean": boolean, "bool": boolean}


def named(name, columns):
    """Returns the column with a name, or the only one with that name in another case."""
    found = [name] * (name in columns) or [it for it in columns if it.lower() == name.lower()]
    if len(found) != 1:
        raise ValueError(f"the key {name!r} is {found or 'none'} of {columns}")
    return found[0]


def quoted(names):
    """Returns names of columns as SQL has them. Without the table, SQLite reads a name that it lacks as a text."""
    return ", ".join('it."' + name.replace('"', '""') + '"' for name in names)


def signed(word):
    """Returns a hash as the integer that SQL has for it."""
    return word - (word >> 63 << 64)


class Fingerprint(list):
    """The aggregate of SQLite."""

    def step(self, word):
        self.append(word % 2**64)

    def finalize(self):
        return signed(fingerprint(self))


class Table:
    """A table, with the calls for the hash of its rows and of their keys."""

    def __init__(self, connection, table, key):
        self.connection, self.cursor, self.table, self.moved = connection, connection.cursor(), table, 0
        self.ask(f"SELECT * FROM {table} LIMIT 0")
        columns = sorted((column[0] for column in self.cursor.description), key=lambda it: (it.lower(), it))
        self.columns = [it.lower() for it in columns]
        key = [named(it, columns) for it in key]
        self.key, self.row_hash, self.key_hash = quoted(key), self.call("of_row", columns), self.call("of_key", key)
        if isinstance(connection, sqlite3.Connection):
            sqlite3.enable_callback_tracebacks(True)
            connection.create_aggregate("rapidhash_fingerprint", 1, Fingerprint)
            connection.create_function("rapidhash_shard", 2, lambda word, count: shard(word % 2**64, count))

    def call(self, name, columns):
        """Returns the call for the hash of some columns. That of SQLite is a function in Python."""
        if not isinstance(self.connection, sqlite3.Connection):
            return f"rapidhash_v3_key({quoted(columns)})"
        prefix = r'((?:\w+|"(?:[^"]|"")*"|\[[^]]*\])\s*\.\s*)?(.*)'
        schema, table = re.fullmatch(prefix, self.table, re.DOTALL).groups("")
        types = {row[1]: " ".join(row[2].lower().partition("(")[0].split())
                 for row in self.ask(f"PRAGMA {schema}table_xinfo({table})")}
        readers = [READERS.get(types.get(column)) for column in columns]

        def hashed(*values):
            fields = (value if value is None or reader is None else reader(value)
                      for value, reader in zip(values, readers))
            return signed(v3_key(*fields))

        self.connection.create_function(name, len(columns), hashed)
        return f"{name}({quoted(columns)})"

    def ask(self, query):
        self.cursor.execute(query)
        rows = self.cursor.fetchall()
        if rows and isinstance(rows[0], dict):
            raise TypeError("the connection returns dicts: pass one that returns tuples")
        self.moved += len(rows)
        return rows

    def whole(self):
        return self.ask(f"SELECT count(*), rapidhash_fingerprint({self.row_hash}) FROM {self.table} AS it")

    def shards(self):
        return self.ask(f"SELECT rapidhash_shard({self.key_hash}, {SHARDS}) AS shard, count(*), "
                        f"rapidhash_fingerprint({self.row_hash}) FROM {self.table} AS it GROUP BY 1")

    def rows(self, shards):
        """Returns the hashes of rows by the hash of their key, and the keys. A key may have several rows."""
        found, keys = {}, {}
        for one, other, *key in self.ask(f"SELECT {self.key_hash}, {self.row_hash}, {self.key} FROM {self.table} AS it "
                                         f"WHERE rapidhash_shard({self.key_hash}, {SHARDS}) IN ({shards})"):
            found.setdefault(one, []).append(other)
            keys[one] = key
        return {one: sorted(hashes) for one, hashes in found.items()}, keys


def differences(first, second, table, key):
    """Yields added, removed or changed, and the values of the key, for each row that differs."""
    left, right = Table(first, table, key), Table(second, table, key)
    if left.columns != right.columns:
        raise ValueError(f"the tables have other columns: {left.columns} and {right.columns}")
    if left.whole() == right.whole():
        return
    shards = {row[0] for row in {*map(tuple, left.shards())} ^ {*map(tuple, right.shards())}}
    if not shards:  # The fingerprint of no rows is NULL in SQLite and 0 in PostgreSQL.
        return
    (old, old_keys), (new, new_keys) = (side.rows(", ".join(map(str, shards))) for side in (left, right))
    keys = {**old_keys, **new_keys}
    for one in sorted(keys, key=lambda one: str(keys[one])):
        if old.get(one) != new.get(one):
            yield ("changed" if one in old and one in new else "removed" if one in old else "added", *keys[one])
    print(f"read {left.moved + right.moved} rows", file=sys.stderr)


def opened(path):
    """Returns a connection to a file, which must exist."""
    return sqlite3.connect(pathlib.Path(path).absolute().as_uri() + "?mode=ro", uri=True)


if __name__ == "__main__":
    if len(sys.argv) < 5:
        sys.exit("usage: differences.py FIRST.db SECOND.db TABLE KEY ..")
    sys.stdout.reconfigure(errors="backslashreplace")
    for difference in differences(*map(opened, sys.argv[1:3]), sys.argv[3], sys.argv[4:]):
        print(*(str(word).translate({92: r"\\", 10: r"\n", 9: r"\t"}) for word in difference), sep="\t")
