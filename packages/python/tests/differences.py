#!/usr/bin/python3
# reads: packages/python packages/c/include packages/postgresql
"""Runs the example over a table of seven types in two files of SQLite, and in PostgreSQL and SQLite, with a row that is
added, one that is removed and one that is changed. ROWS is the number of rows."""

import os
import random
import sqlite3
import sys
import uuid
from datetime import date, datetime, timedelta, timezone
from pathlib import Path

sys.path.append(str(Path(__file__).parents[3] / "tests"))
from cases import ROOM, TOP, compare, finish, lacks, needs, shell, skip, tell  # noqa: E402
from sql import SERVER, ask, start_server, unpack  # noqa: E402

COUNT = int(os.environ.get("ROWS", 20_000))
TYPES = 'id bigint, "to" text, active bool, born date, seen timestamp  with time zone, token uuid, price decimal (9,2)'
FOUND = ["added\t-1", "changed\t77", f"removed\t{COUNT - 1}"]


def people():
    """Yields rows as texts and integers of SQLite, with nulls, and texts beyond ASCII."""
    draw = random.Random(1)
    for number in range(COUNT):
        seen = datetime(1900, 1, 1, tzinfo=timezone.utc) + timedelta(microseconds=draw.randrange(2**53))
        yield (number, None if number % 17 == 0 else draw.choice(["Åsa", "李", "Bob", ""]) + str(number),
               draw.choice("ft"), str(date(1900, 1, 1) + timedelta(draw.randrange(40_000))),
               None if number % 23 == 0 else str(seen), str(uuid.UUID(int=draw.getrandbits(128))),
               f"{draw.randrange(10**7)}.{number % 100:02}")


class Psql:
    """A DB-API connection to the copy of the server, by psql."""

    def cursor(self):
        return self

    def execute(self, query):
        self.description = [(word.split()[0].strip('"'),) for word in TYPES.split(", ")]
        self.lines = ask(query)

    def fetchall(self):
        return [tuple(map(int, line.split("|"))) for line in self.lines]


def change(database):
    database.execute(f"DELETE FROM people WHERE id = {COUNT - 1}")
    database.execute("UPDATE people SET active = CASE active WHEN 't' THEN 'f' ELSE 't' END WHERE id = 77")
    database.execute("INSERT INTO people (id, seen, price) VALUES (-1, '2024-02-29 12:34:56.789+00:00', '1.50')")
    database.commit()


def over_files(rows):
    """Runs the example as its text says."""
    for name in "first", "second":
        with sqlite3.connect(ROOM / name) as database:
            database.execute(f"CREATE TABLE people ({TYPES})")
            database.executemany("INSERT INTO people VALUES (?, ?, ?, ?, ?, ?, ?)", rows)
    run = f"python3 packages/python/examples/differences.py '{ROOM}/first' '{ROOM}/second' people id"
    run = f"PYTHONPATH='{ROOM}/wheel' /usr/bin/{run}"
    compare("equal_files", shell(run), (0, ""))
    change(sqlite3.connect(ROOM / "second"))
    status, said = shell(run)
    *found, moved = said.splitlines()
    compare("files", (status, sorted(found)), (0, FOUND))
    compare("few_rows", int(moved.split()[1]) <= 2 * 1001 + 6 * max(COUNT / 500, 40), True)


def over_types():
    """Runs it over a generated column, which has a type too, and over values that it must refuse."""
    for name in "3", "4":
        with sqlite3.connect(ROOM / name) as database:
            database.execute("CREATE TABLE made (id integer, twice decimal GENERATED ALWAYS AS (id * 2.5))")
            database.execute("INSERT INTO made VALUES (1)")
            database.execute("CREATE TABLE fine (id integer, seen timestamptz)")
            database.execute(f"INSERT INTO fine VALUES (1, '2024-02-29 12:34:56,123456{name}+00:00')")
            database.execute("CREATE TABLE odd (id integer, active bool)")
            database.execute("INSERT INTO odd VALUES (1, 2)")
            database.execute("CREATE TABLE many (id integer PRIMARY KEY, it)")
            database.executemany("INSERT INTO many VALUES (?, ?)", ((at, name) for at in range(20_000)))
            for table, value in ("prices", "1_000"), ("tokens", "0x" + "1" * 30):
                database.execute(f"CREATE TABLE {table} (id integer, it {'uuid' if table == 'tokens' else 'numeric'})")
                database.execute(f"INSERT INTO {table} VALUES (1, ?)", (value,))
            database.execute(f"CREATE TABLE other (id integer, c{name} text)")
            database.execute(f"CREATE TABLE cut (id integer, \"it [{name}]\" text)")
            columns = ["id integer", '"a""b" text']
            database.execute(f"CREATE TABLE turned ({', '.join(columns[::int(name) * 2 - 7])})")
            database.execute(f"""INSERT INTO turned (id, "a""b") VALUES (1, 'b'), (2, 'c'), ({name}, 'd')""")
    run = f"PYTHONPATH='{ROOM}/wheel' /usr/bin/python3 packages/python/examples/differences.py '{ROOM}/3' '{ROOM}/4' "
    compare("generated", shell(run + "made id"), (0, ""))
    compare("finer_times", "finer than a microsecond" in shell(run + "fine id")[1], True)
    compare("columns_in_another_order", shell(run + "turned ID")[1].splitlines()[:2], ["removed\t3", "added\t4"])
    compare("other_columns", "['c3', 'id'] and ['c4', 'id']" in shell(run + "other id")[1], True)
    compare("no_such_key", "the key 'i' is none of ['id', 'twice']" in shell(run + "made i")[1], True)
    compare("other_booleans", "2 is no boolean" in shell(run + "odd id")[1], True)
    compare("other_numbers", "'1_000' is no decimal number" in shell(run + "prices id")[1], True)
    compare("other_identifiers", "' is no UUID" in shell(run + "tokens id")[1], True)
    compare("each_row", len(shell(f"ulimit -t 30; {run} many id")[1].splitlines()), 20_001)
    compare("no_such_file", "unable to open" in shell(run.replace("/4'", "/5'") + "odd id")[1], True)
    compare("schema", shell(run + "'[main] . turned' ID")[1].splitlines()[:2], ["removed\t3", "added\t4"])
    compare("no_key", shell(run + "odd"), (1, "usage: differences.py FIRST.db SECOND.db TABLE KEY ..\n"))


def over_rows():
    """Runs its function over connections that return rows in other ways."""
    from differences import differences
    pairs = [[sqlite3.connect(ROOM / name, detect_types=parse) for name in ("3", "4")]
             for parse in (0, 0, sqlite3.PARSE_COLNAMES)]
    for it, factory in zip(pairs, (sqlite3.Row, lambda cursor, row: dict(zip("abcdef", row)), None)):
        for database in it:
            database.row_factory = factory
    compare("rows_of_sqlite", [*map(tuple, differences(*pairs[0], "turned", ["id"]))], [("removed", 3), ("added", 4)])
    for name, (*it, table), error in (("dicts", (*pairs[1], "turned"), "the connection returns dicts"),
                                      ("cut_names", (*pairs[2], "cut"), "no such column: it.it")):
        try:
            compare(name, [*differences(*it, table, ["id"])], error)
        except (TypeError, sqlite3.OperationalError) as found:
            compare(name, str(found)[:len(error)], error)


def over_databases(rows):
    """Runs its function between PostgreSQL and SQLite."""
    from differences import differences
    stop = start_server()
    try:
        status, said = shell(unpack(ROOM / "source", "postgresql").replace("sudo ", ""), ROOM / "source",
                             DESTDIR=str(ROOM))
        tell("extension", *[said] * (status != 0))
        (ROOM / "people.tsv").write_text("".join(
            "\t".join("\\N" if field is None else str(field) for field in row) + "\n" for row in rows))
        ask(f"CREATE EXTENSION rapidhash; CREATE TABLE people ({TYPES}); \\copy people FROM '{ROOM}/people.tsv'")
        for name, wanted in (("first", []), ("second", FOUND)):
            database = sqlite3.connect(ROOM / name)
            found = differences(Psql(), database, "people", ["id"])
            compare(f"databases_{name}", sorted("\t".join(map(str, row)) for row in found), wanted)
        ask("TRUNCATE people")
        database.execute("DELETE FROM people")
        compare("no_rows", [*differences(Psql(), database, "people", ["ID"])], [])
    finally:
        shell(stop, "/")


needs("cc")
compare("wheel", shell("make -s wheel && /usr/bin/python3 -m zipfile -e build/wheels/*.whl \"$ROOM/wheel\""), (0, ""))
PEOPLE = list(people())
over_files(PEOPLE)
over_types()
sys.path[:0] = [str(ROOM / "wheel"), str(TOP / "packages/python/examples")]
over_rows()
if lacks(*SERVER):
    skip("databases", lacks(*SERVER))
else:
    over_databases(PEOPLE)
finish()
