#!/usr/bin/python3
# reads: docs/TABLES.md docs/BINDINGS.md packages/python packages/sqlite packages/postgresql packages/c/include
"""Runs the queries of docs/TABLES.md over the same rows in PostgreSQL, SQLite and pandas, and finds a changed, a lost
and a doubled row. ROWS is the number of rows."""

import csv
import datetime
import json
import os
import random
import sqlite3
import subprocess

from cases import ROOM, TOP, blocks, compare, finish, lacks, needs, shell, skip, skip_all
from sql import SERVER, ask, start_server, unpack

PAGE = "docs/TABLES.md"
COUNT = int(os.environ.get("ROWS", 20_000))
COLUMNS = "id, name, active, born, price"
TYPES = "id bigint, name text, active integer, born integer, price text"


def people():
    """Returns rows with nulls, texts beyond ASCII, and fields converted as docs/BINDINGS.md says."""
    draw, rows = random.Random(1), []
    for number in range(COUNT):
        name = None if number % 17 == 0 else draw.choice(["Åsa", "李", "Bob", ""]) + str(draw.randrange(10**6))
        born = datetime.date(1900, 1, 1) + datetime.timedelta(draw.randrange(40_000))
        days = None if number % 23 == 0 else (born - datetime.date(1970, 1, 1)).days
        rows.append((number - 500, name, draw.randrange(2), days, str(draw.randrange(10_000))))
    return rows


def build():
    """Builds the three packages, that for PostgreSQL away from other tests, and installs it into the copy of the
    server."""
    status, said = shell(unpack(ROOM / "source", "postgresql").replace("sudo ", ""), ROOM / "source", DESTDIR=str(ROOM))
    return (status, said) if status else shell(
        'make -s sqlite wheel && /usr/bin/python3 -m zipfile -e build/wheels/*.whl "$ROOM/wheel"')


def fill(database, rows):
    """Makes the table in PostgreSQL and in SQLite."""
    with open(ROOM / "people.csv", "w", newline="") as file:
        csv.writer(file).writerows([["\\N" if field is None else field for field in row] for row in rows])
    ask(f"DROP TABLE IF EXISTS people; CREATE TABLE people ({TYPES}); "
        f"\\copy people FROM '{ROOM}/people.csv' (FORMAT csv, NULL '\\N')")
    database.execute("DROP TABLE IF EXISTS people")
    database.execute(f"CREATE TABLE people ({TYPES})")
    database.executemany("INSERT INTO people VALUES (?, ?, ?, ?, ?)", rows)


def in_sqlite(database, query):
    return ["|".join(map(str, row)) for row in database.execute(query)]


def in_pandas(rows):
    """Returns the values of the page's expressions in Python."""
    program = f"""
import json, sys
from pandas import DataFrame
from rapidhash import each_key, fingerprint, shard
frame = DataFrame(json.load(sys.stdin), columns={COLUMNS.split(", ")!r}, dtype=object)
shards, sample, whole = {", ".join(f"({block})" for block in blocks(PAGE, "python"))}
print(json.dumps([shards.tolist(), sample, whole]))"""
    environment = dict(os.environ, PYTHONPATH=str(ROOM / "wheel"))
    said = subprocess.run(["/usr/bin/python3", "-c", program], input=json.dumps(rows), capture_output=True, text=True,
                          env=environment)
    return json.loads(said.stdout) if said.returncode == 0 else said.stderr


def in_go():
    """Returns what the page's lines in Go print for a file that PostgreSQL writes."""
    [lines] = blocks(PAGE, "go")
    folder = ROOM / "go"
    folder.mkdir()
    (folder / "go.mod").write_text("module people\n\ngo 1.19\n\nrequire yervound.example/rapidhash v0.0.0\n\n"
                                   f"replace yervound.example/rapidhash => {TOP}/packages/go\n")
    (folder / "main.go").write_text(f"""package main
import (
    "encoding/csv"
    "fmt"
    "log"
    "os"
    "strconv"
    "yervound.example/rapidhash"
)
func main() {{
    rows, _ := csv.NewReader(os.Stdin).ReadAll()
    {lines}
}}
""")
    ask(f"\\copy people TO '{ROOM}/copied.csv' (FORMAT csv, NULL '\\N')")
    return shell("go run . <../copied.csv", folder, GOPROXY="off", GOCACHE=str(ROOM / "gocache"), GOFLAGS="-mod=mod")


def partitions(commands, whole):
    """Tests the page's table of ranges: the rows of each partition are those of a shard, and a plan has one of them."""
    ask(commands + "INSERT INTO spread SELECT id, name FROM people")
    found = ask("SELECT tableoid::regclass, count(*), bool_and(tableoid::regclass::text = 'spread' || "
                "rapidhash_shard(rapidhash_v3_key(id, name), 4)) FROM spread GROUP BY 1 ORDER BY 1")
    compare("ranges", [line.split("|")[0::2] for line in found], [[f"spread{shard}", "t"] for shard in range(4)])
    compare("rows_of_ranges", sum(int(line.split("|")[1]) for line in found), whole)
    plan = "".join(ask("EXPLAIN SELECT * FROM spread WHERE rapidhash_v3_key(id, name) = rapidhash_v3_key(77, 'Bob')"))
    compare("pruned_ranges", [f"spread{shard}" in plan for shard in range(4)].count(True), 1)
    ask("DROP TABLE spread")
    of_three = "rapidhash_shard(rapidhash_v3_key(id, name), 3)"
    ask(f"CREATE TABLE odd (LIKE people) PARTITION BY LIST ({of_three}); " + "".join(
        f"CREATE TABLE odd{shard} PARTITION OF odd FOR VALUES IN ({shard}); " for shard in range(3))
        + "INSERT INTO odd SELECT * FROM people")
    found = ask(f"SELECT count(*), bool_and(tableoid::regclass::text = 'odd' || {of_three}) FROM odd")
    compare("lists_of_an_odd_count", found, [f"{whole}|t"])
    ask("DROP TABLE odd")


def differing(database, query):
    """Returns the shards whose rows differ between the two databases."""
    return {line.split("|")[0] for line in set(ask(query)) ^ set(in_sqlite(database, query))}


def finds(database, name, change, by_shard, of_shards):
    """Changes rows in SQLite. Checks that their shard, and no other, differs, and that its rows show the change."""
    database.execute("SAVEPOINT one")
    database.execute(change)
    shards = differing(database, by_shard)
    rows = of_shards.replace("77, 460", ", ".join(shards))
    theirs, ours = ([line.replace("None", "") for line in lines] for lines in (ask(rows), in_sqlite(database, rows)))
    changed = [row for row in {*theirs, *ours} if theirs.count(row) != ours.count(row)]
    compare(name, (1 <= len(shards) <= 2, {row.split("|")[0] for row in changed}), (True, {"77"}))
    database.execute("ROLLBACK TO one")


needs("cc", *SERVER)
if lacks("/usr/lib/python3/dist-packages/pandas"):
    skip_all(lacks("/usr/lib/python3/dist-packages/pandas"))
stop = start_server()
try:
    status, said = build()
    compare("packages", (status, said), (0, ""))
    ask("CREATE EXTENSION rapidhash")
    loaded = sqlite3.connect(":memory:", isolation_level=None)
    loaded.enable_load_extension(True)
    loaded.load_extension(str(TOP / "build/rapidhash"))
    rows = people()
    fill(loaded, rows)
    by_shards, ranges, sample, equal, *finding = blocks(PAGE, "sql")
    shards, in_frame, whole = in_pandas(rows)
    counts = [f"{shard}|{shards.count(shard)}" for shard in range(16)]
    compare("shards", (ask(by_shards), in_sqlite(loaded, by_shards)), (counts, counts))
    compare("sample", (ask(sample), in_sqlite(loaded, sample)), ([str(in_frame)], [str(in_frame)]))
    [found] = ask(equal)
    compare("equal_tables", in_sqlite(loaded, equal), [found])
    compare("equal_frame", [whole[0], whole[1] - (whole[1] >> 63 << 64)], [*map(int, found.split("|"))])
    if lacks("go"):
        skip("equal_csv", lacks("go"))
    else:
        compare("equal_csv", in_go(), (0, f"{whole[0]} {whole[1]}\n"))
    partitions(ranges, COUNT)
    compare("no_shard_differs", differing(loaded, finding[0]), set())
    finds(loaded, "a_changed_row", "UPDATE people SET price = '10000' WHERE id = 77", *finding)
    finds(loaded, "a_lost_row", "DELETE FROM people WHERE id = 77", *finding)
    finds(loaded, "a_doubled_row", f"INSERT INTO people SELECT {COLUMNS} FROM people WHERE id = 77", *finding)
finally:
    shell(stop, "/")
finish()
