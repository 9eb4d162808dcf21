#!/usr/bin/python3
# reads: packages/python packages/c/include
"""Runs the example over worker processes on 300,000 rows in six parts, and compares its shards and duplicates with
those of GROUP BY in SQLite and PostgreSQL over the same rows, and the shard of each key with Java's and Go's."""

import csv
import random
import sqlite3
import sys
from pathlib import Path

sys.path.append(str(Path(__file__).parents[3] / "tests"))
from cases import ROOM, TOP, compare, finish, lacks, needs, shell, skip, tell  # noqa: E402
from sql import SERVER, ask, start_server  # noqa: E402

SHARDS, WORKERS, PARTS, ROWS = 7, 3, 6, 300_000
WORDS = "user", "naïve", "中文", "мир", "😀", "a,b", 'quote"d', " ", "x" * 300

# A line for each shard, as the example prints it.
GROUPED = f"""SELECT rapidhash_shard(rapidhash_v3_key(name, number), {SHARDS}) AS shard, sum(times), count(*)
    FROM (SELECT name, number, count(*) AS times FROM rows GROUP BY name, number) AS keys
    GROUP BY shard ORDER BY shard"""
# Programs that print the shard of each key in a table: a name as hexadecimal digits or -, and a number or -.
PYTHON = """import sys, rapidhash
names, numbers = zip(*(line.split() for line in open(sys.argv[1])))
keys = rapidhash.each_key([None if it == "-" else bytes.fromhex(it).decode() for it in names],
                          [None if it == "-" else int(it) for it in numbers])
print(*rapidhash.shard(keys, SHARDS))"""
SECRETS = """import rapidhash
from dask.base import tokenize
from distributed import Client, LocalCluster

if __name__ == "__main__":
    first, second = rapidhash.make_secrets(1), rapidhash.make_secrets(2)
    with LocalCluster(n_workers=1, threads_per_worker=1, dashboard_address=None) as cluster, Client(cluster) as client:
        found = [client.gather(client.map(rapidhash.v3, [b"m"], secrets=own)) for own in (first, second)]
        print(found == [[rapidhash.v3(b"m", secrets=own)] for own in (first, second)],
              client.gather(client.scatter(second)) == second, tokenize(first) == tokenize(rapidhash.make_secrets(1)))
"""
JAVA = """import example.yervound.rapidhash.*;
class Shards {
    public static void main(String[] words) throws Exception {
        for (String line : java.nio.file.Files.readAllLines(java.nio.file.Path.of(words[0]))) {
            String[] key = line.split("\t");
            byte[] name = key[0].equals("-") ? null : new java.math.BigInteger("1" + key[0], 16).toByteArray();
            Object text = name == null ? null : new String(name, 1, name.length - 1, "UTF-8");
            Long number = key[1].equals("-") ? null : Long.valueOf(key[1]);
            System.out.println(RapidhashShards.shard(RapidhashKey.hash(text, number), SHARDS));
        }
    }
}"""
GO = """package main

import ("bufio"; "encoding/hex"; "fmt"; "os"; "strconv"; "strings"; h "yervound.example/rapidhash")

func main() {
	lines := bufio.NewScanner(os.Stdin)
	for lines.Scan() {
		name, number, _ := strings.Cut(lines.Text(), "\t")
		key := []h.Field{h.Nothing(), h.Nothing()}
		if text, err := hex.DecodeString(name); err == nil {
			key[0] = h.Text(string(text))
		}
		if value, err := strconv.ParseInt(number, 10, 64); err == nil {
			key[1] = h.Integer(value)
		}
		fmt.Println(h.Shard(h.V3Key(key...), SHARDS))
	}
}"""


def row(draw):
    """Returns a name and a number. A third of the rows is drawn from few values, and either may be missing."""
    few = draw.random() < 1 / 3
    name = draw.choice(WORDS) + ("" if few else f":{draw.randrange(2 * ROWS)}")
    number = draw.randrange(-3, 3) if few else draw.randrange(-2**63, 2**63)
    return (None if draw.random() < 0.05 else name, None if draw.random() < 0.05 else number)


def written(number, place):
    """Returns the number of a row as a file has it, some with a sign and zeros before it."""
    return "" if number is None else f"{number:+05}" if place % 7 == 0 else str(number)


def write_parts(rows):
    """Writes the rows to files in turn. Returns their names."""
    names = [ROOM / f"part[{part}]?.csv" for part in range(PARTS)]
    for part, name in enumerate(names):
        with open(name, "w", encoding="utf-8", newline="") as file:
            csv.writer(file).writerows([name or "", written(number, place)]
                                       for place, (name, number) in enumerate(rows[part::PARTS]))
    return names


def grouped(rows):
    """Returns the lines of the example as SQLite computes them."""
    database = sqlite3.connect(":memory:")
    database.enable_load_extension(True)
    database.load_extension(str(TOP / "build/rapidhash"))
    database.execute("CREATE TABLE rows (name TEXT, number INTEGER)")
    database.executemany("INSERT INTO rows VALUES (?, ?)", rows)
    return database.execute(GROUPED).fetchall()


def grouped_by_server(parts):
    """Returns the lines of the example as a copy of the PostgreSQL server computes them."""
    stop = start_server()
    try:
        shell("make -s postgresql && make -s -C build/postgresql install", DESTDIR=str(ROOM))
        ask("CREATE EXTENSION rapidhash; CREATE TABLE rows (name text, number bigint)")
        for part in parts.split():
            ask(f"\\copy rows FROM {part} WITH (FORMAT csv)")
        return [tuple(map(int, line.split("|"))) for line in ask(GROUPED)]
    finally:
        shell(stop, "/")


def shards_by(program, name, command):
    """Returns the shards that a program prints for the table of keys, or what it printed instead."""
    (ROOM / name).write_text(program.replace("SHARDS", str(SHARDS)))
    return shell(command, ROOM, PYTHONPATH=str(ROOM / "wheel"), GOPROXY="off", GOCACHE=str(ROOM / "go"))[1].split()


needs("make", "cc", "/usr/include/sqlite3.h", "/usr/lib/python3/dist-packages/distributed",
      "/usr/lib/python3/dist-packages/pandas", "/usr/lib/python3/dist-packages/setuptools",
      "/usr/include/python3*/Python.h")
status, printed = shell("make -s sqlite wheel && /usr/bin/python3 -m zipfile -e build/wheels/*.whl \"$ROOM/wheel\"")
tell("build", *[printed] * (status != 0))
draw = random.Random(20261128)
rows = [row(draw) for _ in range(ROWS)]
parts = " ".join(f"'{part}'" for part in write_parts(rows))
example = TOP / "packages/python/examples/distinct.py"
status, printed = shell(f"/usr/bin/python3 -B {example} {WORKERS} {SHARDS} {parts}", ROOM,
                        PYTHONPATH=str(ROOM / "wheel"))
found = [tuple(map(int, line.split("\t"))) for line in printed.splitlines() if line.count("\t") == 2]
compare("status", (status, len(found)), (0, SHARDS))
compare("shards_of_sql", found, grouped(rows))
compare("rows", sum(count for _, count, _ in found), ROWS)
tell("duplicates", *["no row is there twice"] * (sum(distinct for _, _, distinct in found) >= ROWS))
if reason := lacks(*SERVER):
    skip("shards_of_postgresql", reason)
else:
    compare("shards_of_postgresql", grouped_by_server(parts), found)
with open(ROOM / "keys", "w", encoding="ascii") as file:
    file.writelines(f"{'-' if name is None else name.encode().hex()}\t{'-' if number is None else number}\n"
                    for name, number in list(dict.fromkeys(rows))[:20_000])
compare("secrets", shards_by(SECRETS, "own_secrets.py", "/usr/bin/python3 -B own_secrets.py"), ["True"] * 3)
known = shards_by(PYTHON, "shards.py", "/usr/bin/python3 -B shards.py keys")
compare("keys", (len(known), len(set(known))), (20_000, SHARDS))
for name, tools, program, command in (
        ("Shards.java", ("javac", "java"), JAVA,
         "make -s -C $YERVOUND jar && java -cp $YERVOUND/build/*rapidhash*.jar Shards.java keys"),
        ("shards.go", ("go",), GO, "go mod init shards && go mod edit -replace"
         " yervound.example/rapidhash=$YERVOUND/packages/go && go mod tidy && go run . <keys")):
    if reason := lacks(*tools):
        skip(name, reason)
    else:
        printed = shards_by(program, name, command)
        tell(name, *[(printed[:20], known[:20])] * (printed[-len(known):] != known))
finish()
