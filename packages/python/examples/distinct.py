"""Counts the rows and the distinct rows of a table in parts, by dask.dataframe over several processes (Debian's
python3-distributed and python3-pandas):

    python3 distinct.py WORKERS SHARDS PART.csv ..

A part has the columns name and number, and an empty field is missing. It must have no NUL, at which pandas ends a text.
A row goes to the shard of its key, so equal rows meet in one process, and every language sends them there. It prints a
line for each shard: shard, rows, distinct rows."""

import sys

import dask.dataframe
import numpy
import pandas
import rapidhash
from dask import compute, delayed
from distributed import Client, LocalCluster

TEXTS = {"name": str, "number": str}


def add_shard(part, shards):
    """Returns a part with its numbers and the shard of each row. They were read as texts, since pandas rounds long
    ones, and a number may be written in several ways."""
    names = [name or None for name in part["name"]]
    numbers = [int(number) if number else None for number in part["number"]]
    keys = rapidhash.each_key(names, numbers)
    shard = numpy.asarray(rapidhash.shard(keys, shards))  # An array would have another type.
    return part.assign(number=pandas.Series(numbers, part.index, dtype=object), shard=shard)


def count(part):
    """Returns the rows and the distinct rows of a shard. The rows are compared, so no collision matters."""
    return len(part), len(part.drop_duplicates())


def main():
    workers, shards, parts = int(sys.argv[1]), int(sys.argv[2]), sys.argv[3:]
    cluster = LocalCluster(n_workers=workers, threads_per_worker=1, dashboard_address=None)
    with cluster, Client(cluster):
        # If it skips blank lines, pandas loses the blank at the start of a line in which its buffer ends.
        table = dask.dataframe.from_map(pandas.read_csv, parts, names=[*TEXTS], dtype=TEXTS, keep_default_na=False,
                                        skip_blank_lines=False)
        table = table.map_partitions(add_shard, shards, meta=TEXTS | {"shard": "u8"})
        table = table.set_index("shard", divisions=[*range(shards + 1)], shuffle="tasks")
        for shard, counts in enumerate(compute(*map(delayed(count), table.to_delayed()))):
            print(shard, *counts, sep="\t")


if __name__ == "__main__":
    main()
