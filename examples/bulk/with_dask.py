#!/usr/bin/env python3
"""Judges many traces by the distributed scheduler of Dask, in pieces of a file that all its workers can read.

    python3 with_dask.py FILE WORKERS              workers on this machine, each a process
    python3 with_dask.py FILE tcp://HOST:PORT      those of a scheduler that runs

The report is that of `bulk.py FILE`. If a worker ends, the scheduler gives its pieces to another one. Each piece has
one result, so nothing is lost and nothing is counted twice. Workers need this folder and the package scard on their
path.
"""
import sys

import bulk
from dask.distributed import Client, LocalCluster

# more pieces than workers, so that all workers end at about the same time
PIECES = 64


def begun(word):
    """The client of a scheduler, or of so many workers that begin here, each with one thread."""
    if not word.isdigit():
        return Client(word)
    return Client(LocalCluster(n_workers=int(word), threads_per_worker=1, processes=True, dashboard_address=None))


def judged(client, path):
    """What is found in each piece."""
    tasks = [client.submit(bulk.piece, path, *it, pure=False) for it in bulk.pieces(path, PIECES)]
    return client.gather(tasks)


def main(words):
    if len(words) != 2:
        sys.exit(__doc__)
    with begun(words[1]) as client:
        print(bulk.report(words[0], judged(client, words[0])))


if __name__ == "__main__":
    main(sys.argv[1:])
