"""Judges a file by two workers of Dask, ends one of them in the midst, and prints the report. test_bulk.py runs it by
an interpreter that has Dask's distributed scheduler.

usage: bulk_killed.py FOLDER FILE

FOLDER is examples/bulk. The last line says how many workers ended.
"""
import os
import signal
import sys
import time


def main(words):
    sys.path.insert(0, words[0])
    import bulk
    import with_dask

    with with_dask.begun("2") as client:
        before = client.run(os.getpid)
        tasks = [client.submit(bulk.piece, words[1], *it, pure=False) for it in bulk.pieces(words[1], with_dask.PIECES)]
        while not any(it.done() for it in tasks):
            time.sleep(0.01)
        is_midst = not all(it.done() for it in tasks)
        ended = next(iter(before.values()))
        os.kill(ended, signal.SIGKILL)
        print(bulk.report(words[1], client.gather(tasks)))
        while ended in client.run(os.getpid).values():
            time.sleep(0.01)
    print(f"{int(is_midst)} worker ended in the midst")


if __name__ == "__main__":
    main(sys.argv[1:])
