"""Counts the words of each document of a folder, document by document.

    corpus.py TABLE FOLDER [WORKERS]

TABLE is a table file, or the name of a table that is in the library, as word. A word is a segment with
a letter or a digit of any script, so each letter of Thai is one. With
WORKERS the documents are mapped over so many processes by Dask, each of which loads the table once;
without, all is done in this one. The output is the same: a line for each document, by name, with its
number of characters and of words.
"""
import os
import sys

from rbbi import Table

TABLES = {}


def table_of(name):
    """The table of a file or of a name, loaded once in a process."""
    if name not in TABLES:
        if os.path.exists(name):
            with open(name, 'rb') as file:
                TABLES[name] = Table.load(file.read())
        else:
            TABLES[name] = Table.named(name)
    return TABLES[name]


def counted(table, name):
    """The name of a document, its number of characters, and its number of words."""
    with open(name, 'rb') as file:
        text = file.read().decode()
    return os.path.basename(name), len(text), len(table_of(table).words(text))


def over_dask(call, rows, workers):
    """What a call gives for each row of arguments, by Dask's processes. One that ends is begun again."""
    from dask.distributed import Client, LocalCluster
    with LocalCluster(n_workers=workers, threads_per_worker=1, dashboard_address=None) as cluster:
        with Client(cluster) as client:
            return client.gather(client.map(call, *zip(*rows), pure=False))


def main():
    table, folder = sys.argv[1], os.path.abspath(sys.argv[2])
    table = os.path.abspath(table) if os.path.exists(table) else table
    workers = int(sys.argv[3]) if len(sys.argv) > 3 else 0
    names = sorted(entry.path for entry in os.scandir(folder) if entry.is_file())
    calls = [(table, name) for name in names]
    lines = over_dask(counted, calls, workers) if workers else [counted(*call) for call in calls]
    for name, characters, words in lines:
        print(name, characters, words)


if __name__ == '__main__':
    main()
