"""Counts the segments of one document of any length, by their status, in pieces that are searched apart.

    pieces.py TABLE FILE PIECES [WORKERS]

TABLE is a table file, or the name of a table that is in the library, as word. The document is UTF-8. It
is cut at anchors, and only what is near the cuts is read for that. With WORKERS the pieces are mapped over
so many processes by Dask, each of which reads its piece; without, one after the other. It prints how many
segments there are, the sum of the places where they end, in bytes, and how many have each status. All
of this is the same for any number of pieces and workers.
"""
import mmap
import os
import sys
from collections import Counter

from corpus import over_dask, table_of


def counted(table, name, piece):
    """How many segments that end in a piece have each status, and the sum of their ends."""
    with open(name, 'rb') as file:
        file.seek(piece.start)
        part = file.read(piece.end - piece.start)
    places, statuses = table_of(table).boundaries_in(piece, part)
    return Counter(statuses), sum(places)


def pieces_of(table, name, count):
    """The pieces of a document."""
    with open(name, 'rb') as file, mmap.mmap(file.fileno(), 0, access=mmap.ACCESS_READ) as text:
        return table_of(table).pieces(text, count)


def main():
    table, name, count = sys.argv[1], os.path.abspath(sys.argv[2]), int(sys.argv[3])
    table = os.path.abspath(table) if os.path.exists(table) else table
    workers = int(sys.argv[4]) if len(sys.argv) > 4 else 0
    calls = [(table, name, piece) for piece in pieces_of(table, name, count)]
    found = over_dask(counted, calls, workers) if workers else [counted(*call) for call in calls]
    statuses = sum((counts for counts, _ in found), Counter())
    print('segments', sum(statuses.values()), 'sum', sum(places for _, places in found))
    for status, segments in sorted(statuses.items()):
        print(status, segments)


if __name__ == '__main__':
    main()
