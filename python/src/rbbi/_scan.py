"""A text that nobody edits, searched where it is or piece by piece: rbbi_breaks, rbbi_words and
rbbi_scan_next of rbbi.h.

A `str` of ASCII is passed as UTF-8 and any other as UTF-16, in which places are those of the `str` up
to its first character past U+FFFF; those after it are moved by the number of such characters before.
"""
from __future__ import annotations

import ctypes
import re
import sys
from array import array
from typing import Any, Iterator, Union

from ._library import LIBRARY, Answer, Handle, checked

_ROOM = 1 << 14
"""How many boundaries one call gives."""

_PIECE = 1 << 16
"""How many bytes of a file are read at once."""

_UTF8 = 1
"""The unit of a file, by the numbers of rbbi.h."""

_PAIRS = re.compile('[\U00010000-\U0010ffff]')
"""What takes two units of UTF-16."""

_ORDER = 'utf-16-le' if sys.byteorder == 'little' else 'utf-16-be'


def _moved(places: array[int], pairs: list[int]) -> array[int]:
    """The places in a `str` of places in UTF-16, by the places in the `str` of what takes two units."""
    moved, before, count = array('Q'), 0, len(pairs)
    for place in places:
        while before < count and pairs[before] + before < place:
            before += 1
        moved.append(place - before)
    return moved


def chunks(table: Any, units: Any, length: int, name: str, columns: int) -> Iterator[list[memoryview]]:
    """The columns that each call of C fills, one call after the other, until the text ends."""
    rooms = [(ctypes.c_uint64 * _ROOM)(), (ctypes.c_uint64 * _ROOM)(), (ctypes.c_uint32 * _ROOM)()]
    rooms = rooms[-columns:]
    count, resume = ctypes.c_size_t(), ctypes.c_uint64()
    answer, call = int(Answer.ROOM), getattr(LIBRARY, name)
    while answer == Answer.ROOM:
        answer = call(table, units, length, resume.value, *rooms, _ROOM, ctypes.byref(count),
                      ctypes.byref(resume))
        if answer != Answer.ROOM:
            checked(answer, lone=resume.value)
        yield [memoryview(room).cast('B')[:ctypes.sizeof(room) // _ROOM * count.value] for room in rooms]


def scanned(table: Any, text: Union[str, bytes],
            is_words: bool) -> tuple[array[int], array[int], array[int]]:
    """Where each segment of a text begins (of words alone), where it ends, and its largest status.

    No other thread may close the table meanwhile.
    """
    name = 'rbbi_words' if is_words else 'rbbi_breaks'
    is_wide = isinstance(text, str) and not text.isascii()
    if not isinstance(text, str):
        units, length = text, len(text)
    elif is_wide:
        units = text.encode(_ORDER)
        length = len(units) // 2
    else:
        units, length = text.encode(), len(text)
    starts, ends, statuses = array('Q'), array('Q'), array('I')
    columns = [starts, ends, statuses][not is_words:]
    for found in chunks(table, units, length, name + '_utf16' * is_wide, len(columns)):
        for column, filled in zip(columns, found):
            column.frombytes(filled)
    if is_wide and length != len(text):
        pairs = [found.start() for found in _PAIRS.finditer(text)]
        starts, ends = _moved(starts, pairs), _moved(ends, pairs)
    return starts, ends, statuses


def fed(table: Any, file: Any, is_words: bool) -> Iterator[tuple[int, int, int]]:
    """Each segment of a binary file, or its words alone: its start, its end and its largest status."""
    scan = Handle()
    starts, ends = (ctypes.c_uint64 * _ROOM)(), (ctypes.c_uint64 * _ROOM)()
    statuses, count, place = (ctypes.c_uint32 * _ROOM)(), ctypes.c_size_t(), ctypes.c_uint64()
    answer, ref = int(Answer.DONE), ctypes.byref(scan)
    checked(LIBRARY.rbbi_scan_open(ref, table, _UTF8, is_words))
    try:
        while answer in (Answer.DONE, Answer.ROOM):
            if answer == Answer.DONE:
                piece = file.read(_PIECE)
                checked(LIBRARY.rbbi_scan_feed(ref, piece, len(piece), not piece))
            answer = LIBRARY.rbbi_scan_next(ref, starts, ends, statuses, _ROOM, ctypes.byref(count),
                                            ctypes.byref(place))
            given = count.value
            yield from zip(starts[:given], ends[:given], statuses[:given])
        checked(answer)
    finally:
        LIBRARY.rbbi_scan_close(ref)
