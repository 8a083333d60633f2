"""Where a text may be cut so that its pieces are searched apart: anchors, by the table's file.

A place before two characters whose categories are a safe pair is an anchor: after such a pair every
search is in the same row, wherever it was before. So a search from an anchor finds the boundaries
of the whole text past it, with their statuses from two characters past it on. And every search that
comes past the pair ends where one from the anchor does, so the piece before has to reach no further.
"""
from __future__ import annotations

import struct
from bisect import bisect_right
from typing import Any, NamedTuple


class Piece(NamedTuple):
    """A part of a text that is searched by itself: `text[start:end]`.

    Of its boundaries, as places of the whole text, those from `first` to `last` are the text's.
    """
    start: int
    end: int
    first: int
    last: int


class Cutter:
    """What cutting wants of a table's file (docs/formats.md)."""

    def __init__(self, file: bytes) -> None:
        self.count, ranges, lists, self.rows, _ = struct.unpack_from('<HIHHH', file, 8)
        at = 20
        pairs = list(struct.iter_unpack('<IH', file[at:at + 6 * ranges]))
        self.starts, self.categories = [one for one, _ in pairs], [two for _, two in pairs]
        at += 6 * ranges
        for _ in range(lists):
            at += 2 + 4 * struct.unpack_from('<H', file, at)[0]
        self.wide = 'B' if file[7] == 2 and self.rows <= 255 else 'H'
        self.row = struct.Struct(f'<HIH{self.count}{self.wide}')
        self.file, self.first_row, self.safe = file, at, at + self.rows * self.row.size

    def category(self, code: int) -> int:
        """The category of a character."""
        return self.categories[bisect_right(self.starts, code) - 1]

    def is_safe(self, one: int, two: int) -> bool:
        """Whether two categories are a safe pair."""
        bit = one * self.count + two
        return bool(self.file[self.safe + bit // 8] >> bit % 8 & 1)

    def step(self, row: int, category: int) -> tuple[int, bool]:
        """The row after a character, and whether a search goes on from there."""
        after = self.row.unpack_from(self.file, self.first_row + row * self.row.size)[3 + category]
        accept = struct.unpack_from('<H', self.file, self.first_row + after * self.row.size)[0]
        return after, after != 0 and accept < 2


def character(text: Any, at: int) -> tuple[int, int]:
    """The character at a place of a `str` or of bytes of UTF-8, and the place after it."""
    if isinstance(text, str):
        return ord(text[at]), at + 1
    first = text[at]
    size = 1 if first < 0x80 else 2 if first < 0xE0 else 3 if first < 0xF0 else 4
    return ord(bytes(text[at:at + size]).decode()), at + size


def anchor(cutter: Cutter, text: Any, at: int) -> tuple[int, int, int]:
    """The first anchor from a place on, with the places one and two characters past it.

    The end of the text stands for each where there is none.
    """
    length = len(text)
    if not isinstance(text, str):
        while at < length and text[at] & 0xC0 == 0x80:
            at += 1
    places, before = (at, at), None
    while at < length:
        code, after = character(text, at)
        category = cutter.category(code)
        if before is not None and cutter.is_safe(before, category):
            return places[1], at, after
        places, before, at = (places[1], at), category, after
    return length, length, length


def reach(cutter: Cutter, text: Any, at: int) -> int:
    """How far a search from a place reads."""
    row, goes_on = 1, True
    while goes_on and at < len(text):
        code, at = character(text, at)
        row, goes_on = cutter.step(row, cutter.category(code))
    return at


def pieces(file: bytes, text: Any, count: int) -> list[Piece]:
    """At most so many pieces of a text, of about the same length."""
    cutter, found = Cutter(file), []
    start = first = 0
    for number in range(1, count):
        target = max(len(text) * number // count, first)
        place, one, two = anchor(cutter, text, target)
        if place == len(text):
            break
        found.append(Piece(start, max(two, reach(cutter, text, place)), first, one))
        start, first = place, two
    return found + [Piece(start, len(text), first, len(text))]
