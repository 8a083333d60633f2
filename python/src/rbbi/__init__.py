"""Text boundaries (characters, words, sentences, lines) by break rules, over the C library of rbbi.

    import rbbi
    rbbi.words("can't 32.3.")          # ["can't", '32.3']

A text that is edited has a session, which keeps its boundaries:

    from rbbi import Table
    with Table.named('word') as table, table.session("can't 32.3.") as session:
        for segment in session:
            print(segment.start, segment.end, segment.status)

Places count characters, as the places of a `str` do, unless a session is opened in another unit.
The library is the one that RBBI_LIBRARY names, else the one in this package, else the one that the
system's loader finds. Calls of one table, session or tally take turns, so threads may share it.
"""
from __future__ import annotations

import ctypes
import enum
import sys
import threading
from array import array
from bisect import bisect_left, bisect_right
from typing import (Any, Callable, ClassVar, Iterable, Iterator, NamedTuple, Optional, Tuple,
                    TypeVar, Union)

from ._library import (LIBRARY, Answer, CChange, CFault, Error, Fault, Handle, LoneSurrogate,
                       checked)
from ._pieces import Piece, pieces
from ._scan import fed, scanned

__all__ = ['Answer', 'Boundaries', 'Change', 'Error', 'Fault', 'LoneSurrogate', 'Piece', 'Segment',
           'Session', 'Table', 'Tally', 'Text', 'Unit', 'graphemes', 'lines', 'sentences', 'unicode_version',
           'version', 'words']

Text = Union[str, bytes]
"""A text: a `str`, or bytes of UTF-8."""

version: str = LIBRARY.rbbi_version().decode()
"""The version of the C library."""

unicode_version: str = LIBRARY.rbbi_unicode_version().decode()
"""The version of Unicode whose data is in the library."""


class Unit(enum.IntEnum):
    """What places, lengths and numbers of a session count."""
    CHARS = 0
    """Characters: code points, as a `str` has them."""
    UTF8 = 1
    """Bytes of UTF-8."""
    UTF16 = 2
    """16-bit units of UTF-16."""


class Segment(NamedTuple):
    """The characters between two neighbouring boundaries, with the largest status of the later one."""
    start: int
    end: int
    status: int


class Change(NamedTuple):
    """What an edit changed: outside of this range boundaries and statuses are the old ones.

    It begins at the same place of the old and the new text. At its ends boundaries may differ.
    """
    start: int
    old_end: int
    new_end: int


class Boundaries(NamedTuple):
    """Boundaries in order, each with its largest status, as two arrays: of a session of the type code
    `I`, of a table places of `Q` and statuses of `I`."""
    places: array[int]
    statuses: array[int]


_MOST = (1 << 32) - 1
"""The greatest place: it lies past the end of every text."""

_ROOM = 1 << 14
"""How many boundaries one call lists."""

_SPAN = 1 << 14
"""Over how much of a text the segments of a session are listed at once."""


def _bytes(text: Text) -> bytes:
    return text.encode() if isinstance(text, str) else text


_UTF16 = ('B', 'b', 'c', 'H', '<H' if sys.byteorder == 'little' else '>H')
"""The formats of a buffer of UTF-16: bytes, and 16-bit units in this machine's byte order."""


def _units(units: Any) -> tuple[Any, int]:
    """The 16-bit units of a buffer as C wants them, and how many there are."""
    view = memoryview(units)
    if view.format.lstrip('@=') not in _UTF16:
        raise TypeError(f'UTF-16 is a buffer of bytes or of the type code H, not {view.format}')
    if view.nbytes % 2:
        raise ValueError('UTF-16 has an even number of bytes')
    count = view.nbytes // 2
    return (ctypes.c_uint16 * count).from_buffer_copy(view), count


def _number(number: int) -> int:
    if not 0 <= number <= _MOST:
        raise ValueError('a place and a number are from 0 to 4294967295')
    return number


def _unit(unit: Union[Unit, int]) -> Unit:
    """The unit of a number; ctypes would take a number past 32 bits for another one."""
    try:
        return Unit(unit)
    except ValueError:
        raise Error(Answer.UNIT) from None


_Self = TypeVar('_Self', bound='_Closing')


class _Closing:
    """What has a handle of C, which one thread at a time uses, and closes it."""
    _close: ClassVar[Callable[[Any], None]]

    def __init__(self) -> None:
        self._handle = Handle()
        self._ref = ctypes.byref(self._handle)
        self._lock = threading.Lock()

    def close(self) -> None:
        """Frees what is held. Closing twice does nothing; other calls then raise `Error`."""
        with self._lock:
            type(self)._close(self._ref)

    def __enter__(self: _Self) -> _Self:
        return self

    def __exit__(self, *_: object) -> None:
        self.close()

    def __del__(self) -> None:
        if hasattr(self, '_lock'):
            self.close()


class _Files(_Closing):
    """A list of property files."""
    _close = LIBRARY.rbbi_files_close

    def __init__(self, files: Iterable[tuple[str, bytes]]) -> None:
        super().__init__()
        checked(LIBRARY.rbbi_files_open(self._ref))
        for name, rows in files:
            if '\0' in name:
                raise ValueError('a name of a property has no zero in it')
            fault = CFault()
            checked(LIBRARY.rbbi_files_add(self._ref, name.encode(), rows, len(rows),
                                           ctypes.byref(fault)), fault)


class Table(_Closing):
    """A table of break rules. Sessions share it, and keep it in memory after it is closed."""
    _close = LIBRARY.rbbi_table_close

    @classmethod
    def compile(cls, rules: Text, files: Iterable[tuple[str, bytes]] = (),
                ignore_dictionary: bool = False) -> Table:
        """The table of the rules of a rule file (docs/rules.md).

        `files` are property files: pairs of a name, as `WB` of `\\p{WB=Numeric}`, and its rows.
        Raises `Fault` for the first fault of the rules or of a property file.
        """
        rules, table, fault = _bytes(rules), cls(), CFault()
        with _Files(files) as list_of:
            checked(LIBRARY.rbbi_table_compile(table._ref, list_of._ref, rules, len(rules),
                                               bool(ignore_dictionary), ctypes.byref(fault)), fault)
        return table

    @classmethod
    def load(cls, table_file: bytes) -> Table:
        """The table of a table file, as `write` gives it. Raises `Fault` if it isn't valid."""
        table, fault = cls(), CFault()
        checked(LIBRARY.rbbi_table_load(table._ref, table_file, len(table_file),
                                        ctypes.byref(fault)), fault)
        return table

    @classmethod
    def named(cls, name: str) -> Table:
        """A table that is in the library: `grapheme`, `word`, `sentence` or `line`.

        The first three are by UAX #29 of Unicode 18.0, the last by UAX #14 of 17.0 over data of 18.0.
        Lines as CSS tailors them are `line-strict`, which is `line`, `line-normal` and `line-loose`, and
        for Chinese and Japanese `line-cj`, `line-normal-cj` and `line-loose-cj`.
        """
        if '\0' in name:  # where the name would end for C
            raise Error(Answer.NAME)
        table = cls()
        checked(LIBRARY.rbbi_table_named(table._ref, name.encode()))
        return table

    def share(self) -> Table:
        """One more owner of the same table in memory."""
        other = Table()
        with self._lock:
            checked(LIBRARY.rbbi_table_share(other._ref, self._ref))
        return other

    def write(self) -> bytes:
        """The bytes of the table's file."""
        length = ctypes.c_size_t()
        with self._lock:
            answer = LIBRARY.rbbi_table_write(self._ref, None, 0, ctypes.byref(length))
            if answer != Answer.ROOM:
                checked(answer)
            room = ctypes.create_string_buffer(length.value)
            checked(LIBRARY.rbbi_table_write(self._ref, room, length, ctypes.byref(length)))
        return room.raw

    def __reduce__(self) -> tuple[Any, ...]:
        return Table.load, (self.write(),)

    def boundaries(self, text: Text) -> Boundaries:
        """All boundaries of a text after 0: places in characters of a `str`, in bytes of `bytes`.

        The text is searched where it is, once, and may have any length.
        """
        with self.share() as table:
            places, statuses = scanned(table._ref, text, is_words=False)[1:]
        return Boundaries(places, statuses)

    def pieces(self, text: Any, count: int) -> list[Piece]:
        """At most `count` pieces of a text, cut at anchors, to be searched apart by `boundaries_in`.

        The text is a `str`, or UTF-8 in bytes or a map of a file, of which only what is near the cuts is
        read; places count characters, or bytes. There are fewer pieces where too few places are anchors.
        """
        if count < 1:
            raise ValueError('a text has one piece or more')
        return pieces(self.write(), text, count)

    def boundaries_in(self, piece: Piece, part: Text) -> Boundaries:
        """The boundaries of the whole text that a piece gives, of `part`, its `text[start:end]`.

        Those of all pieces in turn are those that `boundaries` gives for the whole text.
        """
        found = self.boundaries(part)
        begin = bisect_left(found.places, piece.first - piece.start)
        end = bisect_right(found.places, piece.last - piece.start)
        return Boundaries(array('Q', map(piece.start.__add__, found.places[begin:end])),
                          found.statuses[begin:end])

    def spans(self, text: Text) -> list[tuple[int, int]]:
        """The segments of a text, each by its start and its end."""
        places = self.boundaries(text).places
        return list(zip([0, *places], places))

    def split(self, text: Text) -> list[Any]:
        """The segments of a text, which together are the text."""
        return [text[start:end] for start, end in self.spans(text)]

    def words(self, text: Text) -> list[Any]:
        """The segments of a text with a letter or a digit of any script."""
        with self.share() as table:
            starts, ends = scanned(table._ref, text, is_words=True)[:2]
        return [text[start:end] for start, end in zip(starts, ends)]

    def scan(self, file: Any, only_words: bool = False) -> Iterator[Segment]:
        """Each segment of a binary file of UTF-8, of any size, with places in bytes.

        The file is read piece by piece as segments are asked for, and little of it is kept. With
        `only_words` segments without a letter or a digit of any script are left out. Raises `Error`
        after the segments before the fault if the bytes aren't UTF-8.
        """
        with self.share() as table:
            for start, end, status in fed(table._ref, file, only_words):
                yield Segment(start, end, status)

    def session(self, text: Text, unit: Unit = Unit.CHARS) -> Session:
        """A session over a text, with places in a unit."""
        return Session(self, text, unit)

    def session_utf16(self, units: Any, unit: Unit = Unit.UTF16) -> Session:
        """A session over a text in UTF-16, of this machine's byte order, with places in a unit.

        `units` is a buffer: an `array` of the type code `H`, or bytes. Raises `LoneSurrogate` if
        a surrogate is in no pair.
        """
        return Session._over_utf16(self, units, unit)

    def tally(self, text: Text, unit: Unit = Unit.CHARS) -> Tally:
        """How many segments of a text have each status, with the places of edits in a unit."""
        return Tally(self, text, unit)


class Session(_Closing):
    """A text with a table and a cursor, which begins at 0.

    Each answer is what a scan of the whole text as it is gives, and moves the cursor to the boundary
    that is found. Where there is none the answer is None, and the cursor goes to the end or to 0.
    """
    _close = LIBRARY.rbbi_session_close

    def __init__(self, table: Table, text: Text, unit: Unit = Unit.CHARS) -> None:
        """Opens a session over a text. Raises `Error` if it has over 16,777,216 characters."""
        self._begin()
        text, unit = _bytes(text), _unit(unit)
        with table._lock:
            checked(LIBRARY.rbbi_session_open(self._ref, table._ref, text, len(text), unit))

    @classmethod
    def _over_utf16(cls, table: Table, units: Any, unit: Unit) -> Session:
        """A session over a text in UTF-16."""
        (room, count), lone, session = _units(units), ctypes.c_uint32(), cls.__new__(cls)
        session._begin()
        unit = _unit(unit)
        with table._lock:
            answer = LIBRARY.rbbi_session_open_utf16(session._ref, table._ref, room, count, unit,
                                                     ctypes.byref(lone))
        checked(answer, lone=lone.value)
        return session

    def fork(self) -> Session:
        """A second session over a copy of the text, with the same table, unit and cursor.

        From then on neither changes the other. It takes the time and the memory of one copy.
        """
        copy = type(self).__new__(type(self))
        copy._begin()
        with self._lock:
            checked(LIBRARY.rbbi_session_fork(self._ref, copy._ref))
        return copy

    def suppress(self, abbreviations: Text) -> None:
        """From now on a boundary after an abbreviation, such as `Mr.`, isn't reported.

        `abbreviations` is a file of them, one a line (docs/formats.md). The cursor goes to 0. From
        then on `fork`, `replace_changed`, `redraw`, `segment`, `boundaries`, `boundaries_before` and
        a second filter raise `Error`. Raises `Fault` for a fault of the file.
        """
        self._filter(LIBRARY.rbbi_session_suppress, _bytes(abbreviations))

    def tailor(self, pairs: Text) -> None:
        """From now on boundaries are those of the text with its characters mapped by pairs.

        `pairs` is a file of them, one a line (docs/formats.md). Else it is as `suppress`.
        """
        self._filter(LIBRARY.rbbi_session_tailor, _bytes(pairs))

    def _filter(self, call: Callable[..., int], file: bytes) -> None:
        fault = CFault()
        with self._lock:
            checked(call(self._ref, file, len(file), ctypes.byref(fault)), fault)

    def _begin(self) -> None:
        _Closing.__init__(self)
        self._place = ctypes.c_uint32()
        self._place_ref = ctypes.byref(self._place)

    def _asked(self, call: Callable[..., int], *numbers: int) -> Optional[int]:
        """The number that a call answers, or None where there is no such boundary."""
        with self._lock:
            answer = call(self._ref, *numbers, self._place_ref)
            if answer == 0:
                return self._place.value
        checked(answer)
        return None

    def _number_of(self, call: Callable[..., int]) -> int:
        """The number of a call that always has one."""
        number = self._asked(call)
        assert number is not None
        return number

    def first(self) -> int:
        """The first boundary, which is 0."""
        return self._number_of(LIBRARY.rbbi_session_first)

    def last(self) -> int:
        """The last boundary, which is the length."""
        return self._number_of(LIBRARY.rbbi_session_last)

    def next(self) -> Optional[int]:
        """The boundary after the cursor."""
        return self._asked(LIBRARY.rbbi_session_next)

    def previous(self) -> Optional[int]:
        """The boundary before the cursor."""
        return self._asked(LIBRARY.rbbi_session_previous)

    def following(self, place: int) -> Optional[int]:
        """The first boundary after a place, which may be any."""
        return self._asked(LIBRARY.rbbi_session_following, _number(place))

    def preceding(self, place: int) -> Optional[int]:
        """The last boundary before a place, which may be any."""
        return self._asked(LIBRARY.rbbi_session_preceding, _number(place))

    def is_boundary(self, place: int) -> bool:
        """Whether a place is a boundary. The cursor goes to the first one that isn't before it."""
        return self._asked(LIBRARY.rbbi_session_is_boundary, _number(place)) == 1

    def current(self) -> int:
        """Where the cursor is."""
        return self._number_of(LIBRARY.rbbi_session_current)

    def status(self) -> int:
        """The largest status of the boundary at the cursor."""
        return self._number_of(LIBRARY.rbbi_session_status)

    def statuses(self) -> list[int]:
        """All statuses of the boundary at the cursor, in increasing order."""
        room, count = (ctypes.c_uint32 * 8)(), ctypes.c_size_t()
        with self._lock:
            call = LIBRARY.rbbi_session_statuses
            answer = call(self._ref, room, len(room), ctypes.byref(count))
            if answer == Answer.ROOM:
                room = (ctypes.c_uint32 * count.value)()
                answer = call(self._ref, room, len(room), ctypes.byref(count))
        checked(answer)
        return list(room[:count.value])

    def length(self) -> int:
        """The length of the text, in the unit."""
        return self._number_of(LIBRARY.rbbi_session_length)

    def replace(self, at: int, remove: int, insert: Text) -> None:
        """Replaces `remove` units from `at` on by `insert`, and sets the cursor to 0.

        Raises `Error` if the edit reaches past the end, or begins or ends inside a character.
        """
        insert = _bytes(insert)
        with self._lock:
            checked(LIBRARY.rbbi_session_replace(self._ref, _number(at), _number(remove), insert,
                                                 len(insert)))

    def replace_changed(self, at: int, remove: int, insert: Text) -> Change:
        """The same edit, which returns what it changed.

        That is the least range that has the edit in it and outside of which boundaries are as before.
        At both of its ends they may differ: without the space in "The quick" the range is empty, and
        its segment is new. `redraw` gives what is to be drawn again.
        """
        insert, change = _bytes(insert), CChange()
        with self._lock:
            checked(LIBRARY.rbbi_session_replace_changed(self._ref, _number(at), _number(remove),
                                                         insert, len(insert), ctypes.byref(change)))
        return Change(change.start, change.old_end, change.new_end)

    def redraw(self, change: Change) -> Tuple[int, int]:
        """What is to be drawn again after the edit of this change: a start and an end.

        They are the boundary before `start`, or 0, and the one after `new_end`, or the end. All
        segments that changed lie there. Ask before the next edit. The cursor stays where it is.
        """
        told = CChange(*map(_number, change))
        numbers = ctypes.c_uint32(), ctypes.c_uint32()
        with self._lock:
            checked(LIBRARY.rbbi_session_redraw(self._ref, ctypes.byref(told),
                                                *map(ctypes.byref, numbers)))
        return numbers[0].value, numbers[1].value

    def replace_utf16(self, at: int, remove: int, units: Any) -> None:
        """Replaces `remove` units from `at` on by a text in UTF-16, and sets the cursor to 0.

        `units` is a buffer, as that of `Table.session_utf16`. Raises `LoneSurrogate` if a
        surrogate is in no pair, and `Error` as `replace` does.
        """
        (room, count), lone = _units(units), ctypes.c_uint32()
        with self._lock:
            answer = LIBRARY.rbbi_session_replace_utf16(self._ref, _number(at), _number(remove), room,
                                                        count, ctypes.byref(lone))
        checked(answer, lone=lone.value)

    def text(self, start: int = 0, end: Optional[int] = None) -> str:
        """The text from a place to another, or to its end.

        Raises `Error` if one of them is past the end or inside a character, or `end` is before
        `start`.
        """
        end = self.length() if end is None else end
        call, length = LIBRARY.rbbi_session_text, ctypes.c_size_t()
        start, end = _number(start), _number(end)
        with self._lock:
            answer = call(self._ref, start, end, None, 0, ctypes.byref(length))
            room = ctypes.create_string_buffer(length.value)
            if answer == Answer.ROOM:
                answer = call(self._ref, start, end, room, length, ctypes.byref(length))
        checked(answer)
        return room.raw.decode()

    def segment(self, place: int) -> Optional[Segment]:
        """The segment that holds the character after a place, as the word at an editor's cursor.

        None at the end of the text and past it. The session's cursor stays where it is.
        """
        numbers = ctypes.c_uint32(), ctypes.c_uint32(), ctypes.c_uint32()
        with self._lock:
            answer = LIBRARY.rbbi_session_segment(self._ref, _number(place),
                                                  *map(ctypes.byref, numbers))
        if checked(answer) == Answer.DONE:
            return None
        return Segment(*(number.value for number in numbers))

    def boundaries(self, start: int = 0, end: int = _MOST) -> Boundaries:
        """All boundaries after `start`, up to and with `end`. The cursor stays where it is.

        This is the fast way to all boundaries of a text: no call of Python is made for each.
        """
        return self._listed(LIBRARY.rbbi_session_boundaries, start, end)

    def boundaries_before(self, start: int = _MOST, end: int = 0) -> Boundaries:
        """All boundaries before `start`, down to and with `end`, the last one first.

        The cursor stays where it is.
        """
        return self._listed(LIBRARY.rbbi_session_boundaries_before, start, end)

    def _listed(self, call: Callable[..., int], start: int, end: int) -> Boundaries:
        """What a call lists, however often it has to be made."""
        places, statuses = array('I'), array('I')
        place_room, status_room = (ctypes.c_uint32 * _ROOM)(), (ctypes.c_uint32 * _ROOM)()
        count, resume = ctypes.c_size_t(), ctypes.c_uint32(_number(start))
        end, answer = _number(end), int(Answer.ROOM)
        with self._lock:
            while answer == Answer.ROOM:
                answer = call(self._ref, resume.value, end, place_room, status_room, _ROOM,
                              ctypes.byref(count), ctypes.byref(resume))
                if answer in (Answer.OK, Answer.ROOM):
                    places.frombytes(memoryview(place_room).cast('B')[:4 * count.value])
                    statuses.frombytes(memoryview(status_room).cast('B')[:4 * count.value])
        checked(answer)
        return Boundaries(places, statuses)

    def segments(self) -> Iterator[Segment]:
        """Each segment, from the start of the text on. Edit the text when the iteration has ended.

        The cursor stays where it is; through a filter it moves along.
        """
        start, low, length = 0, 0, self.length()
        while low < length:
            high = min(low + _SPAN, length)
            try:
                listed = self.boundaries(low, high)
            except Error as error:
                if error.answer != Answer.FILTERED:
                    raise
                yield from self._visited()
                return
            for end, status in zip(*listed):
                yield Segment(start, end, status)
                start = end
            low = high

    def _visited(self) -> Iterator[Segment]:
        """Each segment, which the cursor visits one after another."""
        start, end = self.first(), self.next()
        while end is not None:
            yield Segment(start, end, self.status())
            start, end = end, self.next()

    __iter__ = segments


class Tally(_Closing):
    """How many segments of a text have each status, kept while the text is edited.

    A segment lies between two neighbouring boundaries, and counts under the largest status of its
    end.
    """
    _close = LIBRARY.rbbi_tally_close

    def __init__(self, table: Table, text: Text, unit: Unit = Unit.CHARS) -> None:
        """Opens a tally. Raises `Error` if the text has over 16,777,216 characters."""
        super().__init__()
        text, unit = _bytes(text), _unit(unit)
        with table._lock:
            checked(LIBRARY.rbbi_tally_open(self._ref, table._ref, text, len(text), unit))

    def replace(self, at: int, remove: int, insert: Text) -> None:
        """Replaces `remove` units from `at` on by `insert`, and counts again what that touches.

        Raises `Error` if the edit reaches past the end, or begins or ends inside a character.
        """
        insert = _bytes(insert)
        with self._lock:
            checked(LIBRARY.rbbi_tally_replace(self._ref, _number(at), _number(remove), insert,
                                               len(insert)))

    def segments(self) -> int:
        """How many segments there are."""
        count = ctypes.c_uint32()
        with self._lock:
            checked(LIBRARY.rbbi_tally_segments(self._ref, ctypes.byref(count)))
        return count.value

    def count(self, status: int) -> int:
        """How many segments have a status as their greatest one."""
        count = ctypes.c_uint32()
        with self._lock:
            checked(LIBRARY.rbbi_tally_count(self._ref, _number(status), ctypes.byref(count)))
        return count.value

    def counts(self) -> dict[int, int]:
        """The statuses that some segment has as its greatest one, in order, each with its count."""
        room, count, answer = 8, ctypes.c_size_t(), int(Answer.ROOM)
        with self._lock:
            while answer == Answer.ROOM:
                statuses, counts = (ctypes.c_uint32 * room)(), (ctypes.c_uint32 * room)()
                answer = LIBRARY.rbbi_tally_each(self._ref, statuses, counts, room,
                                                 ctypes.byref(count))
                room = count.value
        checked(answer)
        return dict(zip(statuses[:room], counts))


_NAMED: dict[str, Table] = {}
"""The tables of the library that were asked for."""


def _named(name: str) -> Table:
    """A table of the library, loaded once."""
    if name not in _NAMED:
        _NAMED[name] = Table.named(name)
    return _NAMED[name]


def words(text: Text) -> list[Any]:
    """The words of a text by UAX #29: segments with a letter or a digit of any script.

    In Thai, Lao, Khmer and Burmese each letter with its marks is one, in Chinese and Japanese each
    ideograph and each letter of Hiragana.
    """
    return _named('word').words(text)


def graphemes(text: Text) -> list[Any]:
    """The characters of a text as people see them (grapheme clusters of UAX #29)."""
    return _named('grapheme').split(text)


def sentences(text: Text) -> list[Any]:
    """The sentences of a text by UAX #29, each with the white space after it."""
    return _named('sentence').split(text)


def lines(text: Text) -> list[Any]:
    """The parts of a text between the places where a line may or must be broken, by UAX #14."""
    return _named('line').split(text)
