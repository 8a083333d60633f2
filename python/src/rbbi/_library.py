"""The C library: where it is, its calls, and what they answer. rbbi.h documents each call."""
from __future__ import annotations

import ctypes
import enum
import os
from pathlib import Path
from typing import Any, Optional, Union


class Answer(enum.IntEnum):
    """What a call answers, by the numbers of rbbi.h."""
    OK = 0
    DONE = 1
    NULL = 2
    HANDLE = 3
    UNIT = 4
    OUTSIDE = 5
    INSIDE = 6
    TOO_LONG = 7
    NOT_UTF8 = 8
    MEMORY = 9
    ROOM = 10
    FAULT = 11
    NAME = 12
    LONE = 13
    FILTERED = 14


class Handle(ctypes.Structure):
    """A handle as C has it: a pointer, which begins as NULL."""
    _fields_ = [('held', ctypes.c_void_p)]


class CFault(ctypes.Structure):
    """A fault as C has it."""
    _fields_ = [('name', ctypes.c_char * 40), ('line', ctypes.c_uint32),
                ('column', ctypes.c_uint32), ('byte', ctypes.c_uint32)]


class CChange(ctypes.Structure):
    """What an edit changed as C has it."""
    _fields_ = [('start', ctypes.c_uint32), ('old_end', ctypes.c_uint32),
                ('new_end', ctypes.c_uint32)]


class Error(Exception):
    """A call was refused; `answer` says why. Errors may be pickled, as between processes."""

    answer: Answer
    """The answer of the library."""

    def __init__(self, answer: Union[Answer, int], message: Optional[str] = None) -> None:
        super().__init__(message or LIBRARY.rbbi_message(answer).decode())
        self.answer = Answer(answer)

    def __reduce__(self) -> tuple[Any, ...]:
        return _again, (type(self), *self.args), vars(self)


def _again(kind: type[Error], *message: Any) -> Error:
    """An error of a kind with its message. What it has is set afterwards, so `__init__` isn't run."""
    return kind.__new__(kind, *message)


class Fault(Error):
    """Rules, a property file or a table file have a fault, which has a name and may have a place."""

    name: str
    """Its name, as `UnknownProperty`; docs/rules.md and docs/formats.md list all."""
    line: Optional[int]
    """Its line, from 1."""
    column: Optional[int]
    """Its column, in characters from 1."""
    byte: Optional[int]
    """Its byte, from 0; of rules with a line and a column, the byte there."""
    sentence: str
    """What it is, as `this quote isn't closed in its line`."""

    def __init__(self, fault: CFault) -> None:
        self.name = fault.name.decode()
        self.line, self.column = fault.line or None, fault.column or None
        self.byte = None if fault.byte == 0xFFFFFFFF else fault.byte
        place = ':'.join(str(part) for part in (self.line, self.column) if part is not None)
        if not place and self.byte is not None:
            place = f'byte {self.byte}'
        self.sentence = LIBRARY.rbbi_fault_message(ctypes.byref(fault)).decode()
        told = f'{self.name}: {self.sentence}'
        super().__init__(Answer.FAULT, f'{place}: {told}' if place else told)


class LoneSurrogate(Error):
    """A text in UTF-16 has a surrogate that is in no pair."""

    at: int
    """The number of the first such unit, from 0."""

    def __init__(self, at: int) -> None:
        super().__init__(Answer.LONE, f'unit {at}: {LIBRARY.rbbi_message(Answer.LONE).decode()}')
        self.at = at


def checked(answer: int, fault: Optional[CFault] = None, lone: int = 0) -> int:
    """The answer, if it is no error."""
    if answer == Answer.FAULT and fault is not None:
        raise Fault(fault)
    if answer == Answer.LONE:
        raise LoneSurrogate(lone)
    if answer > Answer.DONE:
        raise Error(answer)
    return answer


def _path() -> str:
    """RBBI_LIBRARY, else the library in this package, else the one that the loader finds."""
    named = os.environ.get('RBBI_LIBRARY')
    inside = Path(__file__).with_name('librbbi.so')
    return named or (str(inside) if inside.exists() else 'librbbi.so')


def _loaded() -> Any:
    library = ctypes.CDLL(_path())
    handle, number = ctypes.POINTER(Handle), ctypes.c_uint32
    numbers, size = ctypes.POINTER(number), ctypes.c_size_t
    count, fault = ctypes.POINTER(size), ctypes.POINTER(CFault)
    text, room, flag = ctypes.c_char_p, ctypes.c_void_p, ctypes.c_int
    wide, wides = ctypes.c_uint64, ctypes.POINTER(ctypes.c_uint64)
    taken: dict[str, list[Any]] = {
        'files_open': [handle],
        'files_add': [handle, text, text, size, fault],
        'table_compile': [handle, handle, text, size, flag, fault],
        'table_load': [handle, text, size, fault],
        'table_named': [handle, text],
        'table_share': [handle, handle],
        'table_write': [handle, room, size, count],
        'breaks': [handle, text, size, wide, room, room, size, count, wides],
        'breaks_utf16': [handle, text, size, wide, room, room, size, count, wides],
        'words': [handle, text, size, wide, room, room, room, size, count, wides],
        'words_utf16': [handle, text, size, wide, room, room, room, size, count, wides],
        'scan_open': [handle, handle, flag, flag],
        'scan_feed': [handle, text, size, flag],
        'scan_next': [handle, room, room, room, size, count, wides],
        'session_open': [handle, handle, text, size, flag],
        'session_open_utf16': [handle, handle, room, size, flag, numbers],
        'session_fork': [handle, handle],
        'session_suppress': [handle, text, size, fault],
        'session_tailor': [handle, text, size, fault],
        'session_replace': [handle, number, number, text, size],
        'session_replace_changed': [handle, number, number, text, size, ctypes.POINTER(CChange)],
        'session_redraw': [handle, ctypes.POINTER(CChange), numbers, numbers],
        'session_replace_utf16': [handle, number, number, room, size, numbers],
        'session_text': [handle, number, number, room, size, count],
        'session_length': [handle, numbers],
        'session_first': [handle, numbers],
        'session_last': [handle, numbers],
        'session_next': [handle, numbers],
        'session_previous': [handle, numbers],
        'session_following': [handle, number, numbers],
        'session_preceding': [handle, number, numbers],
        'session_is_boundary': [handle, number, numbers],
        'session_current': [handle, numbers],
        'session_status': [handle, numbers],
        'session_statuses': [handle, numbers, size, count],
        'session_boundaries': [handle, number, number, room, room, size, count, numbers],
        'session_boundaries_before': [handle, number, number, room, room, size, count, numbers],
        'session_segment': [handle, number, numbers, numbers, numbers],
        'tally_open': [handle, handle, text, size, flag],
        'tally_replace': [handle, number, number, text, size],
        'tally_segments': [handle, numbers],
        'tally_count': [handle, number, numbers],
        'tally_each': [handle, numbers, numbers, size, count],
    }
    for name, types in taken.items():
        call = getattr(library, 'rbbi_' + name)
        call.argtypes, call.restype = types, flag
    for name in ('files', 'table', 'scan', 'session', 'tally'):
        call = getattr(library, f'rbbi_{name}_close')
        call.argtypes, call.restype = [handle], None
    library.rbbi_message.argtypes, library.rbbi_fault_message.argtypes = [flag], [fault]
    library.rbbi_version.argtypes = library.rbbi_unicode_version.argtypes = []
    for name in ('message', 'fault_message', 'version', 'unicode_version'):
        getattr(library, 'rbbi_' + name).restype = text
    return library


LIBRARY = _loaded()
