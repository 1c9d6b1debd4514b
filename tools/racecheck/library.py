"""The library's entries by ctypes, as include/racecheck.h declares them. A new entry is a row of ENTRIES and a method.

Every buffer has the size that its call wants, so that no call refuses for want of room: 1, and 38 of a drill, do not come.
"""
from __future__ import annotations

import ctypes
from ctypes import POINTER, byref, c_char_p, c_size_t, c_uint32, c_uint64
from typing import Any, Iterable, Optional

from .answers import Answer, Drill, Filling, Race, Replay
from .finding import NoLibrary, find_library

# The numbers of include/racecheck.h.
WORK = 16_384
REPLAY_SPACE, REPLAY_JOB, REPLAY_RUN = 542_960, 2_449, 43
NO_STATE = 2**64 - 1
SPLIT_BYTES = 65_536
DRILL_PROGRAM_BYTES, DRILL_SPLIT_BYTES = 1_725, 1_613
MOST_SEED = 2**32 - 1

_TEXT = [c_char_p, c_size_t]
_NUMBERS = [POINTER(c_uint32), c_size_t]
_NUMBER, _LONG = POINTER(c_uint32), POINTER(c_uint64)
_LONGS = [_LONG, c_size_t]
# What a replay stores: line, condition, location, steps, state, first, second.
_REPLAYED = [_LONG, _NUMBER, _NUMBER, _LONG, _LONG, _NUMBER, _NUMBER]
# Each entry with its arguments.
ENTRIES = {
    "racecheck_check": [*_TEXT, *_TEXT, *_NUMBERS, _NUMBER, _NUMBER, _NUMBER],
    "racecheck_drill": [c_uint32, *_TEXT, *_TEXT, _NUMBER, _NUMBER, _NUMBER],
    "racecheck_fill": [*_TEXT, *_TEXT, *_NUMBERS, *_TEXT, _NUMBER, _NUMBER, _NUMBER],
    "racecheck_replay": [*_TEXT, *_TEXT, *_NUMBERS, *_REPLAYED],
    "racecheck_replay_begin": [*_TEXT, *_NUMBERS, *_NUMBERS, *_LONGS],
    "racecheck_replay_more": [*_NUMBERS, *_NUMBERS, *_LONGS, *_TEXT],
    "racecheck_replay_told": [*_LONGS, *_REPLAYED],
}


class Library:
    """The library of a file, with buffers of its own: for one thread at a time."""

    def __init__(self, path: Optional[str] = None) -> None:
        found = path or find_library()
        if found is None:
            raise NoLibrary("there is no libracecheck.so: tools/install makes it; or set RACECHECK_LIBRARY to its path")
        self.path = found
        try:
            handle = ctypes.CDLL(found)
            self._entries = {name: _entry(handle, name, arguments) for name, arguments in ENTRIES.items()}
        except (OSError, AttributeError) as error:
            raise NoLibrary(f"not a library of racecheck: {error}") from error
        self._check = self._entries["racecheck_check"]
        self._work = (c_uint32 * WORK)()
        self._three = c_uint32(), c_uint32(), c_uint32()
        self._stored = tuple(map(byref, self._three))
        self._space: Any = None  # two million bytes, made when they are wanted

    def check(self, program: bytes, split: bytes) -> Answer:
        """The answer to a pair."""
        line, condition, location = self._three
        number = self._check(program, len(program), split, len(split), self._work, WORK, *self._stored)
        return Answer(number, line.value, condition.value, location.value)

    def fill(self, program: bytes, split: bytes) -> Filling:
        """A split whose after-maps are left out, with the greatest that pass."""
        out = ctypes.create_string_buffer(SPLIT_BYTES)
        number = self._entries["racecheck_fill"](
            program, len(program), split, len(split), self._work, WORK, out, SPLIT_BYTES, *self._stored)
        first, second, third = (one.value for one in self._three)
        return Filling(None, Answer(number, first, second, third)) if number else Filling(out.raw[:first], None)

    def drill(self, seed: int) -> Drill:
        """The practice pair of a seed, a number of 32 bits."""
        if not 0 <= seed <= MOST_SEED:
            raise ValueError(f"a seed is 0 to {MOST_SEED:,}")
        program, split = map(ctypes.create_string_buffer, (DRILL_PROGRAM_BYTES, DRILL_SPLIT_BYTES))
        self._entries["racecheck_drill"](seed, program, DRILL_PROGRAM_BYTES, split, DRILL_SPLIT_BYTES, *self._stored)
        following, program_length, split_length = (one.value for one in self._three)
        return Drill(program.raw[:program_length], split.raw[:split_length], following)

    def replay(self, program: bytes, trace: bytes) -> Replay:
        """What becomes of a job in a recorded order, of any length."""
        return self._replayed("racecheck_replay", program, len(program), trace, len(trace), self._lent_space(), REPLAY_SPACE)

    def replay_pieces(self, program: bytes, pieces: Iterable[bytes]) -> Replay:
        """The same of an order that comes in pieces, cut anywhere. Behind a line that cannot be done no piece is asked for."""
        job, run = (c_uint32 * REPLAY_JOB)(), (c_uint64 * REPLAY_RUN)()
        kept = (job, REPLAY_JOB, self._lent_space(), REPLAY_SPACE, run, REPLAY_RUN)
        number = self._entries["racecheck_replay_begin"](program, len(program), *kept)
        cut = b""  # the front of a line whose end has not come
        for piece in pieces if number == 0 else ():
            lines, end, rest = piece.rpartition(b"\n")
            lines, cut = (cut + lines + end, rest) if end else (b"", cut + rest)
            if self._entries["racecheck_replay_more"](*kept, lines, len(lines)):
                break
        self._entries["racecheck_replay_more"](*kept, cut, len(cut))
        return self._replayed("racecheck_replay_told", run, REPLAY_RUN)

    def _lent_space(self) -> Any:
        self._space = self._space or (c_uint32 * REPLAY_SPACE)()
        return self._space

    def _replayed(self, entry: str, *given: Any) -> Replay:
        line, steps, state = c_uint64(), c_uint64(), c_uint64()
        condition, location, first, second = c_uint32(), c_uint32(), c_uint32(), c_uint32()
        stored = map(byref, (line, condition, location, steps, state, first, second))
        number = self._entries[entry](*given, *stored)
        race = None if state.value == NO_STATE else Race(state.value, first.value, second.value)
        return Replay(number, line.value, condition.value, location.value, steps.value, race)


def _entry(handle: ctypes.CDLL, name: str, arguments: list) -> Any:
    entry = getattr(handle, name)
    entry.argtypes, entry.restype = arguments, c_uint32
    return entry
