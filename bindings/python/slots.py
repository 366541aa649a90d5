"""The library of packed lists of slots, for Python: look, ask, test, next, count, lend, bound, write and close.

A rack has slots numbered 1 to u. A list is a set of slots, and an index packs up to 4,096 lists, numbered from 0, into one run of bytes
(docs/FORMAT.md has the format). Each function here hands its arguments to the C function of the same name (include/slots.h), which is proved: an answer is
right, or the call is refused. (`record` and `index_of` are `write` and `close` with a buffer of their own. `next` hides Python's own where it is
imported by its name alone: call it as `slots.next`.)

    import slots

    with open("rack.idx", "rb") as file:
        index = file.read()
    answer = slots.ask(index, slots.Way.BY_SKIPS, [0, 1])
    print(answer.slots, answer.looks, answer.codes)

A refusal is raised as `Refused`. It has the number that says why and the place that says where, and nothing else is known then: a refused
question is not the answer "no slot". Every function that takes an index looks at the whole of it first.

What this module adds is care with what it is given, since C would take a wrong number or a short buffer without a word:

- A number is an int (or another whole number with `__index__`) from 0 to 4,294,967,295. A bool, a float or a string raises TypeError, and a
  number out of that range raises ValueError; both name the parameter. Inside that range it is the library that judges.
- Numbers in a row (names, slots, starts) may come from any iterable. They are copied first. Bytes are no row of numbers here.
- An index is bytes, or any other object with a buffer of single bytes (bytearray, memoryview, mmap). A bytes object is handed on as it is. Anything
  else is copied first, because other threads run during the call and could change it.
- A room is an object with a buffer of single bytes that can be written to. It is changed in place, and only where the call is accepted. It cannot be
  resized during the call; that no other thread writes to it meanwhile is left to the caller.

The library is loaded by the first call. It is sought in the folder that the environment variable SLOTS_LIB names, otherwise in the
repository's build/ on x86-64 and build/native/ on other machines (which ./build-lib does not make); `NoLibrary` says where it was missed.
"""
from __future__ import annotations

import bisect
import ctypes
import enum
import functools
import itertools
import mmap
import operator
import os
import pathlib
import platform
from array import array
from dataclasses import dataclass
from typing import TYPE_CHECKING, Callable, Dict, Iterable, Iterator, List, Optional, Tuple, Union

__all__ = [
    "Answer", "Bound", "Bytes", "Counted", "Lent", "NoLibrary", "Refusal", "Refused", "Room", "Tested", "Way", "Written",
    "MOST_BLOCK", "MOST_BYTES", "MOST_LISTS", "MOST_NAMES", "MOST_RECORD", "MOST_SLOTS",
    "ask", "bound", "close", "count", "index_of", "lend", "look", "next", "record", "test", "write",
]

if TYPE_CHECKING:
    _Array = array[int]
else:
    _Array = array  # takes no [int] at run time

Bytes = Union[bytes, bytearray, memoryview, mmap.mmap, _Array]  # for reading
Room = Union[bytearray, memoryview, mmap.mmap, _Array]  # for writing

# The most that an index can have, and a question; as in the header.
MOST_BYTES = 16_777_216   # of an index
MOST_SLOTS = 1_048_576    # u
MOST_BLOCK = 128          # B
MOST_LISTS = 4_096        # k
MOST_NAMES = 16           # in one question
MOST_RECORD = 11_665_420  # bytes of a record that write makes; for a list at hand bound tells a closer number

_ASK_FIELDS = 5 + 2 * MOST_NAMES  # the last are the looks of each position, and then the codes of each
_UNWRITTEN = 2**64 - 1  # what a field holds before a call; no answer has it
_MOST_NUMBER = 2**32 - 1
_WORD = "I" if array("I").itemsize == 4 else "L"  # the code of the array type that has four bytes to a number


class Refusal(enum.IntEnum):
    """Why a call was refused. `Refused.reason` has the words."""

    BAD_SIZE = 1
    BAD_TAG = 2
    BAD_EDITION = 3
    BAD_RANGE = 4
    BAD_PARTS = 5
    BAD_HEAD = 6
    BAD_BLOCK = 7
    BAD_CODE = 8
    BAD_SLOT = 9
    BAD_NAMES = 10
    NO_LIST = 11
    NO_ROOM = 12
    NOT_RISING = 13
    BAD_WAY = 14
    BAD_CUT = 15
    OUTSIDE = 16
    BAD_BITS = 17


class Way(enum.IntEnum):
    """How a question goes through the lists. Both ways find the same slots."""

    PLAIN = 0     # each list is read along once; looks and codes are 0
    BY_SKIPS = 1  # what the smallest list holds is sought in the others by leaps over blocks; looks and codes tell what that cost


_REASONS: Dict[int, str] = {
    Refusal.BAD_SIZE: "the index has fewer than 24 or more than 16,777,216 bytes",
    Refusal.BAD_TAG: "the index does not end in the tag SLOT",
    Refusal.BAD_EDITION: "the edition is not 1",
    Refusal.BAD_RANGE: "u is not in 1..1,048,576, B not in 1..128, or the number of lists not in 1..4,096",
    Refusal.BAD_PARTS: "the parts do not make up the size of the index, the first start is not 0, or a record has fewer than 12 bytes",
    Refusal.BAD_HEAD: "the head of a record does not fit u or the size of the record",
    Refusal.BAD_BLOCK: "the codes of a block do not lie where they should",
    Refusal.BAD_CODE: "a code is damaged, or bytes remain behind the codes of a block",
    Refusal.BAD_SLOT: "a slot is above u or out of order",
    Refusal.BAD_NAMES: "the question has no name, or more than 16",
    Refusal.NO_LIST: "there is no list of that name",
    Refusal.NO_ROOM: "the room is too small",
    Refusal.NOT_RISING: "the slots to be written do not rise strictly within 1..u, or more are to lie above the cut than there are slots there",
    Refusal.BAD_WAY: "the way is neither 0 (plain) nor 1 (by skips)",
    Refusal.BAD_CUT: "the cut is above u",
    Refusal.OUTSIDE: "the slot asked about is not in 1..u",
    Refusal.BAD_BITS: "a bit beyond the cut is set",
}

# What the place means, for the refusals that have one.
_PLACES: Dict[int, str] = {
    Refusal.BAD_HEAD: "list {}",
    Refusal.BAD_BLOCK: "list {}",
    Refusal.BAD_CODE: "list {}",
    Refusal.BAD_SLOT: "list {}",
    Refusal.NO_LIST: "name at position {}",
    Refusal.NO_ROOM: "room needed: {}",
    Refusal.NOT_RISING: "position {}",
    Refusal.BAD_BITS: "list {}",
}


class Refused(Exception):
    """The library refused the call; no byte of a room has changed.

    number: why, as a plain number. place: where, 0 for a refusal that has no place. refusal: the member of Refusal, or None for a number
    that this module does not know (of a newer library). reason: the same in words, without the place. str() has number, reason and place.
    """

    def __init__(self, number: int, place: int) -> None:
        super().__init__(number, place)  # these two make the same exception again where it is unpickled
        self.number = number
        self.place = place
        self.refusal: Optional[Refusal] = Refusal(number) if number in _REASONS else None
        self.reason: str = _REASONS.get(number, "a number that this module does not know")

    def __str__(self) -> str:
        place = _PLACES.get(self.number)
        return f"{self.number}: {self.reason}" + (f" ({place.format(self.place)})" if place else "")


class NoLibrary(OSError):
    """The compiled library is missing, is for another machine, lacks a function, or is older than this module."""


@dataclass(frozen=True)
class Answer:
    """What `ask` found: the slots that every list named holds, lowest first, each once; and what the search cost (0 and 0 the plain way).

    looks_at and codes_at tell which list cost what: the looks and the codes of each name, at its position in the question. A list that is named
    twice has two of each, each with its own cost. The starting list has 0 and 0: the smallest (of several smallest, or where it is named
    again: the one named first), whose slots are sought in the others. looks and codes are the totals. Where q slots are sought in a list of m
    blocks, there are at most q + 2qe + 2 * floor(m / 2^e) looks, for every whole e from 0 on; bills.py counts q.

    True where there is any slot. Compare `slots` with a list, not the answer.
    """

    slots: List[int]
    looks: int
    codes: int
    looks_at: Tuple[int, ...]
    codes_at: Tuple[int, ...]

    def __bool__(self) -> bool:
        return bool(self.slots)


class Tested(int):
    """What `test` found, in `yes`. It is true exactly where the list holds the slot.

    It is a number, 1 or 0, as a bool is, so that `if`, `not` and `==` all do what they say. (A tuple or an object with a field would be true whatever
    the field says.) It is not the object True: do not ask `test(..) is True`.
    """

    def __new__(cls, yes: bool) -> Tested:
        return super().__new__(cls, bool(yes))

    @property
    def yes(self) -> bool:
        return self == 1

    def __repr__(self) -> str:
        return f"Tested(yes={self.yes})"

    def __str__(self) -> str:
        return str(self.yes)


class Counted(int):
    """What `count` found, in `count`: how many slots the list holds.

    It is that number itself too, so that `if`, `==`, `<` and sums do what they say: it is false for a list of no slot.
    """

    @property
    def count(self) -> int:
        return int(self)

    def __repr__(self) -> str:
        return f"Counted(count={self.count})"

    def __str__(self) -> str:
        return str(self.count)


class Bound(int):
    """What `bound` found, in `bytes`: how many bytes the record can have at most.

    It is that number itself too, never 0, so that `bytearray(bound(..))` is the room.
    """

    @property
    def bytes(self) -> int:
        return int(self)

    def __repr__(self) -> str:
        return f"Bound(bytes={self.bytes})"

    def __str__(self) -> str:
        return str(self.bytes)


class Written(int):
    """What `write` and `close` did, in `length`: how many bytes from the front of the room on are now the record, or the index.

    It is that number itself too, never 0.
    """

    @property
    def length(self) -> int:
        return int(self)

    def __repr__(self) -> str:
        return f"Written(length={self.length})"

    def __str__(self) -> str:
        return str(self.length)


@dataclass(frozen=True)
class Lent:
    """What `lend` found: at which byte of the index the record of the list starts, and the record itself.

    record is a view, for reading only, of the caller's own object, not a copy. Over an object that can change it shows what stands there
    now, and while it lives a bytearray cannot be resized and an mmap cannot be closed: `record.release()` ends that.
    """

    start: int
    record: memoryview


def look(index: Bytes) -> bool:
    """Returns True where the index is sound, and raises Refused with one of 1 to 9 or with 17 where it is not."""
    held = _held("index", index)
    _accepted(_call("slots_look", 2, held, len(held)))
    return True


def ask(index: Bytes, way: int, names: Iterable[int], room: Optional[int] = None) -> Answer:
    """The slots that all lists named hold.

    way: Way.PLAIN or Way.BY_SKIPS. names: 1 to 16 lists by their numbers, in any order, also one more than once.
    room: how many places for slots the library gets. It needs as many as the smallest list named has slots, also where the answer is shorter,
    and refuses with 12 where there are fewer; the place is then the room needed. None gives as many as needed, by asking twice.

    Refuses, in this order: the index (1 to 9 and 17), 14 (way), 10 (how many names), 11 (a name that is no list), 12.
    """
    held = _held("index", index)
    way = _number("way", way)
    cells = _numbers("names", names)
    if room is not None:
        # No list has more slots than a rack may have, so that a larger room changes nothing but the memory it takes.
        return _asked(held, way, cells, min(_number("room", room), MOST_SLOTS))
    try:
        return _asked(held, way, cells, 0)
    except Refused as refused:
        if refused.refusal is not Refusal.NO_ROOM:
            raise
        needed = refused.place
    return _asked(held, way, cells, needed)


def test(index: Bytes, name: int, slot: int) -> Tested:
    """Whether the list holds the slot: true or false, also as `yes`.

    Refuses, in this order: the index (1 to 9 and 17), 11 (a name that is no list), 16 (a slot that is not in 1..u).
    """
    held = _held("index", index)
    answer = _accepted(_call("slots_test", 3, held, len(held), _number("name", name), _number("slot", slot)))
    return Tested(answer[2] == 1)


def next(index: Bytes, name: int, slot: int) -> Optional[int]:
    """Which slot of the list comes next, from `slot` on: the least that is not below it, so `slot` itself where the list holds it; None if there is none.

    No slot is 0, so that `if` tells a slot from none. None is no number: a program that forgets it fails, and does not step through the list anew.
    To step through a list, ask from 1, and then each time from one above the slot told, unless that was u. Every call looks at the whole index: `ask`
    with this one name gives all slots of the list at once.

    Refuses as `test` does.
    """
    held = _held("index", index)
    answer = _accepted(_call("slots_next", 3, held, len(held), _number("name", name), _number("slot", slot)))
    return answer[2] or None


def count(index: Bytes, name: int) -> Counted:
    """How many slots the list holds: a number, also as `count`. Refuses, in this order: the index (1 to 9 and 17), 11 (a name that is no list)."""
    held = _held("index", index)
    return Counted(_accepted(_call("slots_count", 3, held, len(held), _number("name", name)))[2])


def lend(index: Bytes, name: int) -> Lent:
    """Which bytes of the index are the record of the list: where it starts, and a view of it. Refuses as `count` does."""
    number = _number("name", name)
    view = _view("index", index)  # from here on nobody can resize the object, so that the record stays where it is found
    held = index if type(index) is bytes else view.tobytes()
    start, length = _call("slots_lend", 2, held, len(held), number)
    if length == 0:
        view.release()
        count(held, number)  # slots_lend has no number; this refuses what it refuses, and says why
        raise AssertionError("slots_lend refused what slots_count accepted")
    return Lent(start, view[start:start + length].toreadonly())


def bound(u: int, block: int, cut: int, n: int) -> Bound:
    """How many bytes a record can need, told before it is written: a number, also as `bytes`.

    u, block, cut: those that `write` is to be given. n: how many of the slots to be written lie above the cut. No record that `write` makes with this
    u, block and cut, of slots of which n lie above the cut, has more bytes. Some lists reach it, others do not. So a room of that length is never
    refused with 12. Reserve it, then write once:

        room = bytearray(slots.bound(32, 4, 16, 3))
        written = slots.write(32, 4, 16, [3, 5, 12, 16, 26, 30, 31], room)

    Refuses, in this order: 4 (u or block), 15 (cut), 13 (n is above u - cut, so that so many slots cannot lie above the cut; its place is 0, and not a
    position).
    """
    numbers = _number("u", u), _number("block", block), _number("cut", cut), _number("n", n)
    return Bound(_accepted(_call("slots_bound", 3, *numbers))[2])


def write(u: int, block: int, cut: int, slots: Iterable[int], room: Room) -> Written:
    """Writes the record of one list at the front of `room`; its `length` is how many bytes that are. Every byte behind them stays.

    u: how many slots the rack has. block: the B of the index to come. slots: the list, lowest first, each once; there may be none.
    cut: slots up to it are packed as bits, the others as gaps; 0 is gaps alone, u bits alone. What the list holds does not depend on it. Bits
    beyond the cut, in the last byte of bits, are 0.
    room: as many bytes as `bound` tells are enough. To write behind other records, give `memoryview(room)[at:]`. `record` does the same in a buffer of
    its own.

    Refuses, in this order: 4 (u or block), 15 (cut), 13 (slots), 12 (place: the length of the record).
    """
    return _written(_number("u", u), _number("block", block), _number("cut", cut), _numbers("slots", slots), room)


def close(room: Room, u: int, block: int, total: int, starts: Iterable[int]) -> Written:
    """Makes an index of the records at the front of `room`; its `length` is how many bytes the index has. All other bytes stay.

    u, block: those that the records were written with. total: how many bytes the records have together, with nothing between them.
    starts: where each record begins, the first being 0; their order numbers the lists. `index_of` does the same in a buffer of its own.

    Refuses, in this order: 4 (u, block, or how many starts), 1 (the index would be too long), 12 (place: its length), 5, and 6 to 9 and 17 as
    `look` would.
    """
    numbers = _number("u", u), _number("block", block), _number("total", total)
    cells = _numbers("starts", starts)
    lent = _room(room)
    answer = _call("slots_close", 3, lent, len(lent), *numbers, cells, len(cells))
    del lent  # see _written
    return Written(_accepted(answer)[2])


def record(u: int, block: int, cut: int, slots: Iterable[int]) -> bytes:
    """The record of one list, as `write` makes it, in a room that is reserved by `bound`. Refuses as `write` does, but never with 12."""
    numbers = _number("u", u), _number("block", block), _number("cut", cut)
    cells = _numbers("slots", slots)
    room = bytearray(_room_for(*numbers, cells))
    length = _written(*numbers, cells, room)
    return bytes(memoryview(room)[:length])


def index_of(u: int, block: int, records: Iterable[Bytes]) -> bytes:
    """A finished index out of records, which become its lists 0, 1, .. in their order. Refuses as `close` does, but never with 12.

    u and block are those that the records were written with.
    """
    held = [_held(f"records[{name}]", each) for name, each in enumerate(records)]
    ends = list(itertools.accumulate(map(len, held)))
    # The library refuses a total that is too large before it reads a start, so it need not know how large that is.
    starts = [min(start, _MOST_NUMBER) for start in [0, *ends][:len(held)]]
    total = min(ends[-1], _MOST_NUMBER) if ends else 0
    needed = _room_needed(lambda: close(bytearray(), u, block, total, starts))  # what is too long is refused before it takes memory
    room = bytearray().join(held).ljust(needed, b"\0")
    close(room, u, block, total, starts)
    return bytes(room)


def _asked(held: bytes, way: int, names: ctypes.Array[ctypes.c_uint32], room: int) -> Answer:
    places = (ctypes.c_uint32 * room)()
    answer = _accepted(_call("slots_ask", _ASK_FIELDS, held, len(held), way, names, len(names), places, room))
    _, _, found, looks, codes, *at = answer
    return Answer(places[:found], looks, codes, tuple(at[:MOST_NAMES][:len(names)]), tuple(at[MOST_NAMES:][:len(names)]))


def _written(u: int, block: int, cut: int, slots: ctypes.Array[ctypes.c_uint32], room: Room) -> Written:
    lent = _room(room)
    answer = _call("slots_write", 3, u, block, cut, slots, len(slots), lent, len(lent))
    del lent  # a refusal that is raised below keeps this frame alive: with the loan in it, the caller could not resize the room
    return Written(_accepted(answer)[2])


def _room_for(u: int, block: int, cut: int, slots: ctypes.Array[ctypes.c_uint32]) -> int:
    """The room that is enough for the record of these slots, by the bound.

    How many lie above the cut is found by halving, as in slots that rise. Where they do not, the number may be any: writing refuses such slots before it
    looks at the room, and tells what is wrong and where. So it does where the bound is refused, and the room is 0: it judges u, block and cut as the
    bound does, and where more slots are above the cut than u - cut, they do not rise within 1..u.
    """
    above = len(slots) - bisect.bisect_right(slots, cut)
    try:
        return bound(u, block, cut, min(above, _MOST_NUMBER))
    except Refused:
        return 0


def _room_needed(tried: Callable[[], Written]) -> int:
    """The room that a call needs, by what it answers when it has none."""
    try:
        return tried().length
    except Refused as refused:
        if refused.refusal is not Refusal.NO_ROOM:
            raise
        return refused.place


def _held(what: str, value: Bytes) -> bytes:
    """The bytes of an object, such that nobody changes them during a call: the object itself if it is bytes, otherwise a copy."""
    if type(value) is bytes:  # a class derived from it could tell a wrong length
        return value
    with _view(what, value) as view:
        return view[:MOST_BYTES + 1].tobytes()  # of more bytes so many that the library refuses them with 1


def _room(room: Room) -> ctypes.Array[ctypes.c_uint8]:
    """A loan of the room to the library. As long as it lives, the room cannot be resized."""
    with _view("room", room) as view:
        if view.readonly:
            raise TypeError(f"room must be writable, and this {type(room).__name__} is not")
        if not view.c_contiguous:
            raise TypeError("room must lie in one piece, and this view leaves bytes out")
        return (ctypes.c_uint8 * len(view)).from_buffer(room)


def _view(what: str, value: Bytes) -> memoryview:
    try:
        view = memoryview(value)
    except TypeError:
        raise TypeError(f"{what} must be bytes or have a buffer of bytes, not {type(value).__name__}") from None
    if view.itemsize != 1 or view.ndim != 1:
        view.release()
        raise TypeError(f"{what} must have a buffer of single bytes in one row")
    return view


def _number(what: str, value: int) -> int:
    """The value, once it is known to go into 32 bits. ctypes itself would drop the bits above them and say nothing."""
    if isinstance(value, bool):
        raise TypeError(f"{what} must be a whole number, not bool")
    try:
        number = operator.index(value)
    except TypeError:
        raise TypeError(f"{what} must be a whole number, not {type(value).__name__}") from None
    if not 0 <= number <= _MOST_NUMBER:
        shown = number if number.bit_length() <= 128 else "one of over 128 bits"  # Python refuses to print a very long number
        raise ValueError(f"{what} must be in 0..{_MOST_NUMBER}, not {shown}")
    return number


def _numbers(what: str, values: Iterable[int]) -> ctypes.Array[ctypes.c_uint32]:
    """A copy of the values in 32 bits each, once all are known to go into them."""
    if type(values) is array and values.typecode == _WORD:
        words = values[:]
    else:
        words = _words(what, list(_row(what, values)))
    return (ctypes.c_uint32 * len(words)).from_buffer(words)


def _row(what: str, values: Iterable[int]) -> Iterator[int]:
    raw = isinstance(values, (bytes, bytearray, mmap.mmap)) or isinstance(values, memoryview) and values.itemsize == 1
    try:
        if not raw and not isinstance(values, str):
            return iter(values)
    except TypeError:
        pass
    raise TypeError(f"{what} must be whole numbers in a row, not {type(values).__name__}")


def _words(what: str, values: List[int]) -> _Array:
    # A million slots are common. Plain ints are checked by their set of types, and for their range by the array; only others are taken one by one.
    if set(map(type, values)) <= {int}:
        try:
            return array(_WORD, values)
        except OverflowError:
            pass  # found again below, with its position
    return array(_WORD, [_number(f"{what}[{at}]", value) for at, value in enumerate(values)])


def _call(function: str, fields: int, *given: object) -> List[int]:
    """Calls the function and gives all fields of its answer, refused or not."""
    out = (ctypes.c_uint64 * fields)(*[_UNWRITTEN] * fields)
    getattr(_library(), function)(*given, out, fields)
    answer = list(out)
    if _UNWRITTEN in answer:  # without this, what an older library does not tell would seem to be a cost of 0
        raise NoLibrary(f"the library is older than this module ({function} leaves out fields): run ./build-lib, or name another folder in SLOTS_LIB")
    return answer


def _accepted(answer: List[int]) -> List[int]:
    """The same answer, unless it is a refusal: its first field is the number, its second the place."""
    if answer[0] != 0:
        raise Refused(answer[0], answer[1])
    return answer


_NUMBER = ctypes.c_uint32
_INDEX = (ctypes.c_char_p, ctypes.c_size_t)  # of bytes that are only read; ctypes hands on the bytes object's own memory, zeros and all
_ROOM = (ctypes.POINTER(ctypes.c_uint8), ctypes.c_size_t)
_ROW = (ctypes.POINTER(ctypes.c_uint32), ctypes.c_size_t)
_OUT = (ctypes.POINTER(ctypes.c_uint64), ctypes.c_size_t)

# The parameters of each function, as the header declares them.
_FUNCTIONS = {
    "slots_look": (*_INDEX, *_OUT),
    "slots_ask": (*_INDEX, _NUMBER, *_ROW, *_ROW, *_OUT),
    "slots_test": (*_INDEX, _NUMBER, _NUMBER, *_OUT),
    "slots_next": (*_INDEX, _NUMBER, _NUMBER, *_OUT),
    "slots_count": (*_INDEX, _NUMBER, *_OUT),
    "slots_lend": (*_INDEX, _NUMBER, *_OUT),
    "slots_bound": (_NUMBER, _NUMBER, _NUMBER, _NUMBER, *_OUT),
    "slots_write": (_NUMBER, _NUMBER, _NUMBER, *_ROW, *_ROOM, *_OUT),
    "slots_close": (*_ROOM, _NUMBER, _NUMBER, _NUMBER, *_ROW, *_OUT),
}


@functools.lru_cache(maxsize=None)
def _library() -> ctypes.CDLL:
    try:
        library = ctypes.CDLL(str(_folder() / "libslots.so"))
        for name, parameters in _FUNCTIONS.items():
            function = getattr(library, name)
            function.argtypes = parameters
            function.restype = ctypes.c_uint32
    except (OSError, AttributeError) as error:
        raise NoLibrary(f"the library cannot be loaded ({error}): run ./build-lib, or name the folder of libslots.so in SLOTS_LIB") from error
    return library


def _folder() -> pathlib.Path:
    named = os.environ.get("SLOTS_LIB")
    if named:
        return pathlib.Path(named).resolve()
    build = pathlib.Path(__file__).resolve().parents[2] / "build"
    return build if platform.machine().lower() in ("x86_64", "amd64") else build / "native"
