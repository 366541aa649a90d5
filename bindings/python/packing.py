"""Lists of slots in a text, packed into an index: each list gets the cut that makes its record smallest.

`FORMAT` says how the text is written. One list at a time is held as slots, and only its record is kept, so that no text
takes much memory, whatever it says. `slots.record` reserves the room of each by `slots.bound`, and writes it once.
"""
from __future__ import annotations

import itertools
import operator
import re
from array import array
from typing import BinaryIO, Dict, Iterable, Iterator, List, Sequence, Tuple

from reading import HEAD, TRAILER
from slots import MOST_BLOCK, MOST_BYTES, MOST_LISTS, MOST_SLOTS, index_of, record

__all__ = ["FORMAT", "MOST_LINE", "Wrong", "pack", "short", "sizes", "smallest"]

FORMAT = """\
  u 32              how many slots the rack has, 1 to 1,048,576
  B 4               how many slots go into a block, 1 to 128
  list 1 4 5-8 12   a list: its slots, lowest first, each once; 5-8 is 5 6 7 8
  list              a list of no slots

u and B stand once each, before the first list. A list ends with its line. The
first list gets the name 0, the next 1, and so on. # starts a comment; a line may
be empty. The text is UTF-8.
"""

MOST_LINE = 16_777_216  # bytes; a list of all slots that a rack may have, one by one, takes half of that

_LIMITS = {"u": MOST_SLOTS, "B": MOST_BLOCK}
_WORD = re.compile(r"\S+")
_SPAN = re.compile(r"([0-9]+)(?:-([0-9]+))?")


class Wrong(ValueError):
    """What is wrong with a text. str() begins with the name of the text and the line, where it was found in one."""


def pack(text: BinaryIO, name: str) -> bytes:
    """The index of the lists in a text. `name` is what an error calls the text."""
    sheet = _Sheet()
    for number, line in enumerate(iter(lambda: text.readline(MOST_LINE + 1), b""), 1):
        try:
            sheet.take(line)
        except Wrong as wrong:
            raise Wrong(f"{name}:{number}: {wrong}") from None
    try:
        return sheet.index()
    except Wrong as wrong:
        raise Wrong(f"{name}: {wrong}") from None


def smallest(block: int, slots: Sequence[int]) -> Tuple[int, int]:
    """The cut that makes the shortest record of these slots, and how many bytes that has. Of cuts that make equally short ones, the lowest.

    `slots` must rise, as they do in a list.
    """
    return min(sizes(block, slots), key=operator.itemgetter(1))  # the first of equals, which has the lowest cut


def sizes(block: int, slots: Sequence[int]) -> Iterator[Tuple[int, int]]:
    """Each cut that can be the smallest, lowest first, with the length of the record that it makes.

    These are 0 and the slots themselves. Between one slot and the next a higher cut leaves the same slots in the tail, so the entries and codes
    stay as they are, and the bits never get fewer: no such cut is shorter than the slot below it, or than 0 below the first slot.
    """
    tails = _tails(block, slots)
    for position, cut in enumerate(itertools.chain([0], slots)):
        yield cut, HEAD + (cut + 7) // 8 + tails[position]


def _tails(block: int, slots: Sequence[int]) -> List[int]:
    """For each position: how many bytes entries and codes have in all, if the tail begins with the slot there; for the end of the slots: 0.

    Where blocks begin, and with it which slots have no code, depends on where the tail begins. But each tail is one block, and behind that the
    tail that begins B slots later. So, from the end on, each takes one step: an entry, the codes of its block as a difference of sums, and the
    tail behind it.
    """
    codes = _codes_from(slots)
    tails = [0] * (len(slots) + 1)
    for position in range(len(slots) - 1, -1, -1):
        behind = min(position + block, len(slots))
        tails[position] = 8 + codes[position + 1] - codes[behind] + tails[behind]
    return tails


def _codes_from(slots: Sequence[int]) -> List[int]:
    """For each position from 1 on: how many bytes the codes of all slots from there to the end have, if each has a code. 0 for the end."""
    codes = [0] * (len(slots) + 1)
    for position in range(len(slots) - 1, 0, -1):
        value = slots[position] - slots[position - 1] - 1
        codes[position] = codes[position + 1] + (1 if value < 128 else 2 if value < 16_384 else 3)
    return codes


class _Sheet:
    """What the lines of a text have said so far."""

    def __init__(self) -> None:
        self.numbers: Dict[str, int] = {}  # of u and B
        self.records: List[bytes] = []
        self.total = 0  # bytes of the records

    def take(self, line: bytes) -> None:
        if len(line) > MOST_LINE:
            raise Wrong(f"the line has more than {MOST_LINE:,} bytes")
        try:
            said = line.decode("utf-8-sig").partition("#")[0]
        except UnicodeDecodeError:
            raise Wrong("the line is not UTF-8 text") from None
        words = map(operator.methodcaller("group"), _WORD.finditer(said))  # one by one, as a line may have millions
        word = next(words, "")
        if word == "list":
            self._take_list(words)
        elif word in _LIMITS:
            self._take_number(word, list(itertools.islice(words, 2)))
        elif word:
            raise Wrong(f"a line begins with u, B or list, not with '{short(word)}'")

    def index(self) -> bytes:
        for word in _LIMITS:
            self._number(word)
        if not self.records:
            raise Wrong("there is no list")
        return index_of(self.numbers["u"], self.numbers["B"], self.records)

    def _take_number(self, word: str, given: List[str]) -> None:
        if word in self.numbers:
            raise Wrong(f"{word} is given twice")
        if len(given) != 1 or not re.fullmatch("[0-9]+", given[0]):
            raise Wrong(f"{word} takes one number, in digits alone")
        self.numbers[word] = _within(word, given[0], _LIMITS[word])

    def _take_list(self, words: Iterable[str]) -> None:
        u, block = self._number("u"), self._number("B")
        if len(self.records) == MOST_LISTS:
            raise Wrong(f"there are more than {MOST_LISTS:,} lists")
        slots = _slots(words, u)
        cut, length = smallest(block, slots)
        self.total += length
        if self.total + 4 * (len(self.records) + 1) + TRAILER > MOST_BYTES:
            raise Wrong(f"with this list the index would have more than {MOST_BYTES:,} bytes")
        self.records.append(record(u, block, cut, slots))  # in a room that slots.bound tells

    def _number(self, word: str) -> int:
        if word not in self.numbers:
            raise Wrong(f"{word} is missing; it must stand before the first list")
        return self.numbers[word]


def _slots(words: Iterable[str], u: int) -> array[int]:
    slots = array("I")
    before = 0
    for word in words:
        first, last = _span(word, u)
        if first <= before:
            raise Wrong(f"slot {first} does not lie above slot {before}, which stands before it")
        slots.extend(range(first, last + 1))
        before = last
    return slots


def _span(word: str, u: int) -> Tuple[int, int]:
    """The first and the last of the slots that a word names. Both are within the rack, so that a range cannot be long."""
    span = _SPAN.fullmatch(word)
    if span is None:
        raise Wrong(f"'{short(word)}' is neither a slot, as 5, nor a range, as 5-8; blanks stand between them")
    first = _within("slot", span[1], u)
    last = first if span[2] is None else _within("slot", span[2], u)
    if last < first:
        raise Wrong(f"the range {short(word)} falls")
    return first, last


def _within(what: str, digits: str, most: int) -> int:
    """The number that the digits spell, if it is in 1..most. A number with too many digits is not even read, since that may take long."""
    plain = digits.lstrip("0")
    if not plain or len(plain) > len(str(most)) or int(plain) > most:
        raise Wrong(f"{what} {short(digits)} is not in 1..{most:,}")
    return int(plain)


def short(word: str) -> str:
    return word if len(word) <= 24 else word[:20] + ".."
