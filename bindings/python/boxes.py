"""What a picture of an index shows, in bytes: boxes with their words, in rows and sections. picture.py draws them.

What would be too much is taken together, never left out without a word:

- Neighbours of one kind that would be narrower than LEAST pixels share a box, of about MERGED pixels or more where there are enough of them. It says
  how many it stands for.
- Of more than FIRST_ROWS + LAST_ROWS lists only the first FIRST_ROWS and the last LAST_ROWS have rows; a line says how many have none. The strip of
  the whole index shows all.
- A part that is too narrow for its name above it is named below its row.
- A block of one slot has no code bytes, so there is no box of it; the tooltip of its skip entry says so.

`about` is what an index says about itself, `of` a list of it, `block` its B, and `scale` the pixels for each byte.
"""
from __future__ import annotations

import enum
import itertools
import struct
from dataclasses import dataclass
from typing import Iterable, Iterator, List, Sequence, Tuple, Union

import reading

__all__ = [
    "Box", "Kind", "Label", "Row", "Run", "Section",
    "directory_boxes", "many", "record_boxes", "runs", "sections", "trailer_boxes", "whole_boxes",
]

FIRST_ROWS = 8  # so many lists at the front of the index have a row, ..
LAST_ROWS = 4   # .. and so many at its end
FEW = 16        # so many slots, or bytes, are named one by one
LEAST = 4       # pixels: parts that are narrower are taken together, ..
MERGED = 64     # .. until they are so wide, which is room for "80,660 entries" in two lines
BOXES = 828     # pixels: the width of a row
WORDS = 28      # pixels: a box of this width may have words in it
HEX = 15        # pixels: a byte of this width can be read in hexadecimal

Label = Tuple[str, ...]  # words that are not broken; between them is a space or the end of a line


class Kind(enum.Enum):
    """What a box is. The value is its name in the legend; the name of the member, in small letters, is its class in the SVG document."""

    RECORD = "record of a list"
    HEAD = "head"
    BITS = "bits"
    ENTRY = "skip entry"
    BLOCK = "block: its code bytes"
    DIRECTORY = "directory"
    TRAILER = "trailer"


@dataclass(frozen=True)
class Box:
    """Some bytes of the index that are drawn as one box."""

    kind: Kind
    start: int                      # at which byte of the index it starts
    length: int                     # how many bytes it has
    tip: str                        # what the tooltip says, in several lines
    labels: Tuple[Label, ...] = ()  # what may be written in it: the first of these that fits, ..
    numbers: Label = ()             # .. but rather what each of its numbers says, side by side, if it has several and they fit so
    holds: int = 1                  # how many neighbours of its kind were taken together in it

    @property
    def end(self) -> int:
        return self.start + self.length


@dataclass(frozen=True)
class Row:
    """Boxes side by side, with nothing between them, from left to right."""

    name: str
    notes: Tuple[str, ...]  # small, below the name
    boxes: Tuple[Box, ...]
    values: bytes = b""     # the bytes of the boxes where they are to be shown, otherwise none
    parted: bool = True     # whether the parts are named above the boxes


@dataclass(frozen=True)
class Section:
    """Rows of one scale under a caption. A text among the rows stands for rows that are left out."""

    caption: str
    remarks: Tuple[str, ...]
    scale: float  # pixels for each byte
    rows: Tuple[Union[Row, str], ...]


@dataclass(frozen=True)
class Run:
    """Neighbouring parts that share a box: those numbered from first up to behind, which lie from byte start up to end."""

    first: int
    behind: int
    start: int
    end: int

    @property
    def parts(self) -> int:
        return self.behind - self.first

    @property
    def length(self) -> int:
        return self.end - self.start


def sections(index: bytes) -> List[Section]:
    """All that the picture shows, before any of it is drawn. Raises slots.Refused where the library refuses the index."""
    about = reading.read(index)
    shown = [of for of in about.lists if of.name < FIRST_ROWS or of.name >= len(about.lists) - LAST_ROWS]
    scale = BOXES / max(of.length for of in shown)
    return [
        _whole_section(about),
        _record_section(index, about, shown, scale),
        _directory_section(index, about, scale),
        _trailer_section(index, about, scale),
    ]


def whole_boxes(about: reading.Index, scale: float) -> Iterator[Box]:
    """The strip of the whole index: its records, directory and trailer."""
    seams = itertools.chain((of.start for of in about.lists), [about.directory_start])
    for run in runs(seams, about.directory_start, scale):
        yield _lists_box(about, run)
    starts = many(len(about.lists), "start")
    end = about.directory_start + about.directory_bytes
    tip = _tip("directory", about.directory_start, end, f"{starts}: where the record of each list begins")
    yield Box(Kind.DIRECTORY, about.directory_start, about.directory_bytes, tip, (tuple(starts.split()),))
    tip = _tip("trailer", end, about.size, "edition, u, B, k, D and the tag SLOT")
    yield Box(Kind.TRAILER, end, reading.TRAILER, tip, ((f"{reading.TRAILER}", "bytes"),))


def record_boxes(index: bytes, block: int, of: reading.List, scale: float) -> Iterator[Box]:
    """The parts of one record: head, bits, skip entries and the code bytes of each block."""
    yield _head_box(of)
    if of.bit_bytes:
        yield _bits_box(index, of)
    first = of.start + reading.HEAD + of.bit_bytes
    codes = first + of.entry_bytes
    for run in runs(range(first, codes + 1, 8), of.entry_bytes, scale):
        yield _entry_box(index, block, of, run)
    if of.code_bytes:
        seams = itertools.chain((codes + offset for _, offset in reading.entries(index, of)), [codes + of.code_bytes])
        for run in runs(seams, of.code_bytes, scale):
            yield _block_box(index, block, of, run)


def directory_boxes(about: reading.Index, scale: float) -> Iterator[Box]:
    """The directory: a start for each list."""
    end = about.directory_start + about.directory_bytes
    for run in runs(range(about.directory_start, end + 1, 4), about.directory_bytes, scale):
        first, last = about.lists[run.first], about.lists[run.behind - 1]
        if run.parts > 1:
            says = f"the records start at bytes {first.start:,} to {last.start:,}"
            labels: Tuple[Label, ...] = ((f"{run.parts:,}", "starts"),)
        else:
            says = f"the record starts at byte {first.start:,}"
            labels = ((f"list {first.name:,}:", "byte", f"{first.start:,}"),)
        tip = _tip(f"{'starts' if run.parts > 1 else 'start'} of {_numbered('list', run.first, run.behind)}", run.start, run.end, says)
        yield Box(Kind.DIRECTORY, run.start, run.length, tip, labels, holds=run.parts)


def trailer_boxes(about: reading.Index) -> Iterator[Box]:
    """The trailer: five numbers and the tag."""
    words = [
        ("edition", "1", "which edition of the format this is"),
        ("u", f"{about.u:,}", "how many slots the rack has"),
        ("B", f"{about.block:,}", "how many slots go into a block"),
        ("k", f"{len(about.lists):,}", "how many lists there are"),
        ("D", f"{about.directory_start:,}", "at which byte the directory starts"),
        ("tag", "SLOT", "by which an index is known"),
    ]
    start = about.size - reading.TRAILER
    for at, (name, value, meaning) in zip(range(start, about.size, 4), words):
        yield Box(Kind.TRAILER, at, 4, _tip(f"{name} {value}", at, at + 4, meaning), ((name, value),))


def runs(seams: Iterable[int], length: int, scale: float) -> Iterator[Run]:
    """The boxes for parts that lie side by side, part i from seam i up to seam i + 1; length is what they have together.

    A part of LEAST pixels has a box for itself. Narrower ones are taken together with the narrow ones behind them, until they have MERGED pixels or a
    little more: as much more as makes such boxes equal where all parts are narrow. A part without bytes has no box of its own.
    """
    boxes = max(1, int(length * scale // MERGED))
    return (run for run in _runs(seams, LEAST / scale, length / boxes) if run.length)


def _runs(seams: Iterable[int], least: float, enough: float) -> Iterator[Run]:
    """As `runs`, in bytes, and with those that have none. There may be a million seams: they are gone through once, and not kept."""
    ends = iter(seams)
    start = end = next(ends)
    first = number = 0
    for number, seam in enumerate(ends, 1):
        wide = seam - end >= least
        if number - 1 > first and (wide or end - start >= enough):
            yield Run(first, number - 1, start, end)
            first, start = number - 1, end
        end = seam
        if wide:
            yield Run(first, number, start, end)
            first, start = number, end
    if number > first:
        yield Run(first, number, start, end)


def _whole_section(about: reading.Index) -> Section:
    scale = BOXES / about.size
    notes = (many(about.size, "byte"), many(len(about.lists), "list"), f"u {about.u:,}", f"B {about.block:,}")
    row = Row("index", notes, tuple(whole_boxes(about, scale)))
    return Section("The whole index", ("The numbers below a row are positions in the index, in bytes from 0 on.",), scale, (row,))


def _record_section(index: bytes, about: reading.Index, shown: Sequence[reading.List], scale: float) -> Section:
    rows = [_record_row(index, about.block, of, scale) for of in shown]
    left_out = len(about.lists) - len(shown)
    lines: List[Union[Row, str]] = [*rows]
    if left_out:
        lines.insert(FIRST_ROWS, f"{_numbered('list', FIRST_ROWS, FIRST_ROWS + left_out)}: {many(left_out, 'row')} not shown")
    return Section("The records of the lists, all at one scale", _remarks(rows, scale), scale, tuple(lines))


def _record_row(index: bytes, block: int, of: reading.List, scale: float) -> Row:
    notes = (f"cut {of.cut:,}", many(of.count, "slot"), many(of.length, "byte"))
    values = _values(index, of.start, of.start + of.length, scale)
    return Row(f"list {of.name:,}", notes, tuple(record_boxes(index, block, of, scale)), values)


def _remarks(rows: Sequence[Row], scale: float) -> Tuple[str, ...]:
    """How the boxes of the records are read, as far as there are such that are not merged and wide enough for words."""
    kinds = {box.kind for row in rows for box in row.boxes if box.holds == 1 and box.length * scale >= WORDS}
    entries = "In a skip entry: the slot that its block begins with, and where its codes begin (@), counted from the first code byte."
    held = "In bits and in a block: the slots that they hold, or how many." if kinds & {Kind.BITS, Kind.BLOCK} else ""
    foot = "At the foot of a box: its bytes, in hexadecimal." if any(row.values for row in rows) else ""
    remarks = (entries if Kind.ENTRY in kinds else "", f"{held} {foot}".strip())
    return tuple(remark for remark in remarks if remark)


def _directory_section(index: bytes, about: reading.Index, records: float) -> Section:
    start, length = about.directory_start, about.directory_bytes
    scale = _end_scale(length, records)
    notes = (many(len(about.lists), "start"), many(length, "byte"))
    row = Row("directory", notes, tuple(directory_boxes(about, scale)), _values(index, start, start + length, scale), parted=False)
    return Section(f"The directory: where each record starts, {_scale_words(scale, records)}", (), scale, (row,))


def _trailer_section(index: bytes, about: reading.Index, records: float) -> Section:
    scale = _end_scale(reading.TRAILER, records)
    values = _values(index, about.size - reading.TRAILER, about.size, scale)
    row = Row("trailer", (many(reading.TRAILER, "byte"),), tuple(trailer_boxes(about)), values, parted=False)
    return Section(f"The trailer, {_scale_words(scale, records)}", (), scale, (row,))


def _end_scale(length: int, records: float) -> float:
    """The scale of directory or trailer: that of the records where bytes can be read so and it goes into the width, otherwise its own."""
    if records >= HEX and length * records <= BOXES:
        return records
    return BOXES / max(length, reading.TRAILER)


def _scale_words(scale: float, records: float) -> str:
    return "at the scale of the records" if scale == records else "at a scale of its own"


def _values(index: bytes, start: int, end: int, scale: float) -> bytes:
    return index[start:end] if scale >= HEX else b""


def _lists_box(about: reading.Index, run: Run) -> Box:
    name = _numbered("list", run.first, run.behind)
    count = sum(of.count for of in about.lists[run.first:run.behind])
    tip = _tip(f"{'records' if run.parts > 1 else 'record'} of {name}", run.start, run.end, many(count, "slot"))
    length = many(run.length, "byte")
    if run.parts > 1:
        labels: Tuple[Label, ...] = ((f"{run.parts:,} lists:", length), (f"{run.parts:,}", "lists"))
    else:
        labels = ((f"{name}:", length), ("list", f"{run.first:,}"))
    return Box(Kind.RECORD, run.start, run.length, tip, labels, holds=run.parts)


def _head_box(of: reading.List) -> Box:
    says = f"cut {of.cut:,}: slots up to it are bits\nn {of.tail:,}: so many slots above it are gaps\nL {of.code_bytes:,}: so many code bytes"
    tip = _tip(f"head of list {of.name:,}", of.start, of.start + reading.HEAD, says)
    numbers = f"cut {of.cut:,}", f"n {of.tail:,}", f"L {of.code_bytes:,}"
    labels = (f"{numbers[0]},", f"{numbers[1]},", numbers[2]), ("head",)
    return Box(Kind.HEAD, of.start, reading.HEAD, tip, labels, numbers)


def _bits_box(index: bytes, of: reading.List) -> Box:
    start = of.start + reading.HEAD
    end = start + of.bit_bytes
    held = of.count - of.tail
    found = _bit_slots(index[start:end]) if held <= FEW else []
    span = f"slots 1 to {of.cut:,}:"
    tip = _tip(f"bits of list {of.name:,}", start, end, f"{span} {held:,} set" + _listed(found))
    named = _named(found)
    labels = ((span, f"{held:,} set:", *named), ("set:", *named), named) if found else ()
    return Box(Kind.BITS, start, of.bit_bytes, tip, (*labels, (span, f"{held:,} set"), (f"{held:,}", "set")))


def _entry_box(index: bytes, block: int, of: reading.List, run: Run) -> Box:
    slot, offset = _entry(index, of, run.first)
    if run.parts > 1:
        what = f"{run.parts:,} skip entries of list {of.name:,}, of {_numbered('block', run.first, run.behind)}"
        says = f"first slots {slot:,} to {_entry(index, of, run.behind - 1)[0]:,}"
        return Box(Kind.ENTRY, run.start, run.length, _tip(what, run.start, run.end, says), ((f"{run.parts:,}", "entries"),), holds=run.parts)
    alone = _slots_of(block, of, run) == 1
    says = f"first slot {slot:,}\n" + ("it is the only one of its block: there are no codes" if alone else f"codes from code byte {offset:,} on")
    tip = _tip(f"skip entry of list {of.name:,}, of block {run.first:,}", run.start, run.end, says)
    return Box(Kind.ENTRY, run.start, run.length, tip, ((f"{slot:,}", f"@{offset:,}"),), (f"slot {slot:,}", f"@{offset:,}"))


def _block_box(index: bytes, block: int, of: reading.List, run: Run) -> Box:
    first, _ = _entry(index, of, run.first)
    held = _slots_of(block, of, run)
    what = f"{_numbered('block', run.first, run.behind)} of list {of.name:,}"
    says = f"{many(held, 'slot')} from slot {first:,} on"
    if run.parts > 1:
        return Box(Kind.BLOCK, run.start, run.length, _tip(what, run.start, run.end, says), ((f"{run.parts:,}", "blocks"),), holds=run.parts)
    codes = index[run.start:run.end]
    found = _tail_slots(first, codes) if held <= FEW else []
    shown = f"\ncodes {codes.hex(' ')}" if len(codes) <= FEW else ""
    name = f"block {run.first:,}"
    labels = (_named(found),) if found else ()
    tip = _tip(what, run.start, run.end, says + _listed(found) + shown)
    return Box(Kind.BLOCK, run.start, run.length, tip, (*labels, (f"{name}:", many(held, "slot")), (name,)))


def _entry(index: bytes, of: reading.List, number: int) -> Tuple[int, int]:
    """The skip entry of one block: its first slot, and where its codes begin."""
    slot, offset = struct.unpack_from("<II", index, of.start + reading.HEAD + of.bit_bytes + 8 * number)
    return slot, offset


def _slots_of(block: int, of: reading.List, run: Run) -> int:
    """How many slots these blocks have together. Only the last block of a list may have fewer than B."""
    return min(of.tail, block * run.behind) - block * run.first


def _bit_slots(bits: bytes) -> List[int]:
    """The slots whose bits are set; none is beyond the cut, since the index was accepted. Bytes that are zero are passed over at once: there may be a
    hundred thousand."""
    eights = ((8 * at, byte) for at, byte in enumerate(bits) if byte)
    return [at + bit for at, byte in eights for bit in range(1, 9) if byte << bit & 256]


def _tail_slots(first: int, codes: bytes) -> List[int]:
    """The slots of a block: the first, and one for each code. The codes are known to be whole, since the index was accepted."""
    found = [first]
    value = shift = 0
    for byte in codes:
        value += (byte & 127) << shift
        shift += 7
        if byte < 128:
            found.append(found[-1] + value + 1)
            value = shift = 0
    return found


def _tip(what: str, start: int, end: int, says: str) -> str:
    where = f"byte {start:,}" if end - start == 1 else f"bytes {start:,} to {end - 1:,}"
    return f"{what}\n{where} of the index ({many(end - start, 'byte')})\n{says}"


def many(number: int, what: str) -> str:
    return f"{number:,} {what}{'' if number == 1 else 's'}"


def _numbered(what: str, first: int, behind: int) -> str:
    return f"{what} {first:,}" if behind - first == 1 else f"{what}s {first:,} to {behind - 1:,}"


def _named(found: Sequence[int]) -> Label:
    return tuple(f"{slot:,}" for slot in found)


def _listed(found: Sequence[int]) -> str:
    return ": " + " ".join(_named(found)) if found else ""
