"""What an index says about itself beyond the answers of the functions: its trailer, and the head of each record.

Nothing is read before the library has looked at the whole index and accepted it. From there on docs/FORMAT.md says where each number
stands, and no number can lead out of the index. The index is looked at once: `slots.lend` and `slots.count` would look at the whole of
it anew for each list, which takes minutes where there are thousands; the tests hold what is read here against them. (`beyond_cut` reads
an index that is refused with 17, and says why it may.)
"""
from __future__ import annotations

import struct
from dataclasses import dataclass
from typing import Iterator, List as Several, Tuple

import slots

__all__ = ["HEAD", "TRAILER", "Beyond", "Index", "List", "beyond_cut", "entries", "read"]

HEAD = 12     # bytes of the head of a record
TRAILER = 24  # bytes of the trailer


@dataclass(frozen=True)
class List:
    """One list of an index, and the parts of its record, which stand in this order: head, bits, skip entries, code bytes."""

    name: int        # its number, from 0
    start: int       # at which byte of the index its record starts
    length: int      # bytes of its record
    cut: int         # slots up to it are bits, slots above it are gaps
    count: int       # how many slots it holds; of them, tail are above the cut
    tail: int        # n
    blocks: int      # m
    code_bytes: int  # L
    bit_bytes: int   # ceil(cut / 8)

    @property
    def entry_bytes(self) -> int:
        return 8 * self.blocks


@dataclass(frozen=True)
class Index:
    """A whole index: the records of its lists, then the directory, then the trailer."""

    u: int                # how many slots the rack has
    block: int            # B
    size: int             # bytes of the index
    lists: Several[List]  # in the order of their names
    directory_start: int  # D, which is also how many bytes the records have together

    @property
    def directory_bytes(self) -> int:
        return 4 * len(self.lists)


@dataclass(frozen=True)
class Beyond:
    """The last byte of the bits of a list, where a bit beyond the cut is set."""

    cut: int
    at: int     # at which byte of the index it stands
    value: int
    clear: int  # its value with no bit set beyond the cut


def read(index: bytes) -> Index:
    """What the index says about itself. Raises slots.Refused where the library refuses it.

    Only bytes are taken: what was looked at must still be the same when it is read.
    """
    if not isinstance(index, bytes):
        raise TypeError(f"index must be bytes, not {type(index).__name__}")
    slots.look(index)
    _, u, block, k, directory = struct.unpack_from("<5I", index, len(index) - TRAILER)
    starts = struct.unpack_from(f"<{k}I", index, directory)
    ends = (*starts[1:], directory)
    lists = [_list(index, block, name, starts[name], ends[name]) for name in range(k)]
    return Index(u, block, len(index), lists, directory)


def entries(index: bytes, of: List) -> Iterator[Tuple[int, int]]:
    """The skip entries of a list, block by block: the slot that the block begins with, and where its codes begin, counted from the first code byte.

    `of` must be a list that was read from this index.
    """
    first = of.start + HEAD + of.bit_bytes
    return ((slot, offset) for slot, offset in struct.iter_unpack("<II", index[first:first + of.entry_bytes]))


def beyond_cut(index: bytes, name: int) -> Beyond:
    """Which byte is meant where the library refuses the index with 17 and list `name` as the place.

    17 comes behind 1 to 5, and behind 6 of the same list: so the directory, the list's start and its cut can be read, and its bits lie in the index.
    """
    directory, = struct.unpack_from("<I", index, len(index) - 8)
    start, = struct.unpack_from("<I", index, directory + 4 * name)
    cut, = struct.unpack_from("<I", index, start)
    at = start + HEAD + cut // 8  # the cut is no multiple of 8, or there would be no such bit
    return Beyond(cut, at, index[at], index[at] & ~(0xFF >> cut % 8))


def _list(index: bytes, block: int, name: int, start: int, end: int) -> List:
    cut, tail, code_bytes = struct.unpack_from("<3I", index, start)
    bit_bytes = (cut + 7) // 8
    bits = index[start + HEAD:start + HEAD + bit_bytes]
    blocks = (tail + block - 1) // block
    return List(name, start, end - start, cut, _set_bits(bits) + tail, tail, blocks, code_bytes, bit_bytes)


def _set_bits(bits: bytes) -> int:
    """How many bits are set. Each is a slot: in an index that was accepted, no bit beyond the cut is set."""
    return bin(int.from_bytes(bits, "big")).count("1")
