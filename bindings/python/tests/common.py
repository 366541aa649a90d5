"""What several tests share: the example index of docs/FORMAT.md, damaged copies of it, and racks made at random."""
from __future__ import annotations

import os
import pathlib
import random
from dataclasses import dataclass
from typing import List, Tuple

import slots

REPOSITORY = pathlib.Path(__file__).resolve().parents[3]
PYTHON = REPOSITORY / "bindings" / "python"
HEADER = REPOSITORY / "include" / "slots.h"
RACK = REPOSITORY / "crates" / "rack" / "data" / "rack.idx"

# The surroundings of a program that a test starts: those of the test, without the settings that would change how Python writes, and at one width.
SURROUNDINGS = {name: value for name, value in os.environ.items() if not name.startswith("PYTHON")}
SURROUNDINGS.update(PYTHONUTF8="1", COLUMNS="80")

# The lists of the example, and its bytes as the last section of docs/FORMAT.md has them.
LIST_0 = [1, 4, 5, 6, 8, 12, 15, 16, 18, 20, 25, 26, 27, 28, 30]
LIST_1 = [3, 5, 12, 16, 26, 30, 31]
BOTH = [5, 12, 16, 26, 30]
RECORD_0 = bytes.fromhex(
    "00000000 0F000000 0B000000"                                                  # cut 0, 15 slots in the tail, 11 code bytes
    "01000000 00000000 08000000 03000000 12000000 06000000 1B000000 09000000"     # its four skip entries
    "02 00 00 03 02 00 01 04 00 00 01")                                           # its codes
RECORD_1 = bytes.fromhex(
    "10000000 03000000 02000000"                                                  # cut 16, 3 slots in the tail, 2 code bytes
    "28 11"                                                                       # its bits: 3, 5, 12, 16
    "1A000000 00000000 03 00")                                                    # its one block: 26 30 31
DIRECTORY = bytes.fromhex("00000000 37000000")
TRAILER = bytes.fromhex("01000000 20000000 04000000 02000000 4F000000 534C4F54")
EXAMPLE = RECORD_0 + RECORD_1 + DIRECTORY + TRAILER


def changed(at: int, value: int, length: int = 4, index: bytes = EXAMPLE) -> bytes:
    """The index with another number in the bytes from `at` on."""
    return index[:at] + value.to_bytes(length, "little") + index[at + length:]


# One index for each of the refusals 1 to 9 and 17, with the place that the table of docs/FORMAT.md gives. The trailer begins at byte 87, record 1
# at 55.
DAMAGED: List[Tuple[int, int, bytes]] = [
    (1, 0, EXAMPLE[-23:]),              # 23 bytes
    (2, 0, changed(110, 0x55, 1)),      # SLOU
    (3, 0, changed(87, 2)),             # edition 2
    (4, 0, changed(91, 0)),             # u 0
    (5, 0, changed(103, 78)),           # D 78, which leaves a byte over
    (6, 1, changed(55, 33)),            # list 1: cut 33, above u
    (7, 1, changed(73, 1)),             # list 1: the codes of block 0 begin at 1
    (8, 1, changed(77, 0x83, 1)),       # list 1: the code 83 00, which ends in a zero byte
    (9, 1, changed(69, 16)),            # list 1: its block begins with slot 16, not above the cut
    (17, 1, changed(55, 15)),           # list 1: cut 15, so that the lowest bit of 28 11, slot 16, is beyond it
]
BEYOND = DAMAGED[-1][2]


def most_bytes(u: int, block: int, cut: int, n: int) -> int:
    """What `slots.bound` tells where it accepts: head, bits, blocks, other slots above the cut, and what wide gaps can add."""
    blocks, left = -(-n // block), u - cut
    return 12 + -(-cut // 8) + 8 * blocks + (n - blocks) + left // 129 + left // 16_385


@dataclass(frozen=True)
class Rack:
    """Lists made at random: their slots, the cut of each, and their index."""

    u: int
    block: int
    lists: List[List[int]]
    cuts: List[int]
    index: bytes


def random_rack(chance: random.Random, most_u: int = 300, most_lists: int = 6) -> Rack:
    u = chance.randint(1, most_u)
    block = chance.choice([1, 2, 3, 4, 7, 16, 128])
    shares = [chance.choice([0.0, 0.02, 0.3, 0.7, 1.0]) for _ in range(chance.randint(1, most_lists))]
    lists = [[slot for slot in range(1, u + 1) if chance.random() < share] for share in shares]
    cuts = [chance.choice([0, u, chance.randint(0, u)]) for _ in lists]
    records = [slots.record(u, block, cut, each) for cut, each in zip(cuts, lists)]
    return Rack(u, block, lists, cuts, slots.index_of(u, block, records))
