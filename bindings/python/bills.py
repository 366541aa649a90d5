"""The most looks that a question by skips can cost in each of its lists.

q searches in a list of m blocks cost at most q + 2qe + 2 * floor(m / 2^e) looks, for every whole e from 0 on. That is proved of each position of a
question (`PlaceBill` in crates/promises/proofs/Positions.antt); docs/LOOKS.md says why, and shows some questions. With e = 0 it is q + 2m. A larger e
is better where few slots are sought in many blocks.

The library tells the looks, and not q: `searches` counts them, by asking it for the candidates.
"""
from __future__ import annotations

import bisect
from typing import List, Optional, Sequence, Tuple

import reading
import slots

__all__ = ["best", "bill", "order", "searches"]


def bill(e: int, q: int, m: int) -> int:
    """The bound for this e: q searches in a list of m blocks never cost more looks."""
    return q + 2 * q * e + 2 * (m >> e)


def best(q: int, m: int) -> Tuple[int, int]:
    """The e for which the bound is least, and that bound. Of several such e, the smallest.

    No e above m.bit_length() need be tried: from there on floor(m / 2^e) is 0, and a larger e only adds.
    """
    bound, e = min((bill(e, q, m), e) for e in range(m.bit_length() + 1))
    return e, bound


def order(lists: Sequence[reading.List], names: Sequence[int]) -> List[int]:
    """The positions of a question, in the order in which their lists are visited: by rising count, of equals the one named earlier.

    `lists` are those of the index. The first position is that of the starting list.
    """
    return sorted(range(len(names)), key=lambda at: lists[names[at]].count)  # sorting leaves equals in their order


def searches(index: bytes, lists: Sequence[reading.List], names: Sequence[int]) -> List[Optional[int]]:
    """How many searches each position of a question by skips makes. None is the starting list's: nothing is sought there.

    `lists` must be those that were read from this index, and the question one that the library accepts. To a list come the slots that all lists before
    it share, and the library tells those, by a question of the plain way for each list but the first: 15 at most, each of which looks at the whole index.
    A candidate up to the cut of the list is tested by its bit, and not searched for.
    """
    visited = order(lists, names)
    room = lists[names[visited[0]]].count  # enough, as it is the smallest list; and with a room given, the library is called only once
    found: List[Optional[int]] = [None] * len(names)
    for rank, at in enumerate(visited[1:], 1):
        candidates = slots.ask(index, slots.Way.PLAIN, [names[before] for before in visited[:rank]], room).slots
        found[at] = len(candidates) - bisect.bisect_right(candidates, lists[names[at]].cut)
    return found
