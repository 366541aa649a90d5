"""The bound for the looks of each list: its arithmetic, the searches that it goes by, that the library keeps it, and how the command line tells it."""
from __future__ import annotations

import random
import unittest
from unittest import mock

import bills
import reading
import slots

from .common import EXAMPLE, random_rack
from .test_command import Case

# Slots 2, 4 .. 62, one to a block, so that block j begins with slot 2j; and three slots that are sought there.
LONG = list(range(2, 63, 2))
FEW = [16, 32, 48]
# By hand, for 31 blocks. 16 is entry 8: from finger 0 on, entries 1, 2, 4 and 8 are good and 16 is not; then 12, 10 and 9 are looked at: 8 looks. 32 is
# entry 16: from 8 on, 9, 10, 12 and 16 are good and 24 is not; then 20, 18 and 17: 8 looks. 48 is entry 24: from 16 on, 17, 18, 20 and 24 are good, and
# 32 lies past the end; then 28, 26 and 25: 7 looks.
FEW_IN_LONG = 8 + 8 + 7


def made(u, block, *lists):
    """The index of lists, each given as its cut and its slots."""
    return slots.index_of(u, block, [slots.record(u, block, cut, held) for cut, held in lists])


def counted(rack, names):
    """The searches of each position, from the slots that the lists were made of alone: a list comes before another where it holds fewer slots, or as many
    and is named earlier; what all lists before it hold comes to a list, and what lies above its cut is sought. None where no list comes before."""
    held = [set(rack.lists[name]) for name in names]
    found = []
    for at, name in enumerate(names):
        before = [each for other, each in enumerate(held) if (len(each), other) < (len(held[at]), at)]
        found.append(sum(slot > rack.cuts[name] for slot in set.intersection(*before)) if before else None)
    return found


class Arithmetic(unittest.TestCase):
    def test_bill(self):
        for e, q, m, expected in [
            (0, 7, 4, 15),      # 7 + 0 + 2 * 4
            (1, 7, 4, 25),      # 7 + 14 + 2 * 2
            (0, 3, 31, 65),     # 3 + 0 + 2 * 31
            (2, 3, 31, 29),     # 3 + 12 + 2 * 7
            (3, 3, 31, 27),     # 3 + 18 + 2 * 3
            (4, 3, 31, 29),     # 3 + 24 + 2 * 1
            (5, 3, 31, 33),     # 3 + 30 + 0
            (12, 1, 8000, 27),  # 1 + 24 + 2 * 1
            (4, 0, 31, 2),      # 0 + 0 + 2 * 1
            (5, 0, 31, 0),
            (9, 2, 0, 38),      # 2 + 36 + 0
            (0, 0, 0, 0),
        ]:
            self.assertEqual(bills.bill(e, q, m), expected)

    def test_best(self):
        for q, m, expected in [
            (7, 4, (0, 15)),
            (3, 31, (3, 27)),
            (1, 8000, (12, 27)),      # e 13 has no block left, and gives 1 + 26, the same; e 11 gives 1 + 22 + 2 * 3, which is 29
            (1, 1, (0, 3)),           # 1 + 2, as 1 + 2 + 0 for e 1
            (1, 4, (1, 7)),           # 1 + 8 for e 0; 1 + 2 + 2 * 2, and as much for e 2 and e 3
            (2, 5, (1, 10)),          # 2 + 10; 2 + 4 + 2 * 2; 2 + 8 + 2 * 1
            (10_000, 155, (0, 10_310)),
            (5, 0, (0, 5)),
            (0, 3, (2, 0)),           # 2 * 3, 2 * 1, and then none
            (0, 4, (3, 0)),
            (0, 0, (0, 0)),
        ]:
            self.assertEqual(bills.best(q, m), expected)

    def test_best_is_the_least_for_any_e(self):
        pairs = [(q, m) for q in range(41) for m in range(131)]
        pairs += [(q, 2**power + step) for q in (0, 1, 2, 1000, 2**20) for power in (7, 12, 19, 20) for step in (-1, 0, 1)]
        for q, m in pairs:
            every = [q + 2 * q * e + 2 * (m // 2**e) for e in range(41)]
            self.assertEqual(bills.best(q, m), (every.index(min(every)), min(every)), (q, m))
            # docs/LOOKS.md tells it so: halved so often, the blocks are for the first time no more than twice the searches.
            self.assertEqual(bills.best(q, m)[0], [m // 2**e <= 2 * q for e in range(41)].index(True), (q, m))


class Searches(unittest.TestCase):
    def of(self, index, *names):
        return bills.searches(index, reading.read(index).lists, names)

    def test_the_example(self):
        # List 1 has 7 slots, 3 of them above its cut, 16. Five of the seven are in list 0, which is cut at 0.
        self.assertEqual(self.of(EXAMPLE, 0, 1), [7, None])
        self.assertEqual(self.of(EXAMPLE, 1, 0, 0), [None, 7, 5])
        self.assertEqual(self.of(EXAMPLE, 0, 1, 1), [7, None, 3])
        self.assertEqual(self.of(EXAMPLE, 1, 0, 1, 0), [None, 7, 3, 5])
        self.assertEqual(self.of(EXAMPLE, 0), [None])

    def test_the_cut_itself_is_no_search(self):
        for cut, q in (15, 2), (16, 1), (47, 1), (48, 0), (49, 0):  # of 16 and 48
            self.assertEqual(self.of(made(64, 1, (cut, LONG), (0, [16, 48])), 0, 1), [q, None])

    def test_of_equals_the_one_named_first_starts(self):
        # Both have two slots, of which one is shared. The one that is named later is cut at 2, or at 0, and gets the slots of the other; the third gets 4 alone.
        index = made(9, 1, (2, [1, 4]), (0, [2, 4]), (0, [4, 5, 6]))
        self.assertEqual(self.of(index, 2, 0, 1), [1, None, 2])
        self.assertEqual(self.of(index, 1, 2, 0), [None, 1, 1])

    def test_lists_of_no_slot(self):
        index = made(9, 1, (0, []), (0, [3, 5]))
        self.assertEqual(self.of(index, 1, 0, 0), [0, None, 0])

    def test_fifteen_questions_at_most(self):
        names = [0, 1] * 8
        lists = reading.read(EXAMPLE).lists
        with mock.patch.object(slots, "_call", wraps=slots._call) as called:
            found = bills.searches(EXAMPLE, lists, names)
        self.assertEqual(called.call_count, 15)
        self.assertEqual(found, [7, None, *[5, 3] * 7])  # list 1 comes first, each time; all seven candidates outlive it, and five the first list 0


class Racks(unittest.TestCase):
    """Questions to lists made at random: with many slots and few, bits and tails, long blocks and short ones."""

    def questions(self, seed, number):
        chance = random.Random(seed)
        for _ in range(number):
            rack = random_rack(chance)
            yield rack, [chance.randrange(len(rack.lists)) for _ in range(chance.choice([1, 2, 2, 3, 4, 16]))]

    def test_searches_against_the_slots(self):
        for rack, names in self.questions(14, 400):
            self.assertEqual(bills.searches(rack.index, reading.read(rack.index).lists, names), counted(rack, names))

    def test_the_library_keeps_every_bound(self):
        above_0 = 0
        for rack, names in self.questions(15, 400):
            looks_at = slots.ask(rack.index, slots.Way.BY_SKIPS, names).looks_at
            for name, looks, q in zip(names, looks_at, counted(rack, names)):
                if q is None:
                    self.assertEqual(looks, 0)
                    continue
                tail = sum(slot > rack.cuts[name] for slot in rack.lists[name])
                m = -(-tail // rack.block)
                self.assertLessEqual(looks, q + 2 * m)
                for e in range(25):
                    self.assertLessEqual(looks, bills.bill(e, q, m))
                    self.assertTrue(e == 0 or looks <= bills.bill(e, q, m) - q)  # q looks to spare
                above_0 += q > 0 and bills.best(q, m)[0] > 0
        self.assertGreater(above_0, 50)  # few slots in many blocks were met too


class Printed(Case):
    def test_an_e_above_0(self):
        self.prints(0, f"3 slots, {FEW_IN_LONG} looks, 0 codes\n"
                       f"list 0: {FEW_IN_LONG} looks (at most 27: 3 searches, 31 blocks, e 3), 0 codes\n"
                       "list 1: 0 looks, 0 codes (the starting list: 3 candidates)\n"
                       "16\n32\n48\n", "ask", self.file("long.idx", made(64, 1, (0, LONG), (0, FEW))), "skips", "0", "1")
        self.assertEqual(FEW_IN_LONG, 23)

    def test_every_candidate_up_to_the_cut(self):
        # Slots 2 and 4 are tested by their bits. Blocks there are, but no search: with e 2 none of the three is left.
        self.prints(0, "2 slots, 0 looks, 0 codes\n"
                       "list 0: 0 looks (at most 0: 0 searches, 3 blocks, e 2), 0 codes\n"
                       "list 1: 0 looks, 0 codes (the starting list: 2 candidates)\n"
                       "2\n4\n", "ask", self.file("bits.idx", made(32, 1, (8, [1, 2, 4, 8, 10, 12, 14]), (0, [2, 4]))), "skips", "0", "1")

    def test_one_search_in_one_block(self):
        # One look finds the block, and its first slot is the one sought.
        self.prints(0, "1 slot, 1 look, 0 codes\n"
                       "list 0: 1 look (at most 3: 1 search, 1 block, e 0), 0 codes\n"
                       "list 1: 0 looks, 0 codes (the starting list: 1 candidate)\n"
                       "4\n", "ask", self.file("one.idx", made(9, 9, (0, [4, 7]), (0, [4]))), "skips", "0", "1")

    def test_three_names(self):
        # List 1 starts, and list 2 follows. There 16 is a bit, and 24 32 40 56 are entries 1 to 4. 32: 1 and 2 are good, 4 is not, nor is 3: 4 looks, and it is
        # found. 48: from 2 on, 3 is good and 4 is not: 2 looks, and it is dropped. 2 + 2 * 4 for e 0, and 2 + 4 + 2 * 2 for e 1. List 0 gets 16 and 32: 8 + 8
        # looks, as above; 2 + 12 + 2 * 3 for e 3, and as much for e 4.
        index = made(64, 1, (0, LONG), (0, FEW), (16, [8, 16, 24, 32, 40, 56]))
        self.prints(0, "2 slots, 22 looks, 0 codes\n"
                       "list 0: 16 looks (at most 20: 2 searches, 31 blocks, e 3), 0 codes\n"
                       "list 1: 0 looks, 0 codes (the starting list: 3 candidates)\n"
                       "list 2: 6 looks (at most 10: 2 searches, 4 blocks, e 0), 0 codes\n"
                       "16\n32\n", "ask", self.file("three.idx", index), "skips", "0", "1", "2")

    def test_a_list_named_twice(self):
        # 7 + 2 * 4, and 5 + 2 * 4: the five slots that were found are sought again.
        self.prints(0, "5 slots, 17 looks, 25 codes\n"
                       "list 1: 0 looks, 0 codes (the starting list: 7 candidates)\n"
                       "list 0: 9 looks (at most 15: 7 searches, 4 blocks, e 0), 14 codes\n"
                       "list 0: 8 looks (at most 13: 5 searches, 4 blocks, e 0), 11 codes\n"
                       "5\n12\n16\n26\n30\n", "ask", "rack.idx", "skips", "1", "0", "0")

    def test_nothing_of_it_plainly_or_refused(self):
        self.prints(0, "5 slots, 0 looks, 0 codes\n5\n12\n16\n26\n30\n", "ask", "rack.idx", "plain", "1", "0", "0")
        self.prints(1, "refused: 11: there is no list of that name (name at position 2)\n", "ask", "rack.idx", "skips", "1", "0", "2")
        self.prints(1, "refused: 10: the question has no name, or more than 16\n", "ask", "rack.idx", "skips", *["1"] * 17)

    def test_the_help(self):
        self.assertIn("q + 2qe + 2 * floor(m / 2^e)", self.run_it("ask", "--help").stdout)
