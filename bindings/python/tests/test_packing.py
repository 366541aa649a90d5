"""The text of lists, and the choice of the cut: against every cut tried through the library."""
from __future__ import annotations

import bisect
import io
import random
import unittest
from unittest import mock

import packing
import reading
import slots

from .common import LIST_0, LIST_1, most_bytes


def pack(text: str) -> bytes:
    return packing.pack(io.BytesIO(text.encode("utf-8")), "lists.txt")


def lists(index: bytes):
    return [slots.ask(index, 0, [each.name]).slots for each in reading.read(index).lists]


class Cuts(unittest.TestCase):
    def held_against_every_cut(self, u, block, held):
        lengths = [len(slots.record(u, block, cut, held)) for cut in range(u + 1)]
        self.assertEqual(packing.smallest(block, held), (lengths.index(min(lengths)), min(lengths)), (u, block, held))
        for cut, length in packing.sizes(block, held):
            self.assertEqual(length, lengths[cut], (u, block, held, cut))
            self.assertLessEqual(length, slots.bound(u, block, cut, len(held) - bisect.bisect_right(held, cut)), (u, block, held, cut))

    def test_by_hand(self):
        # Slots 1 to 8 of 8 with B 4: as bits 12 + 1 bytes; as gaps 12 + 2 entries of 8 and 6 codes.
        self.assertEqual(packing.smallest(4, range(1, 9)), (8, 13))
        # Slot 8 alone: bits up to 8 take one byte, an entry eight. Slot 800 alone: a hundred bytes against eight.
        self.assertEqual(packing.smallest(4, [8]), (8, 13))
        self.assertEqual(packing.smallest(4, [800]), (0, 20))
        # Slot 64 alone: eight bytes either way, and the lower cut of the two is 0.
        self.assertEqual(packing.smallest(4, [64]), (0, 20))
        self.assertEqual(packing.smallest(4, []), (0, 12))

    def test_small_racks(self):
        chance = random.Random(6)
        for _ in range(400):
            u, share = chance.randint(1, 60), chance.random()
            self.held_against_every_cut(u, chance.randint(1, 6), [slot for slot in range(1, u + 1) if chance.random() < share])

    def test_racks_with_longer_codes(self):
        chance = random.Random(7)
        for _ in range(20):
            u = chance.randint(300, 900)
            crowded = chance.randint(0, u)  # up to here a third of the slots, above it one in a hundred
            held = [slot for slot in range(1, u + 1) if chance.random() < (0.3 if slot <= crowded else 0.01)]
            self.held_against_every_cut(u, chance.choice([1, 2, 5, 16, 128]), held)

    def test_a_rack_with_codes_of_every_length(self):
        # Gaps of 126 to 128, 16,384 and 16,385: where codes of one, two and three bytes end and begin, less one.
        held = [5, 6, 7, 133, 262, 391, 393, 16777, 33162, 33163, 33164, 33170]
        self.held_against_every_cut(33_171, 16, held)
        self.assertEqual(dict(packing.sizes(16, held))[0], 12 + 8 + 1 + 1 + 1 + 2 + 2 + 1 + 2 + 3 + 1 + 1 + 1)

    def test_a_full_rack(self):
        cut, length = packing.smallest(128, range(1, slots.MOST_SLOTS + 1))
        self.assertEqual((cut, length), (slots.MOST_SLOTS, 12 + slots.MOST_SLOTS // 8))


class Rooms(unittest.TestCase):
    """The room of each record is reserved by the bound, and each record is written once."""

    def calls(self, text):
        with mock.patch("slots._call", wraps=slots._call) as call:
            index = pack(text)
        return index, [each[0] for each in call.call_args_list]

    def held_to_the_bound(self, u, block, lists_given):
        """The records of an index that is packed from these lists, and for each how many bytes of its room were left."""
        text = f"u {u}\nB {block}\n" + "".join(f"list {' '.join(map(str, held))}\n" for held in lists_given)
        index, calls = self.calls(text)
        self.assertEqual([call[0] for call in calls[:2 * len(lists_given)]], ["slots_bound", "slots_write"] * len(lists_given))
        left = []
        for held, each, measured, written in zip(lists_given, reading.read(index).lists, calls[::2], calls[1::2]):
            cut, length = packing.smallest(block, held)
            above = sum(slot > cut for slot in held)
            self.assertEqual((each.cut, each.length), (cut, length))
            self.assertEqual(measured[2:], (u, block, cut, above))
            self.assertEqual(written[-1], most_bytes(u, block, cut, above))
            left.append(written[-1] - length)
        self.assertGreaterEqual(min(left), 0)
        return left

    def test_by_hand(self):
        # With 129 slots or more above the cut one byte is reserved for a code of two bytes. The first list, cut at 0, has such a code; those behind it, cut
        # at 0, 0 and 9, have none. The full list is all bits, up to 230. The last has no slots, and is cut at 0.
        given = [[100, 229], [100, 228], [229], [9], list(range(1, 231)), []]
        self.assertEqual(self.held_to_the_bound(230, 128, given), [0, 1, 1, 1, 0, 1])

    def test_lists_made_at_random(self):
        chance = random.Random(9)
        for _ in range(60):
            u = chance.choice([30, 900, 40_000])
            shares = [chance.choice([0, 0.0002, 0.01, 0.3, 1]) for _ in range(3)]
            self.held_to_the_bound(u, chance.choice([1, 3, 128]), [[slot for slot in range(1, u + 1) if chance.random() < share] for share in shares])

    def test_a_full_rack_cut_nowhere(self):
        # `pack` would not cut it so; but a record of which all slots lie above the cut is one of the longest.
        held = packing._slots(["1-1048576"], slots.MOST_SLOTS)
        self.assertEqual(len(slots.record(slots.MOST_SLOTS, 1, 0, held)), 12 + 8 * slots.MOST_SLOTS)


class Text(unittest.TestCase):
    def test_an_index(self):
        index = pack("u 32\nB 4\nlist 1 4-6 8 12 15-16 18 20 25-28 30\nlist 3 5 12 16 26 30-31\n")
        self.assertEqual(lists(index), [LIST_0, LIST_1])
        read = reading.read(index)
        self.assertEqual((read.u, read.block), (32, 4))
        for each, held in zip(read.lists, (LIST_0, LIST_1)):
            self.assertEqual(each.cut, min(range(33), key=lambda cut: len(slots.record(32, 4, cut, held))))

    def test_blanks_comments_and_line_ends(self):
        index = pack("# the rack\n\n  B\t4 # a block\nu 0032\r\n\tlist   7-7   9 # \u00e9\nlist\n#list 3\nlist 32")
        self.assertEqual(lists(index), [[7, 9], [], [32]])

    def test_a_mark_at_the_front(self):
        self.assertEqual(lists(pack("\ufeffu 9\nB 1\nlist 9\n")), [[9]])

    def test_as_many_lists_as_there_may_be(self):
        self.assertEqual(len(reading.read(pack("u 9\nB 1\n" + "list 9\n" * 4096)).lists), 4096)

    def test_the_longest_line(self):
        line = "list" + " " * (packing.MOST_LINE - len("list9\n")) + "9\n"
        self.assertEqual(lists(pack(f"u 9\nB 1\n{line}list 8")), [[9], [8]])
        with self.assertRaisesRegex(packing.Wrong, "^lists.txt:3: the line has more than 16,777,216 bytes$"):
            pack(f"u 9\nB 1\n {line}list 8")


class Wrong(unittest.TestCase):
    def said(self, text, words):
        with self.assertRaises(packing.Wrong) as caught:
            pack(text)
        self.assertEqual(str(caught.exception), words)

    def test_slots(self):
        for given, words in [
            ("40", "slot 40 is not in 1..32"),
            ("0", "slot 0 is not in 1..32"),
            ("3 33", "slot 33 is not in 1..32"),
            ("5-33", "slot 33 is not in 1..32"),
            ("0-5", "slot 0 is not in 1..32"),
            ("5-4000000000", "slot 4000000000 is not in 1..32"),
            ("9" * 5000, "slot 99999999999999999999.. is not in 1..32"),
            ("0" * 5000, "slot 00000000000000000000.. is not in 1..32"),
            ("3 3", "slot 3 does not lie above slot 3, which stands before it"),
            ("5-8 7", "slot 7 does not lie above slot 8, which stands before it"),
            ("8-5", "the range 8-5 falls"),
            ("5,6", "'5,6' is neither a slot, as 5, nor a range, as 5-8; blanks stand between them"),
            ("-5", "'-5' is neither a slot, as 5, nor a range, as 5-8; blanks stand between them"),
            ("5-", "'5-' is neither a slot, as 5, nor a range, as 5-8; blanks stand between them"),
            ("5 - 8", "'-' is neither a slot, as 5, nor a range, as 5-8; blanks stand between them"),
            ("1.5", "'1.5' is neither a slot, as 5, nor a range, as 5-8; blanks stand between them"),
            ("\u0663", "'\u0663' is neither a slot, as 5, nor a range, as 5-8; blanks stand between them"),  # a digit, but not one of ours
        ]:
            self.said(f"u 32\nB 4\nlist 1\nlist {given}\nlist 99\n", f"lists.txt:4: {words}")

    def test_u_and_b(self):
        for text, words in [
            ("u 0\n", "lists.txt:1: u 0 is not in 1..1,048,576"),
            ("u 1048577\n", "lists.txt:1: u 1048577 is not in 1..1,048,576"),
            ("u 32\nB 129\n", "lists.txt:2: B 129 is not in 1..128"),
            ("B 0\n", "lists.txt:1: B 0 is not in 1..128"),
            ("u 32\n\nu 32\n", "lists.txt:3: u is given twice"),
            ("u 32\nB 4\nlist 1\nB 4\n", "lists.txt:4: B is given twice"),
            ("u\n", "lists.txt:1: u takes one number, in digits alone"),
            ("u 32 4\n", "lists.txt:1: u takes one number, in digits alone"),
            ("B x\n", "lists.txt:1: B takes one number, in digits alone"),
            ("B -4\n", "lists.txt:1: B takes one number, in digits alone"),
            ("list 1\n", "lists.txt:1: u is missing; it must stand before the first list"),
            ("u 32\nlist 1\nB 4\n", "lists.txt:2: B is missing; it must stand before the first list"),
            ("", "lists.txt: u is missing; it must stand before the first list"),
            ("u 32\n", "lists.txt: B is missing; it must stand before the first list"),
            ("u 32\nB 4\n# no list\n", "lists.txt: there is no list"),
        ]:
            self.said(text, words)

    def test_other_lines(self):
        self.said("u 32\nlists 1 2\n", "lists.txt:2: a line begins with u, B or list, not with 'lists'")
        self.said("U 32\n", "lists.txt:1: a line begins with u, B or list, not with 'U'")
        self.said("1 2 3\n", "lists.txt:1: a line begins with u, B or list, not with '1'")
        self.said("x" * 99, "lists.txt:1: a line begins with u, B or list, not with 'xxxxxxxxxxxxxxxxxxxx..'")

    def test_no_text(self):
        with self.assertRaises(packing.Wrong) as caught:
            packing.pack(io.BytesIO(b"u 32\nB 4\nlist 1 \xff\n"), "a name")
        self.assertEqual(str(caught.exception), "a name:3: the line is not UTF-8 text")

    def test_too_many_lists(self):
        self.said("u 9\nB 1\n" + "list 9\n" * 4097, "lists.txt:4099: there are more than 4,096 lists")

    def test_an_index_that_would_be_too_long(self):
        # Every second slot of the largest rack: 131,072 bytes of bits beat half a million codes. With its head that is 131,084 bytes,
        # and 4 in the directory: 127 of them and the trailer have 16,648,200 bytes, 128 would have 16,779,288.
        held = " ".join(map(str, range(2, slots.MOST_SLOTS + 1, 2)))
        once = packing._Sheet()
        for line in "u 1048576", "B 128", f"list {held}":
            once.take(line.encode())
        self.assertEqual(once.total, 131_084)
        once.records *= 127
        once.total *= 127
        with self.assertRaisesRegex(packing.Wrong, "^with this list the index would have more than 16,777,216 bytes$"):
            once.take(f"list {held}".encode())
        self.assertEqual(len(once.index()), 16_648_200)

    def test_a_line_without_end(self):
        class Endless(io.RawIOBase):
            def readline(self, size=-1):
                return b"\0" * size

        with self.assertRaises(packing.Wrong) as caught:
            packing.pack(Endless(), "endless")
        self.assertEqual(str(caught.exception), "endless:1: the line has more than 16,777,216 bytes")
