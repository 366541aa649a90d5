"""What is read from an index beyond the functions, held against the example, against lend and count, and against the slots that were written."""
from __future__ import annotations

import random
import unittest

import reading
import slots

from .common import BEYOND, DAMAGED, EXAMPLE, changed, random_rack


def code_bytes(value: int) -> int:
    """How many bytes a code has: seven bits go into each, and even 0 takes one."""
    return max(1, -(-value.bit_length() // 7))


class Example(unittest.TestCase):
    def test_read(self):
        index = reading.read(EXAMPLE)
        self.assertEqual((index.u, index.block, index.size, index.directory_start, index.directory_bytes), (32, 4, 111, 79, 8))
        self.assertEqual(index.lists, [
            reading.List(name=0, start=0, length=55, cut=0, count=15, tail=15, blocks=4, code_bytes=11, bit_bytes=0),
            reading.List(name=1, start=55, length=24, cut=16, count=7, tail=3, blocks=1, code_bytes=2, bit_bytes=2)])
        self.assertEqual([each.entry_bytes for each in index.lists], [32, 8])

    def test_entries(self):
        first, second = reading.read(EXAMPLE).lists
        self.assertEqual(list(reading.entries(EXAMPLE, first)), [(1, 0), (8, 3), (18, 6), (27, 9)])
        self.assertEqual(list(reading.entries(EXAMPLE, second)), [(26, 0)])

    def test_a_cut_inside_a_byte(self):
        # Slots 3, 5 and 12, cut at 13, so that the three lowest bits of the second byte belong to no slot.
        head, bits = bytes([13]) + bytes(11), bytes([0b00101000, 0b00010000])
        index = slots.index_of(32, 4, [head + bits])
        read, = reading.read(index).lists
        self.assertEqual((read.count, read.tail, read.bit_bytes), (3, 0, 2))
        self.assertEqual(slots.count(index, 0), 3)


class Refusing(unittest.TestCase):
    def test_an_index_that_is_refused_is_not_read(self):
        for number, place, index in DAMAGED:
            with self.assertRaises(slots.Refused) as caught:
                reading.read(index)
            self.assertEqual((caught.exception.number, caught.exception.place), (number, place))

    def test_where_a_bit_is_beyond_the_cut(self):
        # The bits of list 1 are bytes 67 and 68. Up to cut 15 the second has its seven upper bits.
        self.assertEqual(reading.beyond_cut(BEYOND, 1), reading.Beyond(cut=15, at=68, value=0x11, clear=0x10))

    def test_whichever_bits_they_are(self):
        # One list, at byte 0, with every bit of its two bytes set. The second byte has slots 9 to 16, slot 9 on top.
        clear = {9: 0x80, 10: 0xC0, 11: 0xE0, 12: 0xF0, 13: 0xF8, 14: 0xFC, 15: 0xFE}
        for cut, value in clear.items():
            sound = slots.index_of(16, 1, [slots.record(16, 1, cut, range(1, cut + 1))])
            index = changed(13, 0xFF, 1, sound)
            with self.assertRaises(slots.Refused) as caught:
                reading.read(index)
            self.assertEqual((caught.exception.number, caught.exception.place), (17, 0))
            self.assertEqual(reading.beyond_cut(index, 0), reading.Beyond(cut, 13, 0xFF, value))
            self.assertEqual(changed(13, value, 1, index), sound)

    def test_no_damage_to_one_byte_leads_out_of_the_index(self):
        for at in range(len(EXAMPLE)):
            for value in 0, 1, 0x7F, 0x80, 0xFF:
                index = changed(at, value, 1)
                try:
                    read = reading.read(index)
                except slots.Refused:
                    continue
                self.assertEqual([each.count for each in read.lists], [slots.count(index, name) for name in range(2)])

    def test_only_bytes_are_taken(self):
        for index in bytearray(EXAMPLE), memoryview(EXAMPLE), "text", None:
            with self.assertRaisesRegex(TypeError, f"^index must be bytes, not {type(index).__name__}$"):
                reading.read(index)


class Racks(unittest.TestCase):
    def test_against_lend_and_count(self):
        chance = random.Random(4)
        for _ in range(200):
            rack = random_rack(chance)
            index = reading.read(rack.index)
            self.assertEqual((index.u, index.block, index.size, len(index.lists)), (rack.u, rack.block, len(rack.index), len(rack.lists)))
            for each in index.lists:
                lent = slots.lend(rack.index, each.name)
                self.assertEqual((each.start, each.length), (lent.start, len(lent.record)))
                self.assertEqual(each.count, slots.count(rack.index, each.name))
                self.assertEqual(each.length, reading.HEAD + each.bit_bytes + each.entry_bytes + each.code_bytes)
            self.assertEqual(index.directory_start, sum(each.length for each in index.lists))
            self.assertEqual(index.size, index.directory_start + index.directory_bytes + reading.TRAILER)

    def test_against_bits_that_are_set_beyond_a_cut(self):
        chance = random.Random(6)
        found = 0
        for _ in range(200):
            rack = random_rack(chance)
            for each in reading.read(rack.index).lists:
                if each.cut % 8 == 0:
                    continue  # there is no such bit
                at = each.start + reading.HEAD + each.bit_bytes - 1
                bit = 1 << chance.randrange(8 - each.cut % 8)
                index = changed(at, rack.index[at] | bit, 1, rack.index)
                with self.assertRaises(slots.Refused) as caught:
                    reading.read(index)
                self.assertEqual((caught.exception.number, caught.exception.place), (17, each.name))
                self.assertEqual(reading.beyond_cut(index, each.name), reading.Beyond(each.cut, at, index[at], rack.index[at]))
                found += 1
        self.assertGreater(found, 100)

    def test_against_the_slots(self):
        chance = random.Random(5)
        for _ in range(200):
            rack = random_rack(chance, most_u=2000)
            for each, held, cut in zip(reading.read(rack.index).lists, rack.lists, rack.cuts):
                tail = [slot for slot in held if slot > cut]
                self.assertEqual((each.cut, each.tail, each.count), (cut, len(tail), len(held)))
                blocks = [tail[at:at + rack.block] for at in range(0, len(tail), rack.block)]
                lengths = [sum(code_bytes(slot - before - 1) for before, slot in zip(block, block[1:])) for block in blocks]
                self.assertEqual((each.blocks, each.code_bytes), (len(blocks), sum(lengths)))
                self.assertEqual(list(reading.entries(rack.index, each)), [(block[0], sum(lengths[:at])) for at, block in enumerate(blocks)])
