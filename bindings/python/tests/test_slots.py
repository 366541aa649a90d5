"""The functions where they accept: the example of docs/FORMAT.md, what stays as it was, and racks made at random against Python's sets."""
from __future__ import annotations

import copy
import ctypes
import itertools
import mmap
import pickle
import random
import tempfile
import threading
import unittest
from array import array
from unittest import mock

import slots
from slots import Way

from .common import BOTH, EXAMPLE, LIST_0, LIST_1, RACK, RECORD_0, RECORD_1, changed, most_bytes, random_rack

# What the example answers by skips for lists 0 and 1, in this order. List 1 is the smaller, so all is sought in list 0.
SOUGHT = slots.Answer(BOTH, 9, 14, (9, 0), (14, 0))


def buffers(data: bytes):
    """The same bytes in objects of every kind that the module takes; those that need it are closed by the caller."""
    mapped = mmap.mmap(-1, len(data))
    mapped[:] = data
    spread = bytearray(2 * len(data))
    spread[::2] = data
    return [data, bytearray(data), memoryview(data), memoryview(bytearray(data)), memoryview(b"--" + data)[2:], memoryview(spread)[::2],
            array("B", data), ctypes.create_string_buffer(data, len(data)), mapped]


class Example(unittest.TestCase):
    def test_it_is_the_file_of_the_small_program(self):
        self.assertEqual(EXAMPLE, RACK.read_bytes())
        self.assertEqual(len(EXAMPLE), 111)

    def test_look(self):
        self.assertIs(True, slots.look(EXAMPLE))

    def test_ask_by_skips(self):
        for names in [0, 1], [1, 0], (0, 1), range(2), iter([0, 1]), array("I", [0, 1]), array("q", [0, 1]), memoryview(array("I", [1, 0])):
            answer = slots.ask(EXAMPLE, Way.BY_SKIPS, names)
            self.assertEqual((answer.slots, answer.looks, answer.codes), (BOTH, 9, 14))

    def test_ask_plain(self):
        self.assertEqual(slots.ask(EXAMPLE, Way.PLAIN, [0, 1]), slots.Answer(BOTH, 0, 0, (0, 0), (0, 0)))
        self.assertEqual(slots.ask(EXAMPLE, 0, [0]).slots, LIST_0)

    def test_ask_for_one_list_twice(self):
        # List 1 in itself: 3 5 12 16 are bits and cost nothing. 26 takes a look at the one entry and no code; then the finger stands behind the last
        # entry: no look more, one code for 30 and two for 31.
        self.assertEqual(slots.ask(EXAMPLE, Way.BY_SKIPS, [1, 1]), slots.Answer(LIST_1, 1, 3, (0, 1), (0, 3)))

    def test_ask_for_as_many_names_as_there_may_be(self):
        self.assertEqual(slots.ask(EXAMPLE, Way.PLAIN, [0, 1] * 8).slots, BOTH)

    def test_ask_with_room(self):
        # Seven is what list 1 needs. The last would be 16 gigabytes if it were taken at its word.
        for room, places in (7, 7), (8, 8), (1_048_576, 1_048_576), (1_048_577, 1_048_576), (2**32 - 1, 1_048_576):
            with mock.patch("slots._call", wraps=slots._call) as call:
                self.assertEqual(slots.ask(EXAMPLE, Way.BY_SKIPS, [0, 1], room), SOUGHT)
            self.assertEqual((call.call_count, len(call.call_args[0][-2]), call.call_args[0][-1]), (1, places, places))

    def test_test(self):
        for name, held in (0, LIST_0), (1, LIST_1):
            for slot in range(1, 33):
                self.assertIs(slots.test(EXAMPLE, name, slot).yes, slot in held)

    def test_next(self):
        for name, slot, expected in [
            (0, 5, 5), (0, 7, 8), (0, 9, 12), (0, 30, 30), (0, 31, None),                       # its blocks begin with 1 8 18 27
            (1, 1, 3), (1, 6, 12), (1, 16, 16), (1, 17, 26), (1, 27, 30), (1, 32, None),        # bits up to 16, and one block
        ]:
            self.assertEqual(slots.next(EXAMPLE, name, slot), expected, (name, slot))

    def test_next_from_every_slot(self):
        for name, held in (0, LIST_0), (1, LIST_1):
            for slot in range(1, 33):
                self.assertEqual(slots.next(EXAMPLE, name, slot), min((each for each in held if each >= slot), default=None), (name, slot))

    def test_next_behind_bits_that_are_not_set(self):
        index = changed(68, 0, 1)  # the bits of 9 to 16, which 12 and 16 were among
        self.assertEqual([slots.next(index, 1, slot) for slot in (4, 6, 16, 17, 26)], [5, 26, 26, 26, 26])

    def test_count(self):
        self.assertEqual(slots.count(EXAMPLE, 0).count, 15)
        self.assertEqual(slots.count(EXAMPLE, 1).count, 7)

    def test_lend(self):
        first, second = slots.lend(EXAMPLE, 0), slots.lend(EXAMPLE, 1)
        self.assertEqual((first.start, bytes(first.record)), (0, RECORD_0))
        self.assertEqual((second.start, bytes(second.record)), (55, RECORD_1))

    def test_write_and_close_as_the_readme_does(self):
        room = bytearray(111)
        self.assertEqual(slots.write(32, 4, 0, LIST_0, room).length, 55)
        self.assertEqual(slots.write(32, 4, 16, LIST_1, memoryview(room)[55:]).length, 24)
        self.assertEqual(slots.close(room, 32, 4, 79, [0, 55]).length, 111)
        self.assertEqual(room, EXAMPLE)

    def test_record_and_index_of(self):
        self.assertEqual(slots.record(32, 4, 0, LIST_0), RECORD_0)
        self.assertEqual(slots.record(32, 4, 16, LIST_1), RECORD_1)
        self.assertEqual(slots.index_of(32, 4, [RECORD_0, RECORD_1]), EXAMPLE)
        self.assertEqual(slots.index_of(32, 4, iter([memoryview(RECORD_0), bytearray(RECORD_1)])), EXAMPLE)

    def test_types(self):
        self.assertIs(type(slots.record(32, 4, 0, [])), bytes)
        self.assertIs(type(slots.index_of(32, 4, [RECORD_1])), bytes)
        self.assertTrue(all(type(slot) is int for slot in slots.ask(EXAMPLE, 1, [0, 1]).slots))

    def test_a_list_of_no_slots(self):
        index = slots.index_of(5, 1, [slots.record(5, 1, 0, []), slots.record(5, 1, 5, [])])
        # Heads alone, with cut 0 and cut 5; the second has a byte of bits.
        self.assertEqual(index[:25], bytes(12) + bytes([5]) + bytes(12))
        self.assertEqual(slots.ask(index, Way.BY_SKIPS, [0, 1]), slots.Answer([], 0, 0, (0, 0), (0, 0)))
        self.assertEqual(slots.ask(index, Way.PLAIN, [1], 0), slots.Answer([], 0, 0, (0,), (0,)))
        self.assertEqual([slots.next(index, name, slot) for name in (0, 1) for slot in (1, 5)], [None] * 4)


class Costs(unittest.TestCase):
    """Which list cost what, by hand from the walk of docs/FORMAT.md.

    List 1 is the starting list where it is named. Its seven slots are tried in list 0 at 9 looks and 14 codes. Where list 0 is named again,
    5 12 16 26 30 are left to be tried, at 2 2 1 2 1 looks and 2 1 3 3 2 codes. What list 1 costs in itself is told above.
    """

    QUESTIONS = [
        ([0, 1], (9, 0), (14, 0)),
        ([1, 0], (0, 9), (0, 14)),
        ([1, 0, 0], (0, 9, 8), (0, 14, 11)),
        ([0, 1, 0], (9, 0, 8), (14, 0, 11)),
        ([1, 0, 1], (0, 9, 1), (0, 14, 3)),
        ([0, 1, 1], (9, 0, 1), (14, 0, 3)),
        ([1, 1], (0, 1), (0, 3)),
        ([0], (0,), (0,)),
        ([1], (0,), (0,)),
        ([0, 1] * 8, (9, 0) + (8, 1) * 7, (14, 0) + (11, 3) * 7),
    ]

    def test_each_position(self):
        for names, looks, codes in self.QUESTIONS:
            answer = slots.ask(EXAMPLE, Way.BY_SKIPS, names)
            self.assertEqual((answer.looks_at, answer.codes_at), (looks, codes), names)

    def test_the_totals(self):
        for names, looks, codes in self.QUESTIONS:
            answer = slots.ask(EXAMPLE, Way.BY_SKIPS, iter(names))
            self.assertEqual((answer.looks, answer.codes), (sum(looks), sum(codes)), names)

    def test_plainly(self):
        for names, _, _ in self.QUESTIONS:
            nothing = (0,) * len(names)
            answer = slots.ask(EXAMPLE, Way.PLAIN, names)
            self.assertEqual((answer.looks, answer.codes, answer.looks_at, answer.codes_at), (0, 0, nothing, nothing), names)

    def test_of_two_with_the_same_count_the_one_named_first_costs_nothing(self):
        # One block each, 1 3 and 2 3. 1 lies before the block 2 3: a look and no code; 3 then takes a look and a code. In the block 1 3, 2 takes a look
        # and a code, and 3, with the finger there, a code.
        index = slots.index_of(9, 2, [slots.record(9, 2, 0, [1, 3]), slots.record(9, 2, 0, [2, 3])])
        self.assertEqual(slots.ask(index, Way.BY_SKIPS, [0, 1]), slots.Answer([3], 2, 1, (0, 2), (0, 1)))
        self.assertEqual(slots.ask(index, Way.BY_SKIPS, [1, 0]), slots.Answer([3], 1, 2, (0, 1), (0, 2)))

    def test_they_cannot_be_changed(self):
        answer = slots.ask(EXAMPLE, Way.BY_SKIPS, [0, 1])
        with self.assertRaises(AttributeError):
            answer.looks_at = (0, 0)
        with self.assertRaises(TypeError):
            answer.codes_at[0] = 0


class Bounds(unittest.TestCase):
    """How many bytes a record can need, and the room that is reserved by it."""

    def test_by_hand(self):
        for given, expected in [
            ((32, 4, 0, 15), 12 + 4 * 8 + 11),       # both lists of the example are as long as they can be
            ((32, 4, 16, 3), 12 + 2 + 8 + 2),
            ((32, 4, 16, 16), 12 + 2 + 4 * 8 + 12),  # all slots above the cut, and none
            ((32, 4, 16, 0), 12 + 2),
            ((32, 4, 32, 0), 12 + 4),                # bits alone
            ((32, 4, 9, 0), 12 + 2),
            ((32, 4, 0, 4), 12 + 8 + 3),             # a block begun is a block
            ((32, 4, 0, 5), 12 + 2 * 8 + 3),
            ((1, 1, 0, 0), 12),
            ((1, 1, 0, 1), 12 + 8),
            ((1, 1, 1, 0), 12 + 1),
            ((130, 128, 0, 2), 12 + 8 + 1 + 1),
            ((128, 1, 0, 0), 12),                    # without a slot, the last two terms stay
            ((129, 1, 0, 0), 12 + 1),
            ((140, 1, 11, 0), 12 + 2 + 1),           # they go by u - cut
            ((140, 1, 12, 0), 12 + 2),
            ((16_384, 1, 0, 0), 12 + 127),
            ((16_385, 1, 0, 0), 12 + 127 + 1),
            ((1_048_576, 1, 0, 1_048_576), 12 + 8 * 1_048_576 + 8128 + 63),
            ((1_048_576, 128, 0, 1_048_576), 12 + 8192 * (8 + 127) + 8128 + 63),
            ((1_048_576, 128, 1_048_576, 0), 12 + 131_072),
        ]:
            self.assertEqual(slots.bound(*given).bytes, expected, given)

    def test_wild_numbers(self):
        wild = 0, 1, 3, 8, 127, 128, 129, 16_385, 1_048_575, 1_048_576, 1_048_577, 2**31, 2**32 - 1
        for u, block, cut, n in itertools.product(wild, repeat=4):
            number = 4 if not (1 <= u <= 1_048_576 and 1 <= block <= 128) else 15 if cut > u else 13 if n > u - cut else 0
            expected = (number, 0, 0 if number else most_bytes(u, block, cut, n))
            self.assertEqual(tuple(slots._call("slots_bound", 3, u, block, cut, n)), expected, (u, block, cut, n))

    def left(self, u, block, cut, held):
        """Writes the slots into exactly the room that is reserved for them, and gives how many bytes of it are left."""
        bound = slots.bound(u, block, cut, sum(slot > cut for slot in held))
        room = bytearray(b"\xA5" * bound)
        written = slots.write(u, block, cut, held, room)
        self.assertEqual(room[written:], b"\xA5" * (bound - written))
        self.assertEqual(slots.record(u, block, cut, held), room[:written])
        return bound - written

    def test_some_records_need_all_of_it(self):
        self.assertEqual(self.left(32, 4, 0, LIST_0), 0)
        self.assertEqual(self.left(32, 4, 16, LIST_1), 0)
        # A slot that lies 129 above the one before has a code of two bytes; then as many such codes as a block can have: 12 + 8 + 2 * 127 bytes.
        self.assertEqual((slots.bound(130, 128, 0, 2), self.left(130, 128, 0, [1, 130])), (22, 0))
        self.assertEqual((slots.bound(16_384, 128, 0, 128), self.left(16_384, 128, 0, range(1, 16_385, 129))), (274, 0))

    def test_others_leave_some_of_it(self):
        self.assertEqual(self.left(130, 128, 0, [1, 129]), 1)          # a code of one byte
        self.assertEqual(self.left(16_386, 2, 0, [1, 16_386]), 126)    # one of three bytes, where 129 are reserved
        self.assertEqual(self.left(1_048_576, 1, 0, []), 8128 + 63)    # the head alone

    def test_racks_made_at_random(self):
        chance = random.Random(5)
        for _ in range(200):
            rack = random_rack(chance, chance.choice([40, 900, 40_000]), 2)
            for cut, held in zip(rack.cuts, rack.lists):
                self.left(rack.u, rack.block, cut, held)

    def test_the_largest_rack(self):
        u = slots.MOST_SLOTS
        for block, cut in (1, 0), (128, 0), (128, 500_000), (128, u):
            self.left(u, block, cut, array("I", range(1, u + 1)))

    def test_a_record_is_measured_and_then_written_once(self):
        for cut, held, n, room in (0, LIST_0, 15, 55), (16, LIST_1, 3, 24), (0, [], 0, 12):
            with mock.patch("slots._call", wraps=slots._call) as call:
                slots.record(32, 4, cut, held)
            measured, written = (each[0] for each in call.call_args_list)
            self.assertEqual(measured, ("slots_bound", 3, 32, 4, cut, n))
            self.assertEqual((written[0], written[-1]), ("slots_write", room))


class WrongSlots(unittest.TestCase):
    """A record of wrong slots is refused as writing refuses them, whatever the bound says."""

    def same(self, u, block, cut, held):
        """What writing says with no room, and `record` too: number and place of a refusal, or 0 and the length."""
        with self.assertRaises(slots.Refused) as written:
            slots.write(u, block, cut, held, bytearray())
        said = written.exception.number, written.exception.place
        if said[0] == 12:
            self.assertEqual(len(slots.record(u, block, cut, held)), said[1], (u, block, cut, held))
            return 0, said[1]
        with self.assertRaises(slots.Refused) as recorded:
            slots.record(u, block, cut, held)
        self.assertEqual((recorded.exception.number, recorded.exception.place), said, (u, block, cut, held))
        self.assertIsNone(recorded.exception.__context__)  # that of the bound is no part of it
        return said

    def test_by_hand(self):
        for given, expected in [
            ((32, 4, 0, [4, 5, 3]), (13, 2)),
            ((32, 4, 32, [4, 5, 5]), (13, 2)),
            ((32, 4, 16, [0, 17]), (13, 0)),
            ((32, 4, 16, [17, 33]), (13, 1)),
            ((32, 4, 16, [2**32 - 1]), (13, 0)),
            ((32, 4, 32, [1, 2, 33]), (13, 2)),      # from here on more slots above the cut than there can be; the first bad one is told
            ((32, 4, 31, [5, 32, 32]), (13, 2)),
            ((32, 4, 31, [5, 5, 33, 34]), (13, 1)),
            ((1, 1, 0, [1] * 100), (13, 1)),
            ((32, 4, 33, [5, 5]), (15, 0)),          # what comes before the slots
            ((32, 4, 2**32 - 1, []), (15, 0)),
            ((0, 4, 0, []), (4, 0)),
            ((0, 0, 9, [5, 5]), (4, 0)),
            ((2**32 - 1, 4, 0, [1]), (4, 0)),
            ((32, 129, 0, [1]), (4, 0)),
            ((32, 4, 0, LIST_0), (0, 55)),
        ]:
            self.assertEqual(self.same(*given), expected, given)

    def test_anything(self):
        chance = random.Random(8)
        met = set()
        for _ in range(5000):
            u, block = chance.choice([0, 1, 2, 5, 9, 9, 9, 1_048_577]), chance.choice([0, 1, 2, 4, 128, 129])
            held = [chance.randint(0, 11) for _ in range(chance.randint(0, 4))]
            met.add(self.same(u, block, chance.randint(0, 10), sorted(held) if chance.random() < 0.5 else held)[0])
        self.assertEqual(met, {0, 4, 13, 15})


class Answers(unittest.TestCase):
    """What the answers are as values: a program that forgets the field must still do what it says."""

    def test_tested(self):
        yes, no = slots.test(EXAMPLE, 0, 5), slots.test(EXAMPLE, 0, 7)
        self.assertTrue(yes)
        self.assertFalse(no)
        self.assertEqual((yes == True, no == False, yes == no), (True, True, False))  # noqa: E712
        self.assertEqual((repr(yes), str(no)), ("Tested(yes=True)", "False"))

    def test_counted(self):
        counted = slots.count(EXAMPLE, 1)
        self.assertTrue(counted)
        self.assertEqual((counted == 7, counted > 6, counted + 1, list(range(counted))), (True, True, 8, [0, 1, 2, 3, 4, 5, 6]))
        self.assertEqual((repr(counted), str(counted), type(counted.count)), ("Counted(count=7)", "7", int))
        self.assertFalse(slots.count(slots.index_of(9, 9, [slots.record(9, 9, 0, [])]), 0))

    def test_next(self):
        found, none = slots.next(EXAMPLE, 0, 7), slots.next(EXAMPLE, 0, 31)
        self.assertIs(type(found), int)
        self.assertIsNone(none)
        with self.assertRaises(TypeError):
            none + 1  # a step from none leads nowhere, where from 0 it would lead to 1

    def test_bound(self):
        bound = slots.bound(32, 4, 16, 3)
        self.assertEqual((bound == 24, bound < 25, 55 + bound, len(bytearray(bound))), (True, True, 79, 24))
        self.assertEqual((repr(bound), str(bound), type(bound.bytes)), ("Bound(bytes=24)", "24", int))

    def test_written(self):
        written = slots.write(32, 4, 16, LIST_1, bytearray(24))
        self.assertEqual((written == 24, 55 + written, repr(written), str(written)), (True, 79, "Written(length=24)", "24"))

    def test_answer(self):
        self.assertTrue(slots.ask(EXAMPLE, 0, [0, 1]))
        nothing = slots.index_of(9, 9, [slots.record(9, 9, 0, [2]), slots.record(9, 9, 0, [3])])
        self.assertFalse(slots.ask(nothing, 0, [0, 1]))

    def test_copies_and_pickles(self):
        for value in SOUGHT, slots.Tested(True), slots.Tested(False), slots.Counted(7), slots.Bound(24), slots.Written(24):
            for again in copy.copy(value), copy.deepcopy(value), pickle.loads(pickle.dumps(value)):
                self.assertEqual((type(again), again, repr(again)), (type(value), value, repr(value)))

    def test_every_public_name_is_there(self):
        own = {name for name, value in vars(slots).items() if getattr(value, "__module__", "") == "slots" and not name.startswith("_")}
        limits = {name for name in vars(slots) if name.startswith("MOST_")}
        self.assertEqual(sorted(slots.__all__), sorted(own | limits | {"Bytes", "Room"}))


class Memory(unittest.TestCase):
    """Whose bytes the library gets, and which of them change."""

    def test_an_index_in_any_buffer(self):
        for index in buffers(EXAMPLE):
            with self.subTest(kind=type(index).__name__):
                self.assertIs(True, slots.look(index))
                self.assertEqual(slots.ask(index, 1, [0, 1]), SOUGHT)
                self.assertTrue(slots.test(index, 0, 5))
                self.assertEqual(slots.next(index, 0, 7), 8)
                self.assertEqual(slots.count(index, 0), 15)
                lent = slots.lend(index, 1)
                self.assertEqual((lent.start, lent.record.tobytes()), (55, RECORD_1))
                lent.record.release()
                if isinstance(index, mmap.mmap):
                    index.close()

    def test_bytes_go_on_uncopied_and_all_else_as_a_copy(self):
        class Derived(bytes):
            def __len__(self):
                return 10**6

        for index in EXAMPLE, bytearray(EXAMPLE), memoryview(EXAMPLE), Derived(EXAMPLE):
            with mock.patch("slots._call", wraps=slots._call) as call:
                slots.look(index)
            handed, length = call.call_args[0][2:4]
            self.assertEqual((type(handed), handed, length), (bytes, EXAMPLE, 111))
            self.assertEqual(handed is index, index is EXAMPLE)

    def test_lend_is_a_view_of_the_object_itself(self):
        for index in EXAMPLE, bytearray(EXAMPLE):
            lent = slots.lend(index, 1)
            self.assertIs(lent.record.obj, index)
            self.assertTrue(lent.record.readonly)
        index[55] = 99  # the bytearray
        self.assertEqual(lent.record[0], 99)
        with self.assertRaises(BufferError):
            index.append(0)
        lent.record.release()
        index.append(0)

    def test_a_mapped_file(self):
        with tempfile.TemporaryFile() as file:
            file.write(EXAMPLE)
            file.flush()
            with mmap.mmap(file.fileno(), 0, access=mmap.ACCESS_READ) as mapped:
                self.assertEqual(slots.ask(mapped, 1, [0, 1]).slots, BOTH)

    def test_a_room_in_any_buffer(self):
        for room in buffers(bytes(30)):
            with self.subTest(kind=type(room).__name__):
                view = memoryview(room)
                if view.readonly or not view.c_contiguous:
                    view.release()
                    continue
                self.assertEqual(slots.write(32, 4, 16, LIST_1, room).length, 24)
                self.assertEqual(view.tobytes(), RECORD_1 + bytes(6))
                view.release()
                if isinstance(room, mmap.mmap):
                    room.close()

    def test_bytes_behind_a_record_stay(self):
        room = bytearray(b"\xA5" * 40)
        slots.write(32, 4, 16, LIST_1, room)
        self.assertEqual(room, RECORD_1 + b"\xA5" * 16)

    def test_bytes_in_front_of_a_view_and_behind_it_stay(self):
        room = bytearray(b"\xA5" * 40)
        slots.write(32, 4, 16, LIST_1, memoryview(room)[8:32])
        self.assertEqual(room, b"\xA5" * 8 + RECORD_1 + b"\xA5" * 8)

    def test_bytes_behind_an_index_stay(self):
        room = bytearray(RECORD_0 + RECORD_1 + b"\xA5" * 40)
        slots.close(room, 32, 4, 79, [0, 55])
        self.assertEqual(room, EXAMPLE + b"\xA5" * 8)

    def test_a_room_can_be_resized_afterwards(self):
        room = bytearray(30)
        slots.write(32, 4, 16, LIST_1, room)
        room.append(1)
        room[:] = RECORD_0 + RECORD_1 + bytes(32)
        slots.close(room, 32, 4, 79, [0, 55])
        room.append(1)
        self.assertEqual(room, EXAMPLE + b"\x01")

    def test_threads_get_the_same_answers(self):
        found = []
        threads = [threading.Thread(target=lambda: found.extend(slots.ask(EXAMPLE, 1, [0, 1]) for _ in range(50))) for _ in range(4)]
        for thread in threads:
            thread.start()
        for thread in threads:
            thread.join()
        self.assertEqual(found, [SOUGHT] * 200)


class Racks(unittest.TestCase):
    """Racks made at random, against Python's sets."""

    def test_round_trips(self):
        chance = random.Random(1)
        for _ in range(300):
            rack = random_rack(chance)
            slots.look(rack.index)
            for name, held in enumerate(rack.lists):
                self.assertEqual(slots.count(rack.index, name), len(held))
                self.assertEqual(slots.ask(rack.index, Way.PLAIN, [name]).slots, held)
                slot = chance.randint(1, rack.u)
                self.assertIs(slots.test(rack.index, name, slot).yes, slot in held)
                self.assertEqual(slots.next(rack.index, name, slot), min((each for each in held if each >= slot), default=None))

    def stepped(self, index, name, u):
        """The slots of a list, told one after the other: from 1 on, and then from one above the slot told, where the rack has such a slot."""
        told, start = [], 1
        while start <= u:
            slot = slots.next(index, name, start)
            if slot is None:
                break
            self.assertGreaterEqual(slot, start)  # or there would be no end of steps
            told.append(slot)
            start = slot + 1
        return told

    def test_stepping_through_a_list(self):
        chance = random.Random(6)
        ends = set()
        for _ in range(100):
            rack = random_rack(chance)
            for name, held in enumerate(rack.lists):
                told = self.stepped(rack.index, name, rack.u)
                self.assertEqual(told, slots.ask(rack.index, Way.PLAIN, [name]).slots)
                self.assertEqual(told, held)
                ends.add(told[-1:] == [rack.u])
        self.assertEqual(ends, {True, False})  # lists that hold the last slot of the rack, and others

    def test_questions(self):
        chance = random.Random(2)
        for _ in range(300):
            rack = random_rack(chance)
            names = [chance.randrange(len(rack.lists)) for _ in range(chance.randint(1, 16))]
            shared = sorted(set.intersection(*(set(rack.lists[name]) for name in names)))
            needed = min(len(rack.lists[name]) for name in names)
            for way in Way:
                self.assertEqual(slots.ask(rack.index, way, names).slots, shared)
                self.assertEqual(slots.ask(rack.index, way, names, needed).slots, shared)

    def test_costs(self):
        chance = random.Random(4)
        for _ in range(300):
            rack = random_rack(chance)
            names = [chance.randrange(len(rack.lists)) for _ in range(chance.randint(1, 16))]
            starting = min(range(len(names)), key=lambda at: (len(rack.lists[names[at]]), at))
            answer = slots.ask(rack.index, Way.BY_SKIPS, names)
            self.assertEqual((len(answer.looks_at), len(answer.codes_at)), (len(names), len(names)))
            self.assertEqual((answer.looks_at[starting], answer.codes_at[starting]), (0, 0))
            self.assertEqual((sum(answer.looks_at), sum(answer.codes_at)), (answer.looks, answer.codes))

    def test_lent_records_are_those_that_were_written(self):
        chance = random.Random(3)
        for _ in range(100):
            rack = random_rack(chance)
            start = 0
            for name, (cut, held) in enumerate(zip(rack.cuts, rack.lists)):
                lent = slots.lend(rack.index, name)
                self.assertEqual((lent.start, lent.record), (start, slots.record(rack.u, rack.block, cut, held)))
                start += len(lent.record)

    def test_the_largest_rack(self):
        u = slots.MOST_SLOTS
        full = slots.index_of(u, 128, [slots.record(u, 128, u, range(1, u + 1)), slots.record(u, 128, 0, array("I", range(3, u + 1, 3)))])
        self.assertEqual(slots.ask(full, Way.BY_SKIPS, [0, 1]).slots, list(range(3, u + 1, 3)))
        self.assertEqual((slots.count(full, 0), slots.count(full, 1)), (u, u // 3))
        # 1,048,576 is 3 * 349,525 + 1, so that list 1 ends with the slot before the last.
        self.assertEqual([slots.next(full, name, slot) for name in (0, 1) for slot in (1, u - 2, u)], [1, u - 2, u, 3, u - 1, None])
