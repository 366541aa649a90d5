"""Every refusal: its number, place and words, that it changes nothing, and that words and declarations are those of include/slots.h."""
from __future__ import annotations

import ctypes
import pickle
import re
import unittest
from unittest import mock

import slots
from slots import Refusal, Refused, Way

from .common import BEYOND, DAMAGED, EXAMPLE, HEADER, LIST_0, LIST_1, RECORD_0, RECORD_1, changed


class Case(unittest.TestCase):
    def refused(self, number, place, function, *given):
        with self.assertRaises(Refused) as caught:
            function(*given)
        self.assertEqual((caught.exception.number, caught.exception.place), (number, place))
        return caught.exception


class Numbers(Case):
    """Each number comes from every function that can give it, with its place."""

    def test_1_to_9_and_17_from_every_function_that_takes_an_index(self):
        for number, place, index in DAMAGED:
            with self.subTest(number=number):
                self.refused(number, place, slots.look, index)
                self.refused(number, place, slots.ask, index, 9, [])  # the index is judged first
                self.refused(number, place, slots.test, index, 9, 99)
                self.refused(number, place, slots.next, index, 9, 99)
                self.refused(number, place, slots.count, index, 9)
                self.refused(number, place, slots.lend, index, 9)

    def test_1_for_an_index_that_is_too_long(self):
        self.refused(1, 0, slots.look, bytes(16_777_217))
        self.refused(2, 0, slots.look, bytes(16_777_216))

    def test_1_and_4_and_5_and_12_of_closing(self):
        self.refused(4, 0, slots.close, bytearray(111), 0, 4, 79, [0, 55])
        self.refused(4, 0, slots.close, bytearray(111), 32, 129, 79, [0, 55])
        self.refused(4, 0, slots.close, bytearray(111), 32, 4, 79, [])
        self.refused(4, 0, slots.close, bytearray(111), 32, 4, 79, range(4097))
        self.refused(1, 0, slots.close, bytearray(111), 32, 4, 16_777_185, [0, 55])
        self.refused(12, 16_777_216, slots.close, bytearray(111), 32, 4, 16_777_184, [0, 55])
        self.refused(12, 111, slots.close, bytearray(110), 32, 4, 79, [0, 55])
        self.refused(5, 0, slots.close, bytearray(111), 32, 4, 79, [1, 55])
        self.refused(5, 0, slots.close, bytearray(111), 32, 4, 79, [0, 68])

    def test_6_to_9_and_17_of_closing(self):
        for number, place, index in DAMAGED[5:]:
            self.refused(number, place, slots.close, bytearray(index[:79] + bytes(32)), 32, 4, 79, [0, 55])
            self.refused(number, place, slots.index_of, 32, 4, [index[:55], index[55:79]])

    def test_17_for_every_bit_beyond_the_cut_and_for_no_other(self):
        # Lists of one slot, as bits. Slot 1 has the top bit of the first byte.
        for cut in range(25):
            width = (cut + 7) // 8 * 8
            for slot in range(1, width + 1):
                record = bytes([cut]) + bytes(11) + (1 << width - slot).to_bytes(width // 8, "big")
                with self.subTest(cut=cut, slot=slot):
                    if slot <= cut:
                        self.assertEqual(slots.ask(slots.index_of(24, 4, [record]), Way.PLAIN, [0]).slots, [slot])
                    else:
                        self.refused(17, 0, slots.index_of, 24, 4, [record])

    def test_what_17_refuses_is_sound_without_the_bit(self):
        index = changed(68, 0x10, 1, BEYOND)
        self.assertTrue(slots.look(index))
        self.assertEqual(slots.ask(index, Way.PLAIN, [1]).slots, [slot for slot in LIST_1 if slot != 16])
        self.assertEqual(slots.lend(index, 1).record, slots.record(32, 4, 15, [slot for slot in LIST_1 if slot != 16]))

    def test_4_and_13_and_15_of_a_bound(self):
        for u, block in (0, 4), (1_048_577, 4), (2**32 - 1, 4), (32, 0), (32, 129), (32, 2**32 - 1):
            self.refused(4, 0, slots.bound, u, block, 0, 0)
        for cut in 33, 2**32 - 1:
            self.refused(15, 0, slots.bound, 32, 4, cut, 0)
        for cut, n in (0, 33), (16, 17), (32, 1), (32, 2**32 - 1):
            self.refused(13, 0, slots.bound, 32, 4, cut, n)

    def test_4_and_12_and_13_and_15_of_writing(self):
        for function, room in (slots.write, [bytearray(55)]), (slots.record, []):
            self.refused(4, 0, function, 1_048_577, 4, 0, LIST_0, *room)
            self.refused(4, 0, function, 32, 0, 0, LIST_0, *room)
            self.refused(15, 0, function, 32, 4, 33, LIST_0, *room)
            self.refused(13, 1, function, 32, 4, 0, [3, 3], *room)
            self.refused(13, 0, function, 32, 4, 0, [0], *room)
            self.refused(13, 2, function, 32, 4, 0, [3, 5, 33], *room)
        self.refused(12, 55, slots.write, 32, 4, 0, LIST_0, bytearray(54))
        self.refused(12, 12, slots.write, 32, 4, 0, [], bytearray())

    def test_10_to_12_and_14_of_asking(self):
        self.refused(14, 0, slots.ask, EXAMPLE, 2, [])
        self.refused(10, 0, slots.ask, EXAMPLE, 1, [])
        self.refused(10, 0, slots.ask, EXAMPLE, 1, [0] * 17)
        self.refused(11, 1, slots.ask, EXAMPLE, 1, [0, 2, 3])
        self.refused(11, 0, slots.ask, EXAMPLE, 0, [2**32 - 1])
        self.refused(12, 7, slots.ask, EXAMPLE, 1, [0, 1], 6)
        self.refused(12, 15, slots.ask, EXAMPLE, 0, [0], 0)

    def test_11_and_16_of_one_list(self):
        for function in slots.test, slots.next:
            for slot in 0, 1, 33:  # 11 comes first
                self.refused(11, 0, function, EXAMPLE, 2, slot)
                self.refused(11, 0, function, EXAMPLE, 2**32 - 1, slot)
            for slot in 0, 33, 2**32 - 1:
                self.refused(16, 0, function, EXAMPLE, 0, slot)
                self.refused(16, 0, function, EXAMPLE, 1, slot)
        self.refused(11, 0, slots.count, EXAMPLE, 2)
        self.refused(11, 0, slots.lend, EXAMPLE, 2)

    def test_index_of(self):
        self.refused(4, 0, slots.index_of, 32, 4, [])
        self.refused(4, 0, slots.index_of, 32, 4, [RECORD_1] * 4097)
        self.refused(4, 0, slots.index_of, 0, 4, [RECORD_1])
        self.refused(1, 0, slots.index_of, 32, 4, [bytes(16_777_216)])
        self.refused(5, 0, slots.index_of, 32, 4, [RECORD_0, RECORD_1[:11]])
        self.refused(9, 0, slots.index_of, 29, 4, [RECORD_0, RECORD_1])  # list 0 has slot 30

    def test_nothing_at_all(self):
        self.refused(1, 0, slots.look, b"")
        self.refused(1, 0, slots.ask, b"", 0, [])
        self.refused(1, 0, slots.test, b"", 0, 0)
        self.refused(1, 0, slots.next, b"", 0, 0)
        self.refused(1, 0, slots.count, bytearray(), 0)
        self.refused(1, 0, slots.lend, memoryview(b""), 0)
        self.refused(4, 0, slots.bound, 0, 0, 0, 0)
        self.refused(4, 0, slots.write, 0, 0, 0, [], bytearray())
        self.refused(4, 0, slots.close, bytearray(), 0, 0, 0, [])
        self.refused(4, 0, slots.record, 0, 0, 0, [])
        self.refused(4, 0, slots.index_of, 0, 0, [])


class Unchanged(Case):
    """A refusal leaves the room as it was, and free."""

    def test_write(self):
        for given in (0, 4, 0, LIST_0), (32, 4, 33, LIST_0), (32, 4, 0, LIST_0 + [30]), (32, 4, 0, LIST_0):
            room = bytearray(range(54))
            with self.assertRaises(Refused):
                slots.write(*given, room)
            self.assertEqual(room, bytes(range(54)))

    def test_close(self):
        for number, place, index in DAMAGED[5:]:
            room = bytearray(index[:79] + b"\xA5" * 40)
            self.refused(number, place, slots.close, room, 32, 4, 79, [0, 55])
            self.assertEqual(room, index[:79] + b"\xA5" * 40)

    def test_the_room_can_be_resized_while_the_refusal_is_at_hand(self):
        room = bytearray(54)
        try:
            slots.write(32, 4, 0, LIST_0, room)
        except Refused as refused:
            room.extend(bytes(refused.place - len(room)))
        self.assertEqual(slots.write(32, 4, 0, LIST_0, room).length, 55)
        try:
            slots.close(room, 32, 4, 55, [0])
        except Refused as refused:
            room.extend(bytes(refused.place - len(room)))
        self.assertEqual(slots.close(room, 32, 4, 55, [0]).length, 55 + 4 + 24)

    def test_an_index_can_be_resized_while_the_refusal_is_at_hand(self):
        index = bytearray(EXAMPLE)
        for function, given in (slots.look, []), (slots.count, [2]), (slots.lend, [2]), (slots.ask, [1, []]), (slots.next, [2, 1]):
            try:
                function(index, *given)
            except Refused:
                index.append(0)
        self.assertEqual(index, EXAMPLE + bytes(4))  # look accepted, so one less than there are calls; the others refuse the longer index as well


class Words(Case):
    def test_what_a_person_reads(self):
        for refused, said in [
            (Refused(3, 0), "3: the edition is not 1"),
            (Refused(6, 4095), "6: the head of a record does not fit u or the size of the record (list 4095)"),
            (Refused(7, 1), "7: the codes of a block do not lie where they should (list 1)"),
            (Refused(8, 0), "8: a code is damaged, or bytes remain behind the codes of a block (list 0)"),
            (Refused(9, 2), "9: a slot is above u or out of order (list 2)"),
            (Refused(10, 0), "10: the question has no name, or more than 16"),
            (Refused(11, 1), "11: there is no list of that name (name at position 1)"),
            (Refused(12, 7), "12: the room is too small (room needed: 7)"),
            (Refused(13, 0), "13: the slots to be written do not rise strictly within 1..u, or more are to lie above the cut than there are slots there (position 0)"),
            (Refused(16, 0), "16: the slot asked about is not in 1..u"),
            (Refused(17, 1), "17: a bit beyond the cut is set (list 1)"),
        ]:
            self.assertEqual(str(refused), said)
        for number in 1, 2, 4, 5, 14, 15:
            self.assertEqual(str(Refused(number, 0)), f"{number}: {Refused(number, 0).reason}")

    def test_a_number_of_a_newer_library(self):
        for number in 0, 18, 2**32 - 1:
            refused = Refused(number, 3)
            self.assertEqual((refused.number, refused.place, refused.refusal), (number, 3, None))
            self.assertEqual(refused.reason, "a number that this module does not know")
            self.assertEqual(str(refused), f"{number}: a number that this module does not know")
        with mock.patch("slots._call", return_value=[18, 3]):
            self.refused(18, 3, slots.look, EXAMPLE)

    def test_a_refusal_has_its_member(self):
        refused = self.refused(12, 7, slots.ask, EXAMPLE, Way.BY_SKIPS, [0, 1], 6)
        self.assertIs(refused.refusal, Refusal.NO_ROOM)
        self.assertEqual([int(each) for each in Refusal], list(range(1, 18)))

    def test_pickles(self):
        for refused in Refused(12, 7), Refused(18, 0):
            again = pickle.loads(pickle.dumps(refused))
            self.assertEqual((type(again), vars(again), str(again)), (Refused, vars(refused), str(refused)))


def numbered(members):
    """The members of an enum of C with their numbers: one more than the member before, or the sum of others that is said behind `=`."""
    known = {"SLOTS_MOST_NAMES": slots.MOST_NAMES}
    following = 0
    for member in re.sub(r"/\*.*?\*/", "", members).split(","):
        name, _, said = map(str.strip, member.partition("="))
        known[name] = sum(known[each] for each in said.split(" + ")) if said else following
        following = known[name] + 1
    return known


class Header(unittest.TestCase):
    """Nothing but this test holds a declaration here to the one there."""

    text = HEADER.read_text(encoding="utf-8")

    def enum(self, name):
        return re.search(rf"enum {name} \{{(.*?)\}};", self.text, re.S)[1]

    def test_reasons_are_those_of_the_enum(self):
        lines = re.findall(r"SLOTS_(\w+) = (\d+),?\s*/\* (.*?)(?:; place: [^*]*)? \*/", self.enum("slots_refusal"))
        self.assertEqual([(each.name, each.value, Refused(each, 0).reason) for each in Refusal],
                         [(name, int(number), words) for name, number, words in lines])

    def test_reasons_are_those_of_slots_reason(self):
        words = re.findall(r'^ +"(.*)",$', self.text[self.text.index("*slots_reason("):], re.M)
        self.assertEqual(words, ["accepted"] + [Refused(number, 0).reason for number in range(1, 18)])

    def test_ways(self):
        self.assertEqual(re.findall(r"SLOTS_(\w+) = (\d+)", self.enum("slots_way")), [(way.name, str(int(way))) for way in Way])

    def test_limits(self):
        limits = dict(re.findall(r"SLOTS_(MOST_\w+) = (\d+)", self.text))
        self.assertEqual(limits, {name: str(getattr(slots, name)) for name in dir(slots) if name.startswith("MOST_")})

    def test_declarations(self):
        types = {"const uint8_t *": ctypes.c_char_p, "uint8_t *": ctypes.POINTER(ctypes.c_uint8), "const uint32_t *": ctypes.POINTER(ctypes.c_uint32),
                 "uint32_t *": ctypes.POINTER(ctypes.c_uint32), "uint64_t *": ctypes.POINTER(ctypes.c_uint64),
                 "uint32_t ": ctypes.c_uint32, "size_t ": ctypes.c_size_t}
        declared = re.findall(r"^uint32_t (slots_\w+)\((.*?)\);", self.text, re.M | re.S)
        self.assertEqual(len(declared), 9)
        for name, parameters in declared:
            expected = [types[re.sub(r"\w+$", "", parameter)] for parameter in re.split(r",\s*", parameters)]
            function = getattr(slots._library(), name)
            self.assertEqual((name, list(function.argtypes), function.restype), (name, expected, ctypes.c_uint32))

    def test_fields_of_the_answers(self):
        with mock.patch("slots._call", wraps=slots._call) as call:
            slots.look(EXAMPLE)
            slots.ask(EXAMPLE, 1, [0, 1], 7)
            slots.test(EXAMPLE, 0, 1)
            slots.next(EXAMPLE, 0, 1)
            slots.count(EXAMPLE, 0)
            slots.lend(EXAMPLE, 0)
            slots.bound(32, 4, 16, 3)
            slots.write(32, 4, 16, LIST_1, bytearray(24))
            slots.close(bytearray(RECORD_1 + bytes(28)), 32, 4, 24, [0])
        fields = {each[0][0]: each[0][1] for each in call.call_args_list}
        enums = re.findall(r"enum (slots_\w+)_field \{(.*?)\};", self.text, re.S)
        self.assertEqual(fields, {name: numbered(members)[f"{name.upper()}_FIELDS"] for name, members in enums})

    def test_where_the_costs_of_the_positions_stand(self):
        members = numbered(self.enum("slots_ask_field"))
        self.assertEqual([members[f"SLOTS_ASK_{name}"] for name in ("NUMBER", "PLACE", "COUNT", "LOOKS", "CODES", "LOOKS_AT", "CODES_AT", "FIELDS")],
                         [0, 1, 2, 3, 4, 5, 21, 37])
        # Fields that are numbered as the header numbers them: the module takes those from LOOKS_AT and from CODES_AT on.
        answer = [0, 0, *range(2, 37)]
        with mock.patch("slots._call", return_value=answer):
            found = slots.ask(EXAMPLE, 1, [0, 1, 2], 9)
        self.assertEqual((found.looks_at, found.codes_at), ((5, 6, 7), (21, 22, 23)))


class Order(Case):
    def test_looking(self):
        # Both records are damaged: the first fault of the first list is the answer. Byte 54 is the last code of list 0.
        self.refused(8, 0, slots.look, changed(54, 0x81, 1, changed(69, 16)))

    def test_17_of_looking(self):
        sound = changed(68, 0x10, 1, BEYOND)
        self.refused(6, 1, slots.look, changed(63, 3, 4, BEYOND))  # one code byte more than there are: 6 comes before
        # What is wrong with its block comes behind: the codes begin at 1; a code ends in a zero byte; its first slot is not above the cut.
        for number, at, value, length in (7, 73, 1, 4), (8, 77, 0x83, 1), (9, 69, 15, 4):
            self.refused(number, 1, slots.look, changed(at, value, length, sound))
            self.refused(17, 1, slots.look, changed(at, value, length, BEYOND))
        self.refused(8, 0, slots.look, changed(54, 0x81, 1, BEYOND))  # the list before

    def test_17_of_several_lists(self):
        # Three records of 14 bytes: a head, and 28 10 for slots 3 5 12 up to cut 13.
        sound = slots.index_of(32, 4, [slots.record(32, 4, 13, [3, 5, 12])] * 3)
        self.assertEqual((len(sound), sound[12:14], slots.look(sound)), (3 * 14 + 3 * 4 + 24, b"\x28\x10", True))
        last = changed(41, 0x17, 1, sound)
        self.refused(17, 2, slots.look, last)
        self.refused(17, 1, slots.look, changed(27, 0x11, 1, last))
        self.refused(17, 1, slots.look, changed(27, 0x11, 1, changed(28, 33, 4, sound)))  # before the cut of list 2, which is above u
        self.refused(6, 0, slots.look, changed(27, 0x11, 1, changed(0, 33, 4, sound)))    # behind that of list 0

    def test_asking(self):
        self.refused(14, 0, slots.ask, EXAMPLE, 2, [9] * 17, 0)
        self.refused(10, 0, slots.ask, EXAMPLE, 1, [9] * 17, 0)
        self.refused(11, 0, slots.ask, EXAMPLE, 1, [9], 0)

    def test_bounds(self):
        self.refused(4, 0, slots.bound, 0, 4, 33, 34)
        self.refused(4, 0, slots.bound, 32, 0, 33, 34)
        self.refused(15, 0, slots.bound, 32, 4, 33, 34)
        self.refused(13, 0, slots.bound, 32, 4, 32, 34)

    def test_writing(self):
        self.refused(4, 0, slots.write, 0, 4, 33, [3, 3], bytearray())
        self.refused(15, 0, slots.write, 32, 4, 33, [3, 3], bytearray())
        self.refused(13, 1, slots.write, 32, 4, 32, [3, 3], bytearray())
