"""The command line, run as people run it: what it prints, where, and with which status."""
from __future__ import annotations

import errno
import os
import pathlib
import re
import signal
import subprocess
import sys
import tempfile
import time
import unittest
import xml.etree.ElementTree

import slots

from .common import BEYOND, DAMAGED, EXAMPLE, LIST_0, LIST_1, PYTHON, RACK, REPOSITORY, SURROUNDINGS

COMMANDS = ["look", "show", "ask", "next", "pack", "draw"]

# By hand from docs/FORMAT.md: the heads say cut, tail and code bytes; list 1 has four slots as bits; the records have 55 and 24 bytes.
SHOWN = """\
u 32, B 4, 2 lists, 111 bytes

list  cut  count  in bits  in tail  blocks  code bytes  bytes
   0    0     15        0       15       4          11     55
   1   16      7        4        3       1           2     24

directory 8 bytes, trailer 24 bytes
"""

# What is said of BEYOND, in which the second of the two bytes of bits of list 1 is byte 68; with cut 15, seven of its bits have slots.
SAID = """\
refused: 17: a bit beyond the cut is set (list 1)
with cut 15, byte 68 of the file (counted from 0) is 0x11; without the bits beyond the cut it would be 0x10
"""


class Case(unittest.TestCase):
    """Each test has a folder of its own, with the example in it as rack.idx, and commands run there."""

    def setUp(self):
        folder = tempfile.TemporaryDirectory()
        self.addCleanup(folder.cleanup)
        self.folder = pathlib.Path(folder.name)
        self.file("rack.idx", EXAMPLE)

    def file(self, name, data):
        (self.folder / name).write_bytes(data)
        return name

    def run_it(self, *given, **more):
        settings = {"stdout": subprocess.PIPE, "stderr": subprocess.PIPE, "stdin": subprocess.DEVNULL, "cwd": self.folder, "timeout": 60,
                    "env": SURROUNDINGS, **more}
        return subprocess.run([sys.executable, "-W", "error", str(PYTHON), *given], universal_newlines=True, **settings)

    def prints(self, status, text, *given):
        done = self.run_it(*given)
        self.assertEqual((done.stdout, done.stderr, done.returncode), (text, "", status))

    def complains(self, words, *given, **more):
        """One line on standard error, nothing on standard output, status 2."""
        done = self.run_it(*given, **more)
        self.assertEqual((done.stderr, done.returncode), (f"slots: {words}\n", 2))
        self.assertFalse(done.stdout)

    def files(self):
        return sorted(path.name for path in self.folder.iterdir())


class Look(Case):
    def test_accepted(self):
        self.prints(0, "accepted\n", "look", "rack.idx")

    def test_refused(self):
        for number, place, index in DAMAGED[:-1]:  # of the last, 17, more is said: BeyondTheCut has it
            self.prints(1, f"refused: {slots.Refused(number, place)}\n", "look", self.file("bad.idx", index))

    def test_the_words(self):
        damaged = EXAMPLE[:54] + b"\x81" + EXAMPLE[55:]  # the last code of list 0 now goes on beyond its end
        self.prints(1, "refused: 8: a code is damaged, or bytes remain behind the codes of a block (list 0)\n", "look", self.file("bad.idx", damaged))

    def test_an_empty_file(self):
        self.prints(1, "refused: 1: the index has fewer than 24 or more than 16,777,216 bytes\n", "look", self.file("empty", b""))

    def test_files_that_are_too_large(self):
        for size in 16_777_217, 2**40:  # the second would never fit into memory; on the disk it takes no room
            with open(self.folder / "large", "wb") as file:
                file.truncate(size)
            self.prints(1, "refused: 1: the index has fewer than 24 or more than 16,777,216 bytes\n", "look", "large")


class BeyondTheCut(Case):
    """A list that has bits set beyond its cut is named, and the byte, by every command that reads an index."""

    def test_look(self):
        self.prints(1, SAID, "look", self.file("bad.idx", BEYOND))

    def test_show(self):
        self.prints(1, SAID, "show", self.file("bad.idx", BEYOND))

    def test_ask(self):
        self.file("bad.idx", BEYOND)
        for names in ["0", "1"], ["0"], ["9"], []:  # also where the list is not named, and where the names are wrong
            for way in "plain", "skips":
                self.prints(1, SAID, "ask", "bad.idx", way, *names)

    def test_next(self):
        self.file("bad.idx", BEYOND)
        for name, slot in ("0", "1"), ("1", "1"), ("9", "0"):  # likewise
            self.prints(1, SAID, "next", "bad.idx", name, slot)

    def test_draw(self):
        self.prints(1, SAID, "draw", self.file("bad.idx", BEYOND), "new.svg")
        self.assertEqual(self.files(), ["bad.idx", "rack.idx"])
        self.file("old.svg", b"as it was")
        self.prints(1, SAID, "draw", "bad.idx", "old.svg")
        self.assertEqual((self.folder / "old.svg").read_bytes(), b"as it was")

    def test_pack_replaces_it(self):
        # Bits alone, as in Pack, up to cuts 30 and 31: two bits and one bit of the last byte have no slot.
        self.file("lists.txt", Pack.LISTS.encode())
        self.file("bad.idx", BEYOND)
        self.assertEqual(self.run_it("pack", "lists.txt", "bad.idx").returncode, 0)
        index = (self.folder / "bad.idx").read_bytes()
        self.assertEqual((index[12:16], index[28:32]), (bytes.fromhex("9D 13 50 F4"), bytes.fromhex("28 11 00 46")))
        self.prints(0, "accepted\n", "look", "bad.idx")

    def test_what_is_said_makes_the_file_sound(self):
        # Of three lists with 28 10 up to cut 13, at bytes 12, 26 and 40, the second has 17 for 10, and the third 11.
        sound = slots.index_of(32, 4, [slots.record(32, 4, 13, [3, 5, 12])] * 3)
        self.file("bad.idx", sound[:27] + b"\x17" + sound[28:41] + b"\x11" + sound[42:])
        for name, at, value in (1, 27, "17"), (2, 41, "11"):
            self.prints(1, f"refused: 17: a bit beyond the cut is set (list {name})\n"
                           f"with cut 13, byte {at} of the file (counted from 0) is 0x{value}; without the bits beyond the cut it would be 0x10\n",
                           "look", "bad.idx")
            with open(self.folder / "bad.idx", "r+b") as file:
                file.seek(at)
                file.write(b"\x10")
        self.prints(0, "accepted\n", "look", "bad.idx")
        self.assertEqual((self.folder / "bad.idx").read_bytes(), sound)


class Show(Case):
    def test_the_example(self):
        self.prints(0, SHOWN, "show", "rack.idx")

    def test_refused(self):
        self.prints(1, "refused: 3: the edition is not 1\n", "show", self.file("bad.idx", DAMAGED[2][2]))

    def test_wide_columns(self):
        # Slots 1 to 1,000,000 as bits: 125,000 bytes and a head of 12; then one slot alone as a gap: a head and an entry.
        index = slots.index_of(1_000_000, 128, [slots.record(1_000_000, 128, 1_000_000, range(1, 1_000_001)), slots.record(1_000_000, 128, 0, [7])])
        done = self.run_it("show", self.file("wide.idx", index))
        self.assertEqual(done.stdout.split("\n"), [
            f"u 1000000, B 128, 2 lists, {125_012 + 20 + 8 + 24} bytes",
            "",
            "list      cut    count  in bits  in tail  blocks  code bytes   bytes",
            "   0  1000000  1000000  1000000        0       0           0  125012",
            "   1        0        1        0        1       1           0      20",
            "",
            "directory 8 bytes, trailer 24 bytes",
            ""])


class Ask(Case):
    def test_by_skips(self):
        # Seven slots are sought in four blocks: 7 + 2 * 4 with e 0, and 7 + 14 + 2 * 2 already with e 1.
        self.prints(0, "5 slots, 9 looks, 14 codes\n"
                       "list 0: 9 looks (at most 15: 7 searches, 4 blocks, e 0), 14 codes\n"
                       "list 1: 0 looks, 0 codes (the starting list: 7 candidates)\n"
                       "5\n12\n16\n26\n30\n", "ask", "rack.idx", "skips", "0", "1")

    def test_which_list_cost_what(self):
        # In the order named, also a list that is named again; test_slots has these numbers by hand. Five slots come to list 0 the second time: 5 + 2 * 4.
        # All seven come to list 1, which follows itself; three of them, 26 30 31, lie above its cut, and are sought in its one block: 3 + 2.
        self.prints(0, "5 slots, 18 looks, 28 codes\n"
                       "list 1: 0 looks, 0 codes (the starting list: 7 candidates)\n"
                       "list 0: 9 looks (at most 15: 7 searches, 4 blocks, e 0), 14 codes\n"
                       "list 0: 8 looks (at most 13: 5 searches, 4 blocks, e 0), 11 codes\n"
                       "list 1: 1 look (at most 5: 3 searches, 1 block, e 0), 3 codes\n"
                       "5\n12\n16\n26\n30\n", "ask", "rack.idx", "skips", "1", "0", "0", "1")

    def test_the_starting_list_is_not_told_by_its_cost(self):
        # Bits alone: no list costs anything, or could. Of the two with one slot the one named first is the starting list.
        index = slots.index_of(9, 9, [slots.record(9, 9, 9, held) for held in ([1, 4], [4], [4])])
        self.prints(0, "1 slot, 0 looks, 0 codes\n"
                       "list 0: 0 looks (at most 0: 0 searches, 0 blocks, e 0), 0 codes\n"
                       "list 2: 0 looks, 0 codes (the starting list: 1 candidate)\n"
                       "list 1: 0 looks (at most 0: 0 searches, 0 blocks, e 0), 0 codes\n"
                       "4\n", "ask", self.file("bits.idx", index), "skips", "0", "2", "1")

    def test_plain(self):
        # No list has a cost, so there is nothing to tell of each.
        self.prints(0, "5 slots, 0 looks, 0 codes\n5\n12\n16\n26\n30\n", "ask", "rack.idx", "plain", "0", "1")

    def test_one_of_a_thing(self):
        self.prints(0, "7 slots, 1 look, 3 codes\n"
                       "list 1: 0 looks, 0 codes (the starting list: 7 candidates)\n"
                       "list 1: 1 look (at most 5: 3 searches, 1 block, e 0), 3 codes\n" + "".join(f"{slot}\n" for slot in LIST_1), "ask", "rack.idx", "skips", "1", "1")
        index = slots.index_of(9, 9, [slots.record(9, 9, 9, [4]), slots.record(9, 9, 9, [])])
        self.prints(0, "1 slot, 0 looks, 0 codes\n"
                       "list 0: 0 looks, 0 codes (the starting list: 1 candidate)\n"
                       "4\n", "ask", self.file("one.idx", index), "skips", "0")
        self.prints(0, "0 slots, 0 looks, 0 codes\n"
                       "list 0: 0 looks (at most 0: 0 searches, 0 blocks, e 0), 0 codes\n"
                       "list 1: 0 looks, 0 codes (the starting list: 0 candidates)\n", "ask", "one.idx", "skips", "0", "1")

    def test_refused(self):
        self.prints(1, "refused: 10: the question has no name, or more than 16\n", "ask", "rack.idx", "skips")
        self.prints(1, "refused: 10: the question has no name, or more than 16\n", "ask", "rack.idx", "skips", *["0"] * 17)
        self.prints(1, "refused: 11: there is no list of that name (name at position 1)\n", "ask", "rack.idx", "plain", "0", "4294967295")
        self.prints(1, "refused: 2: the index does not end in the tag SLOT\n", "ask", self.file("bad.idx", bytes(24)), "plain", "0")

    def test_wrong_words(self):
        for way in "x", "0", "1", "", "-1", "Plain":  # also 0 and 1, which are the names of lists
            self.complains(f"argument WAY: '{way}' is no way; write plain or skips (--help tells more)", "ask", "rack.idx", way, "0")
        for name in "x", "4294967296", "9" * 20, "-1", "", "1.0", "\u0663":
            self.complains(f"argument NAME: '{name}' is not the number of a list (--help tells more)", "ask", "rack.idx", "plain", "0", name)


class Next(Case):
    def test_a_slot(self):
        for name, slot, expected in ("0", "5", 5), ("0", "7", 8), ("0", "9", 12), ("1", "6", 12), ("1", "16", 16), ("1", "17", 26):
            self.prints(0, f"{expected}\n", "next", "rack.idx", name, slot)

    def test_none(self):
        # An answer as any other, and no refusal: the status is 0.
        self.prints(0, "none\n", "next", "rack.idx", "0", "31")
        self.prints(0, "none\n", "next", "rack.idx", "1", "32")

    def test_zeros_in_front(self):
        self.prints(0, "12\n", "next", "rack.idx", "00", "0" * 20 + "9")

    def test_refused(self):
        for slot in "0", "33", "4294967295":
            self.prints(1, "refused: 16: the slot asked about is not in 1..u\n", "next", "rack.idx", "0", slot)
        for name, slot in ("2", "1"), ("2", "0"), ("4294967295", "33"):
            self.prints(1, "refused: 11: there is no list of that name (name at position 0)\n", "next", "rack.idx", name, slot)
        self.prints(1, "refused: 2: the index does not end in the tag SLOT\n", "next", self.file("bad.idx", bytes(24)), "2", "0")
        damaged = EXAMPLE[:54] + b"\x81" + EXAMPLE[55:]  # the last code of list 0 now goes on beyond its end
        self.prints(1, "refused: 8: a code is damaged, or bytes remain behind the codes of a block (list 0)\n",
                    "next", self.file("bad.idx", damaged), "1", "5")

    def test_wrong_words(self):
        for word in "x", "4294967296", "9" * 20, "-1", "", "1.0", "\u0663":
            self.complains(f"argument NAME: '{word}' is not the number of a list (--help tells more)", "next", "rack.idx", word, "1")
            self.complains(f"argument SLOT: '{word}' is not the number of a slot (--help tells more)", "next", "rack.idx", "0", word)


class Pack(Case):
    LISTS = "# the rack of docs/FORMAT.md\nu 32\nB 4\nlist 1 4-6 8 12 15-16 18 20 25-28 30\nlist 3 5 12 16 26 30-31\n"

    def test_then_show_then_ask(self):
        self.file("lists.txt", self.LISTS.encode())
        packed = self.run_it("pack", "lists.txt", "new.idx")
        self.assertEqual((packed.stderr, packed.returncode), ("", 0))
        self.assertEqual(self.files(), ["lists.txt", "new.idx", "rack.idx"])
        self.prints(0, packed.stdout, "show", "new.idx")
        # Bits take 12 + ceil(30 / 8) and 12 + ceil(31 / 8) bytes; any tail would add an entry of 8 and save at most 4.
        self.assertEqual(packed.stdout.split("\n")[2:5], [
            "list  cut  count  in bits  in tail  blocks  code bytes  bytes",
            "   0   30     15       15        0       0           0     16",
            "   1   31      7        7        0       0           0     16"])
        # Slot 31 lies above the cut of list 0: it is sought, where there is no block.
        self.prints(0, "5 slots, 0 looks, 0 codes\n"
                       "list 0: 0 looks (at most 1: 1 search, 0 blocks, e 0), 0 codes\n"
                       "list 1: 0 looks, 0 codes (the starting list: 7 candidates)\n"
                       "5\n12\n16\n26\n30\n", "ask", "new.idx", "skips", "0", "1")

    def test_what_is_reserved_and_not_needed_is_not_in_the_file(self):
        # By hand: 12 + 131,072 bytes of bits; a byte of bits for slot 1, and an entry each for the others, where 8,220 bytes are reserved; a head alone,
        # where 8,203 are.
        self.file("lists.txt", b"u 1048576\nB 1\nlist 1-1048576\nlist 1 500000 1000000\nlist\n")
        self.assertEqual((slots.bound(1_048_576, 1, 1, 2), slots.bound(1_048_576, 1, 0, 0)), (12 + 1 + 16 + 8128 + 63, 12 + 8128 + 63))
        self.prints(0, f"u 1048576, B 1, 3 lists, {131_084 + 29 + 12 + 12 + 24} bytes\n"
                       "\n"
                       "list      cut    count  in bits  in tail  blocks  code bytes   bytes\n"
                       "   0  1048576  1048576  1048576        0       0           0  131084\n"
                       "   1        1        3        1        2       2           0      29\n"
                       "   2        0        0        0        0       0           0      12\n"
                       "\n"
                       "directory 12 bytes, trailer 24 bytes\n", "pack", "lists.txt", "new.idx")
        self.assertEqual((self.folder / "new.idx").stat().st_size, 131_161)

    def test_what_stood_there_is_replaced(self):
        self.file("lists.txt", self.LISTS.encode())
        os.chmod(self.folder / "rack.idx", 0o640)
        self.assertEqual(self.run_it("pack", "lists.txt", "rack.idx").returncode, 0)
        self.assertEqual([slots.ask((self.folder / "rack.idx").read_bytes(), 0, [name]).slots for name in (0, 1)], [LIST_0, LIST_1])
        self.assertEqual((self.folder / "rack.idx").stat().st_mode & 0o777, 0o640)

    def test_through_a_link(self):
        self.file("lists.txt", self.LISTS.encode())
        os.symlink("rack.idx", self.folder / "link.idx")
        self.assertEqual(self.run_it("pack", "lists.txt", "link.idx").returncode, 0)
        self.assertTrue((self.folder / "link.idx").is_symlink())
        self.assertEqual(slots.count((self.folder / "rack.idx").read_bytes(), 0), 15)

    def test_a_wrong_text_writes_nothing(self):
        for text, words in [
            ("u 32\nB 4\nlist 40\n", "lists.txt:3: slot 40 is not in 1..32"),
            ("u 32\nB 4\nlist 5-4000000000\n", "lists.txt:3: slot 4000000000 is not in 1..32"),
            ("u 32\nB 4\nlist 3 2\n", "lists.txt:3: slot 2 does not lie above slot 3, which stands before it"),
            ("u 32\nB 4\nlist 3-2\n", "lists.txt:3: the range 3-2 falls"),
            ("u 32\nB 4\nlist 1\nwhat\n", "lists.txt:4: a line begins with u, B or list, not with 'what'"),
            ("u 32\nB 4\nlist 1\a\n", "lists.txt:3: '1\\x07' is neither a slot, as 5, nor a range, as 5-8; blanks stand between them"),
            ("", "lists.txt: u is missing; it must stand before the first list"),
        ]:
            self.file("lists.txt", text.encode())
            self.complains(words, "pack", "lists.txt", "rack.idx")
            self.assertEqual((self.folder / "rack.idx").read_bytes(), EXAMPLE)
            self.complains(words, "pack", "lists.txt", "new.idx")
            self.assertEqual(self.files(), ["lists.txt", "rack.idx"])

    def test_files_that_cannot_be(self):
        self.file("lists.txt", self.LISTS.encode())
        os.mkfifo(self.folder / "pipe")
        self.complains("no.txt: No such file or directory", "pack", "no.txt", "new.idx")
        self.complains("none/new.idx: No such file or directory", "pack", "lists.txt", "none/new.idx")
        self.complains(".: this is not a plain file that may be written to", "pack", "lists.txt", ".")
        self.complains("pipe: this is not a plain file that may be written to", "pack", "lists.txt", "pipe")
        self.complains("lists.txt: this is the file that was read, and is not overwritten", "pack", "lists.txt", "lists.txt")
        os.link(self.folder / "lists.txt", self.folder / "same.txt")
        self.complains("same.txt: this is the file that was read, and is not overwritten", "pack", "lists.txt", "same.txt")
        self.assertEqual(self.files(), ["lists.txt", "pipe", "rack.idx", "same.txt"])

    @unittest.skipIf(hasattr(os, "geteuid") and os.geteuid() == 0, "root may write everywhere")
    def test_files_that_may_not_be(self):
        self.file("lists.txt", self.LISTS.encode())
        os.chmod(self.folder / "rack.idx", 0o400)
        self.complains("rack.idx: this is not a plain file that may be written to", "pack", "lists.txt", "rack.idx")


class Draw(Case):
    def test_a_picture(self):
        self.prints(0, "", "draw", "rack.idx", "rack.svg")
        self.assertEqual(xml.etree.ElementTree.parse(self.folder / "rack.svg").getroot().tag, "{http://www.w3.org/2000/svg}svg")
        self.assertEqual(self.files(), ["rack.idx", "rack.svg"])

    def test_the_title(self):
        for given, title in ([], "rack.idx"), (["--title", "A rack & more"], "A rack & more"), (["--title", "two\nlines"], "two\\nlines"):
            self.prints(0, "", "draw", "rack.idx", "rack.svg", *given)
            texts = [each.text for each in xml.etree.ElementTree.parse(self.folder / "rack.svg").iter() if each.text]
            self.assertIn(title, texts)

    def test_refused(self):
        self.prints(1, "refused: 3: the edition is not 1\n", "draw", self.file("bad.idx", DAMAGED[2][2]), "rack.svg")
        self.assertEqual(self.files(), ["bad.idx", "rack.idx"])

    def test_the_index_is_not_overwritten(self):
        self.complains("rack.idx: this is the file that was read, and is not overwritten", "draw", "rack.idx", "rack.idx")
        self.assertEqual((self.folder / "rack.idx").read_bytes(), EXAMPLE)


class Usage(Case):
    def test_help(self):
        self.assertIn("COMMAND", self.run_it("--help").stdout)
        for command in COMMANDS:
            done = self.run_it(command, "--help")
            self.assertEqual((done.stderr, done.returncode), ("", 0))
            self.assertIn(f"usage: python3 bindings/python {command} ", done.stdout)
            self.assertIn(f"example:\n  python3 bindings/python {command} ", done.stdout)

    def test_the_examples_in_the_help_are_true(self):
        os.symlink(REPOSITORY / "crates", self.folder / "crates")
        self.file("lists.txt", Pack.LISTS.encode())
        for command in COMMANDS:
            example = re.search(r"example:\n  python3 bindings/python (.*)", self.run_it(command, "--help").stdout)[1]
            done = self.run_it(*example.split())
            self.assertEqual((done.stderr, done.returncode), ("", 0), example)

    def test_the_text_of_lists_in_the_help_is_true(self):
        text = re.search(r"^  u 32 .*?(?=\n\n)", self.run_it("pack", "--help").stdout, re.M | re.S)[0]
        self.file("lists.txt", re.sub(r"   +.*", "", re.sub(r"(?m)^  ", "", text)).encode())
        done = self.run_it("pack", "lists.txt", "new.idx")
        self.assertEqual((done.stderr, done.returncode), ("", 0))
        index = (self.folder / "new.idx").read_bytes()
        self.assertEqual([slots.ask(index, 0, [name]).slots for name in (0, 1)], [[1, 4, 5, 6, 7, 8, 12], []])

    def test_wrong_usage(self):
        for given, words in [
            ([], "the following arguments are required: COMMAND"),
            (["look"], "the following arguments are required: FILE"),
            (["ask", "rack.idx"], "the following arguments are required: WAY"),
            (["next", "rack.idx"], "the following arguments are required: NAME, SLOT"),
            (["next", "rack.idx", "0"], "the following arguments are required: SLOT"),
            (["next", "rack.idx", "0", "7", "9"], "unrecognized arguments: 9"),
            (["pack", "a"], "the following arguments are required: INDEX"),
            (["draw", "a"], "the following arguments are required: OUT.svg"),
            (["look", "a", "b\nc"], "unrecognized arguments: b\\nc"),
        ]:
            self.complains(f"{words} (--help tells more)", *given)

    def test_an_unknown_command(self):
        done = self.run_it("lok", "rack.idx")
        self.assertRegex(done.stderr, r"\Aslots: argument COMMAND: invalid choice: 'lok' .*look.*\n\Z")
        self.assertEqual((done.stdout, done.returncode), ("", 2))

    def test_files_that_cannot_be_read(self):
        for command, more in ("look", []), ("show", []), ("ask", ["plain", "0"]), ("next", ["0", "1"]), ("draw", ["out.svg"]):
            self.complains("no.idx: No such file or directory", command, "no.idx", *more)
            self.complains(".: Is a directory", command, ".", *more)
        self.complains("a\\nb: No such file or directory", "look", "a\nb")
        self.complains("\\udcff: No such file or directory", "look", b"\xff")

    @unittest.skipIf(hasattr(os, "geteuid") and os.geteuid() == 0, "root may read everything")
    def test_files_that_may_not_be_read(self):
        os.chmod(self.folder / "rack.idx", 0)
        self.complains("rack.idx: Permission denied", "look", "rack.idx")

    def test_no_library(self):
        done = self.run_it("look", "rack.idx", env={**SURROUNDINGS, "SLOTS_LIB": str(self.folder)})
        self.assertRegex(done.stderr, r"\Aslots: the library cannot be loaded \(.*\): run ./build-lib, .*\n\Z")
        self.assertEqual((done.stdout, done.returncode), ("", 2))


class Ends(Case):
    """Ends that a program does not choose."""

    def start(self, *given):
        run = subprocess.Popen([sys.executable, str(PYTHON), *given], cwd=self.folder, env=SURROUNDINGS, stdout=subprocess.PIPE, stderr=subprocess.PIPE)
        self.addCleanup(run.wait)
        self.addCleanup(run.kill)
        self.addCleanup(run.stderr.close)
        self.addCleanup(run.stdout.close)
        return run

    def test_a_closed_pipe(self):
        index = slots.index_of(500_000, 8, [slots.record(500_000, 8, 500_000, range(1, 500_001))])
        self.file("many.idx", index)
        for given, first in (["ask", "many.idx", "plain", "0"], b"500000 slots, 0 looks, 0 codes\n"), (["look", "rack.idx"], b""):
            run = self.start(*given)
            self.assertEqual(run.stdout.read(len(first)), first)
            run.stdout.close()
            self.assertEqual((run.wait(60), run.stderr.read()), (128 + signal.SIGPIPE, b""))

    def test_a_closed_pipe_for_the_help(self):
        run = self.start("--help")
        run.stdout.close()
        self.assertIn(run.wait(60), (0, 128 + signal.SIGPIPE))  # which of the two is argparse's affair
        self.assertEqual(run.stderr.read(), b"")

    def test_an_interrupt(self):
        # In the background of a shell the tests ignore interrupts, and so would the command, were they not caught here while it starts.
        self.addCleanup(signal.signal, signal.SIGINT, signal.signal(signal.SIGINT, signal.default_int_handler))
        os.mkfifo(self.folder / "pipe")
        run = self.start("look", "pipe")
        self.addCleanup(os.close, self.at_the_other_end("pipe"))
        self.assertEqual((self.interrupted(run), run.stdout.read(), run.stderr.read()), (128 + signal.SIGINT, b"", b""))

    def interrupted(self, run):
        """The status that the command ends with. An interrupt just before Python begins to wait is not seen before that ends: so another follows."""
        for _ in range(30):
            run.send_signal(signal.SIGINT)
            try:
                return run.wait(2)
            except subprocess.TimeoutExpired:
                pass
        return None

    def at_the_other_end(self, name):
        """The pipe, open for writing, once the command waits for what comes out of it."""
        until = time.monotonic() + 60
        while True:
            try:
                return os.open(self.folder / name, os.O_WRONLY | os.O_NONBLOCK)
            except OSError as error:
                if error.errno != errno.ENXIO or time.monotonic() > until:
                    raise
                time.sleep(0.01)

    @unittest.skipUnless(os.path.exists("/dev/full"), "there is no disk that is always full")
    def test_a_full_disk(self):
        for given in ["look", "rack.idx"], ["show", "rack.idx"]:
            with open("/dev/full", "wb") as full:
                self.complains("standard output: No space left on device", *given, stdout=full)


class Share(Case):
    def run_share(self, *given):
        done = subprocess.run([sys.executable, "-W", "error", str(PYTHON / "share.py"), *map(str, given)], cwd=self.folder, timeout=60,
                              env=SURROUNDINGS, stdout=subprocess.PIPE, stderr=subprocess.PIPE, universal_newlines=True)
        return done.stdout, done.stderr, done.returncode

    def test_the_example(self):
        self.assertEqual(self.run_share(RACK), ("5\n12\n16\n26\n30\n9 looks, 14 codes\n", "", 0))

    def test_refusals(self):
        self.file("bad.idx", DAMAGED[7][2])
        self.assertEqual(self.run_share("bad.idx"), ("", "8: a code is damaged, or bytes remain behind the codes of a block (list 1)\n", 1))
        self.file("bits.idx", BEYOND)
        self.assertEqual(self.run_share("bits.idx"), ("", "17: a bit beyond the cut is set (list 1)\n", 1))
        self.file("one.idx", slots.index_of(9, 9, [slots.record(9, 9, 0, [4])]))
        self.assertEqual(self.run_share("one.idx"), ("", "11: there is no list of that name (name at position 1)\n", 1))

    def test_no_file(self):
        self.assertEqual(self.run_share("no.idx"), ("", "[Errno 2] No such file or directory: 'no.idx'\n", 1))
        self.assertEqual(self.run_share(), ("", "share.py takes one argument, the path of an index\n", 1))

    def test_it_can_be_read_at_a_glance(self):
        self.assertLessEqual(len((PYTHON / "share.py").read_text(encoding="utf-8").splitlines()), 25)
