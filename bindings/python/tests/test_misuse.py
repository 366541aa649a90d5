"""Wrong use: what is no number, no bytes or no room raises TypeError or ValueError that names the parameter, before the library is called."""
from __future__ import annotations

import ctypes
import mmap
import os
import pathlib
import shutil
import subprocess
import sys
import tempfile
import unittest
from array import array
from unittest import mock

import slots

from .common import EXAMPLE, LIST_1, PYTHON, RECORD_1, SURROUNDINGS

# Each function with arguments that are accepted, by the names of its parameters.
CALLS = [
    (slots.look, {"index": EXAMPLE}),
    (slots.ask, {"index": EXAMPLE, "way": 1, "names": [0, 1], "room": 7}),
    (slots.test, {"index": EXAMPLE, "name": 0, "slot": 5}),
    (slots.next, {"index": EXAMPLE, "name": 0, "slot": 5}),
    (slots.count, {"index": EXAMPLE, "name": 0}),
    (slots.lend, {"index": EXAMPLE, "name": 0}),
    (slots.bound, {"u": 32, "block": 4, "cut": 16, "n": 3}),
    (slots.write, {"u": 32, "block": 4, "cut": 16, "slots": LIST_1, "room": bytearray(24)}),
    (slots.close, {"room": bytearray(RECORD_1 + bytes(28)), "u": 32, "block": 4, "total": 24, "starts": [0]}),
    (slots.record, {"u": 32, "block": 4, "cut": 16, "slots": LIST_1}),
    (slots.index_of, {"u": 32, "block": 4, "records": [RECORD_1]}),
]


class Whole:
    """A whole number of another kind, as packages for arrays have them."""

    def __init__(self, value):
        self.value = value

    def __index__(self):
        return self.value


class With:
    """A function that is called with another value for one of its parameters."""

    def __init__(self, function, given, name):
        self.function, self.given, self.name = function, given, name
        self.__name__ = f"{function.__name__}({name})"

    def __call__(self, value):
        return self.function(**{**self.given, self.name: value})


class Case(unittest.TestCase):
    def each(self, kind):
        """Each parameter that has a value of this kind, with the function that takes it, to be called with another value."""
        return [(name, With(function, given, name)) for function, given in CALLS for name, value in given.items() if type(value) is kind]

    def wrong(self, error, words, call, *given):
        with self.subTest(call=call.__name__), mock.patch("slots._call", side_effect=AssertionError("the library was called")):
            with self.assertRaisesRegex(error, words):
                call(*given)


class Numbers(Case):
    def test_the_calls_above_are_accepted(self):
        for function, given in CALLS:
            function(**given)

    def test_out_of_32_bits(self):
        for name, call in self.each(int):
            for value in -1, -2**32, 2**32, 2**32 + 1, 2**64, 10**5000, Whole(-1), Whole(2**32):
                self.wrong(ValueError, rf"^{name} must be in 0\.\.4294967295", call, value)

    def test_no_whole_number(self):
        for name, call in self.each(int):
            for value in True, False, 1.0, "1", b"1", [1], float("nan"):
                self.wrong(TypeError, f"^{name} must be a whole number, not {type(value).__name__}$", call, value)

    def test_none_is_no_number(self):
        for name, call in self.each(int):
            if name != "room":
                self.wrong(TypeError, f"^{name} must be a whole number, not NoneType$", call, None)

    def test_the_largest_number_goes_on(self):
        for name, call in self.each(int):
            try:
                call(2**32 - 1)
                self.assertEqual(name, "room")  # as large as one likes
            except slots.Refused as refused:
                expected = {"way": [14], "name": [11], "slot": [16], "u": [4], "block": [4], "cut": [15], "n": [13], "total": [1]}
                self.assertIn(refused.number, expected[name])

    def test_whole_numbers_of_another_kind(self):
        self.assertEqual(slots.ask(EXAMPLE, Whole(1), [Whole(0), 1], Whole(7)), slots.ask(EXAMPLE, 1, [0, 1]))
        self.assertEqual(slots.record(Whole(32), Whole(4), Whole(16), map(Whole, LIST_1)), RECORD_1)
        self.assertEqual(slots.bound(Whole(32), Whole(4), Whole(16), Whole(3)).bytes, 24)
        self.assertEqual(slots.next(EXAMPLE, Whole(1), Whole(17)), 26)


class Rows(Case):
    def rows(self):
        return [(name, call) for name, call in self.each(list) if name != "records"]

    def test_no_row_of_numbers(self):
        for name, call in self.rows():
            for value in "01", b"\x00", bytearray(1), memoryview(b"\x00"), 5, None:
                self.wrong(TypeError, f"^{name} must be whole numbers in a row, not {type(value).__name__}$", call, value)

    def test_a_wrong_one_is_named_with_its_position(self):
        for name, call in self.rows():
            for value in -1, 2**32, 2**64:
                self.wrong(ValueError, rf"^{name}\[2\] must be in 0\.\.4294967295, not {value}$", call, [1, 2, value, -5])
            for value in True, 1.5, "7", None:
                self.wrong(TypeError, rf"^{name}\[1\] must be a whole number, not {type(value).__name__}$", call, [1, value, -5])

    def test_arrays_of_other_kinds(self):
        self.wrong(ValueError, r"^names\[1\] must be in", slots.ask, EXAMPLE, 1, array("q", [0, -1]))
        self.wrong(ValueError, r"^names\[1\] must be in", slots.ask, EXAMPLE, 1, memoryview(array("Q", [0, 2**32])))
        self.wrong(TypeError, r"^names\[0\] must be a whole number, not float", slots.ask, EXAMPLE, 1, array("d", [0.0]))

    def test_an_array_is_copied(self):
        given = array("I", LIST_1)

        def meanwhile(_function, _fields, *handed):
            given[0] = 99
            given.append(32)  # cannot be where the library has the array itself
            self.assertEqual(list(handed[3]), LIST_1)
            return [0, 0, 24]

        with mock.patch("slots._call", side_effect=meanwhile) as call:
            slots.write(32, 4, 16, given, bytearray(24))
        self.assertEqual((call.call_count, list(given)), (1, [99] + LIST_1[1:] + [32]))

    def test_an_array_is_copied_before_its_room_is_reserved(self):
        given = array("I", LIST_1)
        call = slots._call

        def meanwhile(function, fields, *handed):
            if function == "slots_bound":
                given[:] = array("I", range(1, 33))  # more slots than there is room for
            return call(function, fields, *handed)

        with mock.patch("slots._call", side_effect=meanwhile):
            self.assertEqual(slots.record(32, 4, 16, given), RECORD_1)
        self.assertEqual(len(given), 32)


class Buffers(Case):
    def test_no_bytes(self):
        for name, call in self.each(bytes):
            for value in "text", 111, None, list(EXAMPLE), 1.5:
                self.wrong(TypeError, f"^{name} must be bytes or have a buffer of bytes, not {type(value).__name__}$", call, value)

    def test_no_single_bytes(self):
        for name, call in [*self.each(bytes), *self.each(bytearray)]:
            for value in array("I", [1, 2, 3]), memoryview(bytearray(24)).cast("B", (4, 6)), (ctypes.c_uint32 * 9)():
                self.wrong(TypeError, f"^{name} must have a buffer of single bytes in one row$", call, value)

    def test_records(self):
        self.wrong(TypeError, r"^records\[1\] must be bytes or have a buffer of bytes, not str$", slots.index_of, 32, 4, [RECORD_1, "text"])
        self.wrong(TypeError, r"^records\[0\] must be bytes or have a buffer of bytes, not int$", slots.index_of, 32, 4, RECORD_1)

    def test_a_room_that_is_none(self):
        for name, call in self.each(bytearray):
            for value in "text", 24, None, [0] * 24:
                self.wrong(TypeError, f"^{name} must be bytes or have a buffer of bytes, not {type(value).__name__}$", call, value)

    def test_a_room_that_is_for_reading_only(self):
        with tempfile.TemporaryFile() as file:
            file.write(bytes(111))
            file.flush()
            with mmap.mmap(file.fileno(), 0, access=mmap.ACCESS_READ) as mapped:
                for name, call in self.each(bytearray):
                    for value in bytes(111), memoryview(bytes(111)), memoryview(bytearray(111)).toreadonly(), mapped:
                        self.wrong(TypeError, f"^{name} must be writable, and this {type(value).__name__} is not$", call, value)

    def test_a_room_in_pieces(self):
        for name, call in self.each(bytearray):
            self.wrong(TypeError, f"^{name} must lie in one piece", call, memoryview(bytearray(222))[::2])

    def test_a_wrong_room_is_free_afterwards(self):
        words = array("I", [1, 2, 3])
        try:
            slots.write(32, 4, 16, LIST_1, words)
        except TypeError:
            words.append(4)
        self.assertEqual(list(words), [1, 2, 3, 4])

    def test_closed_and_released(self):
        mapped = mmap.mmap(-1, 111)
        mapped.close()
        view = memoryview(bytearray(111))
        view.release()
        for gone in mapped, view:
            for name, call in [*self.each(bytes), *self.each(bytearray)]:
                self.wrong(ValueError, "closed|released", call, gone)


class Library(unittest.TestCase):
    """Where the library is sought, and what is said where it is not found."""

    def tried(self, folder, where=None):
        """What a new Python says that looks at the example."""
        code = f"import sys; sys.path.insert(0, {str(PYTHON)!r}); import slots\n" \
               f"try: slots.look(bytes.fromhex({EXAMPLE.hex()!r})); print('accepted')\n" \
               "except slots.NoLibrary as error: print(isinstance(error, OSError), error)"
        environment = {key: value for key, value in SURROUNDINGS.items() if key != "SLOTS_LIB"}
        if folder is not None:
            environment["SLOTS_LIB"] = str(folder)
        done = subprocess.run([sys.executable, "-W", "error", "-c", code], env=environment, cwd=where, check=True, capture_output=True, text=True)
        return done.stdout

    def setUp(self):
        folder = tempfile.TemporaryDirectory()
        self.addCleanup(folder.cleanup)
        self.folder = pathlib.Path(folder.name).resolve()

    def test_by_default_wherever_one_stands(self):
        self.assertEqual(self.tried(None, self.folder), "accepted\n")
        self.assertEqual(self.tried("", self.folder), "accepted\n")

    def test_the_folder_named(self):
        shutil.copy(slots._library()._name, self.folder / "libslots.so")
        self.assertEqual(self.tried(self.folder), "accepted\n")
        self.assertEqual(self.tried(".", self.folder), "accepted\n")

    def test_missing(self):
        said = self.tried(self.folder)
        self.assertTrue(said.startswith("True the library cannot be loaded ("), said)
        self.assertIn(str(self.folder / "libslots.so"), said)
        self.assertIn("run ./build-lib", said)

    def test_not_a_library(self):
        (self.folder / "libslots.so").write_bytes(b"no library")
        self.assertIn("run ./build-lib", self.tried(self.folder))

    def test_another_library(self):
        import _ctypes
        if not getattr(_ctypes, "__file__", None):
            self.skipTest("this Python has no library of its own to try")
        shutil.copy(_ctypes.__file__, self.folder / "libslots.so")
        said = self.tried(self.folder)
        self.assertIn("slots_look", said)
        self.assertIn("run ./build-lib", said)

    def test_a_library_that_lacks_a_function(self):
        """One that is older than the function."""
        for missed in "slots_bound", "slots_next":
            older = mock.Mock(spec=[name for name in slots._FUNCTIONS if name != missed])
            with mock.patch("ctypes.CDLL", return_value=older):
                with self.assertRaisesRegex(slots.NoLibrary, rf"^the library cannot be loaded \(.*{missed}.*\): run ./build-lib"):
                    slots._library.__wrapped__()

    def test_an_older_library(self):
        """One whose answer to a question has five fields, and not the costs of the positions."""

        def five(*given):
            given[-2][:5] = [0, 0, 0, 9, 14]
            return 0

        with mock.patch("slots._library", return_value=mock.Mock(slots_ask=five)):
            with self.assertRaisesRegex(slots.NoLibrary, r"^the library is older than this module \(slots_ask leaves out fields\): run ./build-lib"):
                slots.ask(EXAMPLE, 1, [0, 1], 7)

    def test_machines(self):
        build = PYTHON.parents[1] / "build"
        with mock.patch.dict(os.environ):
            os.environ.pop("SLOTS_LIB", None)
            native = build / "native"
            for machine, folder in ("x86_64", build), ("AMD64", build), ("aarch64", native), ("arm64", native), ("", native):
                with mock.patch("platform.machine", return_value=machine):
                    self.assertEqual(slots._folder(), folder)
