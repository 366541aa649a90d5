"""A file is written whole or not at all, whatever goes wrong on the way."""
from __future__ import annotations

import os
import pathlib
import tempfile
import unittest
from unittest import mock

import saving


class Saving(unittest.TestCase):
    def setUp(self):
        folder = tempfile.TemporaryDirectory()
        self.addCleanup(folder.cleanup)
        self.folder = pathlib.Path(folder.name)
        self.source = self.folder / "source"
        self.source.write_bytes(b"source")
        self.target = self.folder / "target"

    def save(self):
        saving.save(str(self.target), b"new", str(self.source))

    def files(self):
        return {path.name: path.read_bytes() for path in self.folder.iterdir()}

    def test_a_new_file(self):
        self.save()
        self.assertEqual(self.files(), {"source": b"source", "target": b"new"})

    def test_a_file_that_was_there(self):
        self.target.write_bytes(b"what stood there is longer")
        self.save()
        self.assertEqual(self.files(), {"source": b"source", "target": b"new"})

    def test_what_goes_wrong_leaves_all_as_it_was(self):
        self.target.write_bytes(b"old")
        for step in "os.fsync", "shutil.copymode", "os.replace":
            for error in OSError(28, "No space left on device"), KeyboardInterrupt():
                with mock.patch(step, side_effect=error), self.assertRaises(type(error)) as caught:
                    self.save()
                self.assertEqual(self.files(), {"source": b"source", "target": b"old"}, step)
                if isinstance(error, OSError):
                    self.assertEqual((caught.exception.errno, caught.exception.filename), (28, str(self.target)))

    def test_what_is_no_plain_file_stays(self):
        os.symlink("loop", self.folder / "loop")
        os.mkfifo(self.folder / "pipe")
        os.mkdir(self.folder / "folder")
        for name in "loop", "pipe", "folder", "new/", "/dev/null":
            with self.subTest(name), self.assertRaisesRegex(OSError, "not a plain file"):
                saving.save(os.path.join(self.folder, name), b"new", str(self.source))
        self.assertEqual(sorted(os.listdir(self.folder)), ["folder", "loop", "pipe", "source"])

    def test_a_file_that_may_not_be_written_stays(self):
        self.target.write_bytes(b"old")
        with mock.patch("os.access", return_value=False), self.assertRaisesRegex(OSError, "may be written to"):
            self.save()
        self.assertEqual(self.files(), {"source": b"source", "target": b"old"})

    def test_standard_output_stays(self):
        self.target.write_bytes(b"old")
        with mock.patch("os.fstat", return_value=os.stat(self.target)), self.assertRaisesRegex(OSError, "standard output goes there"):
            self.save()
        self.assertEqual(self.files(), {"source": b"source", "target": b"old"})

    def test_the_source_stays(self):
        for name in "source", "link":
            if name == "link":
                os.symlink("source", self.folder / "link")
            self.target = self.folder / name
            with self.assertRaisesRegex(OSError, "is not overwritten"):
                self.save()
            self.assertEqual(self.source.read_bytes(), b"source")
