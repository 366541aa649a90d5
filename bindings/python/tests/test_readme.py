"""What README.md shows is true: its lines of Python give what stands below them, and so do its commands."""
from __future__ import annotations

import doctest
import os
import pathlib
import re
import shlex
import subprocess
import sys
import tempfile
import unittest

from .common import PYTHON, REPOSITORY, SURROUNDINGS

README = PYTHON / "README.md"
TEXT = README.read_text(encoding="utf-8")


class Readme(unittest.TestCase):
    def setUp(self):
        """A folder where the paths in the text lead to the repository, and where files can be written."""
        folder = tempfile.TemporaryDirectory()
        self.addCleanup(folder.cleanup)
        self.folder = pathlib.Path(folder.name)
        for name in "bindings", "crates":
            os.symlink(REPOSITORY / name, self.folder / name)

    def test_lines_of_python(self):
        self.addCleanup(os.chdir, os.getcwd())
        os.chdir(self.folder)
        failed, tried = doctest.testfile(str(README), module_relative=False, encoding="utf-8")
        self.assertEqual((failed, tried), (0, TEXT.count(">>>")))

    def test_commands(self):
        block = re.search(r"^    \$ .*\n(?:(?:    .*)?\n)*", TEXT, re.M)[0]
        shown = re.sub(r"(?m)^    ", "", block).rstrip("\n") + "\n"
        commands = re.findall(r"^\$ (.*)\n((?:(?!\$ ).*\n)*)", shown, re.M)
        self.assertEqual([command.split()[2] for command, _ in commands if "python3" in command],
                         ["look", "ask", "pack", "show", "ask", "next", "next", "draw"])
        for command, output in commands:
            if command == "cat lists.txt":
                (self.folder / "lists.txt").write_text(output, encoding="utf-8")
            done = subprocess.run(command.replace("python3", shlex.quote(sys.executable)), shell=True, cwd=self.folder, timeout=60,
                                  env=SURROUNDINGS, stdout=subprocess.PIPE, universal_newlines=True)
            self.assertEqual((done.stdout, done.returncode), (output, 1 if output.startswith("refused") else 0), command)
        self.assertIn("new.svg", os.listdir(self.folder))
