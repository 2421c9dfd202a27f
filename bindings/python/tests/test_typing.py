"""Tests of types, by mypy where it is there: the package by itself, what a caller may write, and what he may not."""

import os
import pathlib
import re
import shutil
import subprocess
import tempfile
import unittest

import firnuubal

SOURCE = pathlib.Path(firnuubal.__file__).resolve().parent
SAMPLES = pathlib.Path(__file__).resolve().parent / "typing"
MYPY = shutil.which("mypy")


@unittest.skipIf(MYPY is None, "mypy is not there")
class Types(unittest.TestCase):
    @classmethod
    def setUpClass(cls):
        cls.cache = tempfile.TemporaryDirectory()

    @classmethod
    def tearDownClass(cls):
        cls.cache.cleanup()

    def errors_of(self, *paths):
        """The errors that mypy tells: for each the name of the file, the line and what it says."""
        words = [MYPY, "--strict", "--no-error-summary", "--cache-dir", self.cache.name, *map(str, paths)]
        env = {**os.environ, "MYPYPATH": str(SOURCE.parent)}
        done = subprocess.run(words, env=env, cwd=self.cache.name, stdout=subprocess.PIPE, stderr=subprocess.STDOUT)
        said = done.stdout.decode()
        found = re.findall(r"^(?:.*/)?([^/:]+):(\d+): error: (.*)$", said, re.MULTILINE)
        self.assertEqual(bool(found), done.returncode != 0, said)
        return [(name, int(line), error) for name, line, error in found]

    def test_the_package(self):
        self.assertEqual(self.errors_of(SOURCE), [])

    def test_what_is_right(self):
        self.assertEqual(self.errors_of(SAMPLES / "right.py"), [])

    def test_what_is_wrong(self):
        path = SAMPLES / "wrong.py"
        lines = path.read_text(encoding="utf-8").split("\n")
        due = {number for number, line in enumerate(lines, 1) if line.endswith("# wrong")}
        self.assertEqual({line for _, line, _ in self.errors_of(path)}, due)

    def test_the_package_says_that_it_has_types(self):
        self.assertTrue((SOURCE / "py.typed").is_file())


if __name__ == "__main__":
    unittest.main()
