#!/usr/bin/env python3
"""Tests of tools/release/stamps.py, in a folder of their own and with a toolchain that proves nothing."""

import os
import pathlib
import shutil
import subprocess
import sys
import tempfile
import unittest

HERE = pathlib.Path(__file__).resolve().parent

# A toolchain: `rt ci` leaves a library for each crate, and does before and after that what a test asks for.
RT = """#!/bin/sh
case "$1" in
version) cat "$KIT/version" ;;
doc) echo "$KIT/PAGE.md" ;;
ci)
    for name in low high; do
        mkdir -p crates/$name/out/rlib/$name.rlib
        cat crates/$name/src/lib.rt >crates/$name/out/rlib/$name.rlib/code
    done
    eval "$MEANWHILE" ;;
esac
"""
RTLIB = """
class Crate:
    def __init__(self, name):
        self.name = name

    def stamp(self):
        return "stamp of " + self.name


def crates_below(top):
    return [Crate("low"), Crate("high")]
"""


class Stamps(unittest.TestCase):
    def setUp(self):
        self.top = pathlib.Path(tempfile.mkdtemp(prefix="stamps-"))
        self.addCleanup(shutil.rmtree, self.top)
        self.write("crates.txt", "high: low std\nlow:\n")
        self.write("crates/low/src/lib.rt", "low")
        self.write("crates/high/src/lib.rt", "high")
        self.write("crates/low/specs/Lib.antt", "")
        self.write("kit/version", "kit 1")
        self.write("kit/bin/rt", RT)
        self.write("kit/bin/rtlib.py", RTLIB)
        (self.top / "kit/bin/rt").chmod(0o755)
        (self.top / "tools/release").mkdir(parents=True)
        shutil.copy(HERE / "stamps.py", self.top / "tools/release")

    def write(self, path, text):
        file = self.top / path
        file.parent.mkdir(parents=True, exist_ok=True)
        file.write_text(text, encoding="utf-8")

    def run_script(self, *words, meanwhile=""):
        kit = str(self.top / "kit")
        env = {**os.environ, "KIT": kit, "PATH": f"{kit}/bin:{os.environ['PATH']}", "MEANWHILE": meanwhile}
        ran = subprocess.run(["python3", "tools/release/stamps.py", *words], cwd=self.top, env=env, capture_output=True, text=True, check=False)
        return ran.returncode, ran.stdout

    def stamped(self):
        """The crates whose libraries have a stamp, which must be that of the toolchain."""
        found = [name for name in ("low", "high") if (self.top / f"crates/{name}/out/rlib/stamp").exists()]
        for name in found:
            self.assertEqual((self.top / f"crates/{name}/out/rlib/stamp").read_text(encoding="utf-8"), f"stamp of {name}")
        return found

    def drop_stamps(self):
        for name in self.stamped():
            (self.top / f"crates/{name}/out/rlib/stamp").unlink()

    def refused_after(self, path, text, names):
        """Proves all and drops the stamps; after this file is written, these crates are refused and the others stamped."""
        self.assertEqual(self.run_script("rt", "ci")[0], 0)
        self.drop_stamps()
        self.write(path, text)
        status, said = self.run_script()
        self.assertEqual(status, 1, said)
        for name in names:
            self.assertIn(f"{name}: no stamp: ", said)
        self.assertEqual(self.stamped(), [name for name in ("low", "high") if name not in names])

    def test_what_was_proved_is_stamped(self):
        took = "tools/release/stamps.py: rt ci took 0.0 minutes by the clock and 0.0 of processor\n"
        self.assertEqual(self.run_script("rt", "ci"), (0, took + "tools/release/stamps.py: 2 stamps written, 0 refused\n"))
        self.assertEqual(self.stamped(), ["low", "high"])
        self.drop_stamps()
        self.assertEqual(self.run_script(), (0, "tools/release/stamps.py: 2 stamps written, 0 refused\n"))
        self.assertEqual(self.run_script(), (0, "tools/release/stamps.py: 0 stamps written, 0 refused\n"))

    def test_what_changed_afterwards_is_refused(self):
        self.refused_after("crates/high/src/lib.rt", "higher", ["high"])

    def test_what_stands_on_a_change_is_refused(self):
        self.refused_after("crates/low/src/lib.rt", "lower", ["low", "high"])

    def test_a_new_file_is_a_change(self):
        self.refused_after("crates/low/proofs/Lib.antt", "", ["low", "high"])

    def test_a_line_of_the_list_is_a_change(self):
        self.refused_after("crates.txt", "high: low std thiserror\nlow:\n", ["high"])

    def test_other_handles_are_a_change(self):
        self.refused_after("HANDLES", "Handles allowed: Net.\n", ["low", "high"])

    def test_another_toolchain_is_refused(self):
        self.refused_after("kit/version", "kit 2", ["low", "high"])

    def test_another_library_is_refused(self):
        self.refused_after("crates/low/out/rlib/low.rlib/code", "other", ["low"])

    def test_without_a_record_nothing_is_stamped(self):
        self.write("crates/low/out/rlib/low.rlib/code", "low")
        self.assertEqual(self.run_script()[0], 1)
        self.assertEqual(self.stamped(), [])

    def test_what_failed_is_not_stamped(self):
        self.assertEqual(self.run_script("rt", "ci", meanwhile="exit 1")[0], 1)
        self.assertEqual(self.run_script()[0], 1)
        self.assertEqual(self.stamped(), [])

    def test_a_failed_run_forgets_the_one_before(self):
        self.assertEqual(self.run_script("rt", "ci")[0], 0)
        self.drop_stamps()
        self.assertEqual(self.run_script("rt", "ci", meanwhile="exit 1")[0], 1)
        self.assertEqual(self.run_script()[0], 1)
        self.assertEqual(self.stamped(), [])

    def test_what_changed_meanwhile_is_not_stamped(self):
        self.assertEqual(self.run_script("rt", "ci", meanwhile="echo >>crates/high/src/lib.rt")[0], 1)
        self.assertEqual(self.run_script()[0], 1)
        self.assertEqual(self.stamped(), ["low"])

    def test_a_library_that_was_put_back_is_not_stamped(self):
        self.write("crates/low/out/rlib/low.rlib/code", "half")
        self.write("aside", "half")
        shutil.copystat(self.top / "crates/low/out/rlib/low.rlib/code", self.top / "aside")
        self.assertEqual(self.run_script("rt", "ci", meanwhile="mv aside crates/low/out/rlib/low.rlib/code")[0], 1)
        self.assertEqual(self.stamped(), ["high"])

    @unittest.skipUnless(sys.platform == "linux", "processes are seen in /proc")
    def test_the_dearest_crates_are_said(self):
        busy = "cd crates/{}/src; timeout {} sh -c 'while :; do :; done'; cd ../../.."
        self.assertEqual(self.run_script("rt", "ci", meanwhile="; ".join([busy.format("low", 2.5), busy.format("high", 4)]))[0], 0)
        said = (self.top / "out/dearest").read_text(encoding="utf-8").split()
        self.assertEqual(said[1::2], ["high", "low"])

    def test_other_words_do_nothing(self):
        self.assertNotEqual(self.run_script("rt", "ci", "low")[0], 0)
        self.assertEqual(self.stamped(), [])


if __name__ == "__main__":
    unittest.main()
