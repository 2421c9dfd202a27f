"""Tests of how the package finds its library, extension and program, and of the wheel and the source distribution."""

import os
import pathlib
import re
import shutil
import subprocess
import sys
import tarfile
import tempfile
import unittest
import zipfile

import firnuubal
from firnuubal._library import FOLDER, NAME

SOURCE = pathlib.Path(firnuubal.__file__).resolve().parent
PROJECT = pathlib.Path(__file__).resolve().parent.parent
IMPORT = "import firnuubal; from firnuubal._library import FOLDER; print(FOLDER)"


class Loading(unittest.TestCase):
    def setUp(self):
        self.folder = tempfile.TemporaryDirectory()
        self.addCleanup(self.folder.cleanup)
        self.top = pathlib.Path(self.folder.name).resolve()

    def package(self, *names):
        """A copy of the package below these folders, and the folder that it is in."""
        path = self.top.joinpath(*names)
        sources = shutil.ignore_patterns("*.so", "__pycache__")
        shutil.copytree(SOURCE, path / "firnuubal", ignore=sources)
        return path

    def library(self, *names, files=(NAME,)):
        """Copies of the library, or of other files beside it, below these folders."""
        path = self.top.joinpath(*names)
        path.mkdir(parents=True, exist_ok=True)
        for name in files:
            shutil.copy(FOLDER / name, path / name)
        return path

    def run_in(self, path, *words, **said):
        env = {key: value for key, value in os.environ.items() if not key.startswith("FIRNUUBAL")}
        env.update(said, PYTHONPATH=str(path), PYTHONDONTWRITEBYTECODE="1")
        return subprocess.run(
            [sys.executable, "-W", "always", *words], env=env, cwd=self.top, stdout=subprocess.PIPE, stderr=subprocess.PIPE, timeout=60
        )

    def found(self, path, **said):
        """Where a copy of the package finds its library, or the last line of its error."""
        done = self.run_in(path, "-c", IMPORT, **said)
        return done.stdout.decode().strip() or done.stderr.decode().strip().split("\n")[-1]

    def test_in_the_package(self):
        path = self.package("site")
        self.assertRegex(self.found(path), "^ImportError: libfirnuubal.so is not in ")
        self.library("site", "firnuubal")
        self.assertEqual(self.found(path), str(path / "firnuubal"))

    def test_where_it_is_said_to_be(self):
        path, other = self.package("site"), self.library("other")
        self.library("site", "firnuubal")
        self.assertEqual(self.found(path, FIRNUUBAL_LIB=str(other)), str(other))
        self.assertEqual(self.found(path, FIRNUUBAL_LIB="other"), str(other))
        self.assertEqual(self.found(path, FIRNUUBAL_LIB=""), str(path / "firnuubal"))
        self.assertRegex(self.found(path, FIRNUUBAL_LIB=str(self.top)), "^ImportError")

    def test_no_folder_above_is_asked(self):
        """A package that is installed at any depth loads no library of the folders above it."""
        for names in (("a", "b"), ("a", "b", "c"), ("bindings", "python", "src"), ("lib", "bindings", "python", "src")):
            path = self.package(*names)
            for depth in range(len(names) + 1):
                for below in (("bindings", "out"), ("dist",), ()):
                    self.library(*names[:depth], *below)
            self.assertRegex(self.found(path), "^ImportError", names)

    def test_a_source_tree(self):
        path = self.package("tree", "bindings", "python", "src")
        dist = self.library("tree", "dist")
        project = path.parent / "pyproject.toml"
        project.write_text('[project]\nname = "another"\n', encoding="utf-8")
        self.assertRegex(self.found(path), "^ImportError")
        shutil.copy(PROJECT / "pyproject.toml", project)
        self.assertEqual(self.found(path), str(dist))
        out = self.library("tree", "bindings", "out")
        self.assertEqual(self.found(path), str(out))

    def test_another_version(self):
        path = self.package("site")
        self.library("site", "firnuubal")
        module = path / "firnuubal" / "__init__.py"
        text = module.read_text(encoding="utf-8")
        module.write_text(re.sub('__version__ = ".*"', '__version__ = "0.1.2"', text), encoding="utf-8")
        said = self.found(path)
        self.assertRegex(said, "^ImportError")
        self.assertIn(firnuubal.__version__, said)
        self.assertIn("0.1.2", said)

    def test_what_is_no_library(self):
        path = self.package("site")
        (path / "firnuubal" / NAME).write_bytes(b"no library")
        self.assertRegex(self.found(path), "^ImportError: .* can't be loaded")

    def test_an_extension_that_is_broken(self):
        path = self.package("site")
        self.library("site", "firnuubal")
        script = "import firnuubal; print(firnuubal.IS_FAST, firnuubal.clean('<p>1'))"
        done = self.run_in(path, "-c", script)
        self.assertEqual((done.stdout, done.stderr), (b"False <p>1</p>\n", b""))
        (path / "firnuubal" / "_fast.abi3.so").write_bytes(b"no extension")
        done = self.run_in(path, "-c", script)
        self.assertEqual(done.stdout, b"False <p>1</p>\n")
        self.assertIn(b"RuntimeWarning", done.stderr)
        self.assertIn(b"_fast.abi3.so can't be imported", done.stderr)
        done = self.run_in(path, "-c", script, FIRNUUBAL_PURE="1")
        self.assertEqual(done.stderr, b"")

    @unittest.skipUnless(firnuubal.IS_FAST, "the extension is not there, or left aside")
    def test_the_extension_is_beside_the_library(self):
        path, other = self.package("site"), self.library("other", files=(NAME, "_fast.abi3.so"))
        (other / "_errors.py").write_text("raise Exception('no module of the package')", encoding="utf-8")
        (other / "another.py").write_text("", encoding="utf-8")
        script = "import firnuubal; from firnuubal import _fast; print(firnuubal.IS_FAST, _fast.__file__)\nimport firnuubal.another"
        done = self.run_in(path, "-c", script, FIRNUUBAL_LIB=str(other))
        self.assertEqual(done.stdout.decode(), f"True {other / '_fast.abi3.so'}\n")
        self.assertIn(b"ModuleNotFoundError", done.stderr)

    def test_the_program(self):
        path, other = self.package("site"), self.library("other")
        done = self.run_in(path, "-m", "firnuubal", "clean", FIRNUUBAL_LIB=str(other))
        self.assertEqual(done.returncode, 1)
        self.assertRegex(done.stderr.decode(), "there is no program firnuubal in ")
        program = other / "firnuubal"
        program.write_text('#!/bin/sh\necho "$@"; exit 3\n', encoding="utf-8")
        program.chmod(0o755)
        done = self.run_in(path, "-m", "firnuubal", "clean", "a b", FIRNUUBAL_LIB=str(other))
        self.assertEqual((done.returncode, done.stdout), (3, b"clean a b\n"))


@unittest.skipUnless((PROJECT.parent.parent / "LICENSE-MIT").is_file(), "this is no source tree")
class Shipping(unittest.TestCase):
    def setUp(self):
        self.folder = tempfile.TemporaryDirectory()
        self.addCleanup(self.folder.cleanup)
        self.top = pathlib.Path(self.folder.name)
        self.lib = self.top / "lib"
        self.lib.mkdir()
        for file in (NAME, "_fast.abi3.so"):
            if (FOLDER / file).is_file():
                shutil.copy(FOLDER / file, self.lib / file)
        (self.lib / "firnuubal").write_bytes(b"\x7fELF of a program")

    def build(self, project, call, into, **said):
        """The file that the backend of a project makes, in a process of its own."""
        into = self.top / into
        into.mkdir(exist_ok=True)
        script = f"import backend; print(backend.{call}({str(into)!r}))"
        env = {key: value for key, value in os.environ.items() if key != "FIRNUUBAL_LIB"}
        env.update(said, PYTHONDONTWRITEBYTECODE="1")
        done = subprocess.run([sys.executable, "-c", script], cwd=project, env=env, stdout=subprocess.PIPE, check=True)
        return into / done.stdout.decode().strip()

    def test_the_wheel(self):
        wheel = self.build(PROJECT, "build_wheel", "one", FIRNUUBAL_LIB=str(self.lib))
        info = f"firnuubal-{firnuubal.__version__}.dist-info"
        with zipfile.ZipFile(wheel) as files:
            names = files.namelist()
            program = files.getinfo(f"firnuubal-{firnuubal.__version__}.data/scripts/firnuubal")
            metadata = files.read(f"{info}/METADATA").decode()
            self.assertEqual(files.read("firnuubal/policy.md")[:13], b"# html5policy")
        self.assertEqual(program.external_attr >> 16 & 0o777, 0o755)
        for name in ("__init__.py", "__main__.py", "py.typed", "_fast.pyi", NAME, "policy.md"):
            self.assertIn(f"firnuubal/{name}", names)
        for line in (f"Version: {firnuubal.__version__}", "Author: The Firnuubal developers", "License-File: LICENSE-MIT"):
            self.assertIn(line, metadata.split("\n"))
        self.assertIn(f"{info}/licenses/LICENSE-MIT", names)
        self.assertNotIn("Project-URL", metadata)

    def test_a_wheel_of_the_source_distribution(self):
        first = self.build(PROJECT, "build_sdist", "one", FIRNUUBAL_LIB=str(self.lib))
        again = self.build(PROJECT, "build_sdist", "two", FIRNUUBAL_LIB=str(self.lib))
        self.assertEqual(first.read_bytes(), again.read_bytes())
        with tarfile.open(first) as files:
            files.extractall(self.top / "sources")
        wheel = self.build(PROJECT, "build_wheel", "one", FIRNUUBAL_LIB=str(self.lib))
        of_sources = self.build(self.top / "sources" / first.name[: -len(".tar.gz")], "build_wheel", "two")
        self.assertEqual(wheel.read_bytes(), of_sources.read_bytes())

    def test_versions(self):
        text = (PROJECT / "pyproject.toml").read_text(encoding="utf-8")
        self.assertIn(f'\nversion = "{firnuubal.__version__}"\n', text)


if __name__ == "__main__":
    unittest.main()
