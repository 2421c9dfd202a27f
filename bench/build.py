"""Builds the programs of beside/ over html5ever as Debian packs it, in a scratch folder and without the network."""

import pathlib
import shutil
import subprocess

SOURCES = pathlib.Path(__file__).resolve().parent / "beside"
REGISTRY = pathlib.Path("/usr/share/cargo/registry")
INSTALL = "apt-get install librust-html5ever-dev"
# Crates that are built over where they are packed, each for the program of its name: librust-ammonia-dev.
MORE = {"ammonia": "3"}

MANIFEST = """\
[package]
name = "beside"
version = "0.0.0"
edition = "2021"

[dependencies]
html5ever = "0.26"

[patch.crates-io]
tendril = { path = "tendril" }

[profile.release]
opt-level = 3
lto = true
codegen-units = 1
"""

CONFIG = f"""\
[source.crates-io]
replace-with = "system"

[source.system]
directory = "{REGISTRY}"
"""


class CannotBuild(Exception):
    """Why the program couldn't be built."""


def packed(name):
    """The folder of a crate in the system's registry."""
    folders = sorted(REGISTRY.glob(f"{name}-[0-9]*"))
    if not folders:
        raise CannotBuild(f"the crate {name} is not in {REGISTRY}; `{INSTALL}` puts it there")
    return folders[-1]


def copy_tendril(folder):
    """Copies tendril. Newer compilers refuse its packed header, whose fields it borrows, so this one isn't packed."""
    shutil.copytree(packed("tendril"), folder / "tendril")
    source = folder / "tendril" / "src" / "tendril.rs"
    text = source.read_text()
    source.write_text(text.replace("#[repr(packed)]\nstruct Header", "#[repr(C)]\nstruct Header"))


def lay_out(folder):
    """The files of a crate that has the sources of beside/ as its programs."""
    (folder / "src" / "bin").mkdir(parents=True)
    (folder / ".cargo").mkdir()
    for name in ["lib.rs", "main.rs"]:
        shutil.copy(SOURCES / name, folder / "src" / name)
    for name in ["pages.rs", "clean.rs", "count.rs", "write_back.rs"]:
        shutil.copy(SOURCES / name, folder / "src" / "bin" / name)
    more = {name: version for name, version in MORE.items() if list(REGISTRY.glob(f"{name}-[0-9]*"))}
    for name in more:
        shutil.copy(SOURCES / f"{name}.rs", folder / "src" / "bin" / f"{name}.rs")
    lines = "".join(f'{name} = "{version}"\n' for name, version in more.items())
    (folder / "Cargo.toml").write_text(MANIFEST.replace("\n[patch", f"{lines}\n[patch"))
    (folder / ".cargo" / "config.toml").write_text(CONFIG)
    copy_tendril(folder)


def said(words, folder):
    """What a command prints, where it succeeds."""
    try:
        ended = subprocess.run(words, cwd=folder, capture_output=True, text=True)
    except FileNotFoundError:
        raise CannotBuild(f"there is no {words[0]} on the path") from None
    if ended.returncode != 0:
        raise CannotBuild(f"`{' '.join(words)}` failed:\n{ended.stderr[-2000:]}")
    return ended.stdout.strip()


def build(folder):
    """Builds the programs in an empty folder; answers where they are, and in words what they were built from."""
    name = packed("html5ever").name.replace("-", " ")
    lay_out(folder)
    said(["cargo", "build", "--offline", "--release", "--quiet", "--target-dir", "target"], folder)
    compiler = " ".join(said(["rustc", "--version"], folder).split()[:2])
    return folder / "target" / "release", f"{name}, built by {compiler}"
