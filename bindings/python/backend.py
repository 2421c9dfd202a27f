"""Builds the wheel of the package, and its source distribution, with the standard library alone.

pip calls `build_wheel` and `build_sdist` (PEP 517), and so does tools/release/dist.py. The same files make the same bytes. The wheel
has the package, the library, the extension, the program and the page of rules. Where the extension isn't beside the library,
or this Python takes none of the stable ABI, the wheel is without it; so it is without the program where that isn't there.

The source distribution has what is shipped, too, so that a wheel is made of it without a compiler.
"""

import base64
import gzip
import hashlib
import importlib.machinery
import io
import os
import pathlib
import re
import tarfile
import zipfile

HERE = pathlib.Path(__file__).resolve().parent
TOP = HERE.parent.parent
LIBRARY = "libfirnuubal.so"
EXTENSION = "_fast.abi3.so"
PROGRAM = "firnuubal"
LICENSES = ("LICENSE-APACHE", "LICENSE-MIT")
# A source distribution has this file, and what is shipped in this folder.
PKG_INFO = "PKG-INFO"
SHIPPED = "shipped"
# What the package has of other folders of the repository, by its name in a source distribution.
SHARED = {
    **{name: TOP / name for name in LICENSES},
    "policy.md": TOP / "crates" / "html5policy" / "README.md",
    "native/firnuubal.h": TOP / "bindings" / "c" / "firnuubal.h",
}


def is_sdist():
    """Whether this is an unpacked source distribution, and not the repository."""
    return (HERE / PKG_INFO).is_file()


def shared(name):
    """A file that the repository has in another folder."""
    return HERE / name if is_sdist() else SHARED[name]


def library():
    """The library: where it is said to be, or else as it is shipped, in the repository first as it was just built."""
    said = os.environ.get("FIRNUUBAL_LIB")
    if said:
        folders = [pathlib.Path(said)]
    else:
        folders = [HERE / SHIPPED] if is_sdist() else [TOP / "bindings" / "out", TOP / "dist"]
    for folder in folders:
        if (folder / LIBRARY).is_file():
            return folder / LIBRARY
    places = ", ".join(str(folder) for folder in folders)
    raise FileNotFoundError(f"{LIBRARY} is in none of {places}: run bindings/build.sh")


def beside_library(name):
    """A file beside the library, or None."""
    file = library().parent / name
    return file if file.is_file() else None


def extension():
    """The extension, or None."""
    is_taken = ".abi3.so" in importlib.machinery.EXTENSION_SUFFIXES
    return beside_library(EXTENSION) if is_taken else None


def tag():
    """Where the wheel can be installed."""
    return f"{'cp38-abi3' if extension() else 'py3-none'}-manylinux_2_17_x86_64"


def project():
    """The fields of the project, as pyproject.toml has them a line each."""
    return dict(re.findall(r'^(\S+) = "(.*)"$', (HERE / "pyproject.toml").read_text(encoding="utf-8"), re.MULTILINE))


def metadata():
    fields = project()
    text = (HERE / "pyproject.toml").read_text(encoding="utf-8")
    lines = [
        "Metadata-Version: 2.4",
        f"Name: {fields['name']}",
        f"Version: {fields['version']}",
        f"Summary: {fields['description']}",
        *[f"Author: {name}" for name in re.findall(r'^authors = \[\{ name = "(.*)" \}\]$', text, re.MULTILINE)],
        f"License-Expression: {fields['license']}",
        *[f"License-File: {name}" for name in LICENSES],
        *[f"Classifier: {classifier}" for classifier in re.findall(r'^    "(.* :: .*)",$', text, re.MULTILINE)],
        f"Requires-Python: {fields['requires-python']}",
        "Description-Content-Type: text/markdown",
        "",
        (HERE / "README.md").read_text(encoding="utf-8"),
    ]
    return "\n".join(lines)


def sources():
    """The files of the package that are sources."""
    files = sorted((HERE / "src" / "firnuubal").iterdir())
    return [file for file in files if file.suffix in (".py", ".pyi", ".typed")]


def contents():
    """The files of the wheel, by their names in it."""
    files = {f"firnuubal/{file.name}": file.read_bytes() for file in sources()}
    files["firnuubal/policy.md"] = shared("policy.md").read_bytes()
    for file in filter(None, (extension(), library())):
        files[f"firnuubal/{file.name}"] = file.read_bytes()
    name = "firnuubal-{version}".format(**project())
    if beside_library(PROGRAM):
        files[f"{name}.data/scripts/{PROGRAM}"] = beside_library(PROGRAM).read_bytes()
    info = f"{name}.dist-info"
    for license_file in LICENSES:
        files[f"{info}/licenses/{license_file}"] = shared(license_file).read_bytes()
    files[f"{info}/METADATA"] = metadata().encode()
    files[f"{info}/WHEEL"] = f"Wheel-Version: 1.0\nGenerator: firnuubal\nRoot-Is-Purelib: false\nTag: {tag()}\n".encode()
    record = f"{info}/RECORD"
    files[record] = "".join(recorded(name, content) for name, content in files.items()).encode() + f"{record},,\n".encode()
    return files


def recorded(name, content):
    """The line of a file in RECORD."""
    digest = base64.urlsafe_b64encode(hashlib.sha256(content).digest()).rstrip(b"=").decode()
    return f"{name},sha256={digest},{len(content)}\n"


def mode_of(name):
    """The permissions of a file: those of a program or of another."""
    return 0o755 if name.endswith((f"scripts/{PROGRAM}", f"{SHIPPED}/{PROGRAM}", ".sh")) else 0o644


def build_wheel(wheel_directory, config_settings=None, metadata_directory=None):
    """Writes the wheel into a folder, and answers its name."""
    name = "firnuubal-{version}-{tag}.whl".format(**project(), tag=tag())
    with zipfile.ZipFile(pathlib.Path(wheel_directory) / name, "w", zipfile.ZIP_STORED) as wheel:
        for file, content in contents().items():
            entry = zipfile.ZipInfo(file, (1980, 1, 1, 0, 0, 0))
            # A file of its own kind, so that pip keeps what may be run.
            entry.external_attr = (0o100000 | mode_of(file)) << 16
            wheel.writestr(entry, content)
    return name


def contents_of_sdist():
    """The files of the source distribution, by their names in it."""
    own = [HERE / name for name in ("pyproject.toml", "backend.py", "README.md", "native/_fast.c", "native/build.sh")]
    files = {str(file.relative_to(HERE)): file.read_bytes() for file in (*own, *sources())}
    files.update({name: shared(name).read_bytes() for name in SHARED})
    for name in (LIBRARY, EXTENSION, PROGRAM):
        if beside_library(name):
            files[f"{SHIPPED}/{name}"] = beside_library(name).read_bytes()
    files[PKG_INFO] = metadata().encode()
    return files


def build_sdist(sdist_directory, config_settings=None):
    """Writes the source distribution into a folder, and answers its name."""
    folder = "firnuubal-{version}".format(**project())
    packed = io.BytesIO()
    with tarfile.open(fileobj=packed, mode="w", format=tarfile.USTAR_FORMAT) as archive:
        for name, content in sorted(contents_of_sdist().items()):
            entry = tarfile.TarInfo(f"{folder}/{name}")
            entry.size, entry.mode, entry.mtime = len(content), mode_of(name), 315532800
            archive.addfile(entry, io.BytesIO(content))
    name = f"{folder}.tar.gz"
    with open(pathlib.Path(sdist_directory) / name, "wb") as file:
        with gzip.GzipFile("", "wb", fileobj=file, mtime=0) as zipped:
            zipped.write(packed.getvalue())
    return name
