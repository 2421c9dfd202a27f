#!/usr/bin/env python3
"""Says whether all parts have one version: that of the newest entry of CHANGELOG.md that is released.

    python3 tools/release/version.py
"""

import pathlib
import re
import sys

TOP = pathlib.Path(__file__).resolve().parents[2]

# Where the version stands, and how it is written there.
PLACES = {
    "CHANGELOG.md": r"^## (\S+)$",
    "crates/html5programs/src/version.rt": r'^const VERSION: &str = "(.*)";',
    "bindings/c/firnuubal.h": r'^#define FIRNUUBAL_VERSION "(.*)"',
    "bindings/python/src/firnuubal/__init__.py": r'^__version__ = "(.*)"',
    "bindings/python/pyproject.toml": r'^version = "(.*)"',
    "bindings/rust/Cargo.toml": r'^version = "(.*)"',
}

# Where it stands as a number, a byte for each of its parts.
NUMBERS = {
    "crates/html5c/src/version.rt": r"^const VERSION: u32 = 0x(\w+);",
    "bindings/c/firnuubal.h": r"^#define FIRNUUBAL_VERSION_NUMBER 0x(\w+)",
}


def version_in(place, pattern):
    """The version that a file has first, or none."""
    found = re.search(pattern, (TOP / place).read_text(encoding="utf-8"), re.MULTILINE)
    return found and found.group(1)


def version_of(number):
    """The version that such a number has, if it is one."""
    digits = (number or "").replace("_", "")
    return ".".join(str(int(digits[at : at + 2], 16)) for at in (0, 2, 4)) if len(digits) == 6 else None


def main():
    versions = {place: version_in(place, pattern) for place, pattern in PLACES.items()}
    numbers = {f"{place}, the number": version_of(version_in(place, pattern)) for place, pattern in NUMBERS.items()}
    versions.update(numbers)
    if None in versions.values() or len(set(versions.values())) != 1:
        for place, version in versions.items():
            print(f"tools/release/version.py: {place}: {version or 'no version'}")
        return 1
    print(f"tools/release/version.py: {versions['CHANGELOG.md']}")
    return 0


if __name__ == "__main__":
    sys.exit(main())
