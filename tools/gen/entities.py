"""The standard's named character references as a table's list, from Python's `html.entities`.

    python3 tools/gen/entities.py          # prints the list
    python3 tools/gen/entities.py --check  # says whether crates/html5entities has it
"""

import html.entities
import pathlib
import re
import sys

SPECS = pathlib.Path(__file__).resolve().parents[2] / "crates" / "html5entities" / "specs" / "Standard.antt"


def entry(name, characters):
    """An entry of the list: the name, and the numbers of its characters in hexadecimal."""
    return name + "=" + "+".join(f"{ord(character):X}" for character in characters)


def standard_list():
    """The entries, in the order of their names."""
    return ",".join(entry(name, html.entities.html5[name]) for name in sorted(html.entities.html5))


def check():
    """Compares the list of the crate's specs with it."""
    found = re.search(r'^standard_list = codes "(.*)"$', SPECS.read_text(), re.MULTILINE)
    if found is None or found.group(1) != standard_list():
        sys.exit(f"{SPECS}: this is not the standard's list")


if __name__ == "__main__":
    if sys.argv[1:] == ["--check"]:
        check()
    else:
        print(standard_list(), end="")
