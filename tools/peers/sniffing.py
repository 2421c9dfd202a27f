"""Compares which encoding `firnuubal text` finds a page in with html5lib's HTMLBinaryInputStream.

    python3 tools/peers/sniffing.py [--cases N] [--seed S] [--program PATH]

It makes random pages of marks, hints in each form, comments, scripts and text, and has both say their encodings: html5lib
by `charEncoding`, firnuubal by what it prints of some bytes at the end of the page, which each encoding reads otherwise.
Beyond the gate: it wants Debian's python3-html5lib. Status 0: no page differs.

Where html5lib goes otherwise:

- It looks for the hint in the bytes (the Standard's "prescan"), and so finds it in scripts and titles, within a tag that
  the front cuts, and where the fallback is of UTF-16. Here a hint is a tag of the page's reading.
- It reads no XML declaration, in ASCII or in UTF-16.
- If nothing is found it goes by windows-1252; here a page that is UTF-8 is read as that.
- It knows x-user-defined by that name, where the Standard says windows-1252.
- It gives up at a "charset" without an equals sign, and takes `<meta/` for no tag.
- It reads an unquoted label in `content` up to white space, and past a semicolon.
- Of a tag with both `charset` and `content` it goes by the one that stands first.

Pages on which these would tell are not made.
"""

import argparse
import collections
import pathlib
import random
import subprocess
import sys
import tempfile

from html5lib._inputstream import HTMLBinaryInputStream

TOP = pathlib.Path(__file__).resolve().parents[2]
PROGRAM = TOP / "crates/firnuubal/out/firnuubal"
LABELS = ["utf-8", "latin1", "windows-1251", "koi8-r", "iso-8859-2", "shift_jis", "gbk", "big5", "utf-16", "utf-16be"]
NO_LABELS = ["no-such", "", "utf-7", "x y"]
# What each encoding reads otherwise, after a tag that ends whatever is open.
PROBE = b"\n</script></title>--><br>@@\xd0\xc0\xc9\xd2@@"
MARKS = [b"", b"", b"", b"", b"", b"\xef\xbb\xbf", b"\xef\xbb"]


def cased(dice, word):
    return "".join(dice.choice([c.lower(), c.upper()]) for c in word)


def space(dice):
    return dice.choice(["", "", "", " ", "\n", "\t ", "\f"])


def label(dice):
    word = cased(dice, dice.choice(LABELS * 3 + NO_LABELS))
    return dice.choice(["", "", " "]) + word + dice.choice(["", "", " "])


def quoted(dice, value):
    return f'"{value}"' if " " in value or not value or dice.random() < 0.5 else value


def content(dice):
    """A value of `content` without double quotes."""
    named = dice.choice(LABELS * 3 + NO_LABELS[:1])
    said = dice.choice([named, named, f"'{named}'", f"'{named}", f"{named} x", ""])
    before = dice.choice(["text/html;", "text/html; ", "text/html; ", ""])
    return before + cased(dice, "charset") + space(dice) + "=" + space(dice) + said


def meta(dice):
    parts = []
    if dice.random() < 0.6:
        parts.append(f'{cased(dice, "charset")}={quoted(dice, label(dice))}')
    if not parts:
        kind = dice.choice(["content-type"] * 4 + ["refresh", "content-typ"])
        parts.append(f'http-equiv="{cased(dice, kind)}"')
        parts.append(f'content="{content(dice)}"')
    dice.shuffle(parts)
    return dice.choice(["<meta "] * 5 + ["<META\n", "<metal ", "</meta "]) + " ".join(parts) + dice.choice([">", "/>", " >"])


def piece(dice):
    return dice.choice(
        [
            lambda: "<p a=b>x",
            lambda: "<!--x-->",
            lambda: f"<!-- {meta(dice)} -->",
            lambda: "<!DOCTYPE html>",
            lambda: "<?xml x?>",
            lambda: "a<b>c",
            lambda: "x" * dice.randrange(400),
            lambda: f"<i title='{meta(dice).replace(chr(39), '')}'>",
            lambda: meta(dice),
            lambda: meta(dice),
            lambda: meta(dice),
        ]
    )()


def page(dice):
    text = "".join(piece(dice) for _ in range(dice.randrange(1, 6)))
    return dice.choice(MARKS) + text.encode() + dice.choice([b"", "\u00e9".encode()]) + PROBE


def is_utf8(front):
    try:
        front.decode("utf-8")
        return True
    except UnicodeDecodeError as error:
        return len(front) == 1024 and error.reason == "unexpected end of data"


def by_html5lib(given, said):
    stream = HTMLBinaryInputStream(given, transport_encoding=said, default_encoding="windows-1252", useChardet=False)
    encoding, confidence = stream.charEncoding
    if confidence == "tentative" and stream.detectEncodingMeta() is None:
        return "utf-8" if is_utf8(given[:1024]) else "windows-1252"
    return encoding.name


CODECS = {"windows-1252": "cp1252", "koi8-r": "koi8_r", "gbk": "gb18030", "big5": "big5hkscs", "shift_jis": "cp932"}


def probed(name):
    """What is printed of the probe in an encoding."""
    return b"\xd0\xc0\xc9\xd2".decode(CODECS.get(name, name), "replace")


def by_firnuubal(program, given, said):
    words = [program, "text"] + (["--encoding", said] if said else [])
    printed = subprocess.run(words, input=given, stdout=subprocess.PIPE, check=True).stdout.decode()
    return printed.rpartition("@@")[0].rpartition("@@")[2]


def main():
    parser = argparse.ArgumentParser(description=__doc__, formatter_class=argparse.RawDescriptionHelpFormatter)
    parser.add_argument("--cases", type=int, default=5000)
    parser.add_argument("--seed", default="1")
    parser.add_argument("--program", default=str(PROGRAM))
    said = parser.parse_args()
    differ = 0
    counts = collections.Counter()
    for number in range(said.cases):
        dice = random.Random(f"{said.seed} {number}")
        given = page(dice)
        transport = dice.choice([None] * 6 + ["koi8-r", "utf-8"])
        wanted = by_html5lib(given, transport)
        counts[wanted] += 1
        found = by_firnuubal(said.program, given, transport)
        if found != probed(wanted):
            differ += 1
            print(f"{number}: {given!r} said {transport}: html5lib {wanted} {probed(wanted)!r}, firnuubal {found!r}")
    print(f"{said.cases} pages, {differ} differ; {dict(counts)}")
    return 1 if differ else 0


if __name__ == "__main__":
    sys.exit(main())
