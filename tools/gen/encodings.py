"""The indexes and labels of the Encoding Standard, as sources of crates/html5encodings.

    python3 tools/gen/encodings.py          # writes them
    python3 tools/gen/encodings.py --check  # says whether the crate has them

The lists are those of Debian's package libjs-text-encoding, which ships the Standard's own, and what
the Standard has changed since. Where the package isn't there, `--check` says so and passes over it.
That the tables of src/ are the lists of specs/ is proved.
"""

import json
import pathlib
import re
import sys

ROOT = pathlib.Path(__file__).resolve().parents[2]
CRATE = ROOT / "crates" / "html5encodings"
PACKAGE = pathlib.Path("/usr/share/javascript/text-encoding")

# The labels that the Standard has added since.
ADDED_LABELS = {
    "UTF-8": ["unicode11utf8", "unicode20utf8", "x-unicode20utf8"],
    "replacement": ["replacement"],
    "UTF-16BE": ["unicodefffe"],
    "UTF-16LE": ["csunicode", "iso-10646-ucs-2", "ucs-2", "unicode", "unicodefeff"],
}

# The code points of the index gb18030 that the Standard has changed since, for GB18030-2022: the two
# bytes, the code point for private use that stood there, and the one there now.
CHANGED_GB18030 = [
    (0xA6D9, 0xE78D, 0xFE10), (0xA6DA, 0xE78E, 0xFE12), (0xA6DB, 0xE78F, 0xFE11),
    (0xA6DC, 0xE790, 0xFE13), (0xA6DD, 0xE791, 0xFE14), (0xA6DE, 0xE792, 0xFE15),
    (0xA6DF, 0xE793, 0xFE16), (0xA6EC, 0xE794, 0xFE17), (0xA6ED, 0xE795, 0xFE18),
    (0xA6F3, 0xE796, 0xFE19), (0xFE59, 0xE81E, 0x9FB4), (0xFE61, 0xE826, 0x9FB5),
    (0xFE66, 0xE82B, 0x9FB6), (0xFE67, 0xE82C, 0x9FB7), (0xFE6D, 0xE832, 0x9FB8),
    (0xFE7E, 0xE843, 0x9FB9), (0xFE90, 0xE854, 0x9FBA), (0xFEA0, 0xE864, 0x9FBB),
]

# The indexes of more than a byte: the Standard's name, and the module of src/.
TABLES = ["big5", "euc-kr", "gb18030", "jis0208", "jis0212"]

# The encodings that are not single-byte, and their variants.
VARIANTS = {
    "UTF-8": "Utf8", "GBK": "Gbk", "gb18030": "Gb18030", "Big5": "Big5", "EUC-JP": "EucJp",
    "ISO-2022-JP": "Iso2022Jp", "Shift_JIS": "ShiftJis", "EUC-KR": "EucKr", "replacement": "Replacement",
    "UTF-16BE": "Utf16Be", "UTF-16LE": "Utf16Le", "x-user-defined": "XUserDefined",
}

# What heads the files.
BY = "By tools/gen/encodings.py."
LISTS = "use Rattle.std.specs.Prelude.{ℕ, List, [], ◌∷◌}\n"
DECLARED = "use Rattle.html5encodings.specs.declared.encoding"


def after(path, mark):
    """The JSON value after a mark in a file of the package."""
    text = path.read_text(encoding="utf-8")
    start = text.index(mark) + len(mark)
    return json.JSONDecoder().raw_decode(text[start:].lstrip())[0]


def indexes():
    """The Standard's indexes by name, 0 where there is no code point."""
    found = after(PACKAGE / "encoding-indexes.js", 'global["encoding-indexes"] =')
    ranges = found.pop("gb18030-ranges")
    lists = {name: [code_point or 0 for code_point in entries] for name, entries in found.items()}
    for name in TABLES:
        while lists[name][-1] == 0:
            lists[name].pop()
    for pair, before, now in CHANGED_GB18030:
        lead, trail = pair >> 8, pair & 0xFF
        pointer = (lead - 0x81) * 190 + trail - (0x40 if trail < 0x7F else 0x41)
        if lists["gb18030"][pointer] not in (before, now):
            sys.exit(f"gb18030 has {lists['gb18030'][pointer]:X} at {pair:X}")
        lists["gb18030"][pointer] = now
    return lists, [tuple(row) for row in ranges]


def encodings():
    """The names of the encodings, and the labels of each, in the Standard's order."""
    groups = after(PACKAGE / "encoding.js", "var encodings = ")
    rows = [(row["name"], row["labels"]) for group in groups for row in group["encodings"]]
    return [(name, sorted(set(labels + ADDED_LABELS.get(name, [])))) for name, labels in rows]


def snake(name):
    return name.lower().replace("-", "_")


def variant(name):
    """The variant of a single-byte encoding: ISO-8859-8-I is Iso8859_8I, KOI8-R is Koi8R."""
    iso = re.fullmatch(r"ISO-8859-(\d+)(-I)?", name)
    if iso:
        return f"Iso8859_{iso.group(1)}" + ("I" if iso.group(2) else "")
    return "".join(part[0].upper() + part[1:].lower() for part in name.split("-"))


def index_name(name):
    """The index of a single-byte encoding: ISO-8859-8-I has that of ISO-8859-8."""
    return "iso-8859-8" if name == "ISO-8859-8-I" else name.lower()


def rust_encoding(name):
    return f"Encoding::{VARIANTS[name]}" if name in VARIANTS else f"Encoding::SingleByte(SingleByte::{variant(name)})"


def spec_encoding(name):
    return f"encoding.{VARIANTS[name]}" if name in VARIANTS else f"encoding.SingleByte single.{variant(name)}"


def rows_of(entries, width):
    return [entries[start : start + width] for start in range(0, len(entries), width)]


def rust_table(name, entries):
    """A static of characters."""
    rows = [", ".join("'\\u{%X}'" % code_point for code_point in row) for row in rows_of(entries, 8)]
    lines = "".join(f"    {row},\n" for row in rows)
    return f"#[rattlefmt::skip]\npub(crate) static {name}: [char; {len(entries)}] = [\n{lines}];\n"


def spec_table(name, entries):
    """A list of code points."""
    rows = [" ∷ ".join("0x%04X" % code_point for code_point in row) for row in rows_of(entries, 12)]
    return f"unfoldable pub {name} : List ℕ\n{name} =\n    " + " ∷\n    ".join(rows) + " ∷ []\n"


def upper_camel(name):
    return "".join(part[0].upper() + part[1:] for part in name.split("-"))


def table_files(lists):
    """The indexes of more than a byte."""
    files = {}
    for name in TABLES:
        module = f"index_{snake(name)}"
        files[f"src/{module}.rt"] = (
            f"//! The index {name}: the character of each pointer, and U+0000 where there is none. {BY}\n\n"
            + rust_table(snake(name).upper(), lists[name])
        )
        files[f"specs/Index{upper_camel(name)}.antt"] = (
            f'-- "Indexes": index {name}, the code point of each pointer, and 0 where there is none. {BY}\n'
            f"{LISTS}\n" + spec_table(module, lists[name])
        )
    return files


def range_files(ranges):
    """The index gb18030 ranges."""
    rust = "".join("    (%d, 0x%04X),\n" % row for row in ranges)
    spec = "".join("    (%d, 0x%04X) ∷\n" % row for row in ranges)
    return {
        "src/index_gb18030_ranges.rt": (
            f"//! The index gb18030 ranges: pointers, and the code point of each. {BY}\n\n"
            f"#[rattlefmt::skip]\npub(crate) static GB18030_RANGES: [(u32, u32); {len(ranges)}] = [\n{rust}];\n"
        ),
        "specs/IndexGb18030Ranges.antt": (
            f'-- "Indexes": index gb18030 ranges, pointers in order, and the code point of each. {BY}\n{LISTS}\n'
            f"unfoldable pub index_gb18030_ranges : List (ℕ × ℕ)\nindex_gb18030_ranges =\n{spec}    []\n"
        ),
    }


def single_byte_files(lists, singles):
    """The indexes of the single-byte encodings, and that those of the program are those of the specs."""
    own = [name for name in singles if index_name(name) == name.lower()]
    statics, indexes_of_own = ", ".join(snake(name).upper() for name in own), ", ".join(f"index_{snake(name)}" for name in own)
    tables = [rust_table(snake(name).upper(), lists[index_name(name)]) for name in own]
    specs = [f"-- index {name}\n" + spec_table(f"index_{snake(name)}", lists[index_name(name)]) for name in own]
    cases = "".join(f"index_of single.{variant(name)} = index_{snake(index_name(name))}\n" for name in singles)
    same = "".join(
        f"\npub {static}-is : {static} ≡ index_{static.lower()}\nunfolding index_{static.lower()}\n{static}-is = refl\n"
        for static in statics.split(", ")
    )
    answers = "".join(
        f"\npub returns-in-{it} : goal.returns-in-{it}\nreturns-in-{it} c = rw c.in-{it}.is {snake(index_name(name)).upper()}-is\n"
        for name in singles
        for it in [variant(name)]
    )
    return {
        "src/index_single_byte.rt": (
            "//! The indexes of the single-byte encodings: the characters of the bytes from 0x80 on, and U+0000 where there\n"
            f"//! is none. {BY}\n\n" + "\n".join(tables)
        ),
        "specs/IndexSingleByte.antt": (
            '-- "Legacy single-byte encodings": the index of each, the code points of the bytes from 0x80 on, and 0 where there is\n'
            f"-- none. {BY}\n{LISTS}{DECLARED}.SingleByte.{{SingleByte}}\n{DECLARED}.SingleByte.TheVariants as single\n\n"
            + "\n".join(specs)
            + "\n-- the index of an encoding. ISO-8859-8 and ISO-8859-8-I share one.\n"
            f"abbrev pub index_of : SingleByte → List ℕ\n{cases}"
        ),
        "proofs/SingleByteTables.antt": (
            f"-- The tables of the single-byte encodings are the Standard's indexes. {BY}\n"
            "use Rattle.std.specs.Prelude.{◌≡◌, refl}\n"
            f"use Rattle.html5encodings.specs.IndexSingleByte.{{{indexes_of_own}}}\n"
            f"use Rattle.html5encodings.specs.declared.index_single_byte.TheConstants.{{{statics}}}\n{same}"
        ),
        "proofs/single_byte/index_of/Answers.antt": (
            f"-- {BY}\nuse Rattle.html5encodings.proofs.SingleByteTables.{{{statics.replace(',', '-is,')}-is}}\n"
            f"use Rattle.html5encodings.proofs.single_byte.index_of.Goals as goal\n{answers}"
        ),
    }


def label_files(rows, singles):
    """The names and the labels."""
    labelled = [(label, name) for name, labels in rows for label in labels]
    rust = "".join(f'    ("{label}", {rust_encoding(name)}),\n' for label, name in labelled)
    spec = "".join(f'    (codes "{label}", {spec_encoding(name)}) ∷\n' for label, name in labelled)
    single_names = "".join(f'single_byte_name_of single.{variant(name)} = codes "{name}"\n' for name in singles)
    names = "".join(f'name_of encoding.{VARIANTS[name]} = codes "{name}"\n' for name, _ in rows if name in VARIANTS)
    return {
        "src/label_list.rt": (
            f"//! The labels of the encodings. {BY}\n\nuse crate::encoding::{{Encoding, SingleByte}};\n\n"
            f"#[rattlefmt::skip]\npub(crate) const LABELS: [(&str, Encoding); {len(labelled)}] = [\n{rust}];\n"
        ),
        "specs/Labels.antt": (
            f'-- "Names and labels". {BY}\n'
            "use Rattle.std.specs.Prelude.{ℕ, List, [], ◌∷◌, codes}\n"
            f"{DECLARED}.Encoding.{{Encoding}}\n{DECLARED}.Encoding.TheVariants as encoding\n"
            f"{DECLARED}.SingleByte.{{SingleByte}}\n{DECLARED}.SingleByte.TheVariants as single\n\n"
            f"-- the name of a single-byte encoding\nabbrev pub single_byte_name_of : SingleByte → List ℕ\n{single_names}"
            "\n-- the name of an encoding\nabbrev pub name_of : Encoding → List ℕ\n"
            f"name_of (encoding.SingleByte s) = single_byte_name_of s\n{names}"
            "\n-- the labels, each with its encoding\nunfoldable pub labels : List (List ℕ × Encoding)\n"
            f"labels =\n{spec}    []\n"
        ),
    }


def sources():
    """The files that this script writes, by their paths in the crate."""
    lists, ranges = indexes()
    rows = encodings()
    singles = [name for name, _ in rows if name not in VARIANTS]
    parts = [table_files(lists), range_files(ranges), single_byte_files(lists, singles), label_files(rows, singles)]
    return {path: text for part in parts for path, text in part.items()}


def check():
    """Compares the files of the crate with what this script would write."""
    if not (PACKAGE / "encoding-indexes.js").is_file():
        print("tools/gen/encodings.py: Debian's package libjs-text-encoding isn't there, and the tables are not compared with it")
        return
    for path, text in sources().items():
        if (CRATE / path).read_text(encoding="utf-8") != text:
            sys.exit(f"{CRATE / path}: this is not what tools/gen/encodings.py writes")


def write():
    for path, text in sources().items():
        (CRATE / path).parent.mkdir(parents=True, exist_ok=True)
        (CRATE / path).write_text(text, encoding="utf-8")


if __name__ == "__main__":
    if sys.argv[1:] == ["--check"]:
        check()
    else:
        write()
