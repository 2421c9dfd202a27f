#!/usr/bin/env python3
"""Worked cases of tree construction, as proofs by computation.

    python3 tools/gen/construction_cases.py
    python3 tools/gen/construction_cases.py --check

tools/cases/construction.jsonl has a case a line: the row of tree construction that it shows, a page, the tokens that the
tokenizer emits if it is told what the tree asks for, and the tree, as the public tests of tree construction write it. Some
have limits: of open elements, and of formatting elements.
The script writes crates/tree_construction/proofs/RowCases.antt from it: there each tree is what the definitions build. With `--check` nothing is
written, and the status is 1 if that file isn't what would be written.
"""

import json
import pathlib
import re
import sys

TOP = pathlib.Path(__file__).resolve().parent.parent.parent
CASES = TOP / "tools" / "cases" / "construction.jsonl"
CRATE = TOP / "crates" / "tree_construction"
FILE = CRATE / "proofs" / "RowCases.antt"
AT_ONCE = 12

HEAD = """\
-- Pages for each row of tree construction, with their trees: by `python3 tools/gen/construction_cases.py`, and not by hand.
use Rattle.std.proofs.Common.{◌≡◌, Bool, true, false, List, [], ◌∷◌, ◌++◌, refl}
use Rattle.std.specs.Prelude.{ℕ, Option, Some, None, codes, map}
use Rattle.html5ever_interface.specs.Token.Told.{Text, Null, Comment, Instruction, Doctype, End}
use Rattle.tree_construction.specs.declared.kinds.Namespace.TheVariants.{Html, MathMl, Svg}
use Rattle.tree_construction.proofs.Shown.{Case, attribute, closed_tag, document, end_tag, fragment, limited, start_tag}
"""

ESCAPES = {"\n": "\\n", "\t": "\\t", "\r": "\\r", "\\": "\\\\", '"': '\\"'}


def bytes_of(text):
    """A text as an antt term: quoted where it is plain, and else the bytes of its UTF-8."""
    if text == "":
        return "[]"
    if all(" " <= it <= "~" or it in ESCAPES for it in text):
        return '(codes "' + "".join(ESCAPES.get(it, it) for it in text) + '")'
    return "(" + " ∷ ".join(str(byte) for byte in text.encode()) + " ∷ [])"


def list_of(items):
    return "(" + " ∷ ".join([*items, "[]"]) + ")" if items else "[]"


def lines_of(tree):
    """A tree with the end of its last line, if it has one."""
    return f"{tree}\n" if tree else ""


def optional(text):
    return "None" if text is None else f"(Some {bytes_of(text)})"


def attributes_of(pairs):
    return list_of([f"attribute {bytes_of(name)} {bytes_of(value)}" for name, value in pairs])


def message_of(kind, *values):
    """What the tokenizer sends, as a term."""
    if kind in ("start", "closed"):
        return f"{kind}_tag {bytes_of(values[0])} {attributes_of(values[1])}"
    if kind == "end":
        return f"end_tag {bytes_of(values[0])}"
    if kind == "doctype":
        name, public_id, system_id, force_quirks = values
        return (f"Doctype (record {{ name = {optional(name)}; public_id = {optional(public_id)}; "
                f"system_id = {optional(system_id)}; force_quirks = {str(force_quirks).lower()} }})")
    if kind == "null":
        return "Null"
    return {"text": "Text", "comment": "Comment", "instruction": "Instruction"}[kind] + f" {bytes_of(values[0])}"


def case_of(case):
    """A case as a term."""
    messages = list_of([message_of(*it) for it in case["messages"]] + ["End"])
    scripting = str(case["scripting"]).lower()
    if "limits" in case:
        depth, formatting = ("None" if it is None else f"(Some {it})" for it in case["limits"])
        return f"limited {depth} {formatting} {messages}"
    if case["context"] is None:
        return f"document {scripting} {messages}"
    namespace, name, attributes = case["context"]
    namespace = {"html": "Html", "math": "MathMl", "svg": "Svg"}[namespace]
    return f"fragment {scripting} {namespace} {bytes_of(name)} {attributes_of(attributes)} {messages}"


def definitions():
    """The definitions that these computations open, by module."""
    files = [*sorted((CRATE / "specs").glob("*.antt")), CRATE / "proofs" / "Shown.antt"]
    found = {f"{it.parent.name}.{it.stem}": re.findall(r"^ *unfoldable pub (\w+)", it.read_text(encoding="utf-8"), re.M) for it in files}
    return {module: sorted(names) for module, names in found.items() if names}


def group_of(number, cases, opened):
    """Some cases, and the proof that each has its tree."""
    rows = "\n".join(f"    -- {it['row']}: {json.dumps(it['page'])}\n"
                     f"    {'∷ ' if at else ''}({case_of(it)})" for at, it in enumerate(cases))
    trees = "\n".join(f"    {'∷ ' if at else ''}{bytes_of(lines_of(it['tree']))}" for at, it in enumerate(cases))
    return f"""
rows_{number} : List Case
rows_{number} =
{rows}
    ∷ []

trees_{number} : List (List ℕ)
trees_{number} =
{trees}
    ∷ []

built_{number} : map shown_of rows_{number} ≡ trees_{number}
unfolding rows_{number} trees_{number} {opened}
built_{number} = refl
"""


def written():
    cases = [json.loads(line) for line in CASES.read_text(encoding="utf-8").splitlines()]
    groups = [cases[at : at + AT_ONCE] for at in range(0, len(cases), AT_ONCE)]
    opened = definitions()
    imports = "".join(f"use Rattle.tree_construction.{module}.{{{', '.join(names)}}}\n" for module, names in opened.items())
    names = " ".join(name for names in opened.values() for name in names)
    return HEAD + imports + "".join(group_of(number, group, names) for number, group in enumerate(groups))


def main():
    if sys.argv[1:] not in ([], ["--check"]):
        sys.exit(__doc__)
    text = written()
    if sys.argv[1:]:
        return 0 if FILE.exists() and FILE.read_text(encoding="utf-8") == text else f"{FILE.relative_to(TOP)} is not what {CASES.name} makes"
    FILE.write_text(text, encoding="utf-8")
    return 0


if __name__ == "__main__":
    sys.exit(main())
