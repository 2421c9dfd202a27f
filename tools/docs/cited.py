#!/usr/bin/env python3
"""Checks what the documents cite against the code: paths, functions, clauses and definitions.

    python3 tools/docs/cited.py

Prints a line for each citation that finds nothing, and ends with status 1 if there is one. It reads the pages at
the top except the changelog, those of docs/ and those of the crates. Checked are:

- each path, each link to a file, and each path of tools/ in a command;
- each name in code type that can only be one of the code: a path with `::`, a name with `_`, a name in CamelCase;
- in a table with a column "Contract", or with "Call" and "Clause", each name there: a clause is one of a function,
  or a field of a record, that the row names;
- each line of Rust in a fenced example, except comments: some one file of a crate has all of them (those of
  docs/use are run instead, by bindings/check.sh, except the page on Rattle).
"""

import pathlib
import re
import sys

TOP = pathlib.Path(__file__).resolve().parents[2]
CRATES = TOP / "crates"
WORD = r"[A-Za-z_]\w*(?:-\w+)*"
NAME = rf"{WORD}(?:::{WORD})*"
FUNCTION = re.compile(rf"\bfn\s+({WORD})")
CLAUSE = re.compile(rf"\b(?:ensures|requires)\s+({WORD})\s*\{{")
RECORD = re.compile(rf"^ *(?:pub )?record ({WORD})[^\n]*(?:\n(?! *pub record)[ \t]+[^\n]*)*", re.M)
FIELD = re.compile(rf"^\s+(?:pub )?({WORD}) :", re.M)
ITEM = r"\b(?:fn|struct|enum|trait|type|const|mod|ghost|as)\s+"
VARIANT = r"^    (?=[A-Z][\w()]*,$)"
MARKS = r"(?:(?:pub|unfoldable|abbrev|opaque|data|mod|module)\s+)*"
DEFINED = {
    ".rt": re.compile(rf"(?:{ITEM}|{VARIANT})({WORD})", re.M),
    ".antt": re.compile(rf"^\s*{MARKS}({WORD})(?= :| [({{][^=\n]* :|$)", re.M),
}
CODE = re.compile(r"`([^`\n]+)`")
LINK = re.compile(r"\]\(([^)#\s]+)")
PATH = re.compile(r"[\w.-]+(?:/[\w.-]+)*/?")
ENDINGS = (".md", ".antt", ".rt", ".py", ".txt", ".rs")
PLACES = {"NAME", "CRATE", "MODULE", "FUNCTION", "FILE"}
# Names of html5ever, of the toolchain and of examples, which the documents speak of too.
FOREIGN = {
    *"NAMED_ENTITIES C1_REPLACEMENTS RT_JOBS MySink".split(),
    *"Eq Ord Hash matches_eq respects_eq total unreachable".split(),
}


class Code:
    """What the code has: its words, clauses of functions, fields of records."""

    def __init__(self):
        self.words = set(FOREIGN)
        self.defined = set(FOREIGN)
        self.clauses = {}
        self.fields = {}
        self.sources = []
        for file in sorted(CRATES.glob("*/*/**/*")):
            if file.suffix in (".rt", ".antt", ".edit") and "out" not in file.relative_to(CRATES).parts:
                self.read(file)
        others = [*TOP.glob("tools/**/*.py"), *TOP.glob("bench/*.py"), *TOP.glob("bindings/rust/src/*.rs")]
        for file in [TOP / "tools/edits", *others, TOP / "crates.txt"]:
            self.words.update(words_of(file.read_text()))

    def read(self, file):
        crate, part, *inside = file.relative_to(CRATES).with_suffix("").parts
        text = file.read_text()
        self.words.update(words_of(text), [crate, *inside])
        is_test = part == "src" and ("#[test]" in text or "impl Abort" in text)
        if file.suffix in DEFINED and not is_test:
            self.defined.update([crate, *inside, *DEFINED[file.suffix].findall(RECORD.sub(r"\1 :", text))])
        for record in RECORD.finditer(text):
            self.fields.setdefault(record[1], set()).update(FIELD.findall(record[0]))
        if part == "src":
            self.sources.append({it.strip() for it in text.splitlines()})
            if not is_test:
                self.read_functions(text)

    def read_functions(self, text):
        """Takes in the named clauses that stand after each `fn`, up to the next."""
        heads = list(FUNCTION.finditer(text))
        ends = [head.start() for head in heads[1:]] + [len(text)]
        for head, end in zip(heads, ends):
            self.clauses.setdefault(head[1], set()).update(CLAUSE.findall(text, head.end(), end))

    def lacks(self, name):
        """The parts of a path of names that the code doesn't have."""
        return [it for it in name.split("::") if it not in self.words]

    def parts_of(self, names):
        """The clauses of the functions, and the fields of the records, that these names can be."""
        found = set()
        for name in names:
            last = name.rpartition("::")[2]
            found |= self.clauses.get(last, set()) | self.fields.get(last, set())
        return found


def words_of(text):
    """The names in a text: those with hyphens whole, and in their parts."""
    return {*re.findall(r"[A-Za-z_]\w*", text), *re.findall(WORD, text)}


def names_in(text):
    """The names in code type, except paths and texts that are tokenized."""
    codes = [it for it in CODE.findall(text) if not it.endswith((*ENDINGS, "/")) and not re.match(r"<|\w+=", it)]
    return [name for code in codes for name in re.findall(NAME, re.sub(r'"[^"]*"', "", code))]


def is_name_of_code(name):
    """Whether a word in code type can only be a name of the code."""
    return "::" in name or "_" in name.strip("_") or bool(re.fullmatch(r"(?:[A-Z][a-z0-9]+){2,}", name))


def paths_in(line):
    """The paths that a line cites."""
    codes = [(it, code) for code in CODE.findall(line) for it in code.split() if PATH.fullmatch(it)]
    cited = [it for it, code in codes if it.startswith("tools/") or it == code and it.endswith((*ENDINGS, "/"))]
    paths = LINK.findall(line) + cited
    return [it for it in paths if not {part.partition(".")[0] for part in it.split("/")} & PLACES and "://" not in it]


def check_paths(page, line):
    """Each path leads to a file: from the page, the top, crates/, a crate, or the folder of the path before it."""
    rooms = [page.parent, TOP, CRATES, *CRATES.glob("*"), *CRATES.glob("*/src")]
    folder = None
    for path in paths_in(line):
        # (what the toolchain makes is in no clone)
        if "out" in path.split("/"):
            continue
        found = [room / path for room in [*rooms, *([folder] if folder else [])] if (room / path).exists()]
        if not found:
            yield f"{path}: no such file"
        elif "/" in path:
            folder = found[0].parent


def check_names(text, code):
    for name in names_in(text):
        if is_name_of_code(name) and code.lacks(name):
            yield f"`{name}`: the code has no {' and no '.join(code.lacks(name))}"


def check_contract(cells, code):
    """Each name is one that the code defines, or a clause or field of one that is named beside it."""
    names = names_in(" ".join(cells))
    parts = code.parts_of(names)
    for name in names:
        if name not in parts and any(it not in code.defined for it in name.split("::")):
            yield f"`{name}`: the code defines no such name, and nothing named beside it has such a clause"


def cells_of(line):
    return [it.strip() for it in f" {line.strip()[1:-1]} ".split(" | ")] if line.startswith("|") else []


def contract_of(columns, cells, last):
    """The cells of a row that name a contract; a call that is left out is that of the row before."""
    row = dict(zip(columns, cells))
    call = row.get("Call") or last
    return ([call, row["Clause"]] if "Clause" in row else [row.get("Contract", "")]), call


def check_page(page, code):
    """Yields the number of a line and what it cites in vain."""
    columns, call, in_code = [], "", False
    for number, line in enumerate(page.read_text().splitlines(), 1):
        in_code ^= line.startswith("```")
        cells = cells_of(line)
        columns = (columns or cells) if cells else []
        if in_code or line.startswith("    "):
            continue
        # (what html5ever has stands in the first column of the page on differences)
        text = " | ".join(cells[1:]) if page.name == "DIFFERENCES.md" and cells else line
        found = [*check_paths(page, line), *check_names(text, code)]
        if cells != columns:
            contract, call = contract_of(columns, cells, call)
            found += check_contract(contract, code)
        yield from ((number, it) for it in found)


def check_examples(page, code):
    """Yields the place of an example of Rust of which no file has every line."""
    text = page.read_text()
    for example in re.finditer(r"^```rust\n(.*?)^```", text, re.M | re.S):
        lines = {it.strip() for it in example[1].splitlines() if not re.match(r"\s*// ", it)} - {""}
        if not any(lines <= it for it in code.sources):
            yield text[: example.start()].count("\n") + 1, "no file has every line of this example"


def checked(page, code):
    is_run = page.parent == TOP / "docs" / "use" and page.name != "rattle.md"
    return [*check_page(page, code), *([] if is_run else check_examples(page, code))]


def main():
    code = Code()
    # The changelog speaks of names that were.
    pages = [*sorted(it for it in TOP.glob("*.md") if it.name != "CHANGELOG.md"), *sorted(TOP.glob("docs/**/*.md")), *sorted(CRATES.glob("*/*.md"))]
    pages += sorted(TOP.glob("bench/*.md"))
    faults = [f"{page.relative_to(TOP)}:{number}: {it}" for page in pages for number, it in checked(page, code)]
    print("".join(f"{it}\n" for it in faults), end="")
    print(f"tools/docs/cited.py: {len(pages)} pages, {len(faults)} citations that find nothing")
    return 1 if faults else 0


if __name__ == "__main__":
    sys.exit(main())
