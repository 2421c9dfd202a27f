#!/usr/bin/env python3
"""Makes the manual pages of docs/man from the texts of `--help`.

    python3 tools/gen/man.py [--check]

The texts are the constants of crates/html5commands/src/help.rt, with what its macros write: the first is that of the
program, each other that of the command of its name. A page has the text's usage, its sentences and its options. With --check nothing is written,
and the status is 1 where a page differs from what would be.
"""

import pathlib
import re
import sys

TOP = pathlib.Path(__file__).resolve().parents[2]
SOURCE = TOP / "crates/html5commands/src/help.rt"
PAGES = TOP / "docs/man"
TEXT = re.compile(r"^pub const (\w+): &str = (.*?);$", re.MULTILINE | re.DOTALL)
MACRO = re.compile(r"^macro_rules! (\w+) \{\n    \((.*?)\) => \{(.*?)\n    \};\n\}$", re.MULTILINE | re.DOTALL)
CALL = re.compile(r"\s*(\w+)!\((.*)\)\s*", re.DOTALL)
WORD = re.compile(r'"((?:[^"\\]|\\.)*)"|\$\(?\$?(\w+)', re.DOTALL)
COMMAND = re.compile(r"^  (\w+) +(\S.*)$", re.MULTILINE)
OPTION = re.compile(r"^  ((?:-\w, )?--[\w-]+(?: [A-Z.=]+)?)(?: +(\S.*))?$")


def texts():
    """The name of each page, in small letters, and its text."""
    source = SOURCE.read_text(encoding="utf-8")
    macros = {name: (re.findall(r"\$(\w+):", given), body) for name, given, body in MACRO.findall(source)}
    return {name.lower(): text_of(written, macros, {}) for name, written in TEXT.findall(source)}


def text_of(written, macros, known):
    """The text that a constant is written as: texts in quotes, what is known by a name, or a call of a macro."""
    call = CALL.fullmatch(written)
    if call and call[1] in macros:
        names, body = macros[call[1]]
        given = [text_of(part, macros, known) for part in arguments(call[2])]
        return text_of(body, macros, dict(zip(names, given)))
    return "".join(known[name] if name else text.replace('\\"', '"') for text, name in WORD.findall(written))


def arguments(written):
    """The text between the commas of a call, except commas in quotes and brackets."""
    parts, depth = [""], 0
    for token in re.findall(r'"(?:[^"\\]|\\.)*"|.', written, re.DOTALL):
        depth += {"[": 1, "]": -1}.get(token, 0)
        parts = [*parts, ""] if token == "," and depth == 0 else [*parts[:-1], parts[-1] + token]
    return [part for part in parts if part.strip()]


def escaped(line):
    """A line as roff has it."""
    line = line.replace("\\", "\\e").replace("-", "\\-")
    return "\\&" + line if line.startswith((".", "'")) else line


def parts(text):
    """The usage, the lines before the options, and each option with its lines."""
    usage, *lines = text.rstrip("\n").split("\n")
    before, options = [], []
    for line in lines:
        option = OPTION.match(line)
        if option:
            options.append((option[1], [option[2]] if option[2] else []))
        elif options and line.startswith("   "):
            options[-1][1].append(line.strip())
        else:
            before.append(line)
    return usage[len("usage: ") :], before, options


def page(name, summary, text):
    """A page, as roff."""
    usage, before, options = parts(text)
    lines = [f'.TH {name.upper()} 1 "" firnuubal', ".SH NAME", f"{escaped(name)} \\- {escaped(summary)}"]
    lines += [".SH SYNOPSIS", escaped(usage), ".SH DESCRIPTION", ".nf", *map(escaped, before), ".fi", ".SH OPTIONS"]
    for option, words in options:
        lines += [".TP", f".B {escaped(option)}", ".nf", *map(escaped, words), ".fi"]
    return "\n".join(lines) + "\n"


def pages():
    """The text of each page, by its file's name."""
    found = texts()
    summaries = dict(COMMAND.findall(found["help"]))
    made = {"firnuubal.1": page("firnuubal", "what HTML pages hold, and pages cleaned", found.pop("help"))}
    for command, text in found.items():
        made[f"firnuubal-{command}.1"] = page(f"firnuubal-{command}", summaries[command], text)
    return made


def main():
    check = sys.argv[1:] == ["--check"]
    wrong = 0
    PAGES.mkdir(exist_ok=True)
    for name, text in pages().items():
        path = PAGES / name
        if not check:
            path.write_text(text, encoding="utf-8")
        elif not path.is_file() or path.read_text(encoding="utf-8") != text:
            wrong += 1
            print(f"tools/gen/man.py: docs/man/{name} is not what the help says; run python3 tools/gen/man.py")
    print(f"tools/gen/man.py: {len(pages())} pages, {wrong} otherwise")
    return min(wrong, 1)


if __name__ == "__main__":
    sys.exit(main())
