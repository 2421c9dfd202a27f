"""Compares with the tokenizers of Debian's html5lib (package python3-html5lib, 1.1) and parse5 (node-parse5, 7.1.2) alone.

All speak of tags with their attributes, of text, comments and doctypes. This is left out of both:

- errors and lines;
- texts with `<?`: they read a bogus comment there, as the standard does, and html5tok a processing instruction
  (docs/DIFFERENCES.md);
- CDATA sections: they ask their trees whether content is foreign. Here there is no tree, and html5tok runs without
  --foreign.

Of html5lib also texts with a NUL directly after `<!--` or `<!---`: it goes on there as at the comment's start, so that
a `>` ends the comment, which by the standard doesn't.

This is made the same:

- a NUL in Data is text to them, and a token of its own to html5tok: it counts as text;
- a doctype without a name has an empty one in html5lib: it counts as none;
- an end tag of html5lib has an attribute of each name that is written: the first of a name counts;
- a byte order mark at the start is dropped by html5lib only where it decodes bytes: the text that it is given has none;
- they leave it to their trees after which start tags raw or plain text stands: these are those of html5tok's sink.
"""

from __future__ import annotations

import json
import os
import pathlib
import re
import shutil
import subprocess
import sys

from cases.case import Case, Ended
from cases.maker import standard_table

from .running import SKIPPED

DEBIAN = "/usr/lib/python3/dist-packages"
NODE_PATH = "/usr/share/nodejs"
INSTRUCTION = "<?"
NOT_COMPARED = re.compile("<\\?|<!---?\0")
STATES = {"title": "rcdataState", "textarea": "rcdataState", "script": "scriptDataState", "plaintext": "plaintextState"}
STATES.update(dict.fromkeys(("style", "xmp", "iframe", "noembed", "noframes"), "rawtextState"))
QUOTED = re.compile(r'"((?:[^"\\]|\\.)*)"')
ESCAPE = re.compile(r"\\(?:u\{([0-9a-f]+)\}|(.))")


def find_html5lib():
    """html5lib, from Debian's folder where the running Python doesn't have it."""
    try:
        import html5lib._tokenizer
    except ImportError:
        sys.path.append(DEBIAN)
        try:
            import html5lib._tokenizer
        except ImportError:
            print("html5lib is not installed: apt-get install -y python3-html5lib", file=sys.stderr)
            sys.exit(2)
    return html5lib


def joined(events: list[tuple]) -> list[tuple]:
    """The events, where adjacent texts are one."""
    out: list[tuple] = []
    for event in events:
        if event[0] == "text" and out and out[-1][0] == "text":
            out[-1] = ("text", out[-1][1] + event[1])
        else:
            out.append(event)
    return out


# ---- the lines of the program


def meant(quoted: str) -> str:
    return ESCAPE.sub(lambda found: chr(int(found[1], 16)) if found[1] else {"n": "\n"}.get(found[2], found[2]), quoted)


def event_of_line(line: str) -> tuple | None:
    """What a printed line says, if it is compared."""
    word = line.split(" ", 1)[0]
    texts = [meant(text) for text in QUOTED.findall(line)]
    if word in ("text", "comment"):
        return word, texts[0]
    if word == "null":
        return "text", "\0"
    if word in ("start", "end"):
        return word, texts[0], tuple(zip(texts[1::2], texts[2::2])), " self-closing" in QUOTED.sub("", line)
    if word == "doctype":
        parts = re.findall(r'(?: (-)| ("(?:[^"\\]|\\.)*"))', line)[:3]
        return "doctype", *[None if absent else meant(text[1:-1]) for absent, text in parts], line.endswith(" quirks")
    return None


def without_mark(text: str) -> str:
    return text[text.startswith("\ufeff") :]


# ---- the tokens of html5lib


def first_of_each_name(attributes: list[list[str]]) -> tuple[tuple[str, str], ...]:
    first: dict[str, str] = {}
    for name, value in attributes:
        first.setdefault(name, value)
    return tuple(first.items())


class Peer:
    """A judge that is another tokenizer."""

    def of_program(self, ended: Ended) -> list[tuple] | Ended:
        if ended.status != 0:
            return ended
        return joined([event for line in ended.lines.split("\n") if (event := event_of_line(line)) is not None])


class Html5lib(Peer):
    """The judge that is html5lib."""

    def __init__(self):
        self.html5lib = find_html5lib()
        self.types = self.html5lib.constants.tokenTypes

    def expected(self, case: Case) -> object:
        if ("--table", standard_table()) not in case.words or NOT_COMPARED.search(case.text):
            return SKIPPED
        tokenizer = self.html5lib._tokenizer.HTMLTokenizer(without_mark(case.text))
        events = []
        for token in tokenizer:
            if token["type"] == self.types["StartTag"] and token["name"] in STATES:
                tokenizer.state = getattr(tokenizer, STATES[token["name"]])
            event = self.event_of_token(token)
            if event is not None:
                events.append(event)
        return joined(events)

    def event_of_token(self, token: dict) -> tuple | None:
        kind = token["type"]
        if kind in (self.types["Characters"], self.types["SpaceCharacters"]):
            return ("text", token["data"]) if token["data"] else None
        if kind == self.types["Comment"]:
            return "comment", token["data"]
        if kind == self.types["StartTag"]:
            return "start", token["name"], tuple(token["data"].items()), token["selfClosing"]
        if kind == self.types["EndTag"]:
            return "end", token["name"], first_of_each_name(token["data"]), token["selfClosing"]
        if kind == self.types["Doctype"]:
            return "doctype", token["name"] or None, token["publicId"], token["systemId"], not token["correct"]
        return None


# ---- the tokens of parse5


def find_parse5():
    """The words of a program that prints parse5's tokens."""
    node = shutil.which("node")
    if node is None or not os.path.isdir(f"{NODE_PATH}/parse5"):
        print("parse5 is not installed: apt-get install -y nodejs node-parse5", file=sys.stderr)
        sys.exit(2)
    return [node, pathlib.Path(__file__).with_name("parse5.cjs")]


class Parse5(Peer):
    """The judge that is parse5. It runs while it lives."""

    def __init__(self):
        found = {**os.environ, "NODE_PATH": NODE_PATH}
        self.node = subprocess.Popen(find_parse5(), stdin=subprocess.PIPE, stdout=subprocess.PIPE, text=True, env=found)

    def expected(self, case: Case) -> object:
        if ("--table", standard_table()) not in case.words or INSTRUCTION in case.text:
            return SKIPPED
        self.node.stdin.write(json.dumps(without_mark(case.text)) + "\n")
        self.node.stdin.flush()
        return joined([event_of_list(token) for token in json.loads(self.node.stdout.readline())])


def event_of_list(token: list) -> tuple:
    kind, *rest = token
    if kind in ("start", "end"):
        name, attributes, closes_itself = rest
        return kind, name, tuple(map(tuple, attributes)), closes_itself
    return kind, *rest


PEERS = {"html5lib": Html5lib, "parse5": Parse5}
