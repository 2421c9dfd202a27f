#!/usr/bin/env python3
"""Prints the tokens of a page, a line each, as html5tok does.

    tokens.py [PIECE [places]] < PAGE

The page is fed in pieces of PIECE bytes, or 4096. With `places` each line begins with the byte of the page where the token
begins, and the byte after its last; then nothing pauses. The page is UTF-8, and other bytes are refused.
"""

import pathlib
import re
import sys

sys.path.insert(0, str(pathlib.Path(__file__).resolve().parent.parent / "src"))

import firnuubal
from firnuubal import Fed

ESCAPES = {"\\": "\\\\", '"': '\\"', "\n": "\\n"}


def quoted(text):
    """A text in quotes."""
    escaped = re.sub(r'[\\"\x00-\x1f\x7f]', lambda found: ESCAPES.get(found[0]) or f"\\u{{{ord(found[0]):x}}}", text)
    return f'"{escaped}"'


def tag_line(word, tag):
    attributes = "".join(f" {quoted(name)}={quoted(value)}" for name, value in tag.attributes)
    marks = " self-closing" * tag.self_closing + " duplicates" * tag.duplicate_attributes
    return f"{word} {tag.line} {quoted(tag.name)}{attributes}{marks}"


def doctype_line(doctype):
    parts = [doctype.name, doctype.public_id, doctype.system_id]
    said = " ".join("-" if part is None else quoted(part) for part in parts)
    return f"doctype {doctype.line} {said}{' quirks' * doctype.force_quirks}"


def line_of(token):
    match token:
        case firnuubal.StartTag():
            return tag_line("start", token)
        case firnuubal.EndTag():
            return tag_line("end", token)
        case firnuubal.Text(_, text):
            return f"text {quoted(text)}"
        case firnuubal.Comment(line, text):
            return f"comment {line} {quoted(text)}"
        case firnuubal.Instruction(line, content):
            return f"pi {line} {quoted(content)}"
        case firnuubal.Doctype():
            return doctype_line(token)
        case firnuubal.NullCharacter(line):
            return f"null {line}"
        case firnuubal.ParseError(line, message):
            return f"error {line} {quoted(message)}"
        case firnuubal.End(line):
            return f"eof {line}"


def print_waiting(tokenizer, fed, out):
    """Prints the waiting tokens, and after a pause its line."""
    last = None
    for last in tokenizer.tokens():
        out.write(line_of(last) + "\n")
    if fed == Fed.SCRIPT:
        out.write("pause script\n")
    if fed == Fed.ENCODING:
        out.write(f"pause encoding {quoted(dict(reversed(last.attributes))['charset'])}\n")


def print_placed(piece, out):
    """Prints the tokens with their places."""
    for token, begin, end in firnuubal.placed_tokens(sys.stdin.buffer, piece=piece):
        out.write(f"{begin} {end} {line_of(token)}\n")


def print_tokens(piece, out):
    """Prints the tokens, and a line for each pause."""
    with firnuubal.Tokenizer(replies=firnuubal.Replies.PAUSING, encoding="utf-8", errors="strict") as tokenizer:
        while given := sys.stdin.buffer.read(piece):
            fed = tokenizer.feed(given)
            print_waiting(tokenizer, fed, out)
            while fed != Fed.DONE:
                fed = tokenizer.feed(b"")
                print_waiting(tokenizer, fed, out)
        tokenizer.end()
        print_waiting(tokenizer, Fed.DONE, out)


def main():
    piece = int(sys.argv[1]) if len(sys.argv) > 1 else 4096
    out = open(sys.stdout.fileno(), "w", encoding="utf-8", newline="\n", closefd=False)
    print_page = print_placed if sys.argv[2:] == ["places"] else print_tokens
    print_page(piece, out)
    out.flush()


if __name__ == "__main__":
    main()
