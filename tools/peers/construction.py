#!/usr/bin/env python3
"""Compares trees by the definition of tree construction with those of parse5.

    python3 tools/peers/construction.py [--cases N] [--seed S]
    python3 tools/peers/construction.py --tree [--context NAME] < PAGE

Pages and fragments are random tags, texts, comments and doctypes. The tokenizer is the shipped library (dist/), which is told
what the definition asks for; the definition is run as it stands (tools/model/definitions.py). parse5 is Debian's node-parse5
(7.1.2). Left out is what that reads by an older standard: `select` and what stands in it, `search`, `keygen`, `noframes`,
processing instructions, and NUL. CDATA sections are left out too. Each tree that differs is printed, at most five. Status 0:
none does. 1: one does. 2: node or parse5 isn't there. With --tree the tree of one page is printed, or of a fragment in an
element of a name.
"""

import argparse
import json
import os
import pathlib
import random
import re
import subprocess
import sys

TOP = pathlib.Path(__file__).resolve().parent.parent.parent
sys.path[:0] = [str(TOP / "tools"), str(TOP / "bindings" / "python" / "src")]
os.environ.setdefault("FIRNUUBAL_LIB", str(TOP / "dist"))

import firnuubal  # noqa: E402: found by the lines above
from model import construction  # noqa: E402

NODE_PATH = "/usr/share/nodejs"
SHOWN = 5
LEFT_OUT = {"select", "option", "optgroup", "search", "keygen", "noframes", "plaintext"}
OTHERS = ["x", "x-y", "label", "canvas", "audio", "mi", "mo", "mtext", "annotation-xml", "mrow", "desc", "foreignobject", "g", "path",
          "lineargradient", "font", "title", "image"]
TEXTS = ["x", "y z", " ", "\n", " x", "&amp;", "\n\nx"]
ATTRIBUTES = ["", "", "", "", " class=1", " class=2 id=a", " type=hidden", " encoding=text/html", " color=x", " xlink:href=h viewbox=v"]
CONTEXTS = "div p body html head table tbody tr td caption colgroup template frameset title textarea style script ul b a form".split()


def names():
    """The names that rows know, and some others."""
    table = construction.definition().all_names()
    known = [construction.text_of(name) for row in construction.items_of(table) for name in construction.items_of(row["names"])]
    return sorted(set(known) - LEFT_OUT | set(OTHERS))


def page(draw, pool):
    """A page of few names, so that rows meet."""
    own, parts = [draw.choice(pool) for _ in range(draw.randrange(2, 8))], []
    own += draw.choice([[], ["table", "tr", "td"], ["b", "p", "a"], ["svg", "p"], ["template"], ["head", "body"]])
    for _ in range(draw.randrange(1, 25)):
        chance = draw.random()
        if chance < 0.2:
            parts.append(draw.choice(TEXTS))
        elif chance < 0.24:
            parts.append(draw.choice(["<!--c-->", "<!DOCTYPE html>", "</ x>"]))
        elif chance < 0.68:
            parts.append(f"<{draw.choice(own)}{draw.choice(ATTRIBUTES)}{draw.choice(['', '', '', '', '/'])}>")
        else:
            parts.append(f"</{draw.choice(own)}>")
    return draw.choice(["", "<!DOCTYPE html>", "<!DOCTYPE html>"]) + "".join(parts)


# ---- the definition


STATES = {"Rcdata": firnuubal.State.RCDATA, "Rawtext": firnuubal.State.RAWTEXT, "ScriptData": firnuubal.State.SCRIPT_DATA}


def state_of(request):
    """The state that a request asks for, if it asks for one."""
    if request == "ReadPlain":
        return firnuubal.State.PLAINTEXT
    return STATES[request[1]] if request[0] == "ReadRaw" else None


def message_of(token):
    """A token of the library in the words of the model, or None for one that is no message to a tree."""
    if isinstance(token, firnuubal.StartTag):
        return ["closed" if token.self_closing else "start", token.name, token.attributes]
    if isinstance(token, firnuubal.EndTag):
        return ["end", token.name]
    if isinstance(token, firnuubal.Comment):
        return ["comment", token.text]
    if isinstance(token, firnuubal.Text):
        return ["text", token.text]
    if isinstance(token, firnuubal.Doctype):
        return ["doctype", token.name, token.public_id, token.system_id, token.force_quirks]
    return None


def defined(text, context):
    """The tree by the definition. After each tag the tokenizer pauses, and is told how to read on."""
    parser = construction.Parser(context=("html", context, []) if context else None)
    state = state_of(parser.start_request()) or firnuubal.State.DATA
    with firnuubal.Tokenizer(replies=firnuubal.Replies.CALLER, state=state, keep_bom=True, foreign=parser.is_foreign()) as tokenizer:
        fed = tokenizer.feed(text)
        while True:
            take_all(parser, tokenizer)
            if fed is not firnuubal.Fed.TAG:
                break
            tokenizer.set_foreign(parser.is_foreign())
            fed = tokenizer.feed("")
        tokenizer.end()
        take_all(parser, tokenizer)
    parser.end()
    return parser.tree()


def take_all(parser, tokenizer):
    for token in tokenizer.tokens():
        message = message_of(token)
        if message:
            asked = state_of(parser.take(*message))
            if asked is not None:
                tokenizer.reply(asked)


# ---- parse5


def parsed(pages):
    """The trees of parse5."""
    lines = "".join(json.dumps(it) + "\n" for it in pages)
    script = pathlib.Path(__file__).with_suffix(".cjs")
    found = subprocess.run(["node", str(script)], input=lines, capture_output=True, text=True, check=True,
                           env={**os.environ, "NODE_PATH": NODE_PATH}).stdout
    return [json.loads(line) for line in found.splitlines()]


def compare(arguments):
    draw, pool = random.Random(arguments.seed), names()
    pages = [(page(draw, pool), draw.choice(CONTEXTS) if draw.random() < 0.3 else None) for _ in range(arguments.cases)]
    differing = 0
    for (text, context), theirs in zip(pages, parsed(pages)):
        ours = defined(text, context)
        if ours != theirs:
            differing += 1
            if differing <= SHOWN:
                print(f"{text!r} in {context}\n{ours}\n-- parse5:\n{theirs}\n")
    print(f"tools/peers/construction.py: {len(pages)} pages, {differing} otherwise")
    return min(differing, 1)


def main():
    parser = argparse.ArgumentParser(description=__doc__, formatter_class=argparse.RawDescriptionHelpFormatter)
    parser.add_argument("--cases", type=int, default=2000)
    parser.add_argument("--seed", default="1")
    parser.add_argument("--tree", action="store_true")
    parser.add_argument("--context")
    arguments = parser.parse_args()
    if arguments.tree:
        print(construction.with_deep_stack(lambda: defined(sys.stdin.read(), arguments.context)))
        return 0
    if not pathlib.Path(NODE_PATH, "parse5").exists():
        print("tools/peers/construction.py: Debian's node-parse5 is not here")
        return 2
    return construction.with_deep_stack(lambda: compare(arguments))


if __name__ == "__main__":
    sys.exit(main())
