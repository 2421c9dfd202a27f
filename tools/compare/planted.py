"""Wrong changes that are planted in copies of the model: the comparison has to find each."""

from __future__ import annotations

import importlib
import pathlib
import shutil
import sys
import tempfile
from dataclasses import dataclass

MODEL = pathlib.Path(__file__).resolve().parents[1] / "model"


@dataclass(frozen=True)
class Change:
    """A wrong change: what it says, the module, and the text that it replaces there, which stands there once."""

    name: str
    module: str
    right: str
    wrong: str


BAD_CHARACTER = '''        if reading.exact and is_bad_character(c):
            yield Event(Error(f"Bad character {c}"), line, place, place, place + 1)
'''
PLACE = "        yield from (Event(token, line, place, *item) for token, *item in told_at.get(place, []))\n"

PROGRAM_CHANGES = (
    Change("a CR LF is two line breaks", "reading", '.replace("\\r\\n", "\\n").replace', ".replace"),
    Change("a byte order mark is dropped with --keep-bom, too", "reading", " and not keep_bom", ""),
    Change("U+FDEF is no bad character", "characters", "0xFDEF", "0xFDEE"),
    Change("the error of a bad character comes last", "items", BAD_CHARACTER + PLACE, PLACE + BAD_CHARACTER),
    Change("of attributes of one name the last stays", "tag", "self.attributes[:n]", "self.attributes[n + 1 :]"),
    Change("after = no line break is white space", "tag", '=[\\t\\n\\f ]*"', '=[\\t\\f ]*"'),
    Change("a value has names without a semicolon before =", "reference", 'after == "=" or ', ""),
    Change("a reference takes the shortest name", "reference", "range(len(held), 0, -1)", "range(1, len(held) + 1)"),
    Change("&#x80; is the character U+0080", "reference", "range(0x80, 0xA0)", "range(0x180, 0x1A0)"),
    Change("an error shows all digits of a number", "reference", "number % 2**32", "number"),
    Change("--!> ends no comment", "comment", '"--!?>"', '"-->"'),
    Change("a <!-- in a comment is no error", "comment", 'before.endswith("<!--")', "False"),
    Change("a rest after the identifier of the system brings quirks", "doctype", "quirks=False", "quirks=True"),
    Change("pUblic is no keyword", "doctype", "keyword = lower_case(", "keyword = str("),
    Change("a CDATA section ends at ]>", "cdata", 'reading.find("]]>", start)', 'reading.find("]>", start)'),
    Change("> after one dash ends escaped script data", "raw_text", "mode.dashes == 2", "mode.dashes >= 1"),
    Change("<SCRIPT in capitals is no switch", "raw_text", 'lower_case(letters) == "script"', 'letters == "script"'),
    Change("</titles> ends a title", "raw_text", " and ends_name(reading.next(place + 2 + len(letters)))", ""),
    Change("the end is no error in escaped script data", "reading", "if mode.kind in ESCAPED_KINDS:", "if False:"),
)

def in_module(module: str):
    """What makes wrong changes of a module."""
    return lambda name, right, wrong: Change(name, module, right, wrong)


checking, cleaning, places, rewriting = map(in_module, ("checking", "cleaning", "places", "rewriting"))

HAS_CONTENT = "tag.name not in VOID and not (tag.self_closing and tag.name in FOREIGN)"
END_OF_VOID = "            if tag.name not in VOID:\n                self.take_end"

CLEANING_CHANGES = (
    cleaning("a scheme is compared with its case", "lower_case(re.sub(", "str(re.sub("),
    cleaning("an address is no longer one after white space", 're.sub("[\\0- ]", "", address)', "address"),
    cleaning("a colon after a solidus is that of a scheme", '"[^/?#]*"', '"[^?#]*"'),
    cleaning("a void element hides what follows it", HAS_CONTENT, HAS_CONTENT.replace("tag.name not in VOID and ", "")),
    cleaning("<svg/> hides what follows it", HAS_CONTENT, "tag.name not in VOID"),
    cleaning("the first end tag ends what is hidden", "+= -1 if tag.is_end", "= 0 if tag.is_end"),
    cleaning("any end tag ends what is hidden", "elif tag.name == self.hidden:", "elif tag.is_end or tag.name == self.hidden:"),
    cleaning("an end tag closes one element alone", "self.opened[::-1].index(name) + 1", "1"),
    cleaning("the end closes nothing", "self.close(len(self.opened))", "self.close(0)"),
    cleaning("rel is kept in links", 'if name == "rel" and self.writes_rel(element):', "if False:"),
    cleaning("each a gets the policy's rel", 'and any(name == "href" for name, _ in attributes)', ""),
    cleaning("links get the first word of rel alone", '("rel", self.policy.rel)', '("rel", self.policy.rel.split()[0])'),
    cleaning("an image is kept without its address", "or self.policy.loses(tag)", ""),
    cleaning("an end tag of br is dropped", 'if tag.is_end and tag.name != "br":', "if tag.is_end:"),
    cleaning("an end tag of br keeps its attributes", "said = [] if tag.is_end else tag.attributes", "said = tag.attributes"),
    cleaning("end tags of void elements are kept", END_OF_VOID, END_OF_VOID.replace("tag.name not in VOID", "True")),
    cleaning("a CR is written as it is", "\\r", ""),
    cleaning("comments are shown through what hides", "is_shown = self.depth == 0", "is_shown = not isinstance(token, Tag)"),
)

AFTER_KEYWORD = ", decided=self.reading.after_longest(at, begins_keyword)"
AFTER_SEMICOLON = 'begin = item.end - reading.text.endswith(";", 0, item.end)'
NEXT = "at, before = at + size, c"
NEXT_RUN = 'run, text = "", end'
IS_MARKUP = "isinstance(event.token, MARKUP)"
ERROR_KEPT = "            continue\n        yield"

PLACES_CHANGES = (
    Change("the error of a reference stands at its &", "reference", "decided = place + 1 + found.held", "decided = place"),
    Change("that of a reference in a value does", "tag", "Error(message, at + 1 + found.held)", "Error(message, at)"),
    Change("the error of <! stands at its !", "comment", '"MarkupDeclarationOpen", decided', '"MarkupDeclarationOpen"'),
    Change("no keyword is decided at its first letter", "doctype", AFTER_KEYWORD, ""),
    Change("markup after a ; stands too early", "items", "begin = item.end", AFTER_SEMICOLON),
    places("a CR LF is one byte", NEXT, 'at, before = at + size * (before + c != "\\r\\n"), c'),
    places("an error at a CR LF has both bytes", "(at, at + size)", '(at, at + size + (c == "\\r"))'),
    places("a byte order mark is no byte", NEXT, "at, before = at + size * (not is_mark), c"),
    places("places count characters", "len(c.encode())", "1"),
    places("a character has three bytes at most", "len(c.encode())", "min(len(c.encode()), 3)"),
    places("a run begins after an error", ERROR_KEPT, "            text = end\n" + ERROR_KEPT),
    places("a NUL ends no run", NEXT_RUN, f"{NEXT_RUN} if {IS_MARKUP} else text"),
    places("a run begins where the token before it does", NEXT_RUN, 'run, text = "", begin'),
    places("markup ends before its >", "places[event.end][0]", "places[event.end][0] - 1"),
    places("what is cut off stands at the end", IS_MARKUP, IS_MARKUP + " and event.place < event.end"),
    places("an instruction stands at its >", "Comment, Instruction, Doctype)\nBYTE", "Comment, Doctype)\nBYTE"),
)

FOUND = "self.found.append("
CODES = "end-tag-without-start", "end-tag-of-void-element", "unclosed-element", "duplicate-id"

CHECKING_CHANGES = (
    *(checking(f"{code} is never said", FOUND, f'code == "{code}" or {FOUND}') for code in CODES),
    checking("a foreign element that closes itself is open", "if not closing:", "if True:"),
    checking("no start tag ends an element", "del self.opened[len(self.opened) - count :]", "pass"),
)

# of the definition of tree construction, in crates/tree_construction/specs
in_body, tables, foreign, adoption, formatting = map(in_module, ("InBody", "Tables", "ForeignContent", "Adoption", "Formatting"))

RAW_NOSCRIPT, IGNORES_NEWLINE = "then insert_with_text Rawtext tag p", "(start_block tag p) { ignores_newline = true"
FLUSHED, LATER = "flushed_fostered text (fostered (character_in_body c) p)", "removed_if_open e.node (record later"
IS_FOREIGN = "not (is_html (adjusted_kind p.options.context p.page.opened))"
OUTERMOST, IN_ROOT = "deeper special (Some d) = Some (suc d)", "after_body again (Comment text) p = insert_comment_in_root"
AMONG = "has_attribute_like a others && are_among more others"
IN_ORDER = "has_attribute_like a (take 1 others) && are_among more (drop 1 others)"

TREE_CHANGES = (
    in_body("a NUL in a body is kept", "if is_null c then", "if false then"),
    in_body("a template's body adds attributes to the page's", "has_body p && not (has_template p)", "has_body p"),
    in_body("a button ends no button", "if in_scope (has_kind is_button) p then", "if false then"),
    in_body("an anchor stays open", LATER, LATER.replace("removed_if_open e.node ", "")),
    in_body("a nobr ends no nobr", "if in_scope (has_kind is_no_break) p then", "if false then"),
    in_body("a table ends a paragraph with quirks, too", "if is_quirks p.quirks_mode then", "if false then"),
    in_body("a heading stands in a heading", "if is_current is_heading p then", "if false then"),
    in_body("an item ends the one around its list", "if ends_item_search e.kind then", "if false then"),
    in_body("a hidden input forbids a frameset", "if is_hidden tag then later", "if false then later"),
    in_body("a line feed after a pre is kept", IGNORES_NEWLINE, IGNORES_NEWLINE.replace("true", "false")),
    in_body("a noscript is raw text without scripting", f"if p.options.scripting {RAW_NOSCRIPT}", f"if true {RAW_NOSCRIPT}"),
    tables("text in a table stays there", FLUSHED, "flushed_fostered text (character_in_body c p)"),
    tables("white space in a table is fostered", "if is_all_space p.pending then", "if false then"),
    tables("a caption sets no marker", "insert tag (with_marker (to_table p))", "insert tag (to_table p)"),
    foreign("a NUL in foreign content is dropped", "insert_text replacement (unexpected p)", "unexpected p"),
    foreign("a font with a face stays foreign", 'has_attribute (codes "face") tag.attributes || ', ""),
    foreign("end tags are compared in their case", "bytes_eq (map to_ascii_lowercase e.name) name", "bytes_eq e.name name"),
    adoption("the innermost block is adopted", OUTERMOST, OUTERMOST.replace("= ", "= if special then Some 0 else ")),
    formatting("four alike elements stay listed", "if nat_le 3 (count_alike", "if nat_le 4 (count_alike"),
    formatting("attributes in another order are others", AMONG, IN_ORDER),
    formatting("formatting elements have no limit", "if nat_lt limit (count_after_marker list) then", "if false then"),
    Change("depth has no limit", "Parser", "= nat_lt (limit + extra) (length opened)", "= false"),
    Change("a section is read in HTML", "Construction", IS_FOREIGN, "true"),
    Change("a comment after the body stands in it", "AfterBody", IN_ROOT, IN_ROOT.replace("_in_root", "")),
)

STEP = "depth += 1 if is_start else -1"

REWRITING_CHANGES = (
    rewriting("a quote is not escaped", """'"': "&#34;", """, ""),
    rewriting("each base counts", "found, self.base = True", "found, self.base = False"),
    rewriting("no base counts", "urllib.parse.urljoin(self.base, href)", "self.base"),
    rewriting("what is dropped ends at the first end tag", STEP, STEP.replace("1 if", "0 if")),
    rewriting("rules come before addresses", "steps + own", "own + steps"),
    rewriting("an empty address is resolved", "if self.base and address:", "if self.base and address is not None:"),
    rewriting("a value that is there is a change", "if dict(attributes).get(attribute) == value:", "if False:"),
    rewriting("noopener may be a part of a word", '(rel or "").split()', '(rel or "")'),
)


def load(change: Change, folder: str, number: int, name: str):
    """The module of this name of a copy of the model with the change."""
    package = pathlib.Path(folder) / f"{pathlib.Path(folder).name}_{number}"
    shutil.copytree(MODEL, package, ignore=shutil.ignore_patterns("__pycache__"))
    module = package / f"{change.module}.py"
    source = module.read_text()
    if source.count(change.right) != 1:
        sys.exit(f"model/{module.name}: {change.right!r} stands there {source.count(change.right)} times, and not once")
    module.write_text(source.replace(change.right, change.wrong))
    importlib.invalidate_caches()
    return importlib.import_module(f"{package.name}.{name}")


def load_all(changes: tuple[Change, ...], name: str) -> list:
    """The changes, each with the module of this name of its copy."""
    with tempfile.TemporaryDirectory() as folder:
        sys.path.insert(0, folder)
        loaded = [(change, load(change, folder, number, name)) for number, change in enumerate(changes)]
        sys.path.remove(folder)
    for _, module in loaded:
        # A copy reads the repository's files, too.
        module.TOP = MODEL.parents[1]
    return loaded
