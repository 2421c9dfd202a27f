"""Makes random cases: words of the command line and a text in which all kinds of items are likely."""

from __future__ import annotations

import functools
import html.entities
import random

from gen import entities

from .case import Case

# the first and last of each kind of bad character, and characters beside them
BAD = "\x01\x08\x0b\x0e\x1f\x7f\x80\x9f\ufdd0\ufdef\ufffe\uffff\U0001fffe\U0010ffff"
BESIDE_BAD = "\xa0\ufdcf\ufdf0\ufffd\U0001fffd"
# a byte order mark, letters that other foldings than the ASCII one make s, k and i, and a character beyond the BMP
OTHER = "\ufeff\u017f\u212a\u0130é😀"
BREAKS = ("\n", "\r", "\r\n", "\r\r\n", "\n\r")
MARKUP = "<>/!?&;#=\"'-[]`"
RAW_NAMES = ("title", "textarea", "style", "xmp", "iframe", "noembed", "noframes", "script")
NAMES = ("a", "p", "x1", "meta", "plaintext", "doctype", "svg") + RAW_NAMES
# numbers beside the bounds that the rules of references have
NUMBERS = (0, 1, 8, 9, 10, 11, 12, 13, 14, 31, 32, 38, 60, 65, 127, 128, 129, 130, 141, 159, 160)
NUMBERS += (0xD7FF, 0xD800, 0xDFFF, 0xE000, 0xFDCF, 0xFDD0, 0xFDEF, 0xFDF0, 0xFFFD, 0xFFFE, 0xFFFF, 0x10000, 0x1FFFE)
NUMBERS += (0x10FFFF, 0x110000, 2**32, 2**32 + 65, 10**20)
STATES = ("plaintext", "rcdata", "rawtext", "script", "cdata")
LAST_NAMES = ("title", "script", "style", "a", "Title", "", "x1")
FEW_NAMES = ("amp", "amp;", "gt", "lt;", "nGt;", "not", "notin;", "quot;")
BAD_ENTRIES = ("=41", "a;;=0", "a=0", "b=41+0", ";=41", "é=41", "a b=41")
CUTS = ("1", "2", "3", "7")


@functools.lru_cache
def standard_table() -> str:
    return entities.standard_list()


def case_of(seed: str, number: int) -> Case:
    """The case of that number."""
    return Maker(random.Random(f"{seed} {number}")).case()


def peer_case_of(seed: str, number: int) -> Case:
    """The case of that number for other tokenizers: from Data, by the standard's table, and in no foreign content."""
    return Maker(random.Random(f"{seed} {number}")).peer_case()


class Maker:
    """Makes a case by random choices."""

    def __init__(self, choices: random.Random):
        self.choices = choices
        self.names: list[str] = []

    # ---- choices

    def one_in(self, n: int) -> bool:
        return self.choices.randrange(n) == 0

    def pick(self, several):
        return self.choices.choice(several)

    def one_of(self, *several) -> str:
        """One of some texts, or what one of some makers makes."""
        chosen = self.pick(several)
        return chosen() if callable(chosen) else chosen

    def some(self, most: int, *several) -> str:
        """The same, some times."""
        return "".join(self.one_of(*several) for _ in range(self.choices.randrange(most + 1)))

    def beginning(self, text: str) -> str:
        return text[: self.choices.randrange(len(text) + 1)]

    def any_case(self, word: str) -> str:
        """The word as it stands, in capitals, or mixed; now and then cut off or changed."""
        mixed = "".join(self.pick((c, c.upper())) for c in word)
        word = self.one_of(word, word, word.upper(), mixed)
        if self.one_in(12):
            word = self.beginning(word)
        return word.replace("s", "\u017f", 1) if self.one_in(40) else word

    # ---- cases

    def case(self) -> Case:
        words: list[tuple[str, ...]] = []
        state = self.pick(STATES) if self.one_in(3) else "data"
        if state != "data" or self.one_in(20):
            words.append(("--state", state))
        last = self.pick(LAST_NAMES) if self.one_in(2) else None
        if last is not None:
            words.append(("--last", last))
        words += [(flag,) for flag, n in (("--exact", 2), ("--foreign", 3), ("--keep-bom", 4)) if self.one_in(n)]
        words += self.table_words()
        self.choices.shuffle(words)
        return Case(tuple(words), self.text(state, last or "title"))

    def peer_case(self) -> Case:
        self.names = sorted(html.entities.html5)
        return Case((("--table", standard_table()),), self.text("data", "title"))

    # ---- tables

    def table_words(self) -> list[tuple[str, ...]]:
        """A table of one kind, and the names that texts use with it."""
        self.names = list(FEW_NAMES)
        kind = self.pick(("few", "few", "few", "none", "standard", "made"))
        if kind == "few":
            return []
        if kind == "none":
            return [("--table", "")]
        if kind == "standard":
            self.names = self.choices.sample(sorted(html.entities.html5), 8) + ["not", "notin;", "amp"]
            return [("--table", standard_table())]
        entries = self.entries()
        if self.one_in(12):
            entries.append(self.pick((*BAD_ENTRIES, entries[0], entries[0] + "+0")))
        return [("--table", ",".join(entries))]

    def entries(self) -> list[str]:
        """Entries of a small table, whose names begin one another."""
        made = [self.some(3, *"abA1") + self.one_of(*"ab1") + self.one_of("", ";") for _ in range(self.pick((1, 3, 8)))]
        self.names = sorted(set(made))
        self.choices.shuffle(self.names)
        return [f"{name}={self.character()}" + self.one_of("", "", "+" + self.character()) for name in self.names]

    def character(self) -> str:
        """The hexadecimal digits of a character."""
        return format(ord(self.pick("ABé😀<&\n\r\"'>\x01\ufffe\ufeff;#-=")), self.pick("xX"))

    # ---- texts

    def text(self, state: str, last: str) -> str:
        """A text: what belongs to the state, and parts, now and then changed at some places, or cut off at the end or
        the start. Or one unfinished part."""
        text = "\ufeff" * self.one_in(10) + self.of_state(state, last)
        if self.one_in(4):
            return text + self.unfinished()
        text += "".join(self.part() for _ in range(self.choices.randint(1, self.pick((1, 2, 4, 8)))))
        for _ in range(self.pick((0, 0, 0, 1, 2, 4))):
            text = self.changed(text)
        if self.one_in(3):
            text = self.one_of(text + self.unfinished(), self.beginning(text))
        return text[len(self.beginning(text)) :] if self.one_in(10) else text

    def of_state(self, state: str, last: str) -> str:
        """What is read in a state before Data is: now and then without what ends that."""
        if state == "cdata":
            return self.some(6, self.cdata_piece) + self.one_of("", "]]>")
        if state == "script":
            return self.one_of(self.loose_script, self.escaped_script) + self.one_of("", self.raw_end(last))
        return "" if state == "data" else self.raw_content(last) + self.one_of("", self.raw_end(last))

    def changed(self, text: str) -> str:
        """The text with a character more, less, in another case, or another."""
        at = self.choices.randrange(len(text) + 1)
        c = text[at : at + 1]
        middle = self.one_of(self.odd, self.markup, self.markup, c.swapcase(), "", c * 2)
        return text[:at] + middle + text[at + self.pick((0, 1)) :]

    def part(self) -> str:
        tags = (self.tag, self.tag, self.tag, self.reference, self.reference)
        declarations = (self.comment, self.comment, self.doctype, self.doctype, self.cdata, self.instruction)
        return self.one_of(*tags, *declarations, self.raw_text, self.script, self.plain, self.plain, self.noise)

    def unfinished(self) -> str:
        """A prefix of a part that has an end."""
        doctypes = (self.doctype, self.doctype, self.doctype)
        part = self.one_of(self.tag, self.comment, self.comment, *doctypes, self.cdata, self.instruction, self.script)
        return self.beginning(part) if self.one_in(2) else part[: -self.pick((1, 1, 1, 2, 3))]

    def odd(self) -> str:
        """A character that is seldom in texts, or a line break."""
        nul, bad = ("\0", "\0"), (self.bad, self.bad)
        return self.one_of(*nul, *bad, self.pick(BESIDE_BAD), self.pick(OTHER), self.pick(BREAKS), "\t", "\f")

    def bad(self) -> str:
        return self.pick(BAD)

    def markup(self) -> str:
        return self.pick(MARKUP)

    def letter(self) -> str:
        return self.pick("abcdefxyzABXZ019")

    def noise(self) -> str:
        return self.some(8, self.markup, self.markup, self.letter, self.odd, " ")

    def plain(self) -> str:
        return self.some(6, self.letter, self.letter, " ", self.odd)

    def space(self) -> str:
        return self.some(2, " ", " ", "\t", "\f", *BREAKS)

    # ---- tags

    def tag(self) -> str:
        return self.one_of("<", "<", "</") + self.name() + self.some(3, self.attribute) + self.tag_end()

    def tag_end(self) -> str:
        return self.space() + self.one_of("", "", "/", "/ ", "//") + self.one_of(">", ">", ">", ">", "")

    def name(self) -> str:
        name = self.any_case(self.pick(NAMES))
        return name + self.one_of(self.odd, *"\"'<=-é", self.letter) if self.one_in(8) else name

    def attribute(self) -> str:
        before = self.one_of(" ", " ", " ", "/", "", "\n", "\r\n", "  ", " / ", "\f")
        value = self.space() + "=" + self.space() + self.value() if self.choices.randrange(4) else ""
        return before + self.attribute_name() + value

    def attribute_name(self) -> str:
        name = self.one_of("a", "a", "A", "b", "charset", "CHARSET", "é")
        if self.one_in(5):
            name += self.one_of(self.odd, *"\"'<-é", self.letter)
        return self.one_of(self.odd, "=", "==", '"', "'", "<", "&") + name if self.one_in(6) else name

    def value(self) -> str:
        quote = self.one_of('"', "'", "")
        return quote + self.some(4, self.value_piece) + (quote if self.choices.randrange(15) else "")

    def value_piece(self) -> str:
        references = (self.reference, self.reference, self.unended_name)
        return self.one_of(self.letter, self.letter, *references, self.odd, self.pick("\"'<=`/>- "))

    # ---- references

    def reference(self) -> str:
        made = self.one_of(self.named, self.named, self.number, self.number, self.loose_reference)
        return "&" + made + self.one_of(";", ";", "", "", "=", "a", "1", " ", "<", "&", ">", self.odd, "\n")

    def named(self) -> str:
        name = self.pick(self.names)
        if self.one_in(3):
            name = self.beginning(name)
        name = name.rstrip(";") if self.one_in(3) else name
        return name + self.some(2, self.letter) if self.one_in(3) else name

    def unended_name(self) -> str:
        """A reference by a name without a semicolon, where the table has one, before what may go on with it."""
        unended = [name for name in self.names if not name.endswith(";")]
        return "&" + self.pick(unended or ["amp"]) + self.one_of("=", "=", self.letter, "", " ", "-", ";")

    def number(self) -> str:
        number = self.pick(NUMBERS)
        zeros = "0" * self.pick((0, 0, 1, 9))
        return self.one_of(f"#{zeros}{number}", f"#x{zeros}{number:x}", f"#X{zeros}{number:X}")

    def loose_reference(self) -> str:
        return self.one_of("", "#", "#x", "#X", "#xg", "#a", "#x;", self.some(5, self.letter), "&", "am" + self.odd())

    # ---- comments, instructions and sections

    def comment(self) -> str:
        if self.one_in(4):
            return self.bogus_comment()
        return "<!--" + self.some(6, self.comment_piece) + self.one_of("-->", "-->", "-->", "--!>", "->", ">", "")

    def comment_piece(self) -> str:
        marks = ("<!--", "<!-", "<!", "<")
        return self.one_of("-", "-", "--", "!", ">", *marks, "->", "--!", "--!-", self.letter, " ", self.odd)

    def bogus_comment(self) -> str:
        solidus = ("</", "</ ", "</!", "</?", "</\0")
        keywords = ("<!doctyp", "<!DOC", "<![CDATA", "<![cdata[")
        opening = self.one_of(*solidus, "<!", "<!-", "<!- -", "<!x", "<!\0", "<!\n", *keywords)
        return opening + self.some(4, self.letter, " ", "-", "[", self.odd) + self.one_of(">", ">", ">", "")

    def instruction(self) -> str:
        return "<?" + self.some(5, self.letter, " ", "?", "<", "&amp;", self.odd) + self.one_of("?>", ">", ">", "")

    def cdata(self) -> str:
        opening = self.one_of("<![CDATA[", "<![CDATA[", "<![CDATA[", "<![Cdata[", "<![CDATA")
        return opening + self.some(6, self.cdata_piece) + self.one_of("]]>", "]]>", "]]>", "]>", "")

    def cdata_piece(self) -> str:
        brackets = ("]", "]]", "]]]", "]\0", "]]\0>")
        return self.one_of(*brackets, ">", "<a>", "&amp;", self.letter, self.letter, " ", "\0", self.odd)

    # ---- doctypes

    def doctype(self) -> str:
        name = self.one_of("", "html", "html", "HTML", "h\0", "\0", "é", self.odd)
        start = "<!" + self.any_case("doctype") + self.space() + name + self.one_of(" ", " ", self.space)
        return start + self.after_name() + self.one_of(">", ">", ">", ">", "")

    def after_name(self) -> str:
        if self.one_in(4):
            return self.some(3, self.letter, "p", "s", "pub", "sys", " ", "\0", self.odd)
        keyword = self.any_case(self.one_of("public", "system"))
        if self.one_in(6):
            return keyword + self.space() + self.one_of("", self.letter, self.odd)
        rest = self.one_of("", "", "", "", "", "x", "\0", self.odd)
        return keyword + self.identifier() + self.one_of(self.identifier, "") + rest

    def identifier(self) -> str:
        quote = self.one_of('"', "'")
        quotes = (quote, quote, quote, quote)
        run = self.some(3, self.letter, " ", "\0", "'", '"', self.odd)
        return self.space() + self.one_of(*quotes, "") + run + self.one_of(*quotes, ">", "") + self.space()

    # ---- raw text

    def raw_text(self) -> str:
        name = self.pick(RAW_NAMES)
        return "<" + name + self.one_of("", " a=b", "/") + ">" + self.raw_content(name) + self.raw_end(name)

    def raw_content(self, name: str) -> str:
        return "".join(self.raw_piece(name) for _ in range(self.choices.randrange(9)))

    def raw_piece(self, name: str) -> str:
        if self.one_in(2):
            return self.one_of(self.reference, self.letter, " ", self.odd)
        tags = ("</" + name, "<" + self.any_case(name), "</" + self.any_case(name) + "x")
        return self.one_of(*tags, "<", "</", "<!", "<?", "&", "-", ">", "/")

    def raw_end(self, name: str) -> str:
        opening = self.one_of("", "</", "</", "</", "</")
        return opening + self.any_case(name) + self.some(1, self.attribute) + self.tag_end()

    def script(self) -> str:
        content = self.one_of(self.loose_script, self.escaped_script)
        return "<script>" + content + self.one_of("", self.raw_end("script"))

    def loose_script(self) -> str:
        return self.some(10, self.script_piece)

    def escaped_script(self) -> str:
        """Script data with what escapes it and ends that, in its order; now and then a part is missing."""
        start, end = "<" + self.any_case("script"), "</" + self.any_case("script")
        parts = ("<!--", start, self.one_of(*"> /\n"), end, ">", "-->")
        text = "".join(part + self.some(1, self.script_piece) for part in parts if not self.one_in(6))
        return self.beginning(text) + self.one_of("", "-", "--", "\0") if self.one_in(3) else text

    def script_piece(self) -> str:
        marks = ("<!--", "<!--", "<!-", "<!", "-->", "--", "-", ">", "-\0", "--\0", "\0")
        words = (self.script_word,) * 8
        return self.one_of(*marks, *words, "<", "</", "<a", "</a>", self.letter, self.odd)

    def script_word(self) -> str:
        end = self.one_of(">", " ", "/", "x", "", "\n", "\0")
        return self.one_of("<", "<", "</", "</") + self.any_case("script") + end
