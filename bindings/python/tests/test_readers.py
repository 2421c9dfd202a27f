"""Tests of the readers of records, in Python and in C: records written by hand, random ones, pages, and what is no record."""

import gc
import pathlib
import random
import resource
import struct
import sys
import tracemalloc
import unittest

import firnuubal
from firnuubal import Comment, Doctype, End, EndTag, Instruction, NullCharacter, ParseError, Placed, StartTag, Text, Tokenizer
from firnuubal import _readers, _records
from firnuubal._library import library, taken

PAGE = pathlib.Path(__file__).resolve().parents[2] / "page.html"

# The modules that have readers: those in Python, and the extension's where it is used.
KINDS = [_records]
if firnuubal.IS_FAST:
    KINDS.append(_readers)

LINKS = {"a": "href", "img": "src"}
HIDDEN = ("script", "style")
WORDS = ["", "p", "é", "日本𝄞", "a long word that is no name of HTML" * 3, "\0", " \n"]
NAMES = ["a", "img", "script", "style", "p", "é", "x-" + "y" * 22, "x-" + "y" * 23, "n" * 300]


def number(value):
    return struct.pack("<Q", value)


def counted(text):
    return number(len(text.encode())) + text.encode()


def tag(kind, line, name, attributes=(), flags=0):
    parts = [counted(part) for pair in attributes for part in pair]
    head = bytes([kind]) + number(line) + bytes([flags]) + counted(name)
    return head + number(len(attributes)) + b"".join(parts)


def text(content):
    return b"\3" + content.encode() + b"\xff"


def with_text(kind, line, content):
    return bytes([kind]) + number(line) + counted(content)


def doctype(line, *parts, quirks=False):
    flags = sum(1 << at for at, part in enumerate(parts) if part is not None) + 8 * quirks
    return b"\6" + number(line) + bytes([flags]) + b"".join(counted(part) for part in parts if part is not None)


def random_record(choose, line):
    """The record of a random token, and the token."""
    kind = choose.choice((1, 1, 1, 2, 2, 4, 5, 6, 7, 8, 9))
    word = choose.choice(WORDS)
    if kind < 3:
        name, flags = choose.choice(NAMES), choose.randrange(4)
        pairs = tuple((choose.choice(NAMES + ["href", "src"]), choose.choice(WORDS)) for _ in range(choose.randrange(4)))
        made = (StartTag, EndTag)[kind - 1](line, name, pairs, bool(flags & 1), bool(flags & 2))
        return tag(kind, line, name, pairs, flags), made
    if kind == 6:
        parts = [choose.choice((None, word)) for _ in range(3)]
        quirks = choose.random() < 0.5
        return doctype(line, *parts, quirks=quirks), Doctype(line, *parts, quirks)
    if kind in (7, 9):
        return bytes([kind]) + number(line), {7: NullCharacter, 9: End}[kind](line)
    return with_text(kind, line, word), {4: Comment, 5: Instruction, 8: ParseError}[kind](line, word)


def random_records(choose):
    """Records as they are taken, with texts cut anywhere, and the tokens that they are of."""
    pieces, tokens, line = [b""], [], 1
    for _ in range(choose.randrange(20)):
        if choose.random() < 0.4:
            content = "".join(choose.choices(WORDS, k=choose.randrange(4)))
            record = text(content)
            tokens.append(Text(line, content))
            cuts = sorted(choose.sample(range(1, len(record) + 1), choose.randrange(min(3, len(record)))))
            for begin, end in zip([0, *cuts], [*cuts, len(record)]):
                pieces[-1] += record[begin:end]
                pieces += [b""] * (end < len(record))
        else:
            line += choose.choice((0, 0, 1, 1 << 40))
            record, token = random_record(choose, line)
            pieces[-1] += record
            tokens.append(token)
        if choose.random() < 0.2:
            pieces.append(b"")
    return pieces, tokens


def cut(choose, record):
    """A record as it is taken: one with a text that it begins with cut anywhere."""
    whole = record.index(b"\xff") + 1
    at = choose.randrange(26, whole + 1)
    return [record[:at], record[at:]]


def places(*numbers):
    return b"\n" + b"".join(number(it) for it in numbers)


def random_placed(choose):
    """Records with places as they are taken, and the tokens that they are of. An error has no text before it."""
    pieces, tokens, line, at = [], [], 1, 0
    for _ in range(choose.randrange(20)):
        record, token = random_record(choose, choose.choice((line, line + 1)))
        content = "" if type(token) is ParseError else choose.choice(WORDS)
        begin, end = at + choose.randrange(9), at + (1 << choose.randrange(40))
        run = text(content) if content else b""
        record = places(at, begin, end) + run + record
        pieces += cut(choose, record) if run and choose.random() < 0.3 else [record]
        tokens += [Placed(Text(line, content), at, begin)] if content else []
        tokens.append(Placed(token, begin, end))
        if type(token) is not ParseError:
            line, at = token.line, end
    return pieces, tokens


def without_placed(tokens, errors, texts, tags):
    """The tokens that are left by these options. No text is joined to the next."""
    return [it for it in tokens if without([it.token], errors, texts, tags)]


def without(tokens, errors, texts, tags):
    """The tokens that are left by these options."""
    left, is_run = [], False
    for token in tokens:
        if type(token) is Text:
            if texts and is_run:
                token = Text(left[-1].line, left.pop().text + token.text)
            left += [token] * texts
            is_run = texts and not errors
        elif errors or type(token) is not ParseError:
            is_kept = type(token) not in (StartTag, EndTag) or tags is None or token.name in tags
            left += [token] * is_kept
            is_run = False
    return left


def read(reader, pieces):
    """All that a reader makes of what is taken."""
    return [item for piece in pieces for item in reader.read(piece)]


def links_of(tokens):
    """The links among tokens, whose names of attributes may be there twice here."""
    starts = [token for token in tokens if type(token) is StartTag and token.name in LINKS]
    addresses = [(token.line, token.get(LINKS[token.name])) for token in starts]
    return [(line, address) for line, address in addresses if address is not None]


def text_of(tokens):
    texts, is_hidden = [], False
    for token in tokens:
        if type(token) in (StartTag, EndTag) and token.name in HIDDEN:
            is_hidden = type(token) is StartTag
        elif type(token) is Text and not is_hidden:
            texts.append(token.text)
    return "".join(texts)


def options_of(choose):
    tags = choose.choice((None, (), ("a",), ("script", "style", "x-" + "y" * 23)))
    return {"errors": choose.random() < 0.5, "texts": choose.random() < 0.7, "tags": tags}


def made_by(kind, options):
    """A reader of each sort: of tokens, of links, of texts."""
    return kind.Reader(**options), kind.LinkReader(LINKS), kind.TextReader(HIDDEN)


class Records(unittest.TestCase):
    def test_each_kind(self):
        records = tag(1, 2, "p", [("a", "b"), ("é", "")], 1) + text("x") + tag(2, 3, "p", (), 2) + with_text(4, 4, "c")
        records += with_text(5, 5, "i") + doctype(6, "html", None, "s", quirks=True) + b"\7" + number(7)
        records += with_text(8, 8, "e") + text("y") + b"\11" + number((1 << 64) - 1)
        due = [StartTag(2, "p", (("a", "b"), ("é", "")), True, False), Text(2, "x"), EndTag(3, "p", (), False, True)]
        due += [Comment(4, "c"), Instruction(5, "i"), Doctype(6, "html", None, "s", True), NullCharacter(7)]
        due += [ParseError(8, "e"), Text(8, "y"), End((1 << 64) - 1)]
        for kind in KINDS:
            self.assertEqual(kind.Reader().read(records), due)

    def test_the_example_of_the_records(self):
        """That of crates/html5records/README.md."""
        rows = """01 02 00 00 00 00 00 00 00 00 01 00 00 00 00 00 00 00 70 01 00 00 00 00 00 00 00 01 00 00 00 00 00 00 00 61
        01 00 00 00 00 00 00 00 62 03 78 FF 09 02 00 00 00 00 00 00 00"""
        due = [StartTag(2, "p", (("a", "b"),), False, False), Text(2, "x"), End(2)]
        for kind in KINDS:
            self.assertEqual(kind.Reader().read(bytes.fromhex(rows)), due)

    def test_random_records(self):
        choose = random.Random(1)
        for _ in range(4000):
            pieces, tokens = random_records(choose)
            options = options_of(choose)
            due = without([*tokens, End(1)], **options)
            for kind in KINDS:
                reader, links, texts = made_by(kind, options)
                self.assertEqual(read(reader, [*pieces, b"\11" + number(1)]), due, (kind, pieces, options))
                self.assertEqual(read(links, pieces), links_of(tokens), (kind, pieces))
                self.assertEqual("".join(read(texts, pieces)), text_of(tokens), (kind, pieces))

    def test_places(self):
        records = places(0, 2, 5) + text("é") + tag(1, 1, "p") + places(5, 7, 8) + with_text(8, 2, "e")
        records += places(5, 9, 9) + text("1 < 2") + b"\11" + number(3)
        due = [Placed(Text(1, "é"), 0, 2), Placed(StartTag(1, "p", (), False, False), 2, 5)]
        due += [Placed(ParseError(2, "e"), 7, 8), Placed(Text(1, "1 < 2"), 5, 9), Placed(End(3), 9, 9)]
        for kind in KINDS:
            self.assertEqual(kind.Reader(places=True).read(records), due)

    def test_random_records_with_places(self):
        choose = random.Random(5)
        for _ in range(4000):
            pieces, tokens = random_placed(choose)
            options = options_of(choose)
            for kind in KINDS:
                found = read(kind.Reader(**options, places=True), pieces)
                self.assertEqual(found, without_placed(tokens, **options), (kind, pieces, options))
                self.assertTrue(all(type(it) is Placed for it in found))

    def test_a_text_that_is_taken_byte_by_byte(self):
        content = "日本𝄞" * 50
        record = text(content)
        for kind in KINDS:
            pieces = [record[at : at + 1] for at in range(len(record))]
            self.assertEqual(read(kind.Reader(), pieces), [Text(1, content)])
            self.assertEqual(read(kind.TextReader(HIDDEN), pieces), [content])

    def test_a_long_text(self):
        content = "é" * 1_000_000
        halves = text(content)[:999_999], text(content)[999_999:]
        for kind in KINDS:
            self.assertEqual(read(kind.Reader(), halves), [Text(1, content)])
            self.assertEqual(read(kind.Reader(), [b"\3ab\xff", *halves]), [Text(1, "ab"), Text(1, content)])


class NoRecords(unittest.TestCase):
    def refuse(self, records):
        for kind in KINDS:
            for reader in made_by(kind, {}):
                with self.assertRaises(ValueError, msg=(kind, reader, records)):
                    reader.read(records)

    def test_records_that_are_cut(self):
        whole = [tag(1, 1, "a", [("href", "x"), ("y", "z")]), tag(2, 1, "p"), doctype(1, "html", "p", "s")]
        whole += [with_text(kind, 1, "c") for kind in (4, 5, 8)] + [bytes([kind]) + number(1) for kind in (7, 9)]
        for record in whole:
            for end in range(1, len(record)):
                self.refuse(record[:end])
                self.refuse(record + record[:end])

    def test_places_that_are_cut_or_not_there(self):
        whole = places(0, 1, 2) + text("x") + tag(1, 1, "p")
        cuts = [whole[:end] for end in (*range(1, 25), *range(29, len(whole)))]
        for records in (*cuts, tag(1, 1, "p"), text("x"), whole + tag(1, 1, "p"), places(0, 1, 2) * 2):
            for kind in KINDS:
                with self.assertRaises(ValueError, msg=(kind, records)):
                    kind.Reader(places=True).read(records)

    def test_kinds_that_are_none(self):
        for kind in (0, *range(10, 256)):
            self.refuse(bytes([kind]) + number(1) * 9)

    def test_lengths_that_go_too_far(self):
        for size in (2, 1 << 31, 1 << 32, 1 << 63, (1 << 64) - 8, (1 << 64) - 1):
            self.refuse(b"\1" + number(1) + b"\0" + number(size) + b"p" + number(0)[:7])
            self.refuse(b"\1" + number(1) + b"\0" + counted("a") + number(size) + counted("href") + counted("x"))
            self.refuse(b"\1" + number(1) + b"\0" + counted("a") + number(1) + number(size) + b"h")
            self.refuse(b"\4" + number(1) + number(size) + b"c")
            self.refuse(b"\6" + number(1) + b"\4" + number(size) + b"s")

    def test_bytes_that_are_no_text(self):
        bad = number(1) + b"\xc3"
        start = b"\1" + number(1) + b"\0"
        records = [start + bad + number(0), start + counted("p") + number(1) + bad + bad]
        records += [start + counted("p") + number(1) + counted("a") + bad, b"\3a\xc3\xff", b"\4" + number(1) + bad]
        records += [b"\6" + number(1) + b"\7" + bad + bad + bad]
        for record in records:
            for kind in KINDS:
                with self.assertRaises(UnicodeDecodeError, msg=(kind, record)):
                    kind.Reader().read(record)

    def test_random_bytes(self):
        """Whatever is taken is read or refused, and both kinds of readers of tokens say the same of it."""
        choose = random.Random(2)
        for _ in range(4000):
            placed = choose.random() < 0.4
            records = bytearray(b"".join((random_placed if placed else random_records)(choose)[0]))
            for _ in range(choose.randrange(4) if records else 0):
                records[choose.randrange(len(records))] = choose.choice((0, 1, 2, 3, 9, 10, 0x61, 0xC3, 0xFF, choose.randrange(256)))
            options = options_of(choose)
            for kind in KINDS:
                for reader in made_by(kind, options)[1:]:
                    outcome(reader, bytes(records))
            said = [outcome(kind.Reader(**options, places=placed), bytes(records)) for kind in KINDS]
            self.assertEqual(said, said[:1] * len(KINDS), (bytes(records), options))

    def test_what_is_no_bytes(self):
        for kind in KINDS:
            for reader in made_by(kind, {}):
                for given in ("x", bytearray(b"x"), None):
                    with self.assertRaises(TypeError):
                        reader.read(given)

    def test_names_that_are_no_texts(self):
        for kind in KINDS:
            for names in ([1], [b"a"]):
                with self.assertRaises(TypeError):
                    kind.Reader(tags=names)
            with self.assertRaises(UnicodeEncodeError):
                kind.Reader(tags=["\ud800"])
            with self.assertRaises(TypeError):
                kind.Reader(tags=1)


def outcome(reader, records):
    """What a reader makes of bytes, or that it refuses them."""
    try:
        return reader.read(records)
    except ValueError:
        return "refused"


def random_page(choose):
    parts = ["<p>", "<a href=x>", "</a>", "<!--c", "-->", "<!doctype html>", "&amp;", "&#x80;", "\0", "<script>", "</script>"]
    parts += ["1 < 2", "é日本𝄞", "\r\n", "<?pi?>", "<IMG SRC='a&lt;b' alt>", "x" * 40, "<style>", "</style>", "<br/ >"]
    return "".join(choose.choices(parts, k=choose.randrange(30))).encode()


def made_of(readers, records):
    """What the readers of each sort make of what was taken."""
    tokens, links, texts = (reader.read(records) for reader in readers)
    return tokens, links, "".join(texts)


class Pages(unittest.TestCase):
    @unittest.skipUnless(firnuubal.IS_FAST, "there is one kind of readers alone")
    def test_random_pages(self):
        """What is taken of random pages and of page.html, after pieces of each size, is read the same by both kinds."""
        choose = random.Random(3)
        for page in [PAGE.read_bytes(), *(random_page(choose) for _ in range(150))]:
            for piece in (1, 7, 4096):
                options = options_of(choose)
                in_python, extended = (made_by(kind, options) for kind in KINDS)
                for records in records_of(page, piece):
                    self.assertEqual(made_of(in_python, records), made_of(extended, records), (page, piece, options))

    def test_links_and_texts_are_those_of_tokens(self):
        choose = random.Random(4)
        for _ in range(150):
            page = random_page(choose)
            found = list(firnuubal.tokens(page))
            self.assertEqual(list(firnuubal.links(page)), links_of(found), page)
            self.assertEqual(firnuubal.text(page), text_of(found), page)

    def test_a_link_is_the_tuple_that_it_equals(self):
        found = set(firnuubal.links("<a href=x>"))
        self.assertIn((1, "x"), found)
        self.assertIn(firnuubal.Link(1, "x"), found)


def records_of(page, piece):
    """What is taken of a page after each of its pieces."""
    with Tokenizer(encoding="utf-8", errors="strict") as tokenizer:
        for at in range(0, len(page), piece):
            tokenizer.feed(page[at : at + piece])
            yield taken(library.html5_take, tokenizer._handle, tokenizer._room)
        tokenizer.end()
        yield taken(library.html5_take, tokenizer._handle, tokenizer._room)


@unittest.skipUnless(firnuubal.IS_FAST, "the extension is not there, or left aside")
class Extension(unittest.TestCase):
    def test_classes_that_it_does_not_take(self):
        from firnuubal import _fast

        for given in ((), _records.CLASSES[:8], (int,) * 9, (1,) * 9, [Text] * 9, None):
            with self.assertRaises(TypeError, msg=given):
                _fast.Reader(given, Placed)
        for placed in (int, 1, None):
            with self.assertRaises(TypeError, msg=placed):
                _fast.Reader(_records.CLASSES, placed)
        for link in (int, 1, None):
            with self.assertRaises(TypeError, msg=link):
                _fast.LinkReader(link, LINKS)
        with self.assertRaises(TypeError):
            _fast.LinkReader(firnuubal.Link, {"a": 1})

    def test_a_call_within_a_call(self):
        """What runs as garbage is collected may call the reader again, and spoils nothing."""
        reader = _readers.Reader()
        records, said = tag(1, 1, "p", [("a", "b")]) * 2000, []

        def again(*_):
            said.append(outcome_of_call(reader, tag(1, 2, "q", [("c", "d")])))

        before = gc.get_threshold()
        gc.callbacks.append(again)
        gc.set_threshold(1)
        try:
            found = reader.read(records)
        finally:
            gc.set_threshold(*before)
            gc.callbacks.remove(again)
        self.assertEqual(found, [StartTag(1, "p", (("a", "b"),), False, False)] * 2000)
        # From 3.12 on garbage is collected between two calls alone.
        self.assertLessEqual(set(said), {"RuntimeError", "read"} if sys.version_info >= (3, 12) else {"RuntimeError"})

    def test_memory_is_given_back(self):
        choose = random.Random(5)
        cases = [(random_records(choose)[0], options_of(choose)) for _ in range(200)]

        bad = number(1) + b"\xc3"
        faults = [b"\1" + number(1), tag(1, 1, "a") + b"\3\xc3\xff", b"\6" + number(1) + b"\3" + counted("d") + bad]
        faults += [tag(1, 1, "a", [("href", "x"), ("y", "z")])[:-9] + bad, tag(1, 1 << 40, NAMES[6])[:-8] + number(1) + bad * 2]

        def read_each():
            for pieces, options in cases:
                for reader in made_by(_readers, options):
                    for piece in [*pieces, *faults]:
                        outcome(reader, piece)
            gc.collect()

        self.assertLess(growth_of_blocks(read_each), 2000)
        self.assertLess(growth_of_peak(read_each), 8 << 20)


def outcome_of_call(reader, records):
    """What comes of a call: the name of an error, or that it was read."""
    try:
        reader.read(records)
    except Exception as error:
        return type(error).__name__
    return "read"


def growth_of_blocks(call):
    """By how many bytes the held memory grows at each call, or by how many references, where they are counted."""
    count = getattr(sys, "gettotalrefcount", lambda: 0)
    tracemalloc.start()
    try:
        for _ in range(3):
            call()
        before = tracemalloc.get_traced_memory()[0], count()
        for _ in range(5):
            call()
        after = tracemalloc.get_traced_memory()[0], count()
    finally:
        tracemalloc.stop()
    return max(after[0] - before[0], after[1] - before[1]) / 5


def growth_of_peak(call):
    """By how many bytes the most memory that this process had grows over a hundred calls."""
    call()
    before = resource.getrusage(resource.RUSAGE_SELF).ru_maxrss
    for _ in range(100):
        call()
    return (resource.getrusage(resource.RUSAGE_SELF).ru_maxrss - before) * 1024


if __name__ == "__main__":
    unittest.main()
