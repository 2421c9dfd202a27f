"""Tests of pages in any encoding: those that are said, those that pages tell, pieces, what is refused."""

import io
import pathlib
import random
import subprocess
import unittest

import firnuubal
from firnuubal import Cleaner, Fed, Replies, StartTag, State, Status, Text, Tokenizer, TokenizerError, clean, links, text, tokens

JAPANESE = "<title>日本語</title><a href=/日>ｶﾀｶﾅ</a>"
FRENCH = "<p title=é>café – 1 €</p>"

# Pages, what is said of each, the name of its encoding, and its text.
PAGES = [
    (JAPANESE.encode("shift_jis"), "shift_jis", "Shift_JIS", JAPANESE),
    (JAPANESE.encode("euc_jp"), " EUC-JP ", "EUC-JP", JAPANESE),
    (FRENCH.encode("cp1252"), "latin1", "windows-1252", FRENCH),
    (FRENCH.encode("cp1252"), "auto", "windows-1252", FRENCH),
    (FRENCH.encode(), "auto", "UTF-8", FRENCH),
    (b"<meta charset=shift_jis>" + JAPANESE.encode("shift_jis"), "auto", "Shift_JIS", "<meta charset=shift_jis>" + JAPANESE),
    (b"<meta charset=koi8-r>" + "да".encode("koi8-r"), "gbk", "GBK", "<meta charset=koi8-r>" + "да".encode("koi8-r").decode("gbk")),
    (b"\xff\xfe" + FRENCH.encode("utf-16-le"), "auto", "UTF-16LE", FRENCH),
    (b"\xfe\xff" + FRENCH.encode("utf-16-be"), "koi8-r", "UTF-16BE", FRENCH),
    (b"\xef\xbb\xbf" + FRENCH.encode(), "koi8-r", "UTF-8", FRENCH),
    (b"caf\xc3", "utf-8", "UTF-8", "caf\ufffd"),
    (b"caf\xff!", "utf-8", "UTF-8", "caf\ufffd!"),
    # A page of no piece is of no kind.
    (b"", "auto", None, ""),
    (b"", "shift_jis", "Shift_JIS", ""),
]


PROGRAM = pathlib.Path(__file__).resolve().parents[3] / "crates/firnuubal/out/firnuubal"
PARTS = [
    b"<meta charset=shift_jis>", b"<meta charset='euc-kr'>", b"<META http-equiv=content-type content='x;charset=gbk'>", b"<meta charset=utf-16>",
    b"<script>", b"</script>", b"<!--", b"-->", b"<p>", b"</p", b"\xef\xbb\xbf", b"\xff\xfe", b"\xfe\xff", b"\x1b$B", b"\x0e",
    "日本".encode("shift_jis"), "한글".encode("euc_kr"), "é–€".encode("cp1252"), "é日".encode(), b" text \r\n" * 20,
]


def random_page(choose):
    """A page of hints, marks and characters of any encoding, and of any bytes."""
    parts = choose.choices(PARTS + [bytes(choose.choices(range(256), k=5))], k=choose.randrange(25))
    return b"".join(choose.choices(PARTS, k=choose.randrange(3)) + [b"a" * choose.choice((0, 0, 500, 1000, 1500))] + parts)


def random_pieces(choose, page):
    pieces = []
    while page:
        size = choose.choice((1, 2, 3, 50, 1024, 5000))
        pieces.append(page[:size])
        page = page[size:]
    return pieces


def read_in_pieces(page, piece, encoding):
    """The tokens of a page that is fed in pieces of this length."""
    with Tokenizer(encoding=encoding, parse_errors=False) as tokenizer:
        found = []
        for at in range(0, len(page), piece):
            tokenizer.feed(page[at : at + piece])
            found += tokenizer.tokens()
        tokenizer.end()
        return found + list(tokenizer.tokens()), tokenizer.encoding


class Encodings(unittest.TestCase):
    def test_pages_in_pieces(self):
        for page, said, name, content in PAGES:
            wanted = list(tokens(content, parse_errors=False))
            for piece in (1, 2, 3, 1000):
                found, encoding = read_in_pieces(page, piece, said)
                self.assertEqual((found, encoding), (wanted, name), (page, said))

    def test_whole_pages(self):
        for page, said, _, content in PAGES:
            self.assertEqual(text(page, encoding=said), text(content))
            self.assertEqual(list(links(page, encoding=said)), list(links(content)))
            self.assertEqual(list(tokens(io.BytesIO(page), encoding=said)), list(tokens(content)))
            self.assertEqual(clean(page, encoding=said), clean(content))
            self.assertEqual(clean([page], encoding=said, tags=["p"]), clean(content, tags=["p"]))

    def test_a_long_page(self):
        page = b"a" * 1022 + "日本".encode("euc_jp") * 30_000
        self.assertEqual(text(page, encoding="euc-jp"), "a" * 1022 + "日本" * 30_000)
        self.assertEqual(text(b"a" * 5000 + b"\xe9", encoding="auto"), "a" * 5000 + "\ufffd")

    def test_random_pages_in_random_pieces(self):
        choose = random.Random(1)
        for codec, label in (("shift_jis", "shift_jis"), ("cp1251", "windows-1251"), ("gb18030", "gb18030"), ("big5", "big5")):
            for _ in range(20):
                letters = "abc<>/ \n" + bytes(range(0xA1, 0xFA)).decode(codec, "ignore")
                # Of Big5 Python knows other characters there than the Encoding Standard.
                letters = [c for c in letters if codec != "big5" or not 0xC6 <= c.encode(codec)[0] <= 0xC8]
                content = "".join(choose.choices(letters, k=choose.randrange(3000)))
                page = content.encode(codec)
                at, pieces = 0, []
                while at < len(page):
                    size = choose.choice((1, 2, 7, 500, 1024))
                    pieces.append(page[at : at + size])
                    at += size
                self.assertEqual(list(tokens(pieces, encoding=label)), list(tokens(content)))

    @unittest.skipUnless(PROGRAM.exists(), "there is no program to compare with")
    def test_random_pages_as_the_program_reads_them(self):
        choose = random.Random(2)
        for _ in range(150):
            page = random_page(choose)
            label = choose.choice([None, None, "latin1", "shift_jis", "utf-8", "gb18030", "iso-2022-jp", "utf-16le"])
            words = ["--encoding", label] if label else []
            for command, call in (("text", text), ("clean", clean)):
                said = subprocess.run([PROGRAM, command, *words], input=page, stdout=subprocess.PIPE, check=True)
                found = call(random_pieces(choose, page), encoding=label or "auto")
                self.assertEqual(found, said.stdout.decode(), (command, label, page))

    def test_a_cleaner_keeps_what_was_said(self):
        with Cleaner(encoding="shift_jis") as cleaner:
            self.assertIsNone(cleaner.encoding)
            for _ in range(2):
                self.assertEqual(cleaner.clean(b"<b>\x93\xfa"), "<b>日</b>")
        with Cleaner(encoding="auto") as cleaner:
            pages = [b"<p>\xe9", "<p>é".encode(), b"<meta charset=koi8-r>\xc1"]
            self.assertEqual([cleaner.clean(page) for page in pages], ["<p>é</p>", "<p>é</p>", "а"])

    def test_unknown_labels(self):
        for label in ("no-such", "", " ", "utf-7", "shift\0jis", "\udcff"):
            for call in (Tokenizer, Cleaner, lambda encoding: clean(b"x", encoding=encoding)):
                with self.assertRaisesRegex(LookupError, "encoding"):
                    call(encoding=label)
            for call in (tokens, links, text):
                with self.assertRaisesRegex(LookupError, "encoding"):
                    call(b"x", encoding=label)

    def test_texts_are_in_no_encoding(self):
        for call in (clean, text, lambda page, encoding: list(tokens(page, encoding=encoding))):
            for page in (lambda: "x", lambda: ["x"], lambda: io.StringIO("x")):
                for encoding in ("auto", "utf-8", " UTF8\n"):
                    call(page(), encoding=encoding)
                with self.assertRaisesRegex(TypeError, "no encoding"):
                    call(page(), encoding="shift_jis")
        with Tokenizer(encoding="shift_jis") as tokenizer:
            with self.assertRaises(TypeError):
                tokenizer.feed("x")

    def test_bytes_are_read_as_the_page_tells(self):
        for page in (b"caf\xe9", [b"caf", b"\xe9"], io.BytesIO(b"caf\xe9"), bytearray(b"caf\xe9"), memoryview(b"caf\xe9")):
            self.assertEqual(clean(page), "café")
            if hasattr(page, "seek"):
                page.seek(0)
            self.assertEqual(text(page), "café")
        self.assertEqual(list(tokens(b"caf\xe9"))[0], Text(1, "café"))
        self.assertEqual(list(links(b"<a href=caf\xe9>")), [(1, "café")])
        self.assertEqual(text("<meta charset=shift_jis>café"), "café")
        self.assertEqual(text("<meta charset=shift_jis>日".encode("shift_jis")), "日")
        self.assertEqual(text(b"caf\xe9", encoding="utf-8"), "caf\ufffd")

    def test_bytes_that_are_refused(self):
        for call in (clean, text, lambda page, **said: list(tokens(page, **said)), lambda page, **said: list(links(page, **said))):
            with self.assertRaises(TokenizerError) as refused:
                call(b"caf\xe9!", encoding="utf-8", errors="strict")
            self.assertEqual((refused.exception.status, refused.exception.at), (Status.NOT_UTF8, 3))
            call("café", encoding="utf-8", errors="strict")
            call("café".encode(), encoding="UTF8", errors="strict")
        with Tokenizer(encoding="utf-8", errors="strict") as tokenizer:
            tokenizer.feed(b"x")
            self.assertEqual(tokenizer.encoding, "UTF-8")

    def test_what_errors_may_be(self):
        calls = [Tokenizer, Cleaner, lambda **said: clean(b"x", **said), lambda **said: tokens(b"x", **said)]
        calls += [lambda **said: links(b"x", **said), lambda **said: text(b"x", **said)]
        for call in calls:
            for errors in (True, False):
                with self.assertRaisesRegex(TypeError, "parse_errors"):
                    call(errors=errors)
            with self.assertRaisesRegex(TypeError, "errors"):
                call(errors=None)
            with self.assertRaisesRegex(TypeError, "encoding"):
                call(encoding=None)
            with self.assertRaisesRegex(LookupError, "errors"):
                call(errors="ignore")
            for encoding in ("auto", "shift_jis", "no-such"):
                with self.assertRaisesRegex(ValueError, "utf-8"):
                    call(encoding=encoding, errors="strict")

    def test_texts_and_bytes_in_one_page(self):
        for first, second in (("x", b"y"), (b"x", "y")):
            for call in (clean, text, lambda page: list(tokens(page)), lambda page: list(firnuubal.placed_tokens(page))):
                with self.assertRaisesRegex(TypeError, "type str, or all are bytes"):
                    call([first, second])
            for kind in (Tokenizer, Cleaner):
                with kind() as session:
                    session.feed(first)
                    with self.assertRaises(TypeError):
                        session.feed(second)
                    session.feed(first)

    def test_an_empty_piece_is_of_either_kind(self):
        for empty in ("", b"", bytearray()):
            self.assertEqual(text([empty, "é", empty]), "é")
            self.assertEqual(text([empty, b"\xe9", empty]), "é")
            with Cleaner() as cleaner:
                self.assertEqual(cleaner.feed(empty), "")
                self.assertEqual(cleaner.clean([empty, b"\xe9", empty]), "é")
                self.assertEqual(cleaner.clean([empty, "é", empty]), "é")
                self.assertEqual(cleaner.clean(empty), "")

    def test_what_is_called_before_the_first_piece(self):
        with Tokenizer(replies=Replies.CALLER, last_start_tag="title") as tokenizer:
            tokenizer.reply(State.RCDATA)
            tokenizer.insert("<b>")
            self.assertEqual(list(tokenizer.tokens()), [])
            tokenizer.feed(b"\xe9</title>")
            self.assertEqual(tokenizer.end(), Fed.TAG)
            self.assertEqual(tokenizer.end(), Fed.DONE)
            self.assertEqual(tokenizer.encoding, "windows-1252")
            self.assertEqual([str(it[1]) for it in tokenizer.tokens() if len(it) > 1], ["<b>é", "title"])
        for kind in (Tokenizer, Cleaner):
            with kind() as session:
                session.end()

    def test_pages_of_either_kind_one_after_the_other(self):
        with Cleaner() as cleaner:
            for _ in range(2):
                self.assertEqual(cleaner.clean("<meta charset=shift_jis>é"), "é")
                self.assertIsNone(cleaner.encoding)
                self.assertEqual(cleaner.clean(b"\xe9"), "é")
                self.assertEqual(cleaner.clean(b"<meta charset=shift_jis>\x93\xfa"), "日")

    def test_a_pause_at_the_end(self):
        with Tokenizer(encoding="auto", replies=Replies.PAUSING) as tokenizer:
            self.assertEqual(tokenizer.feed(b"<script>1</script>caf\xe9"), Fed.DONE)
            self.assertEqual(list(tokenizer.tokens()), [])
            self.assertEqual(tokenizer.end(), Fed.SCRIPT)
            self.assertEqual(next(tokenizer.tokens()), StartTag(1, "script", (), False, False))
            tokenizer.insert("é ")
            self.assertEqual(tokenizer.end(), Fed.DONE)
            self.assertEqual(next(tokenizer.tokens()), Text(1, "é café"))
        found = list(tokens(b"<script>1</script>caf\xe9", encoding="auto", replies=Replies.PAUSING))
        self.assertEqual(found, list(tokens("<script>1</script>café")))


if __name__ == "__main__":
    unittest.main()
