"""Tests of the tokenizer: pauses, refusals, texts that arrive in pieces, pages of each kind."""

import io
import pathlib
import pickle
import threading
import unittest

import firnuubal
from firnuubal import End, EndTag, Fed, ParseError, Replies, StartTag, State, Status, Text, Tokenizer, TokenizerError

PAGE = pathlib.Path(__file__).resolve().parents[2] / "page.html"

# Bytes are UTF-8, and read at once: nothing is to be told by the page.
STRICT = {"encoding": "utf-8", "errors": "strict"}


class Calls(unittest.TestCase):
    def test_a_page_in_pieces(self):
        page = "<p CLASS=é>1 &lt; 2".encode()
        due = [StartTag(1, "p", (("class", "é"),), False, False), Text(1, "1 < 2"), End(1)]
        for piece in range(1, len(page) + 1):
            self.assertEqual(list(firnuubal.tokens(io.BytesIO(page), piece=piece)), due)

    def test_a_text_waits_for_its_end(self):
        with Tokenizer(**STRICT) as tokenizer:
            tokenizer.feed(b"one ")
            self.assertEqual(list(tokenizer.tokens()), [])
            tokenizer.feed(b"two<p")
            tokenizer.feed(b">")
            self.assertEqual(list(tokenizer.tokens())[0], Text(1, "one two"))

    def test_nothing_of_a_page_is_left_to_the_next(self):
        # Each page leaves something open: a limit, options, a state, a tag, tokens that were not read, text that waits.
        pages = [
            (dict(limit=40), b"<p a"),
            (dict(exact_errors=True, keep_bom=True), "\ufeff1\x01".encode()),
            (dict(replies=Replies.CALLER), b"<style>"),
            (dict(replies=Replies.PAUSING), b"<script></script><b>"),
            (dict(state=State.RCDATA, last_start_tag="title", foreign=True), b"<b></title>&lt"),
            (dict(encoding="shift_jis"), b"\x93"),
            (dict(places=True), b"<p>1"),
        ]
        due = [StartTag(1, "p", (), False, False), Text(1, "1 < 2" + " " * 50), End(1)]
        for options, page in pages * 2:
            with Tokenizer(**options) as tokenizer:
                tokenizer.feed(page)
            with Tokenizer(parse_errors=False) as tokenizer:
                self.assertFalse(tokenizer.is_over())
                self.assertEqual(tokenizer.feed("\ufeff<p>1 &lt; 2" + " " * 50), Fed.DONE)
                self.assertEqual(tokenizer.end(), Fed.DONE)
                self.assertIsNone(tokenizer.encoding)
                read = list(tokenizer.tokens())
            self.assertEqual(read, due, options)

    def test_what_is_closed_is_closed(self):
        tokenizer = Tokenizer()
        tokenizer.close()
        tokenizer.close()
        with Tokenizer() as other:
            with self.assertRaises(TokenizerError) as refused:
                tokenizer.feed("x")
            self.assertEqual(refused.exception.status, Status.CLOSED)
            other.feed("1<p>")
            self.assertEqual(list(tokenizer.tokens()), [])
            self.assertEqual(len(list(other.tokens())), 2)

    def test_pages_within_pages(self):
        # A page whose pieces are made by reading others.
        def pieces():
            for name in "abcdefgh":
                yield from (token.name for token in firnuubal.tokens(f"<{name}>") if isinstance(token, StartTag))

        self.assertEqual([text.text for text in firnuubal.tokens(pieces()) if isinstance(text, Text)], ["abcdefgh"])

    def test_text_is_put_in_after_a_script(self):
        with Tokenizer(replies=Replies.PAUSING, **STRICT) as tokenizer:
            self.assertEqual(tokenizer.feed(b"<script>x</script>c"), Fed.SCRIPT)
            self.assertIsInstance(list(tokenizer.tokens())[-1], EndTag)
            with self.assertRaises(TokenizerError) as refused:
                tokenizer.end()
            self.assertEqual(refused.exception.status, Status.WAITING)
            tokenizer.insert("a<b>")
            self.assertEqual(tokenizer.feed(b"d"), Fed.DONE)
            tokenizer.end()
            due = [Text(1, "a"), StartTag(1, "b", (), False, False), Text(1, "cd"), End(1)]
            self.assertEqual(list(tokenizer.tokens()), due)

    def test_an_encoding_is_named(self):
        with Tokenizer(replies=Replies.PAUSING, **STRICT) as tokenizer:
            self.assertEqual(tokenizer.feed(b"<meta charset=latin1>x"), Fed.ENCODING)
            self.assertEqual(list(tokenizer.tokens())[-1].attributes, (("charset", "latin1"),))

    def test_the_caller_replies(self):
        with Tokenizer(replies=Replies.CALLER, **STRICT) as tokenizer:
            self.assertEqual(tokenizer.feed(b"1<style><b></style>2"), Fed.TAG)
            self.assertEqual(list(tokenizer.tokens()), [Text(1, "1"), StartTag(1, "style", (), False, False)])
            tokenizer.reply(State.RAWTEXT)
            self.assertEqual(tokenizer.feed(b""), Fed.TAG)
            self.assertEqual(list(tokenizer.tokens()), [Text(1, "<b>"), EndTag(1, "style", (), False, False)])
            self.assertEqual(tokenizer.feed(b"<svg>"), Fed.TAG)
            tokenizer.set_foreign(True)
            self.assertEqual(tokenizer.feed(b"<![CDATA[<i>]]><p"), Fed.DONE)
            with self.assertRaises(TokenizerError) as refused:
                tokenizer.reply(State.RAWTEXT)
            self.assertEqual(refused.exception.status, Status.ITEM_OPEN)
            self.assertEqual(tokenizer.feed(b">"), Fed.TAG)
            due = [StartTag(1, name, (), False, False) for name in ("svg", "p")]
            self.assertEqual(list(tokenizer.tokens()), [Text(1, "2"), due[0], Text(1, "<i>"), due[1]])

    def test_bytes_that_are_no_text(self):
        with Tokenizer(**STRICT) as tokenizer:
            tokenizer.feed(b"<p>ab")
            with self.assertRaises(TokenizerError) as refused:
                tokenizer.feed(b"c\xff")
            self.assertEqual((refused.exception.status, refused.exception.at), (Status.NOT_UTF8, 6))
            self.assertIsInstance(next(tokenizer.tokens()), StartTag)
            tokenizer.feed("\ufffd".encode())
            tokenizer.end()
            self.assertEqual(next(tokenizer.tokens()), Text(1, "abc\ufffd"))

    def test_a_pause_before_bytes_that_are_no_text(self):
        with Tokenizer(replies=Replies.PAUSING, **STRICT) as tokenizer:
            self.assertEqual(tokenizer.feed(b"<meta charset=x>a\xff"), Fed.ENCODING)
            with self.assertRaises(TokenizerError) as refused:
                tokenizer.feed(b"")
            self.assertEqual((refused.exception.status, refused.exception.at), (Status.NOT_UTF8, 17))

    def test_tokens_come_before_the_error(self):
        read = firnuubal.tokens(b"<p>a\xffb", **STRICT)
        self.assertEqual(next(read), StartTag(1, "p", (), False, False))
        with self.assertRaises(TokenizerError):
            next(read)

    def test_a_limit(self):
        with Tokenizer(limit=10, **STRICT) as tokenizer:
            tokenizer.feed(b"<a href=ab")
            with self.assertRaises(TokenizerError) as refused:
                tokenizer.feed(b"c")
            self.assertEqual(refused.exception.status, Status.LIMIT)
            self.assertFalse(tokenizer.is_over())

    def test_each_limit(self):
        """By each limit a page is read whole, or up to a piece that goes past it."""
        page = PAGE.read_bytes()
        due = list(firnuubal.tokens(page))
        whole = 0
        for limit in range(4097):
            with Tokenizer(limit=limit, **STRICT) as tokenizer:
                told = []
                try:
                    for at in range(0, len(page), 16):
                        tokenizer.feed(page[at : at + 16])
                        told += tokenizer.tokens()
                    tokenizer.end()
                except TokenizerError as refused:
                    self.assertEqual(refused.status, Status.LIMIT)
                    self.assertEqual(told, due[: len(told)])
                else:
                    self.assertEqual(told + list(tokenizer.tokens()), due)
                    whole += 1
        self.assertGreater(whole, 3000)

    def test_a_character_that_is_cut(self):
        with Tokenizer(**STRICT) as tokenizer:
            tokenizer.feed("é".encode()[:1])
            with self.assertRaises(TokenizerError) as refused:
                tokenizer.end()
            self.assertEqual(refused.exception.status, Status.CUT)

    def test_after_the_end(self):
        with Tokenizer() as tokenizer:
            self.assertFalse(tokenizer.is_over())
            tokenizer.end()
            self.assertTrue(tokenizer.is_over())
            with self.assertRaises(TokenizerError) as refused:
                tokenizer.feed(b"x")
            self.assertEqual(refused.exception.status, Status.OVER)

    def test_raw_text_from_the_start(self):
        with Tokenizer(state=State.RCDATA, last_start_tag="title") as tokenizer:
            tokenizer.feed("<b>&amp;</title>")
            self.assertEqual(list(tokenizer.tokens()), [Text(1, "<b>&"), EndTag(1, "title", (), False, False)])

    def test_a_closed_tokenizer(self):
        tokenizer = Tokenizer()
        tokenizer.close()
        with self.assertRaises(TokenizerError) as refused:
            tokenizer.feed(b"x")
        self.assertEqual(refused.exception.status, Status.CLOSED)

    def test_memory_that_was_given_back_twice(self):
        tokenizer = Tokenizer()
        tokenizer.close()
        tokenizer.close()
        self.assertFalse(tokenizer.is_over())

    def test_errors_pickle(self):
        for error in (TokenizerError(Status.NOT_UTF8, 6), TokenizerError(Status.CUT)):
            again = pickle.loads(pickle.dumps(error))
            self.assertEqual((again.status, again.at, str(again)), (error.status, error.at, str(error)))


class Tokens(unittest.TestCase):
    def test_tokens_of_two_kinds_differ(self):
        start, end = StartTag(1, "p", (), False, False), EndTag(1, "p", (), False, False)
        self.assertNotEqual(start, end)
        self.assertEqual(len({start, end, StartTag(1, "p", (), False, False)}), 2)
        self.assertNotEqual(End(1), (1,))

    def test_an_attribute_by_its_name(self):
        tag = next(firnuubal.tokens("<a href=x title>"))
        self.assertEqual((tag.get("href"), tag.get("title"), tag.get("id"), tag.get("id", 1)), ("x", "", None, 1))

    def test_the_lines_of_texts(self):
        found = [token for token in firnuubal.tokens("1\n2<p>\n3</p>4") if isinstance(token, Text)]
        self.assertEqual(found, [Text(1, "1\n2"), Text(2, "\n3"), Text(3, "4")])

    def test_texts_without_the_errors_in_them(self):
        page = "a&#x80;b\0c"
        kinds = [type(token).__name__ for token in firnuubal.tokens(page)]
        self.assertIn("ParseError", kinds)
        due = [Text(1, "a\u20acb"), firnuubal.NullCharacter(1), Text(1, "c"), End(1)]
        self.assertEqual(list(firnuubal.tokens(page, parse_errors=False)), due)

    def test_the_codes_of_errors(self):
        pages = {
            "<p a=>": "missing-attribute-value",
            "</p x>": "end-tag-with-attributes",
            "<!--": "eof-in-comment",
            "a\0": "unexpected-null-character",
            "&#0;": None,
        }
        for page, code in pages.items():
            found = [token.code for token in firnuubal.tokens(page) if isinstance(token, firnuubal.ParseError)]
            self.assertEqual(found, [code], page)
        self.assertIsNone(firnuubal.ParseError(1, "\ud800").code)

    def test_pages_of_each_kind(self):
        page = "<p>é"
        due = [StartTag(1, "p", (), False, False), Text(1, "é"), End(1)]
        given = [page, page.encode(), bytearray(page.encode()), memoryview(page.encode())]
        given += [io.StringIO(page), io.BytesIO(page.encode()), ["<", "p>", "é"], [b"<", b"p>\xc3", b"\xa9"], iter([page])]
        for each in given:
            self.assertEqual(list(firnuubal.tokens(each)), due, each)

    def test_a_file_that_does_not_wait(self):
        class NotReady:
            def read(self, size):
                return None

        with self.assertRaises(BlockingIOError):
            list(firnuubal.tokens(NotReady()))

    def test_tags_and_texts_that_are_passed_over(self):
        page = "<p id=x>1<a href=y title=z>2</a>3</p>"
        found = list(firnuubal.tokens(page, tags={"a"}))
        a = StartTag(1, "a", (("href", "y"), ("title", "z")), False, False)
        end = EndTag(1, "a", (), False, False)
        self.assertEqual(found, [Text(1, "1"), a, Text(1, "2"), end, Text(1, "3"), End(1)])
        for piece in range(1, len(page) + 1):
            self.assertEqual(list(firnuubal.tokens(page, piece=piece, texts=False, tags={"a"})), [a, end, End(1)])

    def test_tokens_with_places(self):
        """The text at the places of a page's tokens, worked by hand: in characters of texts, in bytes of bytes."""
        page = "é<p CLASS = x>1 &lt; 2\r\n<!--x--></p >𝄞<title>&lt;</title>1 < 2"
        due = ["é", "<p CLASS = x>", "1 &lt; 2\r\n", "<!--x-->", "</p >", "𝄞", "<title>", "&lt;", "</title>", " ", "1 < 2", ""]
        found = list(firnuubal.placed_tokens(page))
        self.assertEqual([page[begin:end] for _, begin, end in found], due)
        self.assertEqual([it.token for it in found[:2]], [Text(1, "é"), StartTag(1, "p", (("class", "x"),), False, False)])
        self.assertEqual(found[5][1:], (37, 38))
        in_bytes = list(firnuubal.placed_tokens(page.encode()))
        self.assertEqual([page.encode()[begin:end].decode() for _, begin, end in in_bytes], due)
        self.assertEqual(in_bytes[5][1:], (38, 42))
        for size in range(1, 9):
            pieces = [page[at : at + size] for at in range(0, len(page), size)]
            self.assertEqual(list(firnuubal.placed_tokens(pieces)), found)
            self.assertEqual(list(firnuubal.placed_tokens(io.StringIO(page), piece=size)), found)
            self.assertEqual(list(firnuubal.placed_tokens(io.BytesIO(page.encode()), piece=size)), in_bytes)

    def test_many_errors_in_one_run(self):
        page = "𝄞< " * 50_000 + "<p>"
        errors = [begin for token, begin, _ in firnuubal.placed_tokens(page) if isinstance(token, ParseError)]
        self.assertEqual(errors, list(range(2, 150_000, 3)))

    def test_a_tokenizer_with_places(self):
        with Tokenizer(places=True) as tokenizer:
            tokenizer.feed("é<b")
            tokenizer.feed(">é")
            self.assertEqual([it[1:] for it in tokenizer.placed_tokens()], [(0, 1), (1, 4)])
            with self.assertRaises(TypeError):
                tokenizer.feed(b"<i>")
            with self.assertRaises(TokenizerError) as refused:
                tokenizer.insert("x")
            self.assertEqual(refused.exception.status, Status.CLOSED)
            tokenizer.end()
            self.assertEqual(list(tokenizer.tokens()), [Text(1, "é"), End(1)])
        with Tokenizer(places=True) as tokenizer:
            with self.assertRaises(TokenizerError) as refused:
                tokenizer.feed(b"<b>\xff")
            self.assertEqual((refused.exception.status, refused.exception.at), (Status.NOT_UTF8, 3))
        with Tokenizer() as tokenizer, self.assertRaises(ValueError):
            tokenizer.placed_tokens()
        for options in ({"replies": Replies.PAUSING}, {"foreign": True}, {"encoding": "shift_jis"}):
            with self.assertRaises(ValueError):
                Tokenizer(places=True, **options)

    def test_a_piece_that_goes_past_the_limit_has_no_places(self):
        with Tokenizer(places=True, limit=200) as tokenizer:
            with self.assertRaises(TokenizerError) as refused:
                tokenizer.feed("é" * 200)
            self.assertEqual(refused.exception.status, Status.LIMIT)
            tokenizer.feed("é<b>")
            self.assertEqual([it[1:] for it in tokenizer.placed_tokens()], [(0, 1), (1, 4)])

    def test_links(self):
        page = '<a href="/x?a&amp;b">\n<script><a href=no></script><img src=y><p href=z><a>'
        self.assertEqual(list(firnuubal.links(page)), [(1, "/x?a&b"), (2, "y")])

    def test_text(self):
        self.assertEqual(firnuubal.text("<title>One &amp; two</title><p>three<style>x</style>"), "One & twothree")

    def test_two_hundred_threads(self):
        found = []
        page = "<p>1" * 200

        def read():
            found.append(sum(isinstance(token, StartTag) for token in firnuubal.tokens(page, piece=7)))

        threads = [threading.Thread(target=read) for _ in range(200)]
        for thread in threads:
            thread.start()
        for thread in threads:
            thread.join()
        self.assertEqual(found, [200] * 200)


if __name__ == "__main__":
    unittest.main()
