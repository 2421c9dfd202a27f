"""Tests of cleaning: pages of each kind and in pieces, policies, refusals."""

import io
import json
import pathlib
import threading
import unittest

from firnuubal import Cleaner, Policy, PolicyError, Status, TokenizerError, clean

PAGE = "<p onclick=x>1 &lt; 2<script>x</script><a href=javascript:x>y</a>é"
KEPT = "<p>1 &#60; 2<a>y</a>é</p>"


def rows_of(name):
    """The rows of a file, which tools/worked/cleaned.py reads too: it says what they are."""
    path = pathlib.Path(__file__).resolve().parents[3] / "tools" / "worked" / f"{name}.jsonl"
    return map(json.loads, path.read_text(encoding="utf-8").splitlines())


class Cleaning(unittest.TestCase):
    def test_pages_of_each_kind(self):
        given = [PAGE, PAGE.encode(), bytearray(PAGE.encode()), memoryview(PAGE.encode())]
        given += [io.StringIO(PAGE), io.BytesIO(PAGE.encode()), list(PAGE), iter([PAGE])]
        for each in given:
            self.assertEqual(clean(each), KEPT, each)

    def test_a_page_in_pieces(self):
        with Cleaner() as cleaner:
            for piece in range(1, len(PAGE) + 1):
                parts = [cleaner.feed(PAGE[at : at + piece]) for at in range(0, len(PAGE), piece)]
                self.assertEqual("".join([*parts, cleaner.end()]), KEPT)

    def test_one_page_after_the_other(self):
        with Cleaner() as cleaner:
            self.assertEqual([cleaner.clean("<b>1"), cleaner.clean("<i>2")], ["<b>1</b>", "<i>2</i>"])

    def test_worked_pages(self):
        for text, kept in rows_of("hostile"):
            self.assertEqual(clean(text), kept, text)
        policy = None
        for row in rows_of("cleaned"):
            if len(row) == 1:
                policy = Policy(row[0])
            elif len(row) == 2:
                self.assertEqual(clean(row[0], policy), row[1], (policy, row[0]))

    def test_a_page_whose_pieces_are_cleaned(self):
        pieces = ("<p>", clean("<b>1</b>"), "2")
        self.assertEqual(clean(clean(piece) for piece in pieces), "<p></p><b>1</b>2")

    def test_more_policies_than_are_kept(self):
        for _ in range(2):
            for number in range(40):
                self.assertEqual(clean("<p>1", Policy(f"# {number}\nallow p\n")), "<p>1")

    def test_a_page_of_no_text(self):
        self.assertEqual(clean(""), "")

    def test_bytes_that_are_no_text(self):
        with Cleaner(encoding="utf-8", errors="strict") as cleaner:
            cleaner.feed(b"<p>ab")
            with self.assertRaises(TokenizerError) as refused:
                cleaner.feed(b"c\xff")
            self.assertEqual((refused.exception.status, refused.exception.at), (Status.NOT_UTF8, 6))
            self.assertEqual(cleaner.feed(b"<b>"), "abc<b>")
            self.assertEqual(cleaner.clean("<p>1"), "<p>1</p>")

    def test_a_tree(self):
        self.assertEqual(clean("<p>1<p>2"), "<p>1</p><p>2</p>")
        self.assertEqual(clean("<table>x"), "<table><tbody><tr><td>x</td></tr></tbody></table>")

    def test_a_limit(self):
        with Cleaner(limit=5, encoding="utf-8", errors="strict") as cleaner:
            with self.assertRaises(TokenizerError) as refused:
                cleaner.feed(b"<p>ab1")
            self.assertEqual(refused.exception.status, Status.LIMIT)
            self.assertEqual(cleaner.feed(b"<p>ab"), "<p>")
            with self.assertRaises(TokenizerError) as refused:
                cleaner.feed(b"<i x")
            self.assertEqual(refused.exception.status, Status.LIMIT)
            self.assertEqual(cleaner.feed(b"<i "), "")

    def test_a_character_that_is_cut(self):
        with self.assertRaises(TokenizerError) as refused:
            clean(b"\xc3", encoding="utf-8", errors="strict")
        self.assertEqual(refused.exception.status, Status.CUT)
        self.assertEqual(clean("<p>1"), "<p>1</p>")

    def test_a_closed_cleaner(self):
        cleaner = Cleaner()
        cleaner.close()
        cleaner.close()
        with self.assertRaises(TokenizerError) as refused:
            cleaner.feed("x")
        self.assertEqual(refused.exception.status, Status.CLOSED)

    def test_two_hundred_threads(self):
        found = []
        threads = [threading.Thread(target=lambda: found.append(clean(PAGE))) for _ in range(200)]
        for thread in threads:
            thread.start()
        for thread in threads:
            thread.join()
        self.assertEqual(found, [KEPT] * 200)


class Policies(unittest.TestCase):
    def test_the_rules_of_a_text(self):
        policy = Policy("allow p class\nallow a href\nschemes ftp\nnoopener\n")
        self.assertEqual(clean("<p class=x><b>1</b><a href=ftp:x>", policy), '<p class="x">1<a href="ftp:x" rel="noopener">')

    def test_keywords(self):
        self.assertEqual(clean("<p class=x lang=y><b>1</b>", tags={"p"}), '<p lang="y">1</p>')
        self.assertEqual(clean("<p class=x lang=y>", attributes={"p": ["class"]}), '<p class="x"></p>')
        self.assertEqual(clean("<a href=ftp:x>", url_schemes=["ftp"], link_rel=None), '<a href="ftp:x"></a>')
        self.assertEqual(clean("<a href=x>", link_rel="noopener"), '<a href="x" rel="noopener"></a>')
        self.assertEqual(clean("<q>1</q>2", tags={"p"}, clean_content_tags={"q"}), "2")

    def test_worked_faults(self):
        for text, line, _ in (row for row in rows_of("cleaned") if len(row) == 3):
            with self.assertRaises(PolicyError) as refused:
                Policy(text)
            self.assertEqual(refused.exception.line, line, text)


if __name__ == "__main__":
    unittest.main()
