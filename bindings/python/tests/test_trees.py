"""Trees by html5lib's tree construction, where html5lib is there."""

import unittest

try:
    import html5lib
    import trees
except ImportError:
    trees = None


@unittest.skipIf(trees is None, "html5lib is not there")
class Trees(unittest.TestCase):
    def test_random_texts(self):
        compared, bad = trees.compare_cases(300, 1)
        self.assertGreater(compared, 250)
        self.assertEqual(bad, [])

    def test_what_is_steered(self):
        for page in ("<title><b></title>", "<style><b></style>", "<svg><![CDATA[<b>]]></svg><![CDATA[c]]>", "<plaintext></b>"):
            self.assertIsNone(trees.differs(page), page)

    def test_a_late_encoding(self):
        page = "<meta charset=windows-1251><title>\xef".encode("latin-1")
        self.assertIsNone(trees.differs(page))

    def test_a_late_encoding_after_raw_text(self):
        for page in (
            "<title>\xef</title>%s<meta charset=windows-1251><p>\xef<b>1",
            "<style>\xef</style>%s<meta http-equiv=content-type content='text/html; charset=koi8-r'><p>\xef",
        ):
            self.assertIsNone(trees.differs((page % ("<!--x-->" * 200)).encode("latin-1")), page)

    def test_strict(self):
        with self.assertRaisesRegex(html5lib.html5parser.ParseError, "Saw"):
            trees.html5lib_tree.Parser(strict=True).parse("<!DOCTYPE html><p a=>")
        with self.assertRaises(html5lib.html5parser.ParseError):
            trees.html5lib_tree.Parser(strict=True).parse("<p>")
        trees.html5lib_tree.Parser(strict=True).parse("<!DOCTYPE html><title>1</title><p>2</p>")

    def test_a_lone_surrogate(self):
        with self.assertRaisesRegex(ValueError, "lone surrogate"):
            trees.html5lib_tree.Parser().parse("<p>\ud800")


if __name__ == "__main__":
    unittest.main()
