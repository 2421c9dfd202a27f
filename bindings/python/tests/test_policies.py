"""Tests of policies by keywords and by texts: what each keeps, what is refused and why, defaults, and what is kept for later."""

import copy
import pathlib
import pickle
import re
import threading
import unittest

import firnuubal
from firnuubal import Cleaner, Policy, PolicyError, PolicyFault, clean

STANDARD = pathlib.Path(__file__).resolve().parents[3] / "crates/html5policy/src/standard.rt"

# Keywords that are refused: the argument, the word, and the fault.
REFUSED = [
    ({"tags": {"b", "svg"}}, "tags", "svg", PolicyFault.HIDES_CONTENT),
    ({"tags": {"b", "form", "object"}}, "tags", "object", PolicyFault.ACTS_ON_PAGE),
    ({"tags": ["b\nallow img src"]}, "tags", "b\nallow img src", PolicyFault.ELEMENT_NAME),
    ({"tags": {"a href"}}, "tags", "a href", PolicyFault.ELEMENT_NAME),
    ({"tags": {"p *"}}, "tags", "p *", PolicyFault.ELEMENT_NAME),
    ({"tags": {"x-*"}}, "tags", "x-*", PolicyFault.ELEMENT_NAME),
    ({"tags": {"B"}}, "tags", "B", PolicyFault.ELEMENT_NAME),
    ({"tags": {""}}, "tags", "", PolicyFault.ELEMENT_NAME),
    ({"tags": {"q"}, "clean_content_tags": {"q"}}, "clean_content_tags", "q", PolicyFault.ALLOWED_AND_HIDDEN),
    ({"clean_content_tags": {"A b"}}, "clean_content_tags", "A b", PolicyFault.ELEMENT_NAME),
    ({"attributes": {"a": {"onclick"}}}, "attributes", "onclick", PolicyFault.NEVER_KEPT),
    ({"attributes": {"*": {"style"}}}, "attributes", "style", PolicyFault.NEVER_KEPT),
    ({"attributes": {"a": {"href title"}}}, "attributes", "href title", PolicyFault.ATTRIBUTE_NAME),
    ({"attributes": {"a": {"data-*"}}}, "attributes", "data-*", PolicyFault.ATTRIBUTE_NAME),
    ({"attributes": {"*": {"*"}}}, "attributes", "*", PolicyFault.ATTRIBUTE_NAME),
    ({"attributes": {"x-y": {"title"}}}, "attributes", "x-y", None),
    ({"tags": {"b"}, "attributes": {"a": {"href"}}}, "attributes", "a", None),
    ({"url_schemes": {"https", "javascript"}}, "url_schemes", "javascript", PolicyFault.RUNS_ADDRESS),
    ({"url_schemes": {"https:"}}, "url_schemes", "https:", PolicyFault.SCHEME_NAME),
    ({"link_rel": "nofollow a/b"}, "link_rel", "a/b", PolicyFault.REL_WORD),
    ({"link_rel": "no\u00a0follow"}, "link_rel", "no\u00a0follow", PolicyFault.REL_WORD),
    ({"tags": {"p", "video"}, "tree": True}, "tree", "video", PolicyFault.NO_PLACE),
    ({"tags": {"p"}, "clean_content_tags": {"q", "td"}, "tree": True}, "tree", "td", None),
    ({"clean_content_tags": {"td"}}, "clean_content_tags", "td", PolicyFault.ALLOWED_AND_HIDDEN),
    ({"tags": {"video"}, "balance": False}, "balance", "False", None),
    ({"tags": {"video"}, "depth": 5}, "depth", "5", None),
    ({"tree": False, "depth": 5}, "depth", "5", None),
    ({"depth": 0}, "depth", "0", PolicyFault.BAD_DEPTH),
    ({"depth": 4097}, "depth", "4097", PolicyFault.BAD_DEPTH),
    ({"depth": True}, "depth", "True", PolicyFault.BAD_DEPTH),
    ({"tags": {"\ud800"}}, "tags", "\ud800", None),
]

# Keywords of another type, and the argument that the error names.
NO_KEYWORDS = [
    ({"tags": "div"}, "tags"),
    ({"tags": b"div"}, "tags"),
    ({"tags": 5}, "tags"),
    ({"tags": {b"div"}}, "tags"),
    ({"tags": [1]}, "tags"),
    ({"tags": [["a"]]}, "tags"),
    ({"attributes": {"a": "href"}}, r"attributes\['a'\]"),
    ({"attributes": {"a": {b"href"}}}, r"attributes\['a'\]"),
    ({"attributes": {1: {"href"}}}, "attributes"),
    ({"attributes": ["a"]}, "attributes"),
    ({"attributes": {"a"}}, "attributes"),
    ({"url_schemes": "https"}, "url_schemes"),
    ({"clean_content_tags": "q"}, "clean_content_tags"),
    ({"clean_content_tags": None}, "clean_content_tags"),
    ({"link_rel": 5}, "link_rel"),
    ({"link_rel": ["noopener"]}, "link_rel"),
    ({"depth": "1\nallow b"}, "depth"),
    ({"depth": 1.0}, "depth"),
    ({"tree": 1}, "tree"),
    ({"balance": "no"}, "balance"),
]


class Refusals(unittest.TestCase):
    def test_words_that_are_refused(self):
        for keywords, argument, word, cause in REFUSED:
            for call in (lambda: Policy(**keywords), lambda: clean("x", **keywords)):
                with self.subTest(keywords):
                    with self.assertRaises(PolicyError) as refused:
                        call()
                    error = refused.exception
                    self.assertEqual((error.argument, error.word, error.line), (argument, word, None))
                    self.assertIn(argument, str(error))
                    if argument not in ("balance", "depth"):
                        self.assertIn(repr(word), str(error))
                    if cause is not None:
                        self.assertEqual(error.cause, cause)

    def test_what_a_message_says(self):
        with self.assertRaisesRegex(PolicyError, "^tags: 'svg' can't be allowed: its content is always dropped$"):
            Policy(tags={"b", "svg"})
        with self.assertRaisesRegex(PolicyError, "^tree: 'video' can't be allowed: it has no place in the tree"):
            Policy(tags={"video"}, tree=True)

    def test_keywords_of_other_types(self):
        for keywords, argument in NO_KEYWORDS:
            for call in (lambda: Policy(**keywords), lambda: clean("x", **keywords)):
                with self.assertRaisesRegex(TypeError, argument, msg=keywords):
                    call()

    def test_what_is_no_policy(self):
        for given in ({"b"}, "allow b", b"allow b", 5, Policy):
            for call in (lambda: clean("x", given), lambda: Cleaner(given)):
                with self.assertRaisesRegex(TypeError, re.escape('Policy(tags={"p"})')):
                    call()
        for given in (b"allow p", 5, {"p"}):
            with self.assertRaisesRegex(TypeError, "text"):
                Policy(given)

    def test_a_policy_and_keywords(self):
        for keywords in ({"tags": {"p"}}, {"link_rel": None}, {"link_rel": "noopener noreferrer"}, {"tree": False}, {"depth": 5}):
            with self.assertRaises(TypeError):
                Policy("allow p", **keywords)
            with self.assertRaises(TypeError):
                clean("x", Policy(), **keywords)
        with self.assertRaises(TypeError):
            clean("x", tag={"p"})

    def test_lines_that_are_refused(self):
        rows = [("allow script", 1), ("allow p\nallow p onclick", 2), ("schemes javascript", 1), ("keep p", 1), ("\n\nallow A", 3)]
        for text, line in rows:
            with self.assertRaises(PolicyError) as refused:
                Policy(text)
            error = refused.exception
            self.assertEqual((error.line, error.rule), (line, text.split("\n")[line - 1]))
            self.assertIsInstance(error.cause, PolicyFault)
            self.assertIsNone(error.argument)

    def test_errors_are_copied(self):
        for call in (lambda: Policy(tags={"svg"}), lambda: Policy("allow p\nkeep q"), lambda: Policy(attributes={"x": ()})):
            with self.assertRaises(PolicyError) as refused:
                call()
            error = refused.exception
            for again in (pickle.loads(pickle.dumps(error)), copy.copy(error), copy.deepcopy(error)):
                self.assertEqual((type(again), str(again), vars(again)), (type(error), str(error), vars(error)))

    def test_nothing_of_a_refused_policy_stays(self):
        for _ in range(2):
            with self.assertRaises(PolicyError):
                clean("<b>x", tags={"b", "svg"})
            self.assertEqual(clean("<b>x", tags={"b"}), "<b>x</b>")


class Defaults(unittest.TestCase):
    def test_a_policy_stays_where_another_is_refused(self):
        policy = Policy(tags={"p"})
        for given in ({"tags": {"script"}}, {"text": "allow script"}):
            with self.assertRaises(PolicyError):
                policy.__init__(**given)
            self.assertEqual(policy, Policy(tags={"p"}))
            self.assertEqual(clean("<p><b>1", policy), "<p>1</p>")

    def test_the_page_is_made_to_fit(self):
        self.assertEqual(clean("<p>1<p>2", tags={"p"}), "<p>1</p><p>2</p>")
        self.assertEqual(clean("<p>1<p>2", tags={"p"}, tree=True), "<p>1</p><p>2</p>")
        self.assertEqual(clean("<p>1<p>2"), "<p>1</p><p>2</p>")
        # `video` has no place in the tree.
        self.assertEqual(clean("<p>1<p>2", tags={"p", "video"}), "<p>1<p>2</p></p>")
        self.assertEqual(clean("<p>1<p>2", tags={"p"}, tree=False), "<p>1<p>2</p></p>")
        self.assertEqual(clean("<p>1<p>2", tags={"p"}, tree=False, balance=True), "<p>1<p>2</p></p>")
        self.assertEqual(clean("<p>1<p>2", tags={"p"}, balance=False), "<p>1</p><p>2</p>")
        self.assertEqual(clean("<p>1<p>2", tags={"p"}, tree=False, balance=False), "<p>1<p>2")

    def test_what_is_cleaned_is_balanced(self):
        page = '</p></a>nice</p><a href="https://evil/">'
        kept = clean(page, tags={"p", "a"}, attributes={"a": ["href"]}, link_rel=None)
        self.assertEqual(kept, '<p></p>nice<p></p><a href="https://evil/"></a>')
        kept = clean(page, tags={"p", "a", "video"}, attributes={"a": ["href"]}, link_rel=None)
        self.assertEqual(kept, 'nice<a href="https://evil/"></a>')

    def test_a_part_of_tables_that_is_dropped_with_its_content(self):
        self.assertEqual(clean("<td>1</td><p>2", tags={"p"}, clean_content_tags={"td"}), "<p>2</p>")

    def test_a_depth(self):
        self.assertEqual(clean("<i><b>x</i>", depth=1), "<i>x</i>")
        self.assertEqual(clean("<i><b>x</i>", depth=4096), "<i><b>x</b></i>")

    def test_rel(self):
        page = "<a href=x rel=y>1</a>"
        self.assertEqual(clean(page), '<a href="x" rel="noopener noreferrer">1</a>')
        self.assertEqual(clean(page, tags={"a"}), '<a href="x" rel="noopener noreferrer">1</a>')
        self.assertEqual(clean(page, link_rel=None), '<a href="x">1</a>')
        self.assertEqual(clean(page, link_rel=""), '<a href="x">1</a>')
        self.assertEqual(clean(page, link_rel="nofollow  ugc\tnofollow"), '<a href="x" rel="nofollow ugc">1</a>')

    def test_a_policy_of_nothing(self):
        self.assertEqual(clean("<p>1 &lt; 2<b>", Policy("")), "1 &#60; 2")
        self.assertEqual(clean("<p>1", tags=(), attributes={}, url_schemes=()), "1")
        self.assertEqual(Policy("").text, "")
        self.assertNotEqual(Policy(""), Policy())
        self.assertEqual(clean("<p onclick=x>1", Policy()), "<p>1</p>")

    @unittest.skipUnless(STANDARD.is_file(), "this is no source tree")
    def test_the_lists_are_those_of_the_source(self):
        lines = [line.split() for line in STANDARD.read_text(encoding="utf-8").splitlines()]
        rules = {word: [line[1:] for line in lines if line[:1] == [word]] for word in ("allow", "everywhere", "schemes", "rel")}
        attributes = {line[0]: frozenset(line[1:]) for line in rules["allow"] if line[1:]}
        attributes["*"] = frozenset(rules["everywhere"][0])
        self.assertEqual(firnuubal.ALLOWED_TAGS, {line[0] for line in rules["allow"]})
        self.assertEqual(firnuubal.ALLOWED_ATTRIBUTES, attributes)
        self.assertEqual(firnuubal.ALLOWED_URL_SCHEMES, frozenset(rules["schemes"][0]))
        self.assertIn(repr(" ".join(rules["rel"][0])), repr(Policy(tags={"p"})))

    def test_the_standard_policy_is_that_of_the_lists(self):
        lists = Policy(
            tags=firnuubal.ALLOWED_TAGS, attributes=firnuubal.ALLOWED_ATTRIBUTES, url_schemes=firnuubal.ALLOWED_URL_SCHEMES
        )
        names = {"class", "id", *(name for names in firnuubal.ALLOWED_ATTRIBUTES.values() for name in names)}
        for tag in sorted(firnuubal.ALLOWED_TAGS | {"u", "form", "video", "font"}):
            for name in sorted(names):
                for address in ("x", "http:x", "https:x", "mailto:x", "tel:1", "ftp:x"):
                    page = f"<table><{tag} {name}={address}>1"
                    self.assertEqual(clean(page, lists), clean(page), page)


class Forms(unittest.TestCase):
    def test_iterables_of_names(self):
        tags = ["a", "b"]
        given = [set(tags), frozenset(tags), tags, tuple(tags), iter(tags), (it for it in tags), dict.fromkeys(tags)]
        given += [dict.fromkeys(tags).keys(), {1: "a", 2: "b"}.values(), ["b", "a", "b"]]
        for each in given:
            self.assertEqual(Policy(tags=each), Policy(tags=tags))
        for names in (["href"], {"href"}, iter(["href"]), {"href": 1}):
            self.assertEqual(Policy(attributes={"a": names}), Policy(attributes={"a": ["href"]}))

    def test_what_is_equal(self):
        self.assertEqual(len({Policy(), Policy(), Policy(""), Policy("allow p"), Policy(tags=["p"]), Policy(tags=("p",))}), 4)
        self.assertNotEqual(Policy(tags={"p"}, depth=1), Policy(tags={"p"}))
        self.assertNotEqual(Policy(tags={"p"}, tree=True), Policy(tags={"p"}))
        self.assertEqual((Policy("allow p").text, Policy(tags={"p"}).text, Policy().text), ("allow p", None, None))

    def test_what_is_shown_makes_it_again(self):
        policies = [Policy(), Policy(""), Policy("allow p\n"), Policy(tags={"b"}), Policy(link_rel=None, depth=5)]
        policies += [Policy(tags=["a"], attributes={"a": {"href"}}, url_schemes=["https"], clean_content_tags=["q"], tree=False)]
        for policy in policies:
            self.assertEqual(eval(repr(policy)), policy)

    def test_a_dict_that_a_caller_changes(self):
        tags, attributes = {"a"}, {"a": {"href"}}
        policy = Policy(tags=tags, attributes=attributes)
        tags.add("b")
        attributes["a"].clear()
        self.assertEqual(policy, Policy(tags={"a"}, attributes={"a": {"href"}}))
        before = firnuubal.ALLOWED_ATTRIBUTES.pop("img")
        try:
            self.assertEqual(clean("<img src=x>", clean_content_tags=["iframe"]), '<img src="x">')
        finally:
            firnuubal.ALLOWED_ATTRIBUTES["img"] = before


class Kept(unittest.TestCase):
    """`clean` keeps what it made of keywords, and confuses none."""

    def test_keywords_that_look_alike(self):
        page = "<p>1<i><b>2<p>3"
        rows = [{}, {"depth": 1}, {"tree": True}, {"tree": False}, {"tree": False, "balance": False}, {"depth": 2}]
        rows += [{"tags": {"p", "i"}, **row} for row in rows]
        due = [clean(page, Policy(**row)) for row in rows]
        self.assertGreater(len(set(due)), 6)
        for _ in range(3):
            self.assertEqual([clean(page, **row) for row in rows], due)

    def test_texts_that_lie_about_their_hash(self):
        class Odd(str):
            def __hash__(self):
                return hash("b")

            def __eq__(self, other):
                return True

        self.assertEqual(clean("<b>1<i>2", tags=["b"]), "<b>12</b>")
        self.assertEqual(clean("<b>1<i>2", tags=[Odd("i")]), "1<i>2</i>")
        self.assertEqual(clean("<b>1<i>2", tags=["b"]), "<b>12</b>")
        self.assertEqual(clean(b"<b>\xe9", tags=["b"], encoding=Odd("koi8-r")), "<b>И</b>")

        class Same(Policy):
            def __hash__(self):
                return 1

            def __eq__(self, other):
                return True

        self.assertEqual(clean("<b>1<i>2", Same(tags=["b"])), "<b>12</b>")
        self.assertEqual(clean("<b>1<i>2", Same(tags=["i"])), "1<i>2</i>")

    def test_no_more_than_so_many(self):
        from firnuubal import _cleaner

        for number in range(60):
            self.assertEqual(clean("<p>1", tags={"p", f"x-{number}"}), "<p>1</p>")
        self.assertLessEqual(len(_cleaner._cleaners.__dict__["known"]), 16)

    def test_threads(self):
        def use(tag):
            for _ in range(50):
                found.append(clean("<b>1</b><i>2</i>", tags={tag}) == {"b": "<b>1</b>2", "i": "1<i>2</i>"}[tag])

        found = []
        threads = [threading.Thread(target=use, args=(tag,)) for tag in "bi" * 4]
        for thread in threads:
            thread.start()
        for thread in threads:
            thread.join()
        self.assertEqual(found, [True] * 400)


if __name__ == "__main__":
    unittest.main()
