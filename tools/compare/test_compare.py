"""Tests of what the comparisons stand on: the models by worked cases, the planted changes, and how cases are made smaller."""

import re
import unittest

from cases.case import Case, Page
from cases.worked import worked_cases
from model import construction

from .command import KINDS
from .kinds import Check, Rewrite, ended_by, model_of
from .places import Places, are_places, taken_for_places, tokens_of
from .planted import TREE_CHANGES, load_all
from .shrinking import smallest


def in_runs(lines):
    """Printed lines as `PlaceReader` hands them over: text in which only errors stand is one run, after these."""
    run, kept = "", []
    for line in lines.split("\n")[:-1]:
        if line.startswith("text "):
            run += line[len('text "') : -1]
            continue
        if run and not line.startswith("error "):
            kept.append(f'text "{run}"\n')
            run = ""
        kept.append(line + "\n")
    return "".join(kept)


class Models(unittest.TestCase):
    def test_the_grammar_has_the_lines_that_are_written_by_hand(self):
        for case, by_hand in worked_cases():
            with self.subTest(case):
                self.assertEqual(model_of("program")(case), by_hand)

    def test_places_are_of_the_lines_that_are_written_by_hand(self):
        for case, by_hand in worked_cases():
            if not case.has("--foreign"):
                with self.subTest(case):
                    lines = model_of("places")(case).lines
                    self.assertEqual(re.sub(r"^\d.*\n", "", lines, flags=re.MULTILINE), in_runs(by_hand.lines))

    def test_places_are_seen_to_be_right_and_moved_ones_to_be_wrong(self):
        for case in Places.worked:
            ended = model_of("places")(case)
            if ended.status == 0:
                with self.subTest(case):
                    self.assertTrue(are_places(tokens_of(ended.lines), case.given))
                    self.assertEqual(taken_for_places(case, ended), [])


class Changes(unittest.TestCase):
    def test_what_each_change_replaces_stands_in_the_model_once(self):
        for name, kind in KINDS.items():
            with self.subTest(name):
                self.assertEqual(len(load_all(kind.changes, kind.model)), len(kind.changes))

    def test_what_each_change_of_the_definition_replaces_stands_there_once(self):
        sources = construction.sources()
        for change in TREE_CHANGES:
            with self.subTest(change.name):
                self.assertEqual(sources[change.module].count(change.right), 1)

    def test_each_change_is_seen_in_some_page(self):
        for kind in (Check, Rewrite):
            pages = [kind.maker("1", number) for number in range(300)]
            due = [model_of(kind.model)(page) for page in pages]
            for change, module in load_all(kind.changes, kind.model):
                with self.subTest(change.name):
                    self.assertNotEqual([ended_by(module, page) for page in pages], due)


class Smaller(unittest.TestCase):
    def test_a_text(self):
        words = (("--exact",), ("--table", "a=41,b=42,c=43"))
        found = smallest(Case(words, "some <text> here"), lambda it: "<" in it.text and "b=42" in "".join(it.flat_words))
        self.assertEqual(found, Case((("--table", "b=42"),), "<"))

    def test_plainer_characters(self):
        found = smallest(Case((), "xyz<"), lambda it: len(it.text) > 1 and it.text.endswith("<"))
        self.assertEqual(found, Case((), "a<"))

    def test_a_page(self):
        parts = ((("<a>", 1), ("b", None)), (("</c>", 2),), (("d", None),))
        found = smallest(Page((("--x",),), parts), lambda it: "b" in it.text)
        self.assertEqual(found, Page((), parts[:1]))


if __name__ == "__main__":
    unittest.main()
