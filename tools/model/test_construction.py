"""The definition of tree construction, run as it stands, builds the trees of its worked cases."""

import json
import pathlib
import unittest

from model import construction, parsing

CASES = pathlib.Path(__file__).resolve().parent.parent / "cases" / "construction.jsonl"


def worked_cases():
    return [json.loads(line) for line in CASES.read_text(encoding="utf-8").splitlines()]


class TestConstruction(unittest.TestCase):
    def test_worked_cases(self):
        cases = worked_cases()
        found = construction.with_deep_stack(lambda: [
            construction.tree_of(it["messages"], it["scripting"], it["context"], it.get("limits", (None, None))) for it in cases])
        for case, tree in zip(cases, found):
            with self.subTest(row=case["row"], page=case["page"]):
                self.assertEqual(tree, case["tree"])

    def test_pages_that_the_tokenizer_s_model_reads(self):
        cases = [it for it in worked_cases() if it["context"] is None]
        settings = [parsing.Settings(it["scripting"], tuple(it.get("limits", (None, None)))) for it in cases]
        found = construction.with_deep_stack(lambda: [parsing.tree(it["page"], how) for it, how in zip(cases, settings)])
        for case, tree in zip(cases, found):
            with self.subTest(row=case["row"], page=case["page"]):
                self.assertEqual(tree, case["tree"])


if __name__ == "__main__":
    unittest.main()
