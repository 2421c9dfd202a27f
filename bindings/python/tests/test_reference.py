"""Tests that `pydoc firnuubal` has a text for each public name."""

import inspect
import unittest

import firnuubal


def parts_of(kind):
    """What a class shows of its own: methods and properties, by name."""
    of = (property, classmethod, staticmethod)
    return {name: it for name, it in vars(kind).items() if not name.startswith("_") and (inspect.isroutine(it) or isinstance(it, of))}


def undocumented(name, it):
    if (inspect.isclass(it) or inspect.isroutine(it)) and not it.__doc__:
        yield name
    if inspect.isclass(it):
        yield from (f"{name}.{part}" for part, of in parts_of(it).items() if not inspect.getdoc(of))


class Reference(unittest.TestCase):
    def test_each_public_name_has_a_text(self):
        self.assertEqual([it for name in firnuubal.__all__ for it in undocumented(name, getattr(firnuubal, name))], [])

    def test_a_name_without_a_text_is_found(self):
        class Bare:
            def call(self):
                return self

        self.assertEqual(list(undocumented("Bare", Bare)), ["Bare", "Bare.call"])

    def test_all_names_what_the_package_shows(self):
        modules = {name for name, it in vars(firnuubal).items() if inspect.ismodule(it)}
        shown = {name for name in vars(firnuubal) if not name.startswith("_")} - modules
        self.assertEqual(shown - set(firnuubal.__all__), set())


if __name__ == "__main__":
    unittest.main()
