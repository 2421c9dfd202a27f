#!/usr/bin/env python3
"""Lemmas that follow the definitions of tree construction, clause by clause.

    python3 tools/gen/parser_laws.py
    python3 tools/gen/parser_laws.py --check

A law of tree construction says that each step keeps a property of the parser. Nearly all definitions only compose others,
so the proof of a clause is the clause again, with a lemma in place of each definition. This script writes these proofs, for
each definition of crates/tree_construction/specs whose result is a parser or a page. Those that change what the property
speaks of are proved by hand: a law has a file of them in crates/tree_laws/proofs, as Growing, and from it comes another, as GrowingSteps. With
`--check` nothing is written, and the status is 1 if a file isn't what would be written.
"""

import pathlib
import re
import sys
from collections import namedtuple

TOP = pathlib.Path(__file__).resolve().parent.parent.parent
CRATE = TOP / "crates" / "tree_construction"
PROOFS = TOP / "crates" / "tree_laws" / "proofs"
MODULES = ["Page", "Parser", "Formatting", "Adoption", "Resetting", "BeforeBody", "InBody", "Tables", "AfterBody",
           "ForeignContent", "Construction"]
WIDTH = 150

# A law: the name of its file, what its lemmas begin with, its property of a page, if it has one, and of a parser, the fields of
# a parser that it speaks of, and the name and the type of what all its lemmas take first, if anything. Of parameters of some
# types it has premises; then some kinds of elements don't meet that of a kind.
Law = namedtuple("Law", "file prefix page parser fields given type premises refused says")
LAWS = [
    Law("Growing", "grows", "Extends first {}.edits", "Extends first {}.page.edits", {"page"}, "first", "List Edit", {}, set(),
        "Each step of tree construction only adds edits."),
    Law("Numbers", "numbers", "PageNumbers k {}", "Numbers k {}", {"page", "formatting", "head", "form"}, "k", "ℕ", {}, set(),
        "Each step of tree construction makes numbers in their order, and names those that were made."),
    Law("Nested", "nested", "PageTree k {}", "TreeOf k {}", {"page", "formatting", "head", "form"}, "k", "ℕ", {}, set(),
        "Each step of tree construction keeps a tree, and no open element in one that is further in."),
    Law("Pointing", "points", "Extends first {}.edits", "Points {}", {"page", "head", "form"}, "first", "List Edit", {}, set(),
        "After each step of tree construction its pointers name a head and a form."),
    Law("Calm", "calm", None, "IsCalm {}", {"request", "options"}, "", "",
        {"Kind": "asks_text {} ≡ false", "StartTagOf": "asks_text (kind_of {}.name) ≡ false", "Token": "asks_text_by {} ≡ false"},
        {"Title", "Textarea", "Style", "Noframes", "Xmp", "Iframe", "Noembed", "Script", "Plaintext"},
        "After a tag of a name that asks for no text, tree construction lets the tokenizer go on."),
]

Definition = namedtuple("Definition", "module name opens parameters result clauses")
If = namedtuple("If", "test then other")
Let = namedtuple("Let", "name type value body")
Lambda = namedtuple("Lambda", "names body")
Update = namedtuple("Update", "base fields")
Apply = namedtuple("Apply", "atoms")

TOKEN = re.compile(r'"(?:[^"\\]|\\.)*"|[A-Za-zℕ_][\w\-]*(?:\.[A-Za-z_]\w*)*|\d+|==|\+\+|&&|\|\||\[\]|[(){};,.:=λ→∷+]|\s+')
# What is kept, and functions of it that a definition takes, by their types.
SUBJECTS = ("Parser", "Page")
FUNCTIONS = {"Again": ("Parser", "Token"), "InHtml": ("Token", "Parser"), "(Parser → Parser)": ("Parser",), "(Page → Page)": ("Page",)}


# The definition that all others serve.
LAST = "process"


class Unprovable(Exception):
    """A clause that no composition of lemmas proves."""


# ---- terms


def tokens_of(text):
    found = TOKEN.findall(text)
    if "".join(found) != text:
        raise ValueError(f"no tokens: {text!r}")
    return [it for it in found if not it.isspace()]


def end_of_group(tokens, at):
    """The place after the bracket that closes the one at a place."""
    depth = 0
    for place in range(at, len(tokens)):
        depth += (tokens[place] in "({") - (tokens[place] in ")}")
        if depth == 0:
            return place + 1
    raise ValueError("a bracket is not closed")


def place_of(tokens, word, at=0):
    """The place of a word outside brackets and of what belongs to another `if`."""
    while tokens[at] != word:
        if tokens[at] in ("(", "{"):
            at = end_of_group(tokens, at)
        elif tokens[at] == "if":
            at = place_of(tokens, "else", place_of(tokens, "then", at + 1)) + 1
        else:
            at += 1
    return at


def atoms_of(tokens):
    """An application's function and arguments, or None if there is an operator."""
    atoms, at = [], 0
    while at < len(tokens):
        if tokens[at] == "(":
            end = end_of_group(tokens, at)
        elif re.match(r'[\w"\[]', tokens[at]):
            end = at + 1
        else:
            return None
        atoms.append(tokens[at:end])
        at = end
    return atoms


def fields_of(tokens):
    """The names of the fields that are given between braces."""
    names, at = [tokens[0]], 0
    while at < len(tokens):
        if tokens[at] == ";" and at + 1 < len(tokens):
            names.append(tokens[at + 1])
        at = end_of_group(tokens, at) if tokens[at] in ("(", "{") else at + 1
    return names


def term_of(tokens):
    """A term by its outermost form, or None."""
    if tokens[0] == "if":
        then = place_of(tokens, "then", 1)
        other = place_of(tokens, "else", then + 1)
        return If(tokens[1:then], tokens[then + 1 : other], tokens[other + 1 :])
    if tokens[0] == "let":
        equals, end = place_of(tokens, "="), place_of(tokens, "in")
        return Let(tokens[1], tokens[3:equals], tokens[equals + 1 : end], tokens[end + 1 :])
    if tokens[0] == "λ":
        dot = tokens.index(".")
        return Lambda(tokens[1:dot], tokens[dot + 1 :])
    if tokens[0] == "record":
        brace = place_of(tokens, "{")
        if end_of_group(tokens, brace) == len(tokens) and brace > 1:
            return Update(tokens[1:brace], fields_of(tokens[brace + 1 : -1]))
        return None
    atoms = atoms_of(tokens)
    if atoms and len(atoms) == 1 and atoms[0][0] == "(":
        return term_of(atoms[0][1:-1])
    return Apply(atoms) if atoms else None


def shown(tokens):
    text = " ".join(tokens)
    text = re.sub(r"\( ", "(", text)
    return re.sub(r" ([),;.])", r"\1", text)


def argument(text):
    """A text as an argument: in brackets unless it is one word."""
    return text if re.fullmatch(r"[\w\-.\[\]]+|\([^()]*\)", text) else f"({text})"


# ---- definitions


def parts_of_type(text):
    """The types of a definition's parameters, and of its result."""
    parts, part = [], []
    for at, token in enumerate(tokens := tokens_of(text)):
        if token == "→" and tokens[:at].count("(") == tokens[:at].count(")"):
            parts.append(part)
            part = []
        else:
            part.append(token)
    types = []
    for it in parts:
        count = it.index(":") - 1 if ":" in it else 1
        types += [shown(it[it.index(":") + 1 : -1] if ":" in it else it)] * count
    return types, shown(part)


def clause_of(text):
    """A clause's patterns and its term."""
    tokens = tokens_of(text)
    equals = place_of(tokens, "=")
    return atoms_of(tokens[:equals]), tokens[equals + 1 :]


def definitions_in(module):
    """The definitions of a module, in their order."""
    text = re.sub(r"(?m)^\s*--.*\n", "", (CRATE / "specs" / f"{module}.antt").read_text(encoding="utf-8"))
    lines = re.sub(r"\n *(?=\}|(?<= )\S)", " ", text).split("\n")
    found = []
    for line in lines:
        head = re.match(r"(abbrev|unfoldable) pub (\w+) : (.*)", line)
        if head:
            found.append(Definition(module, head[2], head[1] == "unfoldable", *parts_of_type(head[3]), []))
        elif found and line.startswith(found[-1].name + " ") and found[-1].result in SUBJECTS:
            found[-1].clauses.append(clause_of(line[len(found[-1].name) :]))
    return [it for it in found if it.result in SUBJECTS and it.result in it.parameters]


def subject_of(definition):
    """The place of the parameter that a definition changes: the last of the type of its result."""
    return len(definition.parameters) - 1 - definition.parameters[::-1].index(definition.result)


# ---- proofs


class Prover:
    """Writes the lemmas of a law."""

    def __init__(self, law):
        self.law = law
        self.definitions = {}  # those that have a lemma
        self.unproved = {}     # of each other one why not

    def lemma_of(self, name):
        """The lemma of a definition, with what each lemma takes first."""
        return f"{self.law.prefix}-{name} {self.law.given}".rstrip()

    def fields(self, kind):
        """The fields that the property speaks of."""
        if kind == "Parser":
            return self.law.fields
        return {"edits"} if ".edits" in (self.law.page or "") else {"edits", "next", "opened"}

    def property(self, kind, text):
        return (self.law.page if kind == "Page" else self.law.parser).format(text)

    def proof(self, tokens, known, kind):
        """A proof that a term has the property, by proofs for the variables in it."""
        term = term_of(tokens)
        if isinstance(term, If):
            branches = " ".join(argument(shown(it)) for it in (term.then, term.other))
            proofs = " ".join(argument(self.proof(it, known, kind)) for it in (term.then, term.other))
            return f"{self.lemma_of('if-' + kind.lower())} ({shown(term.test)}) {branches} {proofs}"
        if isinstance(term, Let):
            return self.proof_of_let(term, known, kind)
        if isinstance(term, Update) and not set(term.fields) & self.fields(kind):
            return self.proof(term.base, known, kind)
        if isinstance(term, Apply):
            return self.proof_of_call(term.atoms[0][0], term.atoms[1:], known)
        raise Unprovable(shown(tokens))

    def proof_of_let(self, term, known, kind):
        bound = f"let {term.name} : {shown(term.type)} = {shown(term.value)} in "
        if term.type[0] in SUBJECTS:
            own = term.type[0]
            bound += f"let h-{term.name} : {self.property(own, term.name)} = {self.proof(term.value, known, own)} in "
            known = {**known, term.name: f"h-{term.name}"}
        return bound + self.proof(term.body, known, kind)

    def proof_of_call(self, name, arguments, known):
        if not arguments and name in known:
            return known[name]
        if isinstance(known.get(name), tuple):
            at = next(at for at, it in enumerate(known[name]) if it in SUBJECTS)
            inner = self.proof(arguments[at], known, known[name][at])
            words = [f"h-{name} {self.law.given}".rstrip(), *self.words_for(known[name], arguments, known), argument(inner)]
            return " ".join(words)
        definition = self.definitions.get(name)
        if definition is None or len(arguments) != len(definition.parameters):
            raise Unprovable(f"{name} {len(arguments)}")
        at = subject_of(definition)
        inner = self.proof(arguments[at], known, definition.parameters[at])
        return f"{self.lemma_with(definition, arguments, known)} {argument(inner)}"

    def lemma_with(self, definition, arguments, known):
        """The lemma of a definition, with arguments, and proofs for those that are functions."""
        return " ".join([self.lemma_of(definition.name), *self.words_for(definition.parameters, arguments, known)])

    def words_for(self, kinds, arguments, known):
        """Arguments, with what each wants beside it: of a function that it keeps the property, of others the premise."""
        words = []
        for kind, it in zip(kinds, arguments):
            words.append(argument(shown(it)))
            if self.is_kept_by(kind):
                words.append(argument(self.proof_of_function(it, FUNCTIONS[kind], known)))
            elif self.has_premise(kind, kinds):
                words.append(self.proof_of_premise(it, known))
        return words

    def has_premise(self, kind, kinds):
        """Whether the law has a premise of a parameter: of a kind only where it is that of a start tag."""
        return kind in self.law.premises and (kind != "Kind" or "StartTagOf" in kinds)

    def is_kept_by(self, kind):
        """Whether a parameter of a type is a function that must keep the property."""
        return kind in FUNCTIONS and (self.law.page or "Page" not in FUNCTIONS[kind])

    def proof_of_premise(self, tokens, known):
        """A proof that an argument meets the premise of its type."""
        names = [it.split(".")[0] for it in tokens]
        found = [known[f"?{it}"] for it in names if f"?{it}" in known]
        if "record" in tokens or not found:
            if self.law.refused & set(tokens):
                raise Unprovable(shown(tokens))
            self.opens_names = True
            return "refl"
        return found[0]

    def proof_of_function(self, tokens, kinds, known):
        """A proof that a function keeps the property."""
        term = term_of(tokens)
        at = next(at for at, it in enumerate(kinds) if it in SUBJECTS)
        if isinstance(term, Lambda):
            return self.proof_of_lambda(term, kinds, at, known)
        name, arguments = term.atoms[0][0], term.atoms[1:]
        if isinstance(known.get(name), tuple) and not arguments:
            return f"h-{name}"
        if name in self.definitions:
            lemma = self.lemma_with(self.definitions[name], arguments, known)
            return f"λ {self.law.given}. {lemma}" if self.law.given else lemma
        raise Unprovable(shown(tokens))

    def proof_of_lambda(self, term, kinds, at, known):
        """The same of a function that is written out."""
        own = term.names[at]
        inner = {name: it for name, it in known.items() if isinstance(it, tuple) or name.startswith("?")}
        binders = [self.law.given] if self.law.given else []
        for kind, name in zip(kinds, term.names):
            binders.append(name)
            if kind in self.law.premises:
                binders.append(f"q-{name}")
                inner[f"?{name}"] = f"q-{name}"
        return f"λ {' '.join(binders)} h-{own}. {self.proof(term.body, {**inner, own: f'h-{own}'}, kinds[at])}"

    def statement(self, definition):
        """The lemma's parameters, in the definition's own names, and what it says."""
        names, parts = [], self.binders_of_given()
        for at, kind in enumerate(definition.parameters):
            names.append(name_of(definition, at, names))
            parts.append(f"({names[-1]} : {kind})")
            if self.is_kept_by(kind):
                parts.append(self.hypothesis(names[-1], FUNCTIONS[kind]))
            elif self.has_premise(kind, definition.parameters):
                parts.append(self.law.premises[kind].format(names[-1]))
        at = subject_of(definition)
        before, after = names[at], f"({definition.name} {' '.join(names)})"
        return " → ".join(parts + [self.property(definition.result, before), self.property(definition.result, after)])

    def hypothesis(self, name, kinds):
        names = ["q" if it in SUBJECTS else "t" for it in kinds]
        parts = self.binders_of_given()
        for own, kind in zip(names, kinds):
            parts.append(f"({own} : {kind})")
            parts += [self.law.premises[kind].format(own)] if kind in self.law.premises else []
        kind = next(it for it in kinds if it in SUBJECTS)
        return f"({' → '.join(parts)} → {self.property(kind, 'q')} → {self.property(kind, f'({name} ' + ' '.join(names) + ')')})"

    def binders_of_given(self):
        return [f"({self.law.given} : {self.law.type})"] if self.law.given else []

    def lemmas_for(self, definition, by_hand):
        """The lines of a definition's lemma: none if it is proved by hand, or if no composition of lemmas proves it."""
        self.definitions[definition.name] = definition
        if f"{self.law.prefix}-{definition.name}" in by_hand:
            return []
        if not self.law.page and definition.result == "Page":
            return []
        try:
            return self.lemma(definition)
        except Unprovable as why:
            del self.definitions[definition.name]
            self.unproved[definition.name] = str(why)
            return []

    def lemma(self, definition):
        name = f"{self.law.prefix}-{definition.name}"
        self.opens_names = False
        clauses = [f"{name} {self.clause(definition, *it)}" for it in definition.clauses]
        opened = [definition.name] * definition.opens + ["kind_of", "kind_in", "all_names", "is_among"] * self.opens_names
        return [f"pub {name} : {self.statement(definition)}", *([f"unfolding {' '.join(opened)}"] if opened else []), *clauses]

    def clause(self, definition, patterns, term):
        """The proof of a clause, after the lemma's name."""
        known, left = {}, [self.law.given] if self.law.given else []
        impossible = ""
        for kind, pattern in zip(definition.parameters, patterns):
            left.append(shown(pattern))
            if self.is_kept_by(kind):
                known[pattern[0]] = FUNCTIONS[kind]
                left.append(f"h-{pattern[0]}")
            elif self.has_premise(kind, definition.parameters):
                own = pattern[-2] if len(pattern) > 1 else pattern[0]
                left.append(f"q-{own.lower()}")
                known[f"?{own}"] = f"q-{own.lower()}"
                impossible = left[-1] if own in self.law.refused else impossible
        known[patterns[subject_of(definition)][0]] = "h"
        body = f"absurd (false≢true (sym {impossible}))" if impossible else self.proof(term, known, definition.result)
        return f"{' '.join(left)} h = {body}"


def name_of(definition, at, taken):
    """A name for a parameter: one that a clause gives it."""
    usual = {"Parser": "p", "Page": "page"}.get(definition.parameters[at])
    given = [it for patterns, _ in definition.clauses for it in patterns[at] if re.fullmatch(r"[a-z]\w*", it)]
    return next((it for it in [usual, *given, f"x{at}"] if it and it not in taken), f"x{at}")


# ---- files


def wrapped(line):
    """A line, cut where it is too long."""
    lines, rest = [], line
    while len(rest) > WIDTH:
        cut = max((it.start() for it in re.finditer(r" (?=[(→])", rest[:WIDTH]) if it.start() > 8), default=0)
        if not cut:
            break
        lines.append(rest[:cut])
        rest = f"    {rest[cut + 1 :]}"
    return [*lines, rest]


def names_by_module():
    """Each name that a definition's module gives or takes from elsewhere, with where it is from."""
    found = {}
    for module in [*MODULES, "Names"]:
        text = (CRATE / "specs" / f"{module}.antt").read_text(encoding="utf-8")
        for source, names in re.findall(r"(?m)^use ([\w.]+)\.\{([^}]*)\}", text):
            for it in names.split(", "):
                found.setdefault(it.split(" as ")[-1], (source, it))
        for it in re.findall(r"(?m)^(?:abbrev |unfoldable )?pub (?:record |data )?(\w+)", text):
            found[it] = (f"Rattle.tree_construction.specs.{module}", it)
    return found


def imports_for(text, law, by_hand):
    """The lines that bring in what a text names."""
    words = set(re.findall(r"[A-Za-zℕ_][\w\-]*", text))
    groups = {}
    for name, (source, written) in sorted(names_by_module().items()):
        if name in words and source != "Rattle.std.specs.Prelude":
            groups.setdefault(source, []).append(written)
    for name, file in sorted(by_hand.items()):
        if name in words:
            groups.setdefault(f"Rattle.tree_laws.proofs.{file}", []).append(name)
    return "".join(f"use {source}.{{{', '.join(names)}}}\n" for source, names in sorted(groups.items()))


COMMON = """\
use Rattle.std.proofs.Common.{◌≡◌, ℕ, Bool, true, false, List, [], ◌∷◌, ◌++◌, refl, sym}
use Rattle.std.proofs.lemmas.Bool.{false≢true}
use Rattle.std.specs.Prelude.{suc, zero, ◌+◌, ◌==◌, ◌&&◌, ◌||◌, not, length, map, take, drop, Option, Some, None, codes, if◌then◌else◌}
use Rattle.tree_laws.specs.Laws.{Extends}
"""


def common_for(text):
    """The lines of COMMON, with the names that a text has: an operator's parts stand apart."""
    words = set(re.split(r"[\s(){}.,;]+", text))
    found = []
    for line in COMMON.splitlines():
        source, names = re.fullmatch(r"(.*)\{(.*)\}", line).groups()
        used = [it for it in names.split(", ") if all(part in words for part in it.split("◌") if part)]
        found += [f"{source}{{{', '.join(used)}}}\n"] if used else []
    return "".join(found)


def names_by_hand(law):
    """What the files of a law by hand declare that others may name, with the file of each."""
    found = {}
    for file in sorted(PROOFS.glob(f"{law.file}*.antt")):
        text = file.read_text(encoding="utf-8")
        if file.stem != f"{law.file}Steps":
            lemmas = re.findall(rf"(?m)^ *pub ({law.prefix}-[\w\-]+) :", text)
            found.update(dict.fromkeys(lemmas + re.findall(r"(?m)^(?:abbrev )?pub (?:record )?(\w+) ", text), file.stem))
    return found


def written(law):
    """The file of a law's lemmas."""
    by_hand = names_by_hand(law)
    definitions = [it for module in MODULES for it in definitions_in(module)]
    prover = Prover(law)
    lines = []
    for it in definitions:
        found = prover.lemmas_for(it, by_hand)
        lines += ["", *(cut for line in found for cut in wrapped(line))] if found else []
    if LAST not in prover.definitions:
        raise Unprovable(f"{law.file}: {prover.unproved}")
    body = "\n".join(lines) + "\n"
    head = f"-- {law.says} By `python3 tools/gen/parser_laws.py`, and not by hand; the steps that it rests on are in {law.file}.\n"
    return head + common_for(body) + imports_for(body, law, by_hand) + body


def main():
    if sys.argv[1:] not in ([], ["--check"]):
        sys.exit(__doc__)
    stale = []
    for law in LAWS:
        file, text = PROOFS / f"{law.file}Steps.antt", written(law)
        if not sys.argv[1:]:
            file.write_text(text, encoding="utf-8")
        elif not file.exists() or file.read_text(encoding="utf-8") != text:
            stale.append(str(file.relative_to(TOP)))
    return f"not what the definitions make: {', '.join(stale)}" if stale else 0


if __name__ == "__main__":
    sys.exit(main())
