"""Runs definitions of crates/*/specs as they stand, so that a page can be tried without the prover.

A definition is a function of the language of specs: clauses by patterns, records, `if`, `let` and functions as arguments.
Each becomes a function of Python. A list is a pair of its first item and the rest, and () at its end; a constructor is its
name, or a tuple of its name and its arguments; a record is a dict.
"""

import functools
import pathlib
import re
import sys

TOKEN = re.compile(r'"(?:[^"\\]|\\.)*"|[A-Za-zℕ_][\w\-]*|\d+|\.(?=[a-z_])|==|\+\+|&&|\|\||\[\]|[(){};,.:=λ→∷+]|\s+')
# Operators by how tightly they bind, the loosest first, and whether they group to the right.
OPERATORS = [({"++"}, True), ({"∷"}, True), ({"||"}, True), ({"&&"}, True), ({"=="}, False), ({"+"}, False)]
VALUES = {"true": "True", "false": "False", "zero": "0", "[]": "()"}


# ---- lists


def listed(items):
    found = ()
    for it in reversed(list(items)):
        found = (it, found)
    return found


def items_of(cells):
    found = []
    while cells:
        found.append(cells[0])
        cells = cells[1]
    return found


def appended(first, second):
    return second if not first else listed(items_of(first) + items_of(second))


@functools.lru_cache(maxsize=None)
def codes(text):
    return listed(text.encode())


def take(count, cells):
    return listed(items_of(cells)[:count])


def drop(count, cells):
    while count and cells:
        count, cells = count - 1, cells[1]
    return cells


BUILT_IN = {
    "cons": lambda first, rest: (first, rest),
    "appended": appended,
    "codes": codes,
    "suc": lambda n: n + 1,
    "map": lambda function, cells: listed(function(it) for it in items_of(cells)),
    "length": lambda cells: len(items_of(cells)),
    "take": take,
    "drop": drop,
    "not_": lambda test: not test,
    "nat_lt": lambda n, m: n < m,
    "nat_le": lambda n, m: n <= m,
    "bytes_eq": lambda first, second: first == second,
    "to_ascii_lowercase": lambda c: c + 32 if 65 <= c <= 90 else c,
    "plain_name": lambda local: {"prefix": "None", "ns": (), "local": local},
    "partial": functools.partial,
}
ARITIES = {"suc": 1, "map": 2, "length": 1, "take": 2, "drop": 2, "not": 1, "nat_lt": 2, "nat_le": 2, "bytes_eq": 2,
           "to_ascii_lowercase": 1, "codes": 1, "plain_name": 1}


# ---- terms


def tokens_of(text):
    found = TOKEN.findall(text)
    if "".join(found) != text:
        raise ValueError(f"no tokens: {text!r}")
    return [it for it in found if not it.isspace()]


def python_name(name):
    return "v_" + name.replace("-", "_")


class Reader:
    """Reads a term of the language of specs into an expression of Python."""

    def __init__(self, tokens, arities, aliases, bound):
        self.tokens, self.at = tokens, 0
        self.arities, self.aliases = arities, aliases
        self.bound = set(bound)  # names of parameters and the like, which hide definitions

    def next(self):
        self.at += 1
        return self.tokens[self.at - 1]

    def peek(self):
        return self.tokens[self.at] if self.at < len(self.tokens) else ""

    def expect(self, word):
        found = self.next()
        if found != word:
            raise ValueError(f"{found} where {word} is wanted, in {' '.join(self.tokens)}")

    def term(self):
        if self.peek() == "if":
            return self.condition()
        if self.peek() == "let":
            return self.binding()
        if self.peek() == "λ":
            return self.function()
        return self.operation(0)

    def condition(self):
        self.expect("if")
        test = self.term()
        self.expect("then")
        then = self.term()
        self.expect("else")
        return f"({then} if {test} else {self.term()})"

    def binding(self):
        self.expect("let")
        name = self.next()
        while self.next() != "=":
            pass
        value = self.term()
        self.expect("in")
        self.bound.add(name)
        return f"(lambda {python_name(name)}: {self.term()})({value})"

    def function(self):
        self.expect("λ")
        names = []
        while self.peek() != ".":
            self.bound.add(self.peek())
            names.append(python_name(self.next()))
        self.expect(".")
        return f"(lambda {', '.join(names)}: {self.term()})"

    def operation(self, level):
        if level == len(OPERATORS):
            return self.application()
        left = self.operation(level + 1)
        words, to_right = OPERATORS[level]
        while self.peek() in words:
            word = self.next()
            right = self.operation(level) if to_right and self.peek() not in ("if", "let", "λ") else \
                self.term() if self.peek() in ("if", "let", "λ") else self.operation(level + 1)
            left = joined(word, left, right)
        return left

    def application(self):
        head = self.peek()
        if head == "record":
            return self.fields_after(self.record())
        if re.match(r"[A-Za-zℕ_]", head) and head not in VALUES:
            return self.call(self.next())
        return self.applied(self.atom())

    def call(self, name):
        """A name with its arguments."""
        if self.peek() == "." and self.tokens[self.at - 1] == name:
            return self.applied(self.fields_after(python_name(name)))
        arguments = self.arguments()
        if name[0].isupper():
            own = repr(self.aliases.get(name, name))
            return f"({own}, {', '.join(arguments)})" if arguments else own
        if name not in self.arities or name in self.bound:
            return f"{python_name(name)}({', '.join(arguments)})" if arguments else python_name(name)
        arity, function = self.arities[name], python_name(name) if name not in ARITIES else "not_" if name == "not" else name
        if len(arguments) < arity:
            return f"partial({', '.join([function, *arguments])})" if arguments else function
        first = f"{function}({', '.join(arguments[:arity])})"
        return f"{first}({', '.join(arguments[arity:])})" if arguments[arity:] else first

    def applied(self, function):
        arguments = self.arguments()
        return f"{function}({', '.join(arguments)})" if arguments else function

    def arguments(self):
        found = []
        while re.match(r'[A-Za-zℕ_\d"(\[]', self.peek()) and self.peek() not in ("then", "else", "in"):
            found.append(self.record() if self.peek() == "record" else self.atom())
        return found

    def atom(self):
        """A term that needs no brackets, with the fields that are taken of it."""
        word = self.next()
        if word == "(":
            inner = self.term()
            self.expect(")")
            return self.fields_after(f"({inner})")
        if word in VALUES:
            return VALUES[word]
        if word[0] == '"' or word[0].isdigit():
            return word
        if word[0].isupper():
            return repr(self.aliases.get(word, word))
        if word in self.bound:
            return self.fields_after(python_name(word))
        if self.arities.get(word) == 0:
            return self.fields_after(f"{python_name(word)}()")
        return self.fields_after("not_" if word == "not" else word if word in ARITIES else python_name(word))

    def fields_after(self, value):
        while self.peek() == ".":
            self.expect(".")
            value += f"[{self.next()!r}]"
        return value

    def record(self):
        """A record that is written out, or another with some fields changed."""
        self.expect("record")
        base = "" if self.peek() == "{" else self.atom()
        self.expect("{")
        fields = []
        while self.peek() != "}":
            name = self.next()
            self.expect("=")
            fields.append(f"{name!r}: {self.term()}")
            if self.peek() == ";":
                self.expect(";")
        self.expect("}")
        return "{" + ", ".join([f"**{base}"] * bool(base) + fields) + "}"


def joined(word, left, right):
    """An operation in Python."""
    if word == "∷":
        return f"cons({left}, {right})"
    if word == "++":
        return f"appended({left}, {right})"
    return f"({left} {'and' if word == '&&' else 'or' if word == '||' else word} {right})"


# ---- patterns


def groups_of(tokens):
    """Patterns, each by its tokens."""
    found, depth = [], 0
    for it in tokens:
        if depth == 0:
            found.append([])
        depth += (it == "(") - (it == ")")
        found[-1].append(it)
    return found


def matched(pattern, value, aliases):
    """Tests of a value by a pattern, and what the pattern binds."""
    if pattern[0] == "(":
        return matched_inside(pattern[1:-1], value, aliases)
    word = pattern[0]
    if word in VALUES:
        return [f"{value} == {VALUES[word]}"], []
    if word[0].isupper():
        return [f"{value} == {aliases.get(word, word)!r}"], []
    return [], [] if word == "_" else [(python_name(word), value)]


def matched_inside(tokens, value, aliases):
    groups = groups_of(tokens)
    if ["∷"] in groups:
        cut = groups.index(["∷"])
        first, rest = sum(groups[:cut], []), sum(groups[cut + 1 :], [])
        parts, tests = [(["(", *first, ")"], f"{value}[0]"), (["(", *rest, ")"], f"{value}[1]")], [f"{value} != ()"]
    elif groups[0] == ["suc"]:
        parts, tests = [(groups[1], f"({value} - 1)")], [f"{value} > 0"]
    elif len(groups) == 1:
        return matched(groups[0], value, aliases)
    else:
        name = aliases.get(groups[0][0], groups[0][0])
        parts = [(it, f"{value}[{at}]") for at, it in enumerate(groups) if at]
        tests = [f"isinstance({value}, tuple) and {value}[0] == {name!r}"]
    binds = []
    for part, own in parts:
        more, bound = matched(part, own, aliases)
        tests, binds = tests + more, binds + bound
    return tests, binds


# ---- modules


def arity_of(text):
    """How many parameters a type has."""
    count, depth, named = 0, 0, re.compile(r"\(((?:\w+ )+):")
    for at, it in enumerate(text):
        depth += (it in "({") - (it in ")}")
        if it == "→" and depth == 0:
            count += 1
    return count + sum(len(it.split()) - 1 for it in named.findall(text))


def place_of_equals(tokens):
    depth = 0
    for at, it in enumerate(tokens):
        depth += (it in "({") - (it in ")}")
        if it == "=" and depth == 0:
            return at
    raise ValueError(" ".join(tokens))


def lines_of(source):
    """The lines of a file's text without comments, each with what goes on from it."""
    text = re.sub(r"(?m)^\s*--.*\n", "", source)
    return re.sub(r"\n *(?=\}|(?<= )\S)", " ", text).split("\n")


def function_of(name, arity, clauses, arities, aliases):
    """The function of a definition, as text."""
    parameters = [f"a{at}" for at in range(arity)]
    lines = [f"def {python_name(name)}({', '.join(parameters)}):"]
    for tokens in clauses:
        equals = place_of_equals(tokens)
        patterns = groups_of(tokens[1:equals])
        tests, binds = [], []
        for pattern, value in zip(patterns, parameters):
            more, bound = matched(pattern, value, aliases)
            tests, binds = tests + more, binds + bound
        names = {it for pattern in patterns for it in pattern if re.match("[a-z]", it)}
        body = Reader(tokens[equals + 1 :], arities, aliases, names).term()
        if len(patterns) < arity:
            body = f"{body}({', '.join(parameters[len(patterns):])})"
        lines.append(f"    if {' and '.join(tests) or 'True'}:")
        lines += [f"        {own} = {value}" for own, value in binds]
        lines.append(f"        return {body}")
    lines.append(f"    raise ValueError('no clause of {name}')")
    return "\n".join(lines)


class Definitions:
    """The definitions of some files, which are given as texts, by name: `own.start(options)`."""

    def __init__(self, sources):
        texts = [lines_of(source) for source in sources]
        heads = re.compile(r"(?:abbrev |unfoldable )?(?:pub )?([a-z][\w\-]*) : (.*)")
        self.arities = dict(ARITIES)
        for lines in texts:
            for head in filter(None, map(heads.fullmatch, lines)):
                self.arities[head[1]] = arity_of(head[2])
        self.known = dict(BUILT_IN)
        for lines in texts:
            self.read(lines, heads)

    def read(self, lines, heads):
        aliases = {new: old for line in lines for old, new in re.findall(r"(\w+) as (\w+)", line) if line.startswith("use ")}
        names = [head[1] for head in map(heads.fullmatch, lines) if head]
        for name in names:
            clauses = [tokens_of(line) for line in lines if re.match(rf"{re.escape(name)}( .*)? = ", line)]
            if clauses and not clauses[0][place_of_equals(clauses[0]) + 1 :][0] == "Type" and "Type" not in clauses[0]:
                text = function_of(name, self.arities[name], clauses, self.arities, aliases)
                exec(text, self.known)  # pylint: disable=exec-used

    def __getattr__(self, name):
        return self.known[python_name(name)]


sys.setrecursionlimit(1_000_000)
