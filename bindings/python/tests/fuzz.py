"""Random calls of the package, with arguments of any type, by both kinds of readers.

    python3 fuzz.py [--seconds 60] [--seed 1] [--corpus FOLDER]

A script is some calls, all told by its number. Children run them in batches, each batch with the extension and with the readers
in Python. It fails where a child ends by a signal or hangs, where an error of a type leaves that no caller has to expect, or
where both kinds of readers differ. Then the numbers of the scripts are printed: `fuzz.py --run NUMBER` runs one here, and shows
its calls. Those of fuzz_numbers.txt, which once failed, go first. The pages below the corpus's folder are read, too.

What threads and signals do is not the same each time, so of that only the types of errors count.
"""

import argparse
import array
import copy
import io
import os
import pathlib
import pickle
import random
import signal
import subprocess
import sys
import threading
import time
import traceback

HERE = pathlib.Path(__file__).resolve().parent
sys.path.insert(0, str(HERE.parent / "src"))

import firnuubal
from firnuubal import Cleaner, Policy, Replies, State, Tokenizer

BATCH = 150
# Errors that a caller has to expect. A RuntimeError is one where a session is in use.
EXPECTED = (TypeError, ValueError, LookupError, firnuubal.TokenizerError, BlockingIOError)

PARTS = [
    "<p>", "<p class=x onclick=y>", "</p>", "<a href=x>", "<a href='javascript:x'>", "</a>", "<!--c", "-->", "<!doctype html>", "&amp;",
    "&#x80;", "\0", "<script>", "</script>", "1 < 2", "é日本𝄞", "\r\n", "<?pi?>", "<IMG SRC='a&lt;b' alt>", "x" * 40, "<style>",
    "</style>", "<br/ >", "<title>", "</title>", "<table>", "<td>", "</table>", "<meta charset=shift_jis>", "<svg>", "<![CDATA[x]]>",
    "\ufeff", "<plaintext>", " " * 300, "<", "</", "&", "<b", "<video>", "</video>", "<i>", "<b>",
]  # fmt: skip
BYTES = [b"\xff", b"\xe9", b"\xe6\x97", b"\x93\xfa", b"\xff\xfe", b"\xef\xbb\xbf", b"a" * 1100]
LABELS = ["auto", "utf-8", "UTF8", "shift_jis", "koi8-r", "latin1", "utf-16le", "iso-2022-jp", "no-such", "", " ", "\udcff", "utf\0-8"]
NAMES = ["a", "b", "i", "p", "q", "td", "video", "x-y", "svg", "script", "A", "a b", "", "*", "p\nallow i", "é", "\ud800", "href", "on"]
NUMBERS = [0, 1, 2, 3, 5, 64, 1000, 1 << 20, (1 << 31) - 1, 1 << 32, (1 << 32) + 1, 1 << 63, (1 << 64) - 1]
NO_NUMBERS = [-1, 1 << 64, -(1 << 70), True, 1.5, "1", None, b"1", float("nan"), float("inf"), 1j]
HUGE = 1 << 30


class LyingBytes(bytes):
    def __len__(self):
        return HUGE

    def __bytes__(self):
        return b"another"

    def __bool__(self):
        return True


class LyingArray(bytearray):
    def __len__(self):
        return HUGE


class LyingText(str):
    def __len__(self):
        return HUGE

    def encode(self, *_):
        return LyingBytes(b"<i>")

    def __str__(self):
        return "another"

    def __hash__(self):
        return 1

    def __eq__(self, other):
        return True


class LyingNumber(int):
    def __index__(self):
        return 1 << 40

    __int__ = __hash__ = __index__

    def __lt__(self, other):
        return True

    __le__ = __gt__ = __ge__ = __eq__ = __lt__


class File:
    """A file whose parts are these."""

    def __init__(self, parts):
        self.parts = iter(parts)

    def read(self, size):
        return next(self.parts, b"")


# Pages of the corpus.
corpus = []


class Maker:
    """Makes arguments, each the same for the same random numbers."""

    def __init__(self, number, is_long=False):
        self.choose = random.Random(number)
        # Whether pieces are long, so that calls take a while.
        self.is_long = is_long

    def one(self, *kinds):
        return self.choose.choice(kinds)()

    def rarely(self, chance=0.1):
        return self.choose.random() < chance

    def text(self):
        if corpus and self.rarely(0.2):
            page = self.choose.choice(corpus).decode("utf-8", "replace")
            at = self.choose.randrange(len(page) + 1)
            return page[at : at + self.choose.choice((10, 1000, 100_000))]
        made = "".join(self.choose.choices(PARTS, k=self.choose.randrange(12)))
        if self.rarely(0.004):
            made += self.choose.choice(PARTS) * 300_000
        return made + "\ud800" if self.rarely(0.03) else made

    def bytes(self):
        made = self.text().encode("utf-8", "replace")
        if self.rarely(0.3):
            made += self.choose.choice(BYTES)
        return made + self.text().encode("utf-8", "replace") if self.rarely(0.3) else made

    def piece(self):
        if self.is_long:
            made = self.text().encode("utf-8", "replace")
            return made * (1 + self.choose.randrange(200_000) // (len(made) + 1))
        kinds = [self.text] * 4 + [self.bytes] * 4
        kinds += [lambda: bytearray(self.bytes()), lambda: memoryview(self.bytes()), lambda: memoryview(self.bytes())[::-1]]
        kinds += [lambda: LyingBytes(self.bytes()), lambda: LyingArray(self.bytes()), lambda: LyingText(self.text())]
        kinds += [lambda: memoryview(LyingBytes(self.bytes())), lambda: array.array("H", [60, 98, 62]), lambda: "", lambda: b""]
        return self.one(self.no_piece) if self.rarely(0.04) else self.one(*kinds)

    def no_piece(self):
        return self.choose.choice([None, 5, 1.5, object(), [], {}, iter(()), memoryview, HUGE])

    def page(self, within=None):
        pieces = [self.piece() for _ in range(self.choose.randrange(4))]
        made = [self.text, self.bytes, self.piece, lambda: pieces, lambda: iter(pieces), lambda: File(pieces), lambda: tuple(pieces)]
        made += [lambda: io.BytesIO(self.bytes()), lambda: io.StringIO(self.text().encode("utf-8", "replace").decode())]
        if within is not None and self.rarely(0.2):
            return (self.one(within, self.piece) for _ in range(3))
        return self.one(*made)

    def number(self):
        kinds = [lambda: self.choose.choice(NUMBERS)] * 5 + [lambda: self.choose.choice(NO_NUMBERS), lambda: LyingNumber(3)]
        return self.one(*kinds)

    def name(self):
        made = self.choose.choice(NAMES)
        return LyingText(made) if self.rarely(0.1) else made.encode("utf-8", "replace") if self.rarely(0.03) else made

    def names(self):
        made = [self.choose.choice(NAMES[:8]) if self.rarely(0.8) else self.name() for _ in range(self.choose.randrange(4))]
        kinds = [lambda: made, lambda: tuple(made), lambda: iter(made), lambda: dict.fromkeys(map(str, made)), lambda: set(map(str, made))]
        return self.choose.choice([None, "a", b"a", 5, [["a"]], [None]]) if self.rarely(0.05) else self.one(*kinds)

    def attributes(self):
        if self.rarely(0.05):
            return self.choose.choice([5, ["a"], {"a": "href"}, {1: ["a"]}, {"a": None}])
        return {self.choose.choice(("a", "p", "*", "b", "x")): self.names() for _ in range(self.choose.randrange(3))}

    def truth(self):
        return self.choose.choice((True, False, None, None, 1, "no")) if self.rarely(0.2) else self.choose.choice((True, False))

    def label(self):
        made = self.choose.choice(LABELS[:8]) if self.rarely(0.8) else self.choose.choice(LABELS)
        return LyingText(made) if self.rarely(0.05) else None if self.rarely(0.02) else made

    def some(self, **kinds):
        """Some of these keywords."""
        chance = self.choose.choice((0.05, 0.3))
        return {name: kind() for name, kind in kinds.items() if self.rarely(chance)}

    def policy(self):
        kinds = {"tags": self.names, "attributes": self.attributes, "url_schemes": self.names, "clean_content_tags": self.names}
        rel = lambda: self.choose.choice(("noopener", "nofollow ugc", None, "a/b", 5, ""))
        return self.some(**kinds, link_rel=rel, balance=self.truth, tree=self.truth, depth=self.number)

    def how(self):
        """How bytes are read."""
        errors = lambda: self.choose.choice(("replace", "strict", "strict", "ignore", True, None, LyingText("strict")))
        return self.some(encoding=self.label, errors=errors)

    def reading(self):
        kinds = {"exact_errors": self.truth, "keep_bom": self.truth, "parse_errors": self.truth, "texts": self.truth}
        name_or_none = lambda: self.choose.choice(("title", "", self.name()))
        state = lambda: self.member(State)
        return self.some(**kinds, tags=self.names, limit=self.number, last_start_tag=name_or_none, state=state)

    def member(self, kind):
        return self.choose.choice(list(kind)) if self.rarely(0.8) else self.number()

    def steering(self):
        return self.some(replies=lambda: self.member(Replies), foreign=self.truth)


def shown(value):
    """A value as both kinds of readers show it."""
    if value is None or isinstance(value, (str, bool, int)):
        return repr(value)
    return repr(list(value))


def outcome(call):
    """What comes of a call: what it answers, or the type of an error that is to be expected."""
    try:
        return shown(call())
    except EXPECTED as error:
        # What the library sends is read, whoever uses it.
        if "whole record" in str(error):
            raise
        return type(error).__name__
    except RuntimeError as error:
        if type(error) is RuntimeError and "in use" in str(error):
            return "in use"
        raise


def fitting(made, text):
    """A policy, or None where the keywords or the text are refused."""
    try:
        return Policy(text) if text is not None else Policy(**made)
    except EXPECTED:
        return None


TEXTS = ["", "allow p\nallow a href\nschemes https", "allow script", "allow b\nbalance", "depth 0", "\n#\nallow b", "x", "allow b\0", "é"]


def calls_of_tokenizer(make, session):
    every = {
        "feed": lambda: session.feed(make.piece()),
        "tokens": session.tokens,
        "end": session.end,
        "insert": lambda: session.insert(make.piece()),
        "reply": lambda: session.reply(make.member(State)),
        "set_foreign": lambda: session.set_foreign(make.truth()),
        "is_over": session.is_over,
        "encoding": lambda: session.encoding,
        "placed_tokens": session.placed_tokens,
        "close": session.close,
        "init": lambda: session.__init__(**make.reading(), **make.how(), **make.steering()),
    }
    return every, (30, 12, 3, 3, 3, 1, 3, 3, 4, 1, 1)


def calls_of_cleaner(make, session):
    def within():
        return make.choose.choice((session.end, session.restart, lambda: session.feed("x"), lambda: "y"))()

    every = {
        "feed": lambda: session.feed(make.piece()),
        "clean": lambda: session.clean(make.page(within)),
        "end": session.end,
        "restart": session.restart,
        "encoding": lambda: session.encoding,
        "close": session.close,
        "init": lambda: session.__init__(**make.how()),
    }
    return every, (20, 8, 5, 2, 2, 1, 1)


def calls_of_functions(make):
    def cleaned():
        policy = fitting(make.policy(), make.choose.choice((None, *TEXTS)))
        return firnuubal.clean(make.page(), policy, **make.how())

    return {
        "clean": lambda: firnuubal.clean(make.page(lambda: firnuubal.clean(make.text())), **make.policy(), **make.how()),
        "clean by a policy": cleaned,
        "tokens": lambda: firnuubal.tokens(make.page(), **make.reading(), **make.how(), **make.steering(), **make.some(piece=make.number)),
        "placed_tokens": lambda: firnuubal.placed_tokens(make.page(), **make.reading(), **make.some(piece=make.number)),
        "links": lambda: firnuubal.links(make.page(), **make.how()),
        "text": lambda: firnuubal.text(make.page(), **make.how()),
        "code": lambda: firnuubal.ParseError(1, make.choose.choice((make.text(), 5, LyingText("x"), b"x"))).code,
        "policy": lambda: repr(Policy(make.choose.choice((*TEXTS, 5, b"x", LyingText("allow p"))), **make.policy())),
    }, (5, 4, 5, 4, 2, 2, 1, 2)


def tries_to_copy(session):
    for call in (copy.copy, copy.deepcopy, pickle.dumps):
        try:
            call(session)
        except TypeError:
            continue
        raise AssertionError("a session was copied")


def used_by_threads(make, session, calls):
    """Threads that use a session at once. Each has its own random numbers."""
    failed = []

    def use(number):
        own = Maker(number, is_long=True)
        every, weights = calls(own, session)
        try:
            for _ in range(20):
                outcome(own.choose.choices(list(every.values()), weights)[0])
        except BaseException as error:
            failed.append(error)

    numbers = [make.choose.randrange(1 << 30) for _ in range(4)]
    threads = [threading.Thread(target=use, args=(number,)) for number in numbers]
    for thread in threads:
        thread.start()
    for thread in threads:
        thread.join()
    if failed:
        raise failed[0]


def used_by_a_signal(make, session, calls):
    """A signal's function that uses a session while it is in a call."""
    every, _ = calls(Maker(make.choose.randrange(1 << 30), is_long=True), session)
    before = signal.signal(signal.SIGALRM, lambda *_: outcome(every["feed"]))
    signal.setitimer(signal.ITIMER_REAL, 0.0005, 0.0005)
    try:
        for _ in range(10):
            outcome(every["feed"])
    finally:
        signal.setitimer(signal.ITIMER_REAL, 0)
        signal.signal(signal.SIGALRM, before)


def run_session(make, show, kind, calls):
    try:
        session = kind()
    except EXPECTED as error:
        show("open", type(error).__name__)
        return
    every, weights = calls(make, session)
    for _ in range(make.choose.randrange(12)):
        name = make.choose.choices(list(every), weights)[0]
        show(name, outcome(every[name]))
    if make.rarely(0.05):
        tries_to_copy(session)
    if make.rarely(0.03):
        used_by_threads(make, session, calls)
    elif make.rarely(0.03):
        used_by_a_signal(make, session, calls)


def new_tokenizer(make):
    return Tokenizer(**make.reading(), **make.how(), **make.steering(), **make.some(places=make.truth))


def new_cleaner(make):
    policy = None if make.rarely(0.3) else fitting(make.policy(), make.choose.choice((None, None, *TEXTS)))
    return Cleaner(policy, **make.how(), **make.some(limit=make.number))


def run_functions(make, show):
    every, weights = calls_of_functions(make)
    for _ in range(make.choose.randrange(1, 5)):
        name = make.choose.choices(list(every), weights)[0]
        show(name, outcome(every[name]))


def run_script(number, show):
    """Runs the script of a number."""
    make = Maker(number)
    which = make.choose.randrange(3)
    if which == 0:
        run_session(make, show, lambda: new_tokenizer(make), calls_of_tokenizer)
    elif which == 1:
        run_session(make, show, lambda: new_cleaner(make), calls_of_cleaner)
    else:
        run_functions(make, show)


def run_batch(numbers):
    """Runs scripts in this process, and prints a line for each: what came of it."""
    for number in numbers:
        said = []
        try:
            run_script(number, lambda name, what: said.append(f"{name}: {what}"))
        except BaseException as error:
            said.append(f"UNEXPECTED {type(error).__name__}: {error}")
            traceback.print_exc()
        print(number, ascii(said), flush=True)


def child(numbers, folder, is_pure):
    """What a child prints of scripts, and how it ended: None, or why it did before its time."""
    words = [sys.executable, "-X", "faulthandler", __file__, "--batch", ",".join(map(str, numbers))]
    words += ["--corpus", folder] if folder else []
    env = {**os.environ, "FIRNUUBAL_PURE": "1" if is_pure else "", "PYTHONDONTWRITEBYTECODE": "1", "PYTHONHASHSEED": "0"}
    try:
        done = subprocess.run(words, env=env, stdout=subprocess.PIPE, stderr=subprocess.PIPE, timeout=300)
    except subprocess.TimeoutExpired as late:
        return (late.stdout or b"").decode().splitlines(), "it hangs"
    lines = done.stdout.decode().splitlines()
    return lines, f"status {done.returncode}: {done.stderr.decode()[-1500:]}" if done.returncode else None


def faults_of(numbers, folder):
    """What is wrong with scripts: a line for each fault."""
    faults, kinds = [], []
    for is_pure in (False, True):
        lines, ended = child(numbers, folder, is_pure)
        if ended:
            stopped = numbers[len(lines)] if len(lines) < len(numbers) else numbers[-1]
            faults.append(f"{stopped}, pure {is_pure}: {ended}")
        faults += [f"pure {is_pure}: {line[:1500]}" for line in lines if "UNEXPECTED" in line]
        kinds.append(lines)
    for one, other in zip(*kinds):
        if one != other:
            faults.append(f"the readers differ:\n  {one[:1500]}\n  {other[:1500]}")
    return faults


def known_numbers():
    """The scripts that once failed."""
    lines = (HERE / "fuzz_numbers.txt").read_text(encoding="utf-8").splitlines()
    return [int(line.split()[0]) for line in lines if line and not line.startswith("#")]


def read_corpus(folder):
    """The files below the corpus's folder that are no longer than a page is."""
    paths = sorted(path for path in pathlib.Path(folder).rglob("*") if path.is_file()) if folder else []
    corpus.extend(path.read_bytes() for path in paths if path.stat().st_size < 1 << 20)


def fuzz(seconds, seed, folder):
    until, count, faults = time.monotonic() + seconds, 0, []
    numbers = known_numbers()
    while True:
        if numbers:
            faults += faults_of(numbers, folder)
            count += len(numbers)
        if time.monotonic() > until or len(faults) > 20:
            break
        numbers = [seed * 1_000_000_000 + count + at for at in range(BATCH)]
    for fault in faults:
        print(fault)
    print(f"fuzz.py: {count} scripts of seed {seed}, {len(faults)} faults")
    return min(len(faults), 1)


def main():
    parser = argparse.ArgumentParser(description=__doc__, formatter_class=argparse.RawDescriptionHelpFormatter)
    parser.add_argument("--seconds", type=float, default=60)
    parser.add_argument("--seed", type=int, default=1)
    parser.add_argument("--corpus", metavar="FOLDER")
    parser.add_argument("--run", type=int, metavar="NUMBER", help="run one script here, and show its calls")
    parser.add_argument("--batch", help=argparse.SUPPRESS)
    asked = parser.parse_args()
    if asked.batch or asked.run is not None:
        read_corpus(asked.corpus)
    if asked.batch:
        return run_batch(map(int, asked.batch.split(",")))
    if asked.run is not None:
        return run_script(asked.run, lambda name, what: print(f"{name}: {what[:300]}"))
    return fuzz(asked.seconds, asked.seed, asked.corpus)


if __name__ == "__main__":
    sys.exit(main())
