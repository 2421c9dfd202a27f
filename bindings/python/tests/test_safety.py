"""Tests of what may not spoil memory or hang: types that lie about themselves, threads, copies, signals, what is given back.

What once ended the process is tried in one of its own.
"""

import copy
import gc
import os
import pathlib
import pickle
import signal
import subprocess
import sys
import threading
import time
import unittest
import weakref

import firnuubal
from firnuubal import Cleaner, Fed, Policy, Replies, StartTag, State, Status, Text, Tokenizer, TokenizerError
from firnuubal._library import Handle

SOURCE = pathlib.Path(firnuubal.__file__).resolve().parent

LIARS = """
import firnuubal as f
from firnuubal import *
HUGE = 1 << 30
class Bytes(bytes):
    def __len__(self): return HUGE
    def __bytes__(self): return b"another"
    def __getitem__(self, at): return b"another"
class Array(bytearray):
    def __len__(self): return HUGE
class Str(str):
    def __len__(self): return HUGE
    def encode(self, *_): return Bytes(b"<i>")
    def __str__(self): return "another"
    def split(self, *_): return ["another"]
"""


def run(script, **environment):
    """A script in a process of its own."""
    env = {**os.environ, "PYTHONPATH": str(SOURCE.parent), "PYTHONDONTWRITEBYTECODE": "1", **environment}
    words = [sys.executable, "-X", "faulthandler", "-c", script]
    return subprocess.run(words, env=env, stdout=subprocess.PIPE, stderr=subprocess.PIPE, timeout=120)


class Liars(unittest.TestCase):
    """Lengths are those of the buffer, whatever `len` says, for each argument that comes to the library."""

    def ends_well(self, script):
        done = run(LIARS + script)
        self.assertEqual(done.returncode, 0, done.stderr.decode()[-2000:])

    def test_pieces_of_a_tokenizer(self):
        self.ends_well("""
for piece in Bytes(b"<b>x"), Array(b"<b>x"), memoryview(Bytes(b"<b>x")), Str("<b>x"):
    with Tokenizer() as t:
        t.feed(piece)
        t.feed(Str("<i>") if isinstance(piece, str) else Bytes(b"<i>"))
        t.end()
        assert [type(it) for it in t.tokens()] == [StartTag, Text, StartTag, End], piece
""")

    def test_pieces_of_a_cleaner(self):
        self.ends_well("""
for piece in Bytes(b"<b>x"), Array(b"<b>x"), memoryview(Bytes(b"<b>x")), Str("<b>x"):
    with Cleaner() as c:
        assert c.feed(piece) + c.end() == "<b>x</b>", piece
        assert c.clean(piece) == "<b>x</b>", piece
        assert c.clean([piece]) == "<b>x</b>", piece
""")

    def test_whole_pages(self):
        self.ends_well("""
for page in Bytes(b"<a href=x>y"), Array(b"<a href=x>y"), Str("<a href=x>y"):
    for given in (page, [page]):
        assert f.clean(given, Policy(tags=["a"], attributes={}, link_rel=None)) == "<a>y</a>"
        assert len(list(f.tokens(given))) == 3
        assert len(list(f.placed_tokens(given))) == 3
        assert list(f.links(given)) == [(1, "x")]
        assert f.text(given) == "y"
""")

    def test_texts_of_other_arguments(self):
        self.ends_well("""
with Tokenizer(replies=Replies.PAUSING) as t:
    t.feed("<script></script>")
    t.insert(Str("<b>"))
    t.insert(Bytes(b"<b>"))
    t.feed(b"")
    assert sum(type(it) is StartTag for it in t.tokens()) == 3
with Tokenizer(last_start_tag=Str("title"), state=State.RCDATA) as t:
    t.feed("<b></title>")
    assert [type(it) for it in t.tokens()] == [Text, EndTag]
assert len(list(f.tokens("<b><i>", tags=[Str("b")], texts=False))) == 2
assert f.clean(b"\\x93\\xfa", encoding=Str("shift_jis")) == "\\u65e5"
assert ParseError(1, Str("x")).code is None
assert ParseError(1, Str("Bad character")).code is None
assert f.clean("<b>x", Policy(Str("allow b\\nbalance"))) == "<b>x</b>"
assert f.clean("<b>x", tags=[Str("b")]) == "<b>x</b>"
for words in {"link_rel": Str("noopener")}, {"url_schemes": [Str("https")]}, {"attributes": {Str("a"): [Str("href")]}}:
    f.clean("<a href=x>", **words)
""")

    def test_records(self):
        self.ends_well("""
from firnuubal import _readers, _records
record = Bytes(b"\\7" + bytes(8))
for kind in _readers, _records:
    assert kind.Reader().read(record) == [NullCharacter(0)]
    assert kind.Reader(tags=[Str("b")]).read(b"") == []
    assert kind.LinkReader({Str("a"): Str("href")}).read(b"") == []
    assert kind.TextReader([Str("b")]).read(b"") == []
""")

    def test_files(self):
        self.ends_well("""
class File:
    def __init__(self, piece): self.pieces = [piece, piece]
    def read(self, size): return self.pieces.pop() if self.pieces else b""
for piece in Bytes(b"<b>"), Array(b"<b>"), Str("<b>"):
    assert len(list(f.tokens(File(piece)))) == 3
    assert f.clean(File(piece)) == "<b><b></b></b>"
""")


SHARED = """
import threading, random
page = b"<p class=x>1 &lt; 2</p>" * 3000
def use(seed, calls):
    choose = random.Random(seed)
    for _ in range(60):
        try:
            choose.choice(calls)()
        except (RuntimeError, TokenizerError):
            pass
def share(*calls):
    threads = [threading.Thread(target=use, args=(seed, calls)) for seed in range(8)]
    for it in threads: it.start()
    for it in threads: it.join()
"""


class Threads(unittest.TestCase):
    def shares(self, script):
        """Whatever threads do at once, each call is done or refused."""
        done = run(LIARS + SHARED + script)
        self.assertEqual((done.returncode, done.stderr.decode()[-2000:]), (0, ""))

    def test_a_tokenizer_that_threads_feed_and_read(self):
        self.shares("""
t = Tokenizer()
share(lambda: t.feed(page), lambda: list(t.tokens()))
""")

    def test_a_cleaner_that_threads_feed(self):
        self.shares("""
c = Cleaner()
share(lambda: c.feed(page), lambda: c.clean(page), c.end)
""")

    def test_all_calls_of_a_tokenizer(self):
        self.shares("""
t = Tokenizer()
calls = lambda: t.feed(page), lambda: list(t.tokens()), t.is_over, lambda: t.encoding, lambda: t.reply(State.DATA)
share(*calls, t.end, t.close, t.__init__, lambda: t.insert("x"), lambda: t.set_foreign(True))
""")

    def test_all_calls_of_a_cleaner(self):
        self.shares("""
c = Cleaner()
share(lambda: c.feed(page), lambda: c.clean(page), c.end, c.restart, c.close, c.__init__, lambda: c.encoding)
""")

    def test_a_call_while_another_thread_has_it(self):
        page, said = b"<p>" * 1_000_000, []

        def read():
            # The other thread may have it first.
            while not fed:
                try:
                    fed.append(tokenizer.feed(page))
                except RuntimeError:
                    time.sleep(0.001)

        with Tokenizer() as tokenizer:
            fed = []
            reading = threading.Thread(target=read)
            reading.start()
            while reading.is_alive() and not said:
                try:
                    tokenizer.is_over()
                except RuntimeError as error:
                    said.append(str(error))
                time.sleep(0.001)
            reading.join()
            self.assertIn("the Tokenizer is in use", said[0])
            tokenizer.end()

    def test_a_call_within_a_call(self):
        with Cleaner() as cleaner:
            for call in (cleaner.end, cleaner.restart, cleaner.close, lambda: cleaner.feed("x"), lambda: cleaner.clean("x")):
                with self.assertRaises(RuntimeError):
                    cleaner.clean(call() for _ in range(1))
            self.assertEqual(cleaner.clean("<p>1"), "<p>1</p>")

    def test_threads_that_open_and_close(self):
        def use():
            for number in range(100):
                with Tokenizer(limit=1000 + number % 7) as tokenizer:
                    tokenizer.feed("<p>")
                    found.append(len(list(tokenizer.tokens())))

        found = []
        threads = [threading.Thread(target=use) for _ in range(8)]
        for thread in threads:
            thread.start()
        for thread in threads:
            thread.join()
        self.assertEqual(found, [1] * 800)


class Copies(unittest.TestCase):
    def test_sessions_are_not_copied(self):
        for session in (Tokenizer(), Cleaner()):
            for call in (copy.copy, copy.deepcopy, pickle.dumps, lambda it: pickle.dumps(it, 0)):
                with self.assertRaisesRegex(TypeError, "can't be copied or pickled"):
                    call(session)
            session.close()

    def test_others_are(self):
        kinds = [Policy(), Policy("allow p\n"), Policy(tags={"b"}, link_rel=None), StartTag(1, "p", (("a", "b"),), False, False)]
        kinds += [Text(1, "x"), firnuubal.Link(1, "x"), firnuubal.Placed(Text(1, "x"), 0, 1), State.DATA, Status.LIMIT]
        for given in kinds:
            for again in (copy.copy(given), copy.deepcopy(given), pickle.loads(pickle.dumps(given))):
                self.assertEqual((type(again), again, repr(again)), (type(given), given, repr(given)))


class Numbers(unittest.TestCase):
    def test_numbers_that_are_out_of_range(self):
        for limit in (-1, 1 << 64, -(1 << 70), True):
            for kind in (Tokenizer, Cleaner):
                with self.assertRaisesRegex(ValueError, "limit"):
                    kind(limit=limit)
        for state in ((1 << 32) + 1, 99, -1, True, 1 << 200):
            with self.assertRaisesRegex(ValueError, "state"):
                Tokenizer(state=state)
            with Tokenizer() as tokenizer, self.assertRaisesRegex(ValueError, "state"):
                tokenizer.reply(state)
        for replies in (4, 1 << 32, -1, False):
            with self.assertRaisesRegex(ValueError, "replies"):
                Tokenizer(replies=replies)
        for piece in (0, -1, 1 << 70, True):
            for call in (firnuubal.tokens, firnuubal.placed_tokens):
                with self.assertRaisesRegex(ValueError, "piece"):
                    call("x", piece=piece)

    def test_what_is_no_number(self):
        for given in (1.0, "1", b"1", [], None):
            for name in ("state", "replies"):
                with self.assertRaisesRegex(TypeError, name):
                    Tokenizer(**{name: given})
            with self.assertRaisesRegex(TypeError, "piece"):
                firnuubal.tokens("x", piece=given)
        for given in (1.0, "1", b"1", []):
            for kind in (Tokenizer, Cleaner):
                with self.assertRaisesRegex(TypeError, "limit"):
                    kind(limit=given)
        with self.assertRaisesRegex(TypeError, "state"):
            Tokenizer(state=Replies.NONE)

    def test_numbers_that_are_members(self):
        class Odd(int):
            def __index__(self):
                return 1 << 40

            __int__ = __eq__ = __hash__ = __index__

        for state in (State.RCDATA, 2, Odd(2)):
            with Tokenizer(state=state, replies=1, limit=Odd(1000), last_start_tag="title") as tokenizer:
                tokenizer.feed("<b></title>")
                self.assertEqual([type(it).__name__ for it in tokenizer.tokens()], ["Text", "EndTag"])

    def test_names_of_tags_that_never_match(self):
        for name in ("A", "a b", "", "1", "a>", "\0", "a/"):
            with self.assertRaisesRegex(ValueError, "tags"):
                firnuubal.tokens("x", tags={name})
        for given in ("a", b"a", 1, [b"a"], [1], [None]):
            with self.assertRaisesRegex(TypeError, "tags"):
                firnuubal.tokens("x", tags=given)
        with self.assertRaisesRegex(ValueError, "last_start_tag"):
            Tokenizer(last_start_tag="TITLE")
        with self.assertRaisesRegex(TypeError, "last_start_tag"):
            Tokenizer(last_start_tag=b"title")

    def test_pages_and_pieces_of_other_types(self):
        for call in (firnuubal.clean, firnuubal.tokens, firnuubal.placed_tokens, firnuubal.links, firnuubal.text):
            for page in (5, None, 1.5):
                with self.assertRaisesRegex(TypeError, "a page is"):
                    call(page)
            with self.assertRaisesRegex(TypeError, "a piece of a page is"):
                list(call([5]))


class Memory(unittest.TestCase):
    def setUp(self):
        gc.collect()

    def test_no_cycle_with_places(self):
        gc.disable()
        try:
            for piece in ("x", b"x"):
                tokenizer = Tokenizer(places=True)
                tokenizer.feed(piece)
                gone = weakref.ref(tokenizer)
                del tokenizer
                self.assertIsNone(gone())
        finally:
            gc.enable()

    def freed(self, call):
        """How many handles are given back by a call."""
        count, free = [0], Handle._free

        def counted(handle):
            count[0] += 1
            free(handle)

        Handle._free = staticmethod(counted)
        try:
            call()
            gc.collect()
        finally:
            Handle._free = staticmethod(free)
        return count[0]

    def test_a_second_init(self):
        def twice():
            for kind in (Tokenizer, Cleaner):
                session = kind()
                session.feed(b"<p>")
                session.__init__(encoding="shift_jis")
                session.feed(b"<p>")
                del session

        self.assertEqual(self.freed(twice), 4)

    def test_an_init_that_is_refused(self):
        def refused():
            for _ in range(10):
                for kind in (Tokenizer, Cleaner):
                    with self.assertRaises(LookupError):
                        kind(limit=5, encoding="no-such")

        self.assertEqual(self.freed(refused), 20)

    def test_an_init_that_is_interrupted(self):
        from firnuubal import _spares

        def interrupted(*_):
            raise KeyboardInterrupt

        class Library:
            html5_set_encoding = staticmethod(interrupted)

            def __getattr__(self, name):
                return getattr(library, name)

        def interrupt():
            with self.assertRaises(KeyboardInterrupt):
                Tokenizer(limit=6, encoding="shift_jis")

        library, _spares.library = _spares.library, Library()
        try:
            self.assertEqual(self.freed(interrupt), 1)
        finally:
            _spares.library = library

    def test_what_was_not_begun(self):
        for kind in (Tokenizer, Cleaner):
            kind().close()
            session = kind()
            session.close()
            for call in (lambda: session.feed("x"), lambda: session.feed(b"x"), lambda: session.feed(b""), session.end):
                with self.assertRaises(TokenizerError) as refused:
                    call()
                self.assertEqual(refused.exception.status, Status.CLOSED)

    def made(self, call):
        """How often a call has the library make a table of names, or a policy."""
        from firnuubal import _policy, _spares

        count = []

        class Library:
            def __getattr__(self, name):
                if name in ("html5_new", "html5_cleaner_new", "html5_policy_new"):
                    count.append(name)
                return getattr(library, name)

        library, _spares.library = _spares.library, Library()
        _policy.library = _spares.library
        try:
            call()
        finally:
            _spares.library = _policy.library = library
        return len(count)

    def test_what_is_used_again(self):
        policy = Policy("allow p")
        calls = [
            lambda: list(firnuubal.tokens(b"<p>")),
            lambda: list(firnuubal.tokens("<p>")),
            lambda: list(firnuubal.tokens(b"<p>", encoding="shift_jis")),
            lambda: list(firnuubal.tokens(b"<p>", limit=500)),
            lambda: list(firnuubal.tokens(b"<p>", encoding="utf-8", errors="strict", limit=500)),
            lambda: list(firnuubal.links(b"<a href=x>")),
            lambda: firnuubal.text("x"),
            lambda: firnuubal.clean(b"<p>", tags={"b"}),
            lambda: firnuubal.clean("<p>", tags=["b"], attributes={"b": ["title"]}, depth=5, link_rel="nofollow"),
            lambda: firnuubal.clean("<p>", policy),
        ]
        for call in calls:
            call()
            self.assertEqual(self.made(lambda: [call() for _ in range(5)]), 0)
        self.assertGreater(self.made(lambda: list(firnuubal.tokens("x", limit=501))), 0)

    def test_spares_are_few(self):
        for number in range(100):
            list(firnuubal.tokens("x", limit=1000 + number))
        self.assertLessEqual(sum(map(len, Tokenizer._spares._handles.values())), 16)

    def test_an_unread_page_takes_time_by_its_length(self):
        def seconds(size):
            with Tokenizer() as tokenizer:
                tokenizer.feed(b"<p>x " * size)
                before = time.perf_counter()
                list(tokenizer.tokens())
                return time.perf_counter() - before

        one = min(seconds(50_000) for _ in range(3))
        self.assertLess(min(seconds(400_000) for _ in range(2)), 8 * 4 * one)


class Signals(unittest.TestCase):
    def longest_wait(self, call):
        """The longest time between two signals that come every 20 milliseconds, and the time of the whole call."""
        seen = [time.perf_counter()]
        before = signal.signal(signal.SIGALRM, lambda *_: seen.append(time.perf_counter()))
        signal.setitimer(signal.ITIMER_REAL, 0.02, 0.02)
        try:
            call()
        finally:
            signal.setitimer(signal.ITIMER_REAL, 0)
            signal.signal(signal.SIGALRM, before)
        seen.append(time.perf_counter())
        whole = seen[-1] - seen[0]
        return max(b - a for a, b in zip(seen, seen[1:])), whole

    def test_signals_are_seen_within_a_long_piece(self):
        page = b"<p class=x>1 &lt; 2" * 1_500_000

        def tokenize():
            with Tokenizer() as tokenizer:
                tokenizer.feed(page)

        def clean():
            with Cleaner() as cleaner:
                cleaner.feed(page)

        for call in (tokenize, clean):
            # What else runs may take the processor for a while: one try of three is enough.
            waits = (self.longest_wait(call) for _ in range(3))
            self.assertTrue(any(longest < max(0.2, whole / 4) for longest, whole in waits), call)

    @unittest.skipIf(sys.version_info < (3, 10), "before 3.10 a signal may come between a statement and its finally")
    def test_what_a_signal_raises_leaves_the_turn(self):
        class Stop(Exception):
            pass

        def stop(*_):
            if is_armed:
                raise Stop

        def use(session, delay):
            nonlocal is_armed
            is_armed = True
            signal.setitimer(signal.ITIMER_REAL, delay)
            until = time.perf_counter() + 1
            while time.perf_counter() < until:
                session.feed("x")
                session.encoding
            is_armed = False

        is_armed = False
        before = signal.signal(signal.SIGALRM, stop)
        try:
            for number in range(300):
                with Tokenizer() if number % 2 else Cleaner() as session:
                    session.feed("x")
                    with self.assertRaises(Stop):
                        use(session, 0.0002 + number * 1e-6)
                    is_armed = False
                    session.feed("x")
        finally:
            signal.setitimer(signal.ITIMER_REAL, 0)
            signal.signal(signal.SIGALRM, before)

    def test_a_long_piece_is_read_as_short_ones(self):
        part = "é<p class=x>1 &lt; 2\r\n"
        page = (part * 80_000).encode()
        due = list(firnuubal.tokens(page.decode()))
        for options in ({}, {"encoding": "utf-8", "errors": "strict"}, {"replies": Replies.PAUSING}, {"limit": 1 << 40}):
            with Tokenizer(**options) as tokenizer:
                tokenizer.feed(page)
                tokenizer.end()
                self.assertEqual(list(tokenizer.tokens()), due)
        for given in (page, page.decode()):
            with Tokenizer(places=True) as tokenizer:
                tokenizer.feed(given)
                tokenizer.end()
                self.assertEqual([it.token for it in tokenizer.placed_tokens()], due)
        with Cleaner() as cleaner:
            self.assertEqual(cleaner.feed(page) + cleaner.end(), firnuubal.clean(page.decode()))

    def test_a_pause_in_a_long_piece(self):
        page = b"<p>1" * 300_000 + b"<script></script>" + b"<b>2" * 300_000
        with Tokenizer(replies=Replies.PAUSING) as tokenizer:
            self.assertEqual(tokenizer.feed(page), Fed.SCRIPT)
            before = len(list(tokenizer.tokens()))
            tokenizer.insert("<i>")
            self.assertEqual(tokenizer.feed(b"<u>"), Fed.DONE)
            tokenizer.end()
            names = [it.name for it in tokenizer.tokens() if isinstance(it, StartTag)]
        self.assertEqual(before, 600_002)
        self.assertEqual(names, ["i"] + ["b"] * 300_000 + ["u"])

    def test_bytes_that_are_no_text_far_in_a_long_piece(self):
        page = b"<p>" * 500_000
        for bad, at in ((b"\xff", 0), (b"\xe2x", 0), (b"\xe2\x82x", 0)):
            with Tokenizer(encoding="utf-8", errors="strict") as tokenizer:
                with self.assertRaises(TokenizerError) as refused:
                    tokenizer.feed(page + bad + page)
                self.assertEqual((refused.exception.status, refused.exception.at), (Status.NOT_UTF8, len(page) + at))
                self.assertEqual(len(list(tokenizer.tokens())), 500_000)
                tokenizer.feed("!".encode())
                tokenizer.end()
                self.assertEqual(next(tokenizer.tokens()), Text(1, "!"))
        # A character that two parts share, which the second spoils.
        page = b"x" * ((1 << 20) - 1) + b"\xe2" + b"yz"
        with Cleaner(encoding="utf-8", errors="strict") as cleaner:
            with self.assertRaises(TokenizerError) as refused:
                cleaner.feed(page)
            self.assertEqual(refused.exception.at, (1 << 20) - 1)

    def test_a_limit_is_of_the_whole_piece(self):
        page = b"x" * (3 << 20)
        with Tokenizer(limit=2 << 20) as tokenizer:
            with self.assertRaises(TokenizerError) as refused:
                tokenizer.feed(page)
            self.assertEqual(refused.exception.status, Status.LIMIT)
            self.assertEqual(list(tokenizer.tokens()), [])
            tokenizer.feed(b"y")
            tokenizer.end()
            self.assertEqual(next(tokenizer.tokens()), Text(1, "y"))


if __name__ == "__main__":
    unittest.main()
