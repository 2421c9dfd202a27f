"""The runs of tools/worked/faults.py: what programs print, say and end with where a call of the system fails.

All of it was written by hand, from crates/firnuubal/README.md, crates/html5tok/README.md and docs/GRAMMAR.md.
"""

from typing import NamedTuple

from commands import HELP, MISSING, POLICY, VERSION

FAILED, TOO_LARGE, FULL, CLOSED, OVER_QUOTA, NOTHING = 5, 27, 28, 32, 122, 0
WHY_FAILED = "Input/output error (os error 5)"
WHY_FULL = "No space left on device (os error 28)"
WHY_TOO_LARGE = "File too large (os error 27)"
WHY_OVER_QUOTA = "Disk quota exceeded (os error 122)"

# A table and policies that ask for little memory, and pages.
FILES = {
    "own": b"own;=2603\n",
    "links": b"# links alone\nallow a href\nschemes https\n",
    "balance": b"allow b\nallow i\nbalance\n",
    "tree": b"allow p\nallow table\ntree\n",
    "first": b"1&own;<p>2",
    "second": b"<!--3-->4<script>5",
}


class End(NamedTuple):
    """How a run ends where a request was refused: a prefix of `cut` is printed, with the text around it."""

    said: str
    status: int
    cut: str = ""
    before: str = ""
    after: str = ""


class Failing(NamedTuple):
    """How a run ends where a read fails, after so many reads or more."""

    reads: int
    printed: str
    said: str
    status: int


class Row(NamedTuple):
    """A run where nothing fails, and what happens to it if something does."""

    words: list
    given: bytes
    printed: str
    said: str = ""
    status: int = 0
    # Where a request for memory is refused: the ends that come, how many requests there are at least, and of how many
    # in the midst one is refused.
    ends: tuple = ()
    requests: int = 10
    stride: int = 1
    # Where a read of a byte fails, and how it does.
    failing: tuple = ()
    error: int = FAILED
    # Where a write of a byte fails: how, what is said then and the status, and which writes, if not each.
    refusals: tuple = ()
    writes: tuple = ()


def said(about, why="out of memory"):
    return f"firnuubal: {about}: {why}\n"


# How firnuubal ends out of memory: for its words, a table, or settings.
NO_WORDS = End(said("words"), 1)
NO_TABLE = End(said("entities", "the list is not a valid table: out of memory"), 2)
NO_OWN_TABLE = (End(said("own"), 2), End(said("own", "the list is not a valid table: out of memory"), 2))
NO_SETTINGS = End(said("settings"), 2)
UNPRINTED = said("output", "can't be printed")


def of_page(whole):
    """How it ends out of memory for a page, or for what is printed of it."""
    return (End(said("-"), 1, whole), End(UNPRINTED, 1, whole))


def of_policy(name, *lines):
    """How it ends out of memory for a file of a policy, or for the rules on these lines."""
    return (End(said(name), 2), *(End(said(name, f"line {line}: out of memory"), 2) for line in lines))


def by_own(command, given, printed, *ends, status=0):
    """A run by the small table."""
    words = ["firnuubal", command[0], "--entities", "own", *command[1:]]
    return Row(words, given, printed, status=status, ends=(NO_WORDS, *NO_OWN_TABLE, *ends))


def filters():
    """Each command, and policies, on standard input."""
    lines = 'start 1 "p" "a"="\u2603"\ntext "xAy"\ncomment 1 "z"\neof 1\n'
    yield by_own(["tokens"], b'<p a="&own;">x&#x41;y<!--z-->', lines, *of_page(lines))
    links = "1 \u2603\n2 z\n"
    yield by_own(["links"], b'<a href="&own;">y\n<img src=z>', links, *of_page(links))
    links = "-:1 http://a/c/d\n-:2 http://a/z\n"
    page = b"<base href=c/><a href=d>y\n<img src=/z>"
    ends = (End(said("http://a/b"), 2), *of_page(links))
    yield by_own(["links", "-H", "--base", "http://a/b"], page, links, *ends)
    lines = '{"file":"-","type":"start","line":1,"name":"p","attributes":[],"self_closing":false}\n'
    lines += '{"file":"-","type":"text","text":"x"}\n{"file":"-","type":"end_of_page","line":1}\n'
    yield by_own(["tokens", "--with-filename", "--format", "json"], b"<p>x", lines, *of_page(lines))
    lines = '-:text "x"\n-:end 1 "script"\n-:pause script\n-:eof 1\n'
    yield by_own(["tokens", "-H"], b"x</script>", lines, *of_page(lines))
    text = "a\u2603bd"
    yield by_own(["text"], b"a&own;<p>b<script>c</script>d", text, *of_page(text))
    text = "a\u65e5b"
    yield by_own(["text", "--encoding", "shift_jis"], b"a\x93\xfa<p>b", text, *of_page(text))
    yield by_own(["text", "--fatal", "--encoding", "shift_jis"], b"a\x93\xfa<p>b", text, *of_page(text))
    kept = '<p title="\u2603">a &#60; b<a href="x" rel="noopener noreferrer">c</a></p>'
    page = b'<p title="&own;" onclick=x>a < b<a href=x>c</a><script>d'
    yield by_own(["clean"], page, kept, NO_SETTINGS, *of_page(kept))
    kept = '1<a href="https:x">2</a>'
    page = b"1<p><a href=https:x rel=y>2</a><!--3-->"
    yield by_own(["clean", "--policy", "links"], page, kept, *of_policy("links", 2, 3), *of_page(kept))
    kept = "<b>1<i>2</i></b>345<b>6</b>"
    page = b"<b>1<i x>2</b>3<p>4</i>5<b>6"
    yield by_own(["clean", "--policy", "balance"], page, kept, *of_policy("balance", 1, 2), *of_page(kept))
    kept = "<p>1</p><table><tbody><tr><td>2</td></tr></tbody></table>"
    page = b"<p>1<table><td>2"
    yield by_own(["clean", "--policy", "tree"], page, kept, *of_policy("tree", 1, 2, 3), *of_page(kept))
    found = "-:1:9: error: end-tag-without-start: i\n-:1:13: error: misspelled-element: dvi; did you mean div?\n"
    found += "-:1:13: error: unclosed-element: dvi\n"
    page = b"<p>&own;</i><dvi id=x>"
    yield by_own(["check"], page, found, *of_page(found), status=1)
    kept = '<P\n>&own;<a href="http://a/b/c" x="1">z</A>'
    page = b"<P\n>&own;<A HREF=c y>z</A><script>d"
    words = ["rewrite", "--absolute", "http://a/b/", "--set", "a.x=1", "--remove", "a.y", "--drop", "script"]
    yield by_own(words, page, kept, NO_SETTINGS, End(said("settings", "--absolute: out of memory"), 2), *of_page(kept))


def messages():
    """Files of which one is missing, and words that ask for no page."""
    first, second = "1\u26032", "4"
    ends = [End(UNPRINTED, 1, first + second)]
    ends += [End(said("first"), 1, first, after=second), End(said("second"), 1, second, before=first)]
    yield by_own(["text", "first", "second"], b"", first + second, *ends)
    missing = said("missing", MISSING)
    line = "-:1 x\n"
    ends = [End("", 1, before=line), End(said("missing"), 1, before=line)]
    ends += [End(missing + why, 1, line) for why in (said("-"), UNPRINTED)]
    yield by_own(["links", "missing", "-"], b"<a href=x>", line, *ends)._replace(said=missing, status=1)
    like = said("--entites", "no such option; did you mean --entities?")
    ends = (NO_WORDS, End(said("--entites", "no such option; try --help"), 2), End("", 2))
    yield Row(["firnuubal", "links", "--entites"], b"a", "", like, 2, ends)
    for words in (["--version"], ["text", "--version"]):
        yield Row(["firnuubal", *words], b"a", VERSION, ends=(NO_WORDS, End(said("version"), 1)), requests=3)
    yield Row(["firnuubal", "--help"], b"a", HELP["help"], ends=(NO_WORDS,), requests=2)
    yield Row(["firnuubal", "links", "--help"], b"a", HELP["links"], ends=(NO_WORDS,), requests=2)
    yield Row(["firnuubal", "clean", "--print-policy"], b"a", POLICY, ends=(NO_WORDS,), requests=2)


# What html5tok is run on: a text with a line break of two characters and a NUL, a tag that says how a page is encoded,
# and a text of which the lines fill two pages and more.
PLAIN = ["html5tok", "--state", "plaintext"]
MIXED, META, LONG = b"a\r\nb\0c", b"<meta charset=utf-8>x", b"\n" * 80_000
MIXED_LINES = 'text "a\\nb"\nerror 2 "Saw \\u{0} in state Plaintext"\ntext "\ufffdc"\neof 2\n'
META_LINES = 'start 1 "meta" "charset"="utf-8"\npause encoding "utf-8"\ntext "x"\neof 1\n'
LONG_LINES = 'text "' + "\\n" * 80_000 + '"\n'
NO_MEMORY, UNREAD = "out of memory\n", "read or write failed\n"


def of_reference():
    """html5tok: options, a page with a pause, a table with a fault, and refusals after a page was written."""
    for words, given, lines in [
        ([*PLAIN, "--cut", "2", "--last", "title"], MIXED, MIXED_LINES),
        (["html5tok"], META, META_LINES),
    ]:
        yield Row(words, given, lines, ends=(End(NO_MEMORY, 5, lines),))
    words = ["html5tok", "--table", "a=41,b=42,a=43"]
    yield Row(words, b"a", "", "table: repeated name at 2\n", 4, (End(NO_MEMORY, 5),))
    lines = LONG_LINES + 'start 80001 "b"\n' * 20 + "eof 80001\n"
    late = End(NO_MEMORY, 5, lines[65_536:], before=lines[:65_536])
    yield Row(["html5tok"], LONG + b"<b>" * 20, lines, ends=(End(NO_MEMORY, 5), late))


def refused():
    """Where a request for memory is refused."""
    yield from filters()
    yield from messages()
    # By the standard's table, which asks for memory some thousand times.
    text = "a\u226b\u20d2b"
    ends = (NO_WORDS, NO_TABLE, *of_page(text))
    yield Row(["firnuubal", "text"], b"a&nGt;b", text, ends=ends, requests=2231, stride=97)
    yield from of_reference()


# Pages for firnuubal, what is printed of each, and what of that after so many bytes. Text is printed as it comes, and its
# line is closed by the next token; the last run of text ends at the end of the page; a tag brings the text in front of it.
LINES = 'start 1 "p"\ntext "a'
# A page whose encoding is to be found tells nothing where its first bytes can't be read: of these that is the whole page,
# with its end.
PAGES = [
    (["text"], b"a<p>bc", "abc", [(0, "")]),
    (["tokens", "--fatal"], b"<p>a", LINES + '"\neof 1\n', [(0, ""), (3, 'start 1 "p"\n'), (4, LINES)]),
    (["links", "--fatal"], b"<a href=x>y<a href=z>", "1 x\n1 z\n", [(0, ""), (10, "1 x\n"), (21, "1 x\n1 z\n")]),
    (["text", "--fatal"], b"a<p>bc", "abc", [(0, ""), (4, "a")]),
    (["text", "--encoding", "latin1"], b"a<p>b\xe9", "ab\u00e9", [(0, "")]),
    (["clean", "--fatal"], b"<p>a<b x>c", "<p>a<b>c</b></p>", [(0, ""), (3, "<p>"), (9, "<p>a<b>")]),
]


def failing_reads():
    """Where a read fails."""
    for command, given, printed, after in PAGES:
        failing = tuple(Failing(reads, text, said("-", WHY_FAILED), 1) for reads, text in after)
        yield Row(["firnuubal", *command], given, printed, failing=failing)
    yield Row(["firnuubal", "links", "--wrong"], b"a", "", said("--wrong", "no such option; try --help"), 2)
    for words, given, lines in [(PLAIN, MIXED, MIXED_LINES), (["html5tok"], META, META_LINES)]:
        yield Row(words, given, lines, failing=(Failing(0, "", UNREAD, 6),))
    # Nothing is read where the table has a fault.
    yield Row(["html5tok", "--table", "a=0"], b"a", "", "table: zero character at 0\n", 4)


# How a write fails, what firnuubal says, and its status.
REFUSALS = (
    (FAILED, said("output", WHY_FAILED), 1),
    (FULL, said("output", WHY_FULL), 1),
    (CLOSED, "", 0),
    (NOTHING, UNPRINTED, 1),
)


def failing_writes():
    """Where a write fails."""
    for command, given, printed, _ in PAGES:
        yield by_own(command, given, printed)._replace(refusals=REFUSALS)
    yield Row(["firnuubal", "--version"], b"", VERSION, refusals=REFUSALS)
    for words, text in [(["--help"], HELP["help"]), (["clean", "--print-policy"], POLICY)]:
        yield Row(["firnuubal", *words], b"", text, refusals=REFUSALS, writes=(1, 2, 500))
    links = by_own(["links"], b"<a href=x>" * 3000, "1 x\n" * 3000)
    lost = ((TOO_LARGE, said("output", WHY_TOO_LARGE), 1), (OVER_QUOTA, said("output", WHY_OVER_QUOTA), 1))
    yield links._replace(refusals=REFUSALS + lost, writes=(1, 4096, 4097, 4098, 10_000))
    refusals = tuple((error, UNREAD, 6) for error in (FAILED, FULL, CLOSED, NOTHING))
    for words, given, lines in [(PLAIN, MIXED, MIXED_LINES), (["html5tok"], META, META_LINES)]:
        yield Row(words, given, lines, refusals=refusals)
    refusals = ((FAILED, UNREAD, 6), (NOTHING, UNREAD, 6))
    places = (1, 65_001, 100_001, 160_001)
    yield Row(PLAIN, LONG, LONG_LINES + "eof 80001\n", refusals=refusals, writes=places)


def unsaid():
    """Where what is said can't be."""
    yield Row(["firnuubal", "links", "--wrong"], b"a", "", said("--wrong", "no such option; try --help"), 2)
    yield Row(["firnuubal", "links", "missing"], b"", "", said("missing", MISSING), 1)
    yield Row(PLAIN, b"\xff", "", "input is not UTF-8\n", 3)
    usage = "usage: html5tok [--exact] [--keep-bom] [--foreign] [--state S] [--last NAME] [--cut N] [--table LIST]\n"
    yield Row(["html5tok", "--state", "cdatas"], b"a", "", usage, 2)
    yield Row(PLAIN, b"a", 'text "a"\neof 1\n')


def in_pieces():
    """Where reads and writes move little."""
    yield from filters()
    yield from messages()
    yield from of_reference()


# The mistakes of tools/worked/faults_planted.c, and the sweep that has to find each.
MISTAKES = {
    "swallows": "refuse_each",
    "is quiet": "refuse_each",
    "crashes": "refuse_each",
    "prints more": "refuse_each",
    "ends early": "fail_each_read",
    "prints what came": "fail_each_read",
    "goes on": "fail_each_write",
    "tries again": "fail_each_write",
    "is done": "fail_each_write",
    "blames its reader": "fail_each_write",
    "hangs": "fail_each_write",
    "drops": "move_little",
    "splits": "move_little",
    "ends otherwise": "fail_to_say",
}


def planted(mistake):
    """A run with a mistake, and what has to be found of one without."""
    unwritten = [(error, "planted: a write failed\n", 1) for error in (FAILED, FULL, NOTHING)]
    return Row(
        ["planted", mistake],
        b"abcdefgh",
        "abcdefgh",
        "note\n",
        ends=(End("planted: out of memory\n", 1),),
        requests=2,
        failing=(Failing(0, "", "planted: a read failed\n", 1),),
        refusals=((CLOSED, "", 0), *unwritten),
    )
