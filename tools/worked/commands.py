#!/usr/bin/env python3
"""Runs firnuubal and html5tok by words of each kind, over files and input of each kind, and over outputs that are
closed, full or measured.

    python3 tools/worked/commands.py

tools/worked/commands.jsonl has a run a line: the words, the input, further files, and what has to be printed, said and ended
with, written by hand. Bytes that are not UTF-8 stand there as surrogates. Each run is made again with the input in pieces
of 1, 2 and 3 bytes, and where the line says `cuts` cut in two at each place. Where single bytes let more be printed
before an error, the line says that as `apart`. The programs are those that `rt ci` proved and left in the crates' `out/`.
Each run that differs is said, and then the status is 1.
"""

import contextlib
import json
import os
import pathlib
import pty
import re
import socket
import subprocess
import sys
import tempfile
import time
import tty

TOP = pathlib.Path(__file__).resolve().parents[2]
sys.path.insert(0, str(TOP / "tools"))

from gen import man  # noqa: E402: found by the line above
from release import version  # noqa: E402

PROGRAMS = {name: TOP / "crates" / name / "out" / name for name in ("firnuubal", "html5tok")}
PAGE = b"<a href=x>y</a>"
MISSING = "No such file or directory (os error 2)"
FOLDER = "Is a directory (os error 21)"
DENIED = "Permission denied (os error 13)"
MB = 1_000_000

# What programs print of themselves: the text of each page of the manual, the version, the standard policy.
HELP = man.texts()
VERSION = f"firnuubal {version.version_in('CHANGELOG.md', version.PLACES['CHANGELOG.md'])}\n"
POLICY = re.search(r'(?s)= "\\\n(.*?)";', (TOP / "crates/html5policy/src/standard.rt").read_text(encoding="utf-8"))[1]

# Files, by their names; None is a folder.
FILES = {
    "page": PAGE,
    "other": b"\n<img src=z>",
    "empty": b"",
    "byte": b"a",
    "folder": None,
    "first.bad": b"\xff<a href=x>",
    "middle.bad": b"<a href=m>\n<p>\xc3<a href=y>",
    "last.bad": b"<a href=x>\xe2\x98",
    "-x": PAGE,
    "wrong": b"</b>",
    "entities": b"own=2603\r\nnGt;=226B+20D2\r\n",
    "entities.commas": b"own=2603,nGt;=226B+20D2",
    "entities.bad": b"own=2603\nown=41\n",
    "policy": b"# links alone\nallow a href\nschemes https\n",
    "names": b"&own &nGt; &amp;",
}

# Parts of long pages, with how often each stands there, and what each command prints for it.
PARTS = [
    (
        "<p id=x>a &amp; b <a href=y>c</a><!--d-->",
        130_000,
        {
            "links": "1 y\n",
            "text": "a & b c",
            "clean": '<p>a &#38; b <a href="y" rel="noopener noreferrer">c</a></p>',
            "rewrite": "<p id=x>a &amp; b <a href=y>c</a><!--d-->",
        },
    ),
    ("abcdefghij", 100_000, {"links": "", "text": "abcdefghij", "clean": "abcdefghij", "check": "", "rewrite": "abcdefghij"}),
]


def bytes_of(text):
    """The bytes of a text, where a surrogate is a byte of no UTF-8."""
    return text.encode("utf-8", "surrogateescape")


def made_in(folder):
    """Makes the files."""
    for name, content in FILES.items():
        if content is None:
            (folder / name).mkdir()
        else:
            (folder / name).write_bytes(content)


def run(folder, words, **streams):
    """Runs the program of the first word in the folder."""
    streams = {"input": b"", "stdout": subprocess.PIPE, **streams}
    program, *words = words
    given = [PROGRAMS[program], *map(bytes_of, words)]
    return subprocess.run(given, cwd=folder, stderr=subprocess.PIPE, check=False, **streams)


def run_by_pieces(folder, words, pieces):
    """Runs a program whose reads of its input give these pieces, one each."""
    reading, writing = os.pipe2(os.O_DIRECT)
    program, *words = words
    given = [PROGRAMS[program], *map(bytes_of, words)]
    with subprocess.Popen(
        given, cwd=folder, stdin=reading, stdout=subprocess.PIPE, stderr=subprocess.PIPE
    ) as process:
        os.close(reading)
        for piece in filter(None, pieces):
            try:
                os.write(writing, piece)
            except BrokenPipeError:
                break
        os.close(writing)
        printed, said = process.communicate()
    return subprocess.CompletedProcess(given, process.returncode, printed, said)


def fault(words, ran, printed, said, status):
    """What differs of a run, or nothing."""
    found = (ran.stdout, ran.stderr.decode(), ran.returncode)
    wanted = (bytes_of(printed), said, status)
    return "" if found == wanted else f"{words}: expected {wanted!r}, found {found!r}"


def in_pieces(row, given):
    """The ways in which the input of a row is cut, with what is printed then."""
    printed = row.get("out", "")
    for size in (1, 2, 3) if "apart" not in row else (1,):
        yield [given[at : at + size] for at in range(0, len(given), size)], row.get("apart", printed)
    for cut in range(1, len(given)) if row.get("cuts") else ():
        yield [given[:cut], given[cut:]], printed


def rows():
    """The runs of tools/worked/commands.jsonl."""
    return map(json.loads, (TOP / "tools/worked/commands.jsonl").read_text(encoding="utf-8").splitlines())


def by_lines(folder):
    """These runs, whole and in pieces."""
    for row in rows():
        for name, content in row.get("files", {}).items():
            (folder / name).write_bytes(bytes_of(content))
        words, given = row["run"], bytes_of(row.get("in", ""))
        ending = (row.get("said", ""), row.get("status", 0))
        yield fault(words, run(folder, words, input=given), row.get("out", ""), *ending)
        for pieces, printed in in_pieces(row, given) if given else ():
            yield fault([words, pieces], run_by_pieces(folder, words, pieces), printed, *ending)


def of_json(_folder):
    """What Python reads of the objects that these runs print, and writes again."""
    printed = "".join(row.get("out", "") for row in rows() if "json" in row["run"]).split("\n")
    for line in filter(lambda line: line.startswith("{"), printed):
        again = json.dumps(json.loads(line), ensure_ascii=False, separators=(",", ":"))
        yield "" if again == line else f"{line}: Python writes {again}"


def of_logs(_folder):
    """What Python reads of the logs of SARIF that these runs print: a result for each line of them."""
    for row in filter(lambda row: "sarif" in row["run"] and "out" in row, rows()):
        (ran,) = json.loads(row["out"])["runs"]
        rules = [line.split('"')[3] for line in row["out"].splitlines() if line.startswith('{"ruleId"')]
        yield "" if [result["ruleId"] for result in ran["results"]] == rules else f"{row['run']}: {ran}"


def of_itself(folder):
    """What a program says of itself, whatever else its words say."""
    firnuubal = "firnuubal"
    cases = [([firnuubal, "--help"], HELP["help"]), ([firnuubal, "--version", "-"], VERSION)]
    for command in ["tokens", "links", "text", "clean", "check", "rewrite"]:
        cases += [([firnuubal, command, "--help"], HELP[command]), ([firnuubal, command, "--version"], VERSION)]
    cases += [([firnuubal, "links", "--version", word], VERSION) for word in ("missing", "--wrong")]
    cases += [([firnuubal, "clean", "--print-policy"], POLICY)]
    for words, printed in cases:
        yield fault(words, run(folder, words), printed, "", 0)
    # The policy that is printed is the one that is gone by.
    (folder / "printed").write_text(POLICY, encoding="utf-8")
    page = b"<p title=a id=b><a href=ftp:x>c</a><a href=http:x>d</a><video>e</video><script>f</script>"
    kept = '<p title="a"><a>c</a><a href="http:x" rel="noopener noreferrer">d</a>e</p>'
    for words in ([firnuubal, "clean"], [firnuubal, "clean", "--policy", "printed"]):
        yield fault(words, run(folder, words, input=page), kept, "", 0)


def without_permission(folder):
    """A file that may not be read, where the user is not root."""
    (folder / "locked").write_bytes(PAGE)
    (folder / "locked").chmod(0)
    if os.geteuid() == 0:
        return
    words = ["firnuubal", "links", "locked", "page"]
    yield fault(words, run(folder, words), "page:1 x\n", f"firnuubal: locked: {DENIED}\n", 1)


def of_many_files(folder):
    """200 files, of which three can't be read."""
    names = [f"{number}.html" for number in range(200)]
    bad = {"7.html": MISSING, "100.html": FOLDER, "199.html": "line 1: invalid UTF-8 at byte 0"}
    for name in names:
        if name not in bad:
            (folder / name).write_bytes(f"<a href={name}>".encode())
    (folder / "100.html").mkdir()
    (folder / "199.html").write_bytes(b"\xff")
    printed = "".join(f"{name}:1 {name}\n" for name in names if name not in bad)
    said = "".join(f"firnuubal: {name}: {bad[name]}\n" for name in names if name in bad)
    yield fault("200 files", run(folder, ["firnuubal", "links", "--fatal", *names]), printed, said, 1)


def of_long_pages(folder):
    """Pages of 5 MB, a run of text of 1 MB, and a character that stands over the end of the first read."""
    for part, times, printed in PARTS:
        for command, line in printed.items():
            ran = run(folder, ["firnuubal", command], input=part.encode() * times)
            right = ran.returncode == 0 and not ran.stderr and ran.stdout == line.encode() * times
            yield "" if right else f"{command} of {times} times {part}: status {ran.returncode}"
    text = "a" * 4095 + "\u20acb"
    ran = run(folder, ["firnuubal", "tokens"], input=text.encode())
    yield fault("4,095 letters", ran, f'text "{text}"\neof 1\n', "", 0)


def large_things():
    """Large inputs: what each is, the words, the input, and what is printed."""
    long, names = "x" * 100_000, [f"a{number}" for number in range(20_000)]
    yield "a run of 2 MB", ["text"], "a" * 2 * MB, "a" * 2 * MB
    yield "an address of 100 KB", ["links"], f"<a href={long}>", f"1 {long}\n"
    yield "a value of 100 KB", ["tokens"], f"<p a={long}>", f'start 1 "p" "a"="{long}"\neof 1\n'
    yield "a name of 100 KB", ["tokens"], f"<{long}>", f'start 1 "{long}"\neof 1\n'
    attributes = "".join(f' "{name}"=""' for name in names)
    yield "20,000 attributes", ["tokens"], f"<p {' '.join(names)}>", f'start 1 "p"{attributes}\neof 1\n'
    yield "20,000 elements in each other", ["clean"], "<div>" * 20_000 + "x", "<div>" * 256 + "x" + "</div>" * 256
    yield "20,000 dropped elements in each other", ["rewrite", "--drop", "b"], "<b>" * 20_000 + "x" + "</b>" * 20_000 + "y", "y"
    page = "<div a=1>" * 20_000
    yield "20,000 amended elements in each other", ["rewrite", "--set", "i.b=2"], page + "<i>", page + '<i b="2">'
    found = "".join(f"-:{line}:1: error: end-tag-without-start: i\n" for line in range(1, 10_001))
    yield "10,000 findings", ["check"], "</i>\n" * 10_000, found


def of_large_things(folder):
    """Large inputs, a long path, a policy of a thousand lines, and 5,000 reads."""
    for what, words, given, printed in large_things():
        ran = run(folder, ["firnuubal", *words], input=given.encode())
        status = 1 if words[0] == "check" else 0
        right = (ran.returncode, ran.stderr, ran.stdout.decode()) == (status, b"", printed)
        yield "" if right else f"{what}: status {ran.returncode}, {len(ran.stdout)} bytes, {ran.stderr[:200]!r}"
    path = f"{'d' * 200}/{'e' * 200}.html"
    (folder / path).parent.mkdir()
    (folder / path).write_bytes(PAGE)
    yield fault("a path of 400 bytes", run(folder, ["firnuubal", "links", "-H", path]), f"{path}:1 x\n", "", 0)
    rules = "".join(f"allow x{number}\n" for number in range(1000))
    (folder / "long.policy").write_text(rules, encoding="utf-8")
    words = ["firnuubal", "clean", "--policy", "long.policy"]
    yield fault("1,000 lines of policy", run(folder, words, input=b"<x1><x999><x1000>"), "<x1><x999>", "", 0)
    (folder / "long.policy").write_text(f"{rules}allow script\n", encoding="utf-8")
    why = "line 1001: the element can't be allowed: its content is always dropped"
    yield fault("a fault on line 1,001", run(folder, words), "", f"firnuubal: long.policy: {why}\n", 2)
    ran = run_by_pieces(folder, ["firnuubal", "links"], [b"<a href=x>"] * 5000)
    yield fault("5,000 reads", ran, "1 x\n" * 5000, "", 0)


def to_a_full_device(folder):
    """An output that takes nothing."""
    for command, name in [*((command, "page") for command in ["tokens", "links", "text", "clean", "rewrite"]), ("check", "wrong")]:
        with open("/dev/full", "wb") as full:
            ran = run(folder, ["firnuubal", command, name], stdout=full)
        told = "firnuubal: output: No space left on device (os error 28)\n"
        right = ran.returncode == 1 and ran.stderr.decode() == told
        yield "" if right else f"{command} to /dev/full: {ran!r}"


def to_a_closed_pipe(folder):
    """An output whose reader goes away while 35 MB are still to come."""
    (folder / "long").write_bytes(b"<a href=x>y</a>\n" * (35 * MB // 16))
    (folder / "faulty").write_bytes(b"</b>\n" * 100_000)
    for command in ["tokens", "links", "text", "clean", "rewrite", "check"]:
        with subprocess.Popen(
            [PROGRAMS["firnuubal"], command, "faulty" if command == "check" else "long"],
            cwd=folder,
            stdout=subprocess.PIPE,
            stderr=subprocess.PIPE,
        ) as process:
            process.stdout.readline()
            process.stdout.close()
            told = process.stderr.read()
        right = process.returncode == 0 and not told
        yield "" if right else f"{command} to a closed pipe: status {process.returncode}, {told!r}"


def writes_of(folder, words, given):
    """The writes of html5tok over an input, and its status."""
    ours, its = socket.socketpair(socket.AF_UNIX, socket.SOCK_SEQPACKET)
    (folder / "given").write_bytes(given)
    with open(folder / "given", "rb") as stdin, ours:
        with subprocess.Popen([PROGRAMS["html5tok"], *words], stdin=stdin, stdout=its) as process:
            its.close()
            writes = list(iter(lambda: ours.recv(MB), b""))
    return writes, process.returncode


def shown_on_terminal(folder, words, pieces):
    """What a program shows on a terminal that is its standard error, while pieces come half a second apart; what it prints."""
    ours, its = pty.openpty()
    tty.setraw(its)
    command = [PROGRAMS["firnuubal"], *words]
    with open(folder / "printed", "wb") as printed:
        with subprocess.Popen(command, cwd=folder, stdin=subprocess.PIPE, stdout=printed, stderr=its) as process:
            for piece in pieces:
                process.stdin.write(piece)
                process.stdin.flush()
                time.sleep(0.5)
    os.close(its)
    shown = b""
    with open(ours, "rb", buffering=0) as terminal, contextlib.suppress(OSError):
        while more := terminal.read(MB):
            shown += more
    return shown, (folder / "printed").read_bytes()


def with_progress(folder):
    """Megabytes and a rate on a terminal, where the system has terminals, taken away at the end; and nothing on another file."""
    pieces = [b"a" * 150_000, b"b" * 1000]
    lines = rb"(\r0\.[01] MB, [0-9]+ MB/s\x1b\[K)*\r0\.1 MB, [0-9]+ MB/s\x1b\[K\r\x1b\[K"
    for command in ["tokens", "links", "text", "clean", "check", "rewrite"]:
        words = [command, "--progress"]
        alone = run(folder, ["firnuubal", command], input=b"".join(pieces))
        ran = run(folder, ["firnuubal", *words], input=b"".join(pieces))
        yield fault(words, ran, alone.stdout.decode(), "", 0)
        if not os.path.exists("/dev/ptmx"):
            continue
        shown, printed = shown_on_terminal(folder, words, pieces)
        right = printed == alone.stdout and re.fullmatch(lines, shown)
        yield "" if right else f"{words}: {shown!r}"
        shown, printed = shown_on_terminal(folder, [command], pieces)
        yield "" if (shown, printed) == (b"", alone.stdout) else f"{command} shows {shown!r}"


def by_pages(folder):
    """A page of output is 65,536 bytes, and html5tok writes it after the piece of input that fills it."""
    plain = ["--state", "plaintext"]
    # Each tag is printed in 12 bytes, and so a piece of 4,096 bytes in 16,380 or 16,392; the end in 6.
    times = 87_382
    writes, status = writes_of(folder, [], b"<b>" * times)
    *pages, _ = map(len, writes)
    right = status == 0 and b"".join(writes) == b'start 1 "b"\n' * times + b"eof 1\n"
    right = right and 12 <= len(writes) <= 17 and all(65_536 <= size < 81_928 for size in pages)
    yield "" if right else f"a megabyte of tags: status {status}, writes of {[*map(len, writes)]}"
    # A letter is printed as one byte, after 6 bytes with which the text begins. So the first page shows how many are fed
    # at once.
    text = b"abcde" * 40_000
    for cut, first in [("1", 65_536), ("2", 65_536), ("7", 65_540), ("1000", 66_006)]:
        writes, status = writes_of(folder, [*plain, "--cut", cut], text)
        right = status == 0 and len(writes[0]) == first and b"".join(writes) == b'text "' + text + b'"\neof 1\n'
        yield "" if right else f"--cut {cut}: status {status}, writes of {[*map(len, writes)]}"
    for words, given, printed in [
        (plain, b"\n" * 80_000, 'text "' + "\\n" * 80_000 + '"\neof 80001\n'),
        ([], b"abcdefghij" * 100_000, 'text "' + "abcdefghij" * 100_000 + '"\neof 1\n'),
    ]:
        ran = run(folder, ["html5tok", *words], input=given)
        right = ran.returncode == 0 and not ran.stderr and ran.stdout == printed.encode()
        yield "" if right else f"html5tok of {len(given)} bytes: status {ran.returncode}"


def main():
    parts = [by_lines, of_json, of_logs, of_itself, without_permission, of_many_files, of_long_pages, of_large_things]
    with tempfile.TemporaryDirectory() as name:
        folder = pathlib.Path(name)
        made_in(folder)
        found = [answer for part in [*parts, to_a_full_device, to_a_closed_pipe, with_progress, by_pages] for answer in part(folder)]
    faults = list(filter(None, found))
    for answer in faults:
        print(f"tools/worked/commands.py: {answer}")
    print(f"tools/worked/commands.py: {len(found)} runs, {len(faults)} otherwise")
    return 1 if faults else 0


if __name__ == "__main__":
    sys.exit(main())
