#!/usr/bin/env python3
"""What firnuubal clean prints of worked pages and of texts that attack sanitizers, and what it says of faulty policies.

    python3 tools/worked/cleaned.py

tools/worked/cleaned.jsonl and tools/worked/hostile.jsonl have a row a line, written by hand, as a list:

    [POLICY]                the pages after it are cleaned by these rules; those before any, by the standard policy
    [PAGE, PRINTED]         what is printed of a page
    [POLICY, LINE, FAULT]   the line at which a policy is refused, and what is said of it

Each page is read whole and in pieces of 1, 2 and 3 bytes, and what is printed is cleaned once more, which changes
nothing. The program is the one that `rt ci` proved and left in crates/firnuubal/out. Each row that differs is said, and
then the status is 1.
"""

import json
import pathlib
import sys
import tempfile

import commands

TOP = pathlib.Path(__file__).resolve().parents[2]

# Policies, or none for the standard one, pages and what is printed of them, where many elements are open or many rules
# are said.
MANY = range(200)
LONG = [
    (None, "<i>" * 600 + "1", "<i>" * 256 + "1" + "</i>" * 256),
    (None, "<i>" * 255 + "<table>1 2", "<i>" * 255 + "<table> </table>" + "</i>" * 255),
    ("allow b\nallow i\nbalance", "<b>" * 20_000 + "</i>" * 20_000, "<b>" * 20_000 + "</b>" * 20_000),
    ("allow div\ntree", "<div>" * 256 + "1", "<div>" * 256 + "1" + "</div>" * 256),
    ("allow div\ntree", "<div>" * 600 + "1", "<div>" * 256 + "1" + "</div>" * 256),
    (
        "everywhere href\n" + "".join(f"allow e{at} a{at}\nschemes s{at}\nhide h{at}\n" for at in MANY),
        "".join(f"<e{at} a{at}=x b=y href=s{at}:z>{at}</e{at}><h{at}>hidden</h{at}>" for at in MANY) + "<e200 href=s200:z>",
        "".join(f'<e{at} a{at}="x" href="s{at}:z">{at}</e{at}>' for at in MANY),
    ),
]


def run(folder, policy, page, size=None):
    """What the program prints, says and ends with, where a read takes so many bytes of the page, or as many as it can."""
    words = ["firnuubal", "clean"]
    if policy is not None:
        (folder / "policy").write_bytes(policy.encode())
        words += ["--policy", "policy"]
    given = page.encode()
    if size is None:
        ran = commands.run(folder, words, input=given)
    else:
        ran = commands.run_by_pieces(folder, words, [given[at : at + size] for at in range(0, len(given), size)])
    return ran.stdout.decode(), ran.stderr.decode(), ran.returncode


def shown(ran):
    """What was found, short enough to be read."""
    text = repr(ran)
    return text if len(text) < 2000 else f"{text[:2000]}.."


def of_page(folder, policy, page, printed, sizes=(1, 2, 3)):
    """What differs where a page is cleaned, whole and in pieces of these sizes, and where that is cleaned once more."""
    runs = [("whole", page, None), *((f"in pieces of {size}", page, size) for size in sizes), ("once more", printed, None)]
    for how, text, size in runs:
        found = run(folder, policy, text, size)
        if found != (printed, "", 0):
            return f"{policy!r}, {shown(page)}, {how}: expected {shown(printed)}, found {shown(found)}"
    return ""


def of_fault(folder, policy, line, fault):
    """What differs where a policy is refused."""
    expected = ("", f"firnuubal: policy: line {line}: {fault}\n", 2)
    found = run(folder, policy, "<p>1")
    return "" if found == expected else f"{policy!r}: expected {expected!r}, found {shown(found)}"


def of_rows(folder, path):
    """What differs at each row of a file."""
    policy = None
    for row in map(json.loads, path.read_text(encoding="utf-8").splitlines()):
        if len(row) == 1:
            policy = row[0]
        elif len(row) == 2:
            yield of_page(folder, policy, *row)
        else:
            yield of_fault(folder, *row)


def main():
    with tempfile.TemporaryDirectory() as name:
        folder = pathlib.Path(name)
        found = [answer for rows in ("hostile", "cleaned") for answer in of_rows(folder, TOP / f"tools/worked/{rows}.jsonl")]
        found += [of_page(folder, *row, sizes=()) for row in LONG]
    faults = list(filter(None, found))
    for answer in faults:
        print(f"tools/worked/cleaned.py: {answer}")
    print(f"tools/worked/cleaned.py: {len(found)} rows, {len(faults)} otherwise")
    return 1 if faults else 0


if __name__ == "__main__":
    sys.exit(main())
