#!/usr/bin/env python3
"""Has a real browser read what firnuubal clean prints, and says what it finds that the policy doesn't allow.

    python3 tools/peers/browser.py [--tree] [FOLDER..]

Cleaned by the standard policy are the texts of tools/worked/hostile.jsonl, and 300 HTML files of each folder. Chromium
(Debian's, headless) puts each cleaned page into an element of a page, waits for what that loads, and looks at each
element: its name, its attributes, and the scheme that an address has. It also counts scripts that ran. What the
policy keeps is said by tools/model/cleaning.py. The program is the one that `rt ci` left in crates/firnuubal/out.

With --tree it also asks whether the tree that Chromium built is the nesting of the page's tags, as Python's html.parser
reads them. Each page is built twice: as a page's `innerHTML` alone, for which Chromium has a short way, and after a
comment, where it has not. What `innerHTML` writes of the tree has to be built and written again as the same.

Status 0: nothing was found that is not allowed, and each tree is the nesting. 1: something was. 2: there is no browser
here, or no program.
"""

import argparse
import html.parser
import json
import os
import pathlib
import re
import shutil
import subprocess
import sys
import tempfile

TOP = pathlib.Path(__file__).resolve().parents[2]
sys.path.insert(0, str(TOP / "tools"))

from model.cleaning import ADDRESSES, VOID, policy_of, standard  # noqa: E402: found by the line above

PROGRAM = TOP / "crates/firnuubal/out/firnuubal"
PAGES = 300
SECONDS = 600
DRIVER = """<!doctype html><meta charset="utf-8"><body><pre id="found"></pre><script>
const given = GIVEN
const found = []
let ran = 0, of = -1
window.alert = () => { ran += 1; found.push([of, "a script ran"]) }
const isNamed = (element, name) => given.everywhere.includes(name) || given.own.includes(element + " " + name)
const isOwnRel = (element, name, value) => element === "a" && name === "rel" && value === given.rel
function look(node) {
    const element = node.localName
    const isHtml = node.namespaceURI === "http://www.w3.org/1999/xhtml"
    if (!isHtml || !given.elements.includes(element)) found.push([of, "element " + element])
    for (const {name, value} of node.attributes) {
        const isKept = isNamed(element, name) || isOwnRel(element, name, value)
        if (!isKept) found.push([of, "attribute " + name + " of " + element])
        if (!given.addresses.includes(name)) continue
        let url
        try { url = new URL(value, "https://base.invalid/") } catch { continue }
        if (!given.schemes.includes(url.protocol)) found.push([of, "address " + value])
    }
}
const escaped = text => text.replaceAll("&", "&amp;").replaceAll("<", "&lt;").replaceAll('"', "&quot;")
function shown(node) {
    let text = ""
    for (const child of node.childNodes) {
        if (child.nodeType === Node.TEXT_NODE) { text += escaped(child.data); continue }
        text += "<" + child.nodeName.toLowerCase()
        for (const {name, value} of child.attributes ?? []) text += ` ${name}="${escaped(value)}"`
        text += ">" + shown(child) + "</>"
    }
    return text
}
function compare(tree, page) {
    const whole = document.createElement("div"), again = document.createElement("div")
    whole.innerHTML = "<!---->" + page
    whole.firstChild.remove()
    for (const built of [holder, whole]) if (shown(built) !== tree) found.push([of, "another tree: " + built.innerHTML.slice(0, 500)])
    // What innerHTML writes loses two things: a line feed straight after <pre>, and a CR, which is read as a line feed.
    again.innerHTML = holder.innerHTML.replace(/(<pre[^>]*>)\\n/g, "$1\\n\\n").replaceAll("\\r", "&#13;")
    if (again.innerHTML !== holder.innerHTML) found.push([of, "written otherwise: " + again.innerHTML.slice(0, 500)])
}
const holder = document.createElement("div")
document.body.append(holder)
let elements = 0
for (const page of given.pages) {
    of += 1
    holder.innerHTML = page
    for (const node of holder.querySelectorAll("*")) { elements += 1; look(node) }
    if (given.trees) compare(given.trees[of], page)
}
holder.innerHTML = ""
const say = () => { document.getElementById("found").textContent = "FOUND" + JSON.stringify({found, elements, ran}) + "END" }
setTimeout(say, 500)
</script>
"""


def cleaned(page):
    """What the program prints of a page, which may hold bytes that are not UTF-8."""
    text = page.decode(errors="replace").encode()
    return subprocess.run([PROGRAM, "clean"], input=text, capture_output=True, check=True).stdout.decode()


def escaped(text):
    return text.replace("&", "&amp;").replace("<", "&lt;").replace('"', "&quot;")


class Nesting(html.parser.HTMLParser):
    """The tree that the tags of a cleaned page show, as the driver shows one. A tag that closes another is said in it."""

    def __init__(self):
        super().__init__()
        self.shown, self.opened, self.is_fresh = [], [], False

    def handle_starttag(self, name, attributes):
        said = "".join(f' {key}="{escaped(value)}"' for key, value in attributes)
        self.shown.append(f"<{name}{said}>")
        if name in VOID:
            self.shown.append("</>")
        else:
            self.opened.append(name)
        self.is_fresh = name == "pre"

    def handle_endtag(self, name):
        is_innermost = self.opened[-1:] == [name]
        self.shown.append("</>" if is_innermost else f"</{name} where {self.opened} are open>")
        self.opened = self.opened[:-1] if is_innermost else self.opened
        self.is_fresh = False

    def handle_data(self, text):
        text = text[text.startswith("\n") :] if self.is_fresh else text
        self.shown.append(escaped(text))
        self.is_fresh = False


def nesting(page):
    reader = Nesting()
    reader.feed(page)
    reader.close()
    return "".join(reader.shown) + "".join(f"<{name} is open>" for name in reader.opened)


def given_pages(folders):
    rows = (TOP / "tools/worked/hostile.jsonl").read_text(encoding="utf-8").splitlines()
    pages = [(json.loads(row)[0], json.loads(row)[0].encode()) for row in rows]
    for folder in folders:
        files = sorted(it for it in pathlib.Path(folder).rglob("*.htm*") if it.is_file())
        step = max(1, len(files) // PAGES)
        pages += [(str(file), file.read_bytes()) for file in files[::step][:PAGES]]
    return [*pages, ("an i in an i, 600 times", b"<i>" * 600 + b"x")]


def chromium():
    """The browser, or none."""
    return shutil.which("chromium") or shutil.which("chromium-browser")


def found_by(browser, driver, given):
    """What the script of a page finds in what it is given, in the browser."""
    data = json.dumps(given).replace("<", "\\u003c")
    with tempfile.TemporaryDirectory() as folder:
        file = pathlib.Path(folder) / "driver.html"
        file.write_text(driver.replace("GIVEN", data, 1), encoding="utf-8")
        words = [browser, "--headless", "--no-sandbox", "--disable-gpu", "--host-resolver-rules=MAP * ~NOTFOUND"]
        words += ["--virtual-time-budget=20000", f"--user-data-dir={folder}/profile", "--dump-dom", file.as_uri()]
        run = subprocess.run(words, capture_output=True, timeout=SECONDS, check=True)
    text = re.search("FOUND(.*)END</pre>", run.stdout.decode(), re.DOTALL)
    if text is None:
        sys.exit(f"{sys.argv[0]}: the browser said nothing: {run.stderr.decode()[-500:]}")
    return json.loads(text.group(1).replace("&lt;", "<").replace("&gt;", ">").replace("&amp;", "&"))


def looked_at(browser, pages, trees):
    """What the browser finds in these cleaned pages, of which it has to build these trees, if any are given."""
    policy = policy_of(standard())
    given = {
        "pages": pages,
        "trees": trees,
        "elements": sorted(policy.elements),
        "own": sorted(" ".join(own) for own in policy.own),
        "everywhere": sorted(policy.everywhere),
        "rel": policy.rel,
        "addresses": sorted(ADDRESSES),
        "schemes": [scheme + ":" for scheme in sorted(policy.schemes)],
    }
    return found_by(browser, DRIVER, given)


def main():
    parser = argparse.ArgumentParser(description=__doc__, formatter_class=argparse.RawDescriptionHelpFormatter)
    parser.add_argument("--tree", action="store_true", help="compare the trees that are built with the tags")
    parser.add_argument("folders", nargs="*", metavar="FOLDER", help="300 HTML files of each are taken, too")
    words = parser.parse_args()
    browser = chromium()
    if browser is None:
        print("tools/peers/browser.py: there is no chromium here (apt-get install chromium)")
        return 2
    if not os.access(PROGRAM, os.X_OK):
        print(f"tools/peers/browser.py: there is no {PROGRAM}; `rt ci` leaves it there")
        return 2
    pages = given_pages(words.folders)
    kept = [cleaned(page) for _, page in pages]
    found = looked_at(browser, kept, [nesting(page) for page in kept] if words.tree else None)
    for number, what in found["found"]:
        print(f"{pages[number][0]!r}: {what}")
    count = len(found["found"])
    print(f"{len(pages)} pages, {found['elements']} elements, {found['ran']} scripts ran, {count} not allowed")
    return min(count, 1)


if __name__ == "__main__":
    sys.exit(main())
