"""What firnuubal check finds in tags and texts, by crates/html5check/README.md and the standard's "Optional tags"."""

from __future__ import annotations

VOID = {"br", "img", "hr", "input", "meta"}
UNTRACKED = {"html", "head", "body"}
# The elements whose end tags may be left out, each with the start tags before which it is ended.
BLOCKS = {"div", "p", "ul", "ol", "table", "section", "h1", "pre", "hr", "li", "dt", "dd", "dl", "form"}
CELLS, ROWS, GROUPS = {"td", "th"}, {"tr"}, {"tbody", "thead", "tfoot"}
ENDED = {"p": BLOCKS, "li": {"li"}, "dt": {"dt", "dd"}, "dd": {"dt", "dd"}, "option": {"option", "optgroup", "hr"}}
ENDED.update(optgroup={"optgroup", "hr"}, rt={"rt", "rp"}, rp={"rt", "rp"}, tr=ROWS | GROUPS)
ENDED.update({name: CELLS | ROWS | GROUPS for name in CELLS})
ENDED.update({name: GROUPS for name in GROUPS})
ENDED.update({name: {"caption", "colgroup"} | CELLS | ROWS | GROUPS for name in ("caption", "colgroup")})
POINTS = {"foreignobject", "desc"}
# Misspelled names, and what they are meant for.
MEANT = {"dvi": "div", "tabel": "table", "sectoin": "section"}
ATTRIBUTES = {"calss": "class", "hreff": "href"}


class Findings:
    """What is open and what was found, tag after tag."""

    def __init__(self):
        self.opened, self.ids, self.found = [], set(), []

    def find(self, place, code, subject, meant=None):
        self.found.append((place, f"{code}: {subject}" + (f"; did you mean {meant}?" if meant else "")))

    def leave(self, count):
        for _ in range(count):
            place, name, _ = self.opened.pop()
            if name not in ENDED:
                self.find(place, "unclosed-element", name)

    def start(self, place, name, own, closing, wrong):
        if own and not any(c in own for c in " \t\n\f\r"):
            if own in self.ids:
                self.find(place, "duplicate-id", own)
            self.ids.add(own)
        if name in UNTRACKED:
            return
        within = bool(self.opened) and self.opened[-1][2]
        if within or name in ("svg", "math"):
            if not closing:
                self.opened.append((place, name, name not in POINTS))
            return
        if name in MEANT:
            self.find(place, "misspelled-element", name, MEANT[name])
        for it in wrong:
            self.find(place, "misspelled-attribute", it, ATTRIBUTES[it])
        if closing and name not in VOID:
            self.find(place, "non-void-html-element-start-tag-with-trailing-solidus", name)
        self.end_before(name)
        if name not in VOID:
            self.opened.append((place, name, False))

    def end_before(self, name):
        count = 0
        for depth, (_, inner, _) in enumerate(reversed(self.opened), 1):
            if inner not in ENDED:
                break
            if name in ENDED[inner]:
                count = depth
        del self.opened[len(self.opened) - count :]

    def end(self, place, name):
        if name in UNTRACKED:
            return
        near = [inner for _, inner, _ in reversed(self.opened[-512:])]
        if name not in near:
            self.find(place, "end-tag-of-void-element" if name in VOID else "end-tag-without-start", name)
            return
        self.leave(near.index(name))
        self.opened.pop()


def run(_words: list[str], pieces) -> tuple[int, str, str]:
    """The status of a run over a page of these pieces, what it prints, and its line on standard error."""
    findings, line, column, after_cr = Findings(), 1, 1, False
    for written, tag in pieces:
        if tag:
            kind, *said = tag
            (findings.start if kind == "start" else findings.end)((line, column), *said)
        for c in written:
            if c == "\n" and after_cr:
                after_cr = False
                continue
            after_cr = c == "\r"
            line, column = (line + 1, 1) if c in "\r\n" else (line, column + 1)
    findings.leave(len(findings.opened))
    found = sorted(findings.found, key=lambda it: it[0])
    return int(bool(found)), "".join(f"-:{place[0]}:{place[1]}: error: {said}\n" for place, said in found), ""
