"""Makes random pages for print_trees, with words that say how they are parsed."""

from __future__ import annotations

import html.entities
import random

from .case import Case
from .maker import Maker

# Names that rows of tree construction treat alike, or that meet in them.
GROUPS = [
    group.split()
    for group in (
        "a b i em font nobr p div",
        "nobr button a b p object",
        "table caption colgroup col tbody thead tfoot tr td th",
        "table tr td form input a b p script",
        "select option optgroup hr input button p",
        "svg path g foreignobject desc title script style font",
        "math mi mo mtext annotation-xml mglyph malignmark mrow svg",
        "svg math p b table foreignobject mi",
        "title textarea style xmp iframe noembed noframes noscript script plaintext",
        "html head body frameset frame noframes",
        "head base link meta template bgsound title",
        "template table tr td col caption select b",
        "pre listing textarea address center main section search dialog",
        "ul ol li dl dd dt div address p",
        "h1 h2 h6 hgroup p",
        "area br embed img image keygen wbr param source track hr input",
        "ruby rb rt rtc rp p",
        "applet marquee object form button fieldset b",
        "b big code em i s small strike strong tt u font",
        "x-y label canvas video sarcasm span",
        "lineargradient clippath feblend altglyph textpath",
    )
]
# What leads to places where few rows are.
BEGINNINGS = (
    *("<head>", "<head></head>", "<head><noscript>", "<body>", "</body>", "</html>", "<html class=1>", "<body></body> "),
    *("<frameset>", "<frameset></frameset>", "<frameset></frameset></html>", "<p></p><frameset>", "<br><frameset>"),
    *("<table>", "<table><caption>", "<table><colgroup>", "<table><tbody>", "<table><tr>", "<table><tr><td>"),
    *("<template>", "<template><tr>", "<template><col>", "<table><template>", "<select>", "<select><option>"),
    *("<svg>", "<svg><desc>", "<svg><foreignobject>", "<math>", "<math><mi>", "<math><annotation-xml encoding=text/html>"),
    *("<table><td><select>", "<a><table><a>", "<b><p><b><table>", "<nobr><table><object>", "<form><table>", "<button><p>"),
)
TEXTS = ("x", "y z", "x ", " x", " ", "\n", "\nx", "\n\nx", "\t\f", "\r\n", "\r\rx", "\0", "x\0y", "\0 ", " \0x", "&amp;", "&#10;")
ATTRIBUTES = (
    *(" class=1", " class=2", " id=a class=1", " class=1 id=a", " id=a id=b", " color=x", " face=x", " SIZE=1"),
    *(" type=hidden", " type=Hidden", " type=text", " encoding=text/html", " encoding=Application/XHTML+xml", " encoding=x"),
    *(" viewbox=v", " definitionurl=u", " xlink:href=h", " xml:lang=l", " xmlns=n", " xmlns:xlink=w", " xlink:href=h title"),
)
PUBLIC_IDS = (
    *("HTML", "-//W3C//DTD HTML 3.2 Final//EN", "-//W3C//DTD HTML 4.01//EN", "-//W3C//DTD HTML 4.01 Transitional//EN"),
    *("-//W3C//DTD XHTML 1.0 Frameset//EN", "-//W3O//DTD W3 HTML Strict 3.0//EN//", "-//IETF//DTD HTML 2.0//EN"),
)
LENGTHS = 6, 20, 60, 120  # of a page, in tags and texts
SYSTEM_IDS = ("about:legacy-compat", "http://www.ibm.com/data/dtd/v11/ibmxhtml1-transitional.dtd", "x", "")
# Pages in which a row counts that random ones seldom show.
PAGES = (
    *("<body class=1><template><body id=a>", "<nobr><button><nobr>", "<a><table><a></table>x", "<b><button></b>x"),
    *("<b><div><div>x</b>y", "<li><ul><li>", "<input type=hidden><frameset>", "<h1><h2>", "<p><table>", "<pre>\nx"),
    *("<textarea>\n\nx", "<body><noscript><p>x", "<p><b></p><table><caption>x", "<table> <tr> x\0", "<svg><font face=x>"),
    *("<body></body><!--c-->", "<svg><foreignobject></foreignobject><path>", "<math><mi><p><b></p>x<![CDATA[y]]>"),
    *("<svg>\0<![CDATA[\0]]></svg><![CDATA[x]]>", "<p><b><b><b><b><p>x", f"<p>{2 * '<b class=1 id=a><b id=a class=1>'}<p>x"),
    *("<select><option>x<hr><option>y", "<template><td>x"),
)
LIMITED = Case((("--formatting", "1"),), "<p><b><i></p>x"), Case((("--depth", "3"),), "<b><i><u>x")
CHOSEN = (*(Case((), page) for page in PAGES), *LIMITED)


def tree_case_of(seed: str, number: int) -> Case:
    """The page of that number, and its words: those that are chosen, and then random ones."""
    if number < len(CHOSEN):
        return CHOSEN[number]
    return TreeMaker(random.Random(f"{seed} tree {number - len(CHOSEN)}")).tree_case()


class TreeMaker(Maker):
    """Makes such a page by random choices. A page has few names, so that rows meet."""

    def tree_case(self) -> Case:
        self.names = self.choices.sample(sorted(html.entities.html5), 4) + ["lt", "amp", "notin;"]
        self.pool = [self.pick(self.pick(GROUPS)) for _ in range(self.choices.randint(1, 3))] + self.pick(GROUPS)
        self.opened: list[str] = []
        text = self.one_of("", "", "<!DOCTYPE html>", self.page_doctype) + self.one_of("", "", "", self.beginning_of_page)
        return Case(self.tree_words(), text + "".join(self.item() for _ in range(self.choices.randint(1, self.pick(LENGTHS)))))

    def tree_words(self) -> tuple[tuple[str, ...], ...]:
        words = [("--scripting",)] * self.choices.randrange(2)
        words += [("--depth", str(self.choices.randint(1, 9)))] * self.one_in(8)
        return tuple(words + [("--formatting", str(self.choices.randint(1, 4)))] * self.one_in(8))

    # ---- parts of a page

    def beginning_of_page(self) -> str:
        return self.one_of("", "", "", " ", "<!--c-->", "x") + self.pick(BEGINNINGS)

    def item(self) -> str:
        tags = (self.start,) * 9 + (self.end,) * 6
        return self.one_of(*tags, self.words_and_space, self.words_and_space, self.words_and_space, self.other)

    def words_and_space(self) -> str:
        return self.pick(TEXTS)

    def other(self) -> str:
        """What is no tag, or a tag of any form."""
        markup = ("<!--c-->", "<![CDATA[x]]>", "<![CDATA[<p>\0]]>", "<?x y?>", "</ x>", "</>", self.page_doctype)
        return self.one_of(*markup, *markup, self.part)

    def start(self) -> str:
        name = self.pick(self.pool)
        self.opened.append(name)
        attributes = self.one_of("", "", "", "", self.pick(ATTRIBUTES), self.pick(ATTRIBUTES), self.attribute)
        closing = self.one_of("", "", "", "", "", "", "", "/")
        return f"<{self.any_case(name) if self.one_in(8) else name}{attributes}{closing}>"

    def end(self) -> str:
        """An end tag, mostly of an element that may be open."""
        if not self.opened or self.one_in(4):
            return f"</{self.pick(self.pool if self.choices.randrange(5) else self.pick(GROUPS))}>"
        return f"</{self.opened.pop(-min(len(self.opened), self.pick((1, 1, 1, 2, 3))))}>"

    def page_doctype(self) -> str:
        if self.one_in(4):
            return self.doctype()
        public_id = self.one_of("", f" PUBLIC '{self.pick(PUBLIC_IDS)}'", f" PUBLIC '{self.pick(PUBLIC_IDS)}'")
        system_id = f"'{self.pick(SYSTEM_IDS)}'"
        return f"<!DOCTYPE html{public_id}{self.one_of('', ' ' + system_id if public_id else ' SYSTEM ' + system_id)}>"
