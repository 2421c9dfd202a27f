"""The texts that are timed. All but the real pages are made here, from one seed. Of those made here none has a `meta`,
and only full pages have comments, doctypes, scripts and styles."""

import html.entities
import pathlib
import random
import subprocess
import tempfile

SEED = 20
MB = 1_000_000
ASCII_WORDS = (
    "the quick brown fox jumps over a lazy dog while many other animals look on and wonder whether it was worth it "
    "because nobody had told them what there was to win in this year's race across fields and hedges, or why."
).split()
WORDS = ASCII_WORDS * 3 + "café naïve Größe señor Ελλάδα слово 日本語 한국어 עברית 🦊 𝄞".split()
PLAIN_WORDS = WORDS + '"quoted" <p> </p> &amp; 1<2 back\\slash'.split()
# The text between the words of pages of entities.
REFERENCES = "&amp; &lt;b&gt; &nbsp; &copy;2024 caf&eacute; &#233; &#x1F98A; R&D".split()
BLOCKS = [
    '<div class="card wide" id=card-{n}>\n',
    "</div>\n",
    "<h2 id='part-{n}'>{some}</h2>\n",
    "<p>{many}</p>\n",
    '<p class="lead">{many} <a href="/topics/{word}/{n}.html" title="{some}">{some}</a> {many}</p>\n',
    "<p>{many}, <em>{word}</em> {some} <b>{some}</b>.<br/>\n{many}</p>\n",
    '<ul class="menu">\n  <li><a href="/{n}">{some}</a></li>\n  <li>{some}.\n</ul>\n',
    '<img src="/images/{n}.png" alt="{some}" width=640 height=480 />\n',
    "<TABLE BORDER=0><TR><TD CLASS=num>{n}</TD><TD>{some}</TD></TR></TABLE>\n",
    '<form action="/search?page={n}"><input type=text name=q value=""><input type=checkbox checked></form>\n',
    '<script src="/scripts/{n}.js" async></script>\n',
    '<span data-id="{n}" data-id="{n}" style="color: red; width: {n}px">{word}</span>\r\n',
    "<p>{n} < {n}{n} {some}</p>\n",
]
# The packages whose pages are joined as real pages.
REAL_PAGES = "python3.11-doc postgresql-doc-15 sqlite3-doc apache2-doc nodejs-doc debian-reference-ja".split()
# What full pages have besides: a page's head, scripts, styles, and comments.
FULL_BLOCKS = BLOCKS + [
    "<!DOCTYPE html>\n<html lang=en>\n<head><title>{some} &amp; {word}</title>\n",
    '<!DOCTYPE html PUBLIC "-//W3C//DTD XHTML 1.0 Strict//EN" "http://www.w3.org/TR/xhtml1/DTD/xhtml1-strict.dtd">\n',
    "<!-- {some} -->\n",
    "<!-- {many}\n     {many} -->\n",
    "<!--[if lt IE {n}]><p>{some}</p><![endif]-->\n",
    "<style>\n.card-{n} > p {{ margin: 0 {n}px; color: #333 }}\n.card-{n}::before {{ content: '<' }}\n</style>\n",
    '<script>\nfor (let i = 0; i < {n} && i << 1; i++) {{ add("<p>" + i + "<\\/p>"); }} // {many}\n</script>\n',
    '<script>var data = {{"id": {n}, "text": "{many}", "list": [{n}, {n}, {n}]}};</script>\n',
    "<script><!--\nshow('{some}');\n//--></script>\n",
    '<textarea name="t{n}" rows=4>{some} < {n} &lt; {some}</textarea>\n',
]


def phrase(chance, words, least, most):
    return " ".join(chance.choices(words, k=chance.randint(least, most)))


def block(chance, words, blocks=BLOCKS):
    """A piece of a page."""
    return chance.choice(blocks).format(
        n=chance.randint(1, 99_999),
        word=chance.choice(WORDS),
        some=phrase(chance, words, 1, 5),
        many=phrase(chance, words, 8, 40),
    )


def line(chance):
    """A line of plain text: some begin with a tab, some end with CR LF."""
    end = "\r\n" if chance.random() < 0.2 else "\n"
    return "\t" * (chance.random() < 0.1) + phrase(chance, PLAIN_WORDS, 3, 15) + end


def filled(size, part):
    """Parts up to exactly so many bytes: what is left after the last one is dots."""
    parts = []
    left = size
    while len(data := part().encode()) <= left:
        parts.append(data)
        left -= len(data)
    return b"".join(parts) + b"." * left


def table():
    """The standard's 2,231 named references, as html5tok takes a table."""
    names = html.entities.html5.items()
    return ",".join(f"{name}={'+'.join(f'{ord(c):X}' for c in text)}" for name, text in sorted(names))


def pages(megabytes):
    """One megabyte of pages, so many times."""
    chance = random.Random(SEED)
    return filled(MB, lambda: block(chance, WORDS)) * megabytes


def entity_pages(megabytes):
    """The same, where about one word in ten is or has a character reference."""
    chance = random.Random(SEED)
    return filled(MB, lambda: block(chance, WORDS + REFERENCES * 2)) * megabytes


def full_pages(megabytes):
    """Pages with all that a page has: references, comments, doctypes, scripts, styles and titles."""
    chance = random.Random(SEED)
    return filled(MB, lambda: block(chance, WORDS + REFERENCES * 2, FULL_BLOCKS)) * megabytes


def real_pages():
    """Every fourth page of some of Debian's documentation packages, joined, or nothing where they can't be had."""
    return b"".join(real_pages_apart())


def real_pages_apart():
    """Each of these pages."""
    with tempfile.TemporaryDirectory() as room:
        fetched = subprocess.run(["apt-get", "download", *REAL_PAGES], cwd=room, capture_output=True)
        if fetched.returncode != 0:
            return []
        for package in sorted(pathlib.Path(room).glob("*.deb")):
            subprocess.run(["dpkg-deb", "--extract", package, room], check=True)
        files = sorted(it for it in pathlib.Path(room).rglob("*.html") if it.is_file() and not it.is_symlink())
        return list(filter(is_utf8, (it.read_bytes() for it in files[::4])))


def is_utf8(text):
    try:
        text.decode()
    except UnicodeDecodeError:
        return False
    return True


def plain_text(megabytes):
    chance = random.Random(SEED)
    return filled(MB, lambda: line(chance)) * megabytes


def ascii_text(size):
    """Text of so many characters, each of one byte."""
    chance = random.Random(SEED)
    return filled(size, lambda: phrase(chance, ASCII_WORDS, 3, 15) + "\n")


def long_value(size):
    return b'<a b="' + b"v" * size + b'">'


def long_name(size):
    return b"<" + b"n" * size + b">"


def long_number(size):
    """A numeric reference of so many digits."""
    return b"&#" + b"7" * size + b";"


def many_attributes(count):
    return b"<a" + b"".join(b' name%d="%d"' % (number, number) for number in range(count)) + b">"
