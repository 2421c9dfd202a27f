"""What type checkers take."""

import io
from typing import Dict, Iterator, List, Optional, Set

import firnuubal
from firnuubal import Cleaner, Fed, Link, Placed, Policy, PolicyError, PolicyFault, Replies, StartTag, State, Token, Tokenizer

kept: str = firnuubal.clean("<p>")
kept = firnuubal.clean(b"<p>", tags={"p"}, attributes={"a": ["href"]}, url_schemes=("https",), link_rel=None, tree=False)
kept = firnuubal.clean(bytearray(b"<p>"), Policy("allow p"), encoding="utf-8", errors="strict")
kept = firnuubal.clean(memoryview(b"<p>"), depth=5, balance=True, clean_content_tags=frozenset({"q"}))
kept = firnuubal.clean(io.StringIO("<p>"))
kept = firnuubal.clean(io.BytesIO(b"<p>"))
kept = firnuubal.clean(["<p>", "1"])
kept = firnuubal.clean(piece for piece in (b"<p>", b"1"))
with open("page.html", "rb") as page:
    kept = firnuubal.clean(page)
with open("page.html", encoding="utf-8") as texts:
    found: Iterator[Token] = firnuubal.tokens(texts, piece=10, parse_errors=False, tags=["a"], state=State.DATA, replies=0)

rules: Policy = Policy(tags={"p"}, attributes=firnuubal.ALLOWED_ATTRIBUTES)
rules = Policy(tags=firnuubal.ALLOWED_TAGS, url_schemes=firnuubal.ALLOWED_URL_SCHEMES)
text: Optional[str] = rules.text

with Cleaner(rules, limit=5) as cleaner:
    kept = cleaner.feed("<p>") + cleaner.feed(b"1") + cleaner.end()
    encoding: Optional[str] = cleaner.encoding

with Tokenizer(replies=Replies.CALLER, errors="replace", encoding="auto") as tokenizer:
    fed: Fed = tokenizer.feed("<p>")
    tokenizer.reply(State.RCDATA)
    for token in tokenizer.tokens():
        if isinstance(token, StartTag):
            value: Optional[str] = token.get("class")
            other: str = token.get("class", "")
            names: List[str] = [name for name, _ in token.attributes]

for placed in firnuubal.placed_tokens("<p>"):
    begin: int = placed.begin
    whole: Placed = placed

links: List[Link] = list(firnuubal.links("<a href=x>"))
addresses: Set[str] = {link.address for link in links}
words: str = firnuubal.text("<p>", errors="strict", encoding="utf-8")


class Mine(Cleaner):
    def kept(self) -> Dict[str, str]:
        return {}


with Mine() as mine:
    mine.kept()

try:
    Policy(tags={"svg"})
except PolicyError as error:
    cause: Optional[PolicyFault] = error.cause
    word: Optional[str] = error.word
    argument: Optional[str] = error.argument
    line: Optional[int] = error.line
