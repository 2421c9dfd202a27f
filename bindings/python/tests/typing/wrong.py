"""What type checkers refuse: each line with a comment has an error, and no other has."""

import firnuubal
from firnuubal import Cleaner, Policy, Tokenizer

firnuubal.clean(5)  # wrong
firnuubal.clean("x", {"b"})  # wrong
firnuubal.clean("x", tag={"b"})  # wrong
firnuubal.clean("x", tags=5)  # wrong
firnuubal.clean("x", attributes=["a"])  # wrong
firnuubal.clean("x", depth="5")  # wrong
firnuubal.clean("x", tree="yes")  # wrong
firnuubal.clean("x", errors=False)  # wrong
firnuubal.clean("x", encoding=None)  # wrong
firnuubal.clean([5])  # wrong
firnuubal.tokens("x", erors="strict")  # wrong
firnuubal.tokens("x", parse_errors="no")  # wrong
firnuubal.tokens("x", piece="5")  # wrong
firnuubal.tokens(None)  # wrong
firnuubal.placed_tokens("x", encoding="auto")  # wrong
firnuubal.links("x", limit=5)  # wrong
firnuubal.text(5)  # wrong
Policy(5)  # wrong
Policy(tags={b"b"})  # wrong
Policy(link_rel=["noopener"])  # wrong
Cleaner("allow b")  # wrong
Cleaner(limit="5")  # wrong
Tokenizer(errors=False)  # wrong
Tokenizer(limits=5)  # wrong
Tokenizer().feed(5)  # wrong
Tokenizer().insert(None)  # wrong
with Cleaner() as cleaner:
    cleaner.cleen("x")  # wrong
    kept: bytes = cleaner.feed("x")  # wrong
with Tokenizer() as tokenizer:
    tokenizer.tokenz()  # wrong
for token in firnuubal.tokens("x"):
    token.name  # wrong
for link in firnuubal.links("x"):
    link.name  # wrong
