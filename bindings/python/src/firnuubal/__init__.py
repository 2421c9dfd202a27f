"""HTML pages cleaned and read by a proved tokenizer, called through its C interface.

    import firnuubal

    firnuubal.clean("<p onclick=x>1")  # '<p>1</p>'

    with open("page.html", "rb") as page:
        for token in firnuubal.tokens(page):
            if isinstance(token, firnuubal.StartTag):
                print(token.line, token.name, token.attributes)

What the library says is proved; this package, which calls it and reads its records, is not. An asyncio program feeds a
`Tokenizer` or a `Cleaner` as pieces arrive: no call waits.
"""

__version__ = "0.20.0"

# The modules compare the library's version with that one, so they come after it.
from ._cleaner import Cleaner, clean
from ._errors import PolicyError, PolicyFault, Status, TokenizerError
from ._policy import ALLOWED_ATTRIBUTES, ALLOWED_TAGS, ALLOWED_URL_SCHEMES, Policy
from ._readers import IS_FAST
from ._records import (
    Comment,
    Doctype,
    End,
    EndTag,
    Instruction,
    Link,
    NullCharacter,
    ParseError,
    Placed,
    StartTag,
    Text,
    Token,
)
from ._tokenizer import Fed, Replies, State, Tokenizer, links, placed_tokens, text, tokens

__all__ = [
    "ALLOWED_ATTRIBUTES",
    "ALLOWED_TAGS",
    "ALLOWED_URL_SCHEMES",
    "Cleaner",
    "Comment",
    "Doctype",
    "End",
    "EndTag",
    "Fed",
    "IS_FAST",
    "Instruction",
    "Link",
    "NullCharacter",
    "ParseError",
    "Placed",
    "Policy",
    "PolicyError",
    "PolicyFault",
    "Replies",
    "StartTag",
    "State",
    "Status",
    "Text",
    "Token",
    "Tokenizer",
    "TokenizerError",
    "clean",
    "links",
    "placed_tokens",
    "text",
    "tokens",
]
