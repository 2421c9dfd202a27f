"""Trees by html5lib's tree construction, of tokens that firnuubal reads.

    python3 html5lib_tree.py [FILE]

`Parser` is html5lib's HTMLParser over a tokenizer of its interface, which takes its tokens from firnuubal: it pauses after
each tag, and the tree construction says in which state it goes on, and whether the content is foreign. Encodings stay
html5lib's. A parse error has firnuubal's message in place of html5lib's code, and a line without a column; with strict=True
it is raised as html5lib's ParseError. A text with a lone surrogate is a ValueError.

html5lib is Debian's python3-html5lib.
"""

import sys

import html5lib
from html5lib._inputstream import HTMLInputStream
from html5lib.constants import E, _ReparseException, spaceCharacters, tokenTypes
from html5lib.html5parser import ParseError as StrictError

import firnuubal
from firnuubal import Comment, Doctype, End, EndTag, Fed, Instruction, NullCharacter, ParseError, Replies, StartTag, State, Text

_PIECE = 1 << 16
_SPACES = "".join(spaceCharacters)
_CHARACTERS, _SPACE_CHARACTERS = tokenTypes["Characters"], tokenTypes["SpaceCharacters"]
_START_TAG, _END_TAG = tokenTypes["StartTag"], tokenTypes["EndTag"]


def _texts(text):
    """A text as html5lib has it: the white space that it begins with is a token of its own."""
    rest = text.lstrip(_SPACES)
    made = []
    if len(rest) < len(text):
        made.append({"type": _SPACE_CHARACTERS, "data": text[: len(text) - len(rest)]})
    if rest:
        made.append({"type": _CHARACTERS, "data": rest})
    return made


def _tag(kind, tag, attributes):
    return {
        "type": kind,
        "name": tag.name,
        "data": attributes,
        "selfClosing": tag.self_closing,
        "selfClosingAcknowledged": False,
    }


def _doctype(token):
    return {
        "type": tokenTypes["Doctype"],
        "name": token.name or "",
        "publicId": token.public_id,
        "systemId": token.system_id,
        "correct": not token.force_quirks,
    }


# The tokens of html5lib that a token is, by its kind.
_MADE = {
    Text: lambda token: _texts(token.text),
    StartTag: lambda token: [_tag(_START_TAG, token, dict(token.attributes))],
    EndTag: lambda token: [_tag(_END_TAG, token, [])],
    Comment: lambda token: [{"type": tokenTypes["Comment"], "data": token.text}],
    Instruction: lambda token: [{"type": tokenTypes["Comment"], "data": "?" + token.content}],
    Doctype: lambda token: [_doctype(token)],
    NullCharacter: lambda token: [{"type": _CHARACTERS, "data": "\0"}],
    ParseError: lambda token: [{"type": tokenTypes["ParseError"], "data": token.message}],
    End: lambda token: [],
}


def _bytes(piece):
    """A piece in UTF-8."""
    try:
        return piece.encode()
    except UnicodeEncodeError as error:
        raise ValueError(f"the page has a lone surrogate, {piece[error.start]!r}") from None


class HTMLTokenizer:
    """What html5lib's tree construction asks of its tokenizer: tokens, `stream`, and a `state` that it may set."""

    dataState = State.DATA
    rcdataState = State.RCDATA
    rawtextState = State.RAWTEXT
    scriptDataState = State.SCRIPT_DATA
    plaintextState = State.PLAINTEXT

    def __init__(self, stream, parser, **kwargs):
        self.stream = HTMLInputStream(stream, **kwargs)
        self.stream.position = lambda: (self._line, 0)
        self._parser = parser
        self._line = 1
        self._state = State.DATA
        self._foreign = False
        self._tokenizer = None

    @property
    def state(self):
        return self._state

    @state.setter
    def state(self, state):
        self._state = state
        if self._tokenizer:
            self._tokenizer.reply(state)

    def rewind(self):
        """The page is read again from its start, with no raw text."""
        self._tokenizer = None
        self._state = State.DATA

    def __iter__(self):
        options = {"replies": Replies.CALLER, "state": self._state, "keep_bom": True, "encoding": "utf-8", "errors": "strict"}
        self._foreign = False
        with firnuubal.Tokenizer(**options) as self._tokenizer:
            feed, tokens = self._tokenizer.feed, self._tokenizer.tokens
            while piece := self.stream.dataStream.read(_PIECE):
                fed = feed(_bytes(piece))
                for token in tokens():
                    self._line = token.line
                    yield from _MADE[type(token)](token)
                while fed is Fed.TAG:
                    self._follow_foreign()
                    fed = feed(b"")
                    for token in tokens():
                        self._line = token.line
                        yield from _MADE[type(token)](token)
            self._tokenizer.end()
            for token in tokens():
                yield from _MADE[type(token)](token)
        self._tokenizer = None

    def _follow_foreign(self):
        """Says whether content is foreign, by the tree that the tags so far have made."""
        tree = self._parser.tree
        foreign = bool(tree.openElements) and tree.openElements[-1].namespace != tree.defaultNamespace
        if foreign != self._foreign:
            self._foreign = foreign
            self._tokenizer.set_foreign(foreign)


class Parser(html5lib.HTMLParser):
    """html5lib's parser over this tokenizer."""

    def parseError(self, errorcode="XXX-undefined-error", datavars=None):
        if errorcode in E:
            super().parseError(errorcode, datavars or {})
            return
        # A message of firnuubal, which html5lib has no text for.
        self.errors.append((self.tokenizer.stream.position(), errorcode, datavars or {}))
        if self.strict:
            raise StrictError(errorcode)

    def _parse(self, stream, innerHTML=False, container="div", scripting=False, **kwargs):
        self.innerHTMLMode = innerHTML
        self.container = container
        self.scripting = scripting
        self.tokenizer = HTMLTokenizer(stream, self, **kwargs)
        self.reset()
        try:
            self.mainLoop()
        except _ReparseException:
            self.tokenizer.rewind()
            self.reset()
            self.mainLoop()


def main():
    page = open(sys.argv[1], "rb") if len(sys.argv) > 1 else sys.stdin.buffer
    with page:
        tree = Parser().parse(page)
    sys.stdout.write(html5lib.serialize(tree, omit_optional_tags=False, quote_attr_values="always"))


if __name__ == "__main__":
    main()
