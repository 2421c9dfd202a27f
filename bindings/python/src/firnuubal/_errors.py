"""Why a call is refused."""

import enum
from typing import Optional, Tuple


class Status(enum.IntEnum):
    """What a refused call answers."""

    NO_MEMORY = 3
    NOT_UTF8 = 4
    CUT = 5
    WAITING = 6
    OVER = 7
    CLOSED = 8
    BAD_OPTION = 9
    POLICY_NOT_UTF8 = 11
    ITEM_OPEN = 13
    LIMIT = 14
    BEGUN = 15


_SAID = {
    Status.NO_MEMORY: "out of memory",
    Status.NOT_UTF8: "the page is not UTF-8",
    Status.CUT: "the page ends inside a character",
    Status.WAITING: "text after a pause was not fed yet: call feed first, even with no bytes",
    Status.OVER: "the page has ended, or an earlier call failed",
    Status.CLOSED: "it is closed",
    Status.BAD_OPTION: "an option has no such value",
    Status.ITEM_OPEN: "a tag or other item is incomplete, so no state can be set",
    Status.LIMIT: "more bytes would be held than the limit",
    Status.BEGUN: "the page has already begun",
}


class TokenizerError(Exception):
    """Why a call was refused: its `status`, and after NOT_UTF8 the place `at` of the first such byte, counted from the
    first that was fed. All bytes before it were read."""

    def __init__(self, status: Status, at: Optional[int] = None) -> None:
        said = _SAID.get(status, "refused")
        super().__init__(said if at is None else f"{said}: the byte at {at}")
        self.status = status
        self.at = at

    def __reduce__(self) -> Tuple[object, ...]:
        return type(self), (self.status, self.at)


class PolicyFault(enum.IntEnum):
    """Why a policy doesn't take a rule."""

    UNKNOWN_RULE = 16
    NO_NAME = 17
    WORD_TOO_MANY = 18
    ELEMENT_NAME = 19
    ATTRIBUTE_NAME = 20
    HIDES_CONTENT = 21
    ACTS_ON_PAGE = 22
    ALLOWED_AND_HIDDEN = 23
    NEVER_KEPT = 24
    SCHEME_NAME = 25
    RUNS_ADDRESS = 26
    NO_PLACE = 27
    BAD_DEPTH = 28
    REL_WORD = 29


# What each fault says of the word.
FAULTS = {
    PolicyFault.UNKNOWN_RULE: "is not a rule",
    PolicyFault.NO_NAME: "needs a name after it",
    PolicyFault.WORD_TOO_MANY: "is one word too many",
    PolicyFault.ELEMENT_NAME: "is not an element's name: it must be lower case, without spaces",
    PolicyFault.ATTRIBUTE_NAME: "is not an attribute's name: it must be lower case, without spaces, and no pattern",
    PolicyFault.HIDES_CONTENT: "can't be allowed: its content is always dropped",
    PolicyFault.ACTS_ON_PAGE: "can't be allowed: it affects the page around it",
    PolicyFault.ALLOWED_AND_HIDDEN: "is both allowed and dropped with its content",
    PolicyFault.NEVER_KEPT: "can't be allowed: it runs scripts or isn't a single URL",
    PolicyFault.SCHEME_NAME: "is not a scheme: it must be lower case, without a colon",
    PolicyFault.RUNS_ADDRESS: "can't be allowed: its URLs run their content, or name what a page made",
    PolicyFault.NO_PLACE: "can't be allowed: it has no place in the tree, so nesting can't be fixed",
    PolicyFault.BAD_DEPTH: "is not a whole number from 1 to 4096",
    PolicyFault.REL_WORD: "is not a word of rel: it can only have ASCII letters, digits and hyphens",
}

# The same of a line of a text, whose word isn't told.
_OF_LINES = {
    PolicyFault.UNKNOWN_RULE: "unknown rule",
    PolicyFault.NO_NAME: "missing name after the rule",
    PolicyFault.WORD_TOO_MANY: "too many words after the rule",
    PolicyFault.ELEMENT_NAME: "a word is not an element's name: it must be lower case",
    PolicyFault.ATTRIBUTE_NAME: "a word is not an attribute's name: it must be lower case",
    PolicyFault.HIDES_CONTENT: "an element can't be allowed: its content is always dropped",
    PolicyFault.ACTS_ON_PAGE: "an element can't be allowed: it affects the page around it",
    PolicyFault.ALLOWED_AND_HIDDEN: "an element is both allowed and dropped with its content",
    PolicyFault.NEVER_KEPT: "an attribute can't be allowed: it runs scripts or isn't a single URL",
    PolicyFault.SCHEME_NAME: "a word is not a scheme: it must be lower case, without a colon",
    PolicyFault.RUNS_ADDRESS: "a scheme can't be allowed: its URLs run their content, or name what a page made",
    PolicyFault.NO_PLACE: "the element can't be allowed with the rule tree: it has no place in the tree",
    PolicyFault.BAD_DEPTH: "the depth must be a number from 1 to 4096",
    PolicyFault.REL_WORD: "words of rel can only have letters, digits and hyphens",
}


class PolicyError(ValueError):
    """Why a policy was refused.

    Of keywords it has the `argument` and its `word`; of a text the number of the first wrong `line`, and that line, `rule`.
    `cause` is the fault; it is None where keywords don't go together. What doesn't apply is None."""

    def __init__(
        self,
        said: str,
        *,
        argument: Optional[str] = None,
        word: Optional[str] = None,
        cause: Optional[PolicyFault] = None,
        line: Optional[int] = None,
        rule: Optional[str] = None,
    ) -> None:
        super().__init__(said)
        self.argument = argument
        self.word = word
        self.cause = cause
        self.line = line
        self.rule = rule

    def __reduce__(self) -> Tuple[object, ...]:
        # The members that are said by name are the state.
        return type(self), self.args, self.__dict__


def fault_of_word(argument: str, word: object, cause: PolicyFault) -> PolicyError:
    """The error of a word of a keyword."""
    return PolicyError(f"{argument}: {word!r} {FAULTS[cause]}", argument=argument, word=str(word), cause=cause)


def fault_of_line(line: int, rule: str, cause: PolicyFault) -> PolicyError:
    """The error of a line of a text."""
    return PolicyError(f"line {line}: {_OF_LINES[cause]}: {rule}", cause=cause, line=line, rule=rule)
