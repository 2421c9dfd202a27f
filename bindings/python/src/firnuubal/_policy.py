"""Policies: what a cleaner keeps of a page."""

import ctypes
import enum
import re
from collections.abc import Mapping as AnyMapping
from typing import Any, Dict, FrozenSet, Iterable, Iterator, Mapping, NamedTuple, Optional, Tuple, Union

from ._arguments import kind_of, names_of, text_of, truth, whole_number
from ._errors import FAULTS, PolicyError, PolicyFault, Status, TokenizerError, fault_of_line, fault_of_word
from ._library import Handle, library

ALLOWED_TAGS = frozenset(
    """a abbr address article aside b bdi bdo blockquote br caption center cite code col colgroup data dd del details dfn div dl
    dt em figcaption figure footer h1 h2 h3 h4 h5 h6 header hgroup hr i img ins kbd li main mark nav ol p pre q rb rp rt rtc
    ruby s samp section small span strong sub summary sup table tbody td tfoot th thead time tr u ul var wbr""".split()
)
ALLOWED_ATTRIBUTES: Dict[str, FrozenSet[str]] = {
    "*": frozenset({"title", "lang", "dir"}),
    "a": frozenset({"href"}),
    "blockquote": frozenset({"cite"}),
    "col": frozenset({"span"}),
    "colgroup": frozenset({"span"}),
    "data": frozenset({"value"}),
    "del": frozenset({"cite"}),
    "img": frozenset({"src", "alt", "width", "height"}),
    "ins": frozenset({"cite"}),
    "li": frozenset({"value"}),
    "ol": frozenset({"start", "reversed", "type"}),
    "q": frozenset({"cite"}),
    "td": frozenset({"colspan", "rowspan", "headers", "scope"}),
    "th": frozenset({"colspan", "rowspan", "headers", "scope"}),
    "time": frozenset({"datetime"}),
}
# The same, whatever a caller does with a dict that is his, too.
_STANDARD = dict(ALLOWED_ATTRIBUTES)
ALLOWED_URL_SCHEMES = frozenset({"http", "https", "mailto", "tel"})

# The words of `rel` if none are given. A caller's own text of these words is another object, which tells that it was said.
_REL = ("noopener", "noreferrer")
LINK_REL: Optional[str] = " ".join(_REL)


class _Rule(enum.IntEnum):
    """html5_rule of firnuubal.h."""

    ALLOW = 0
    ATTRIBUTE = 1
    EVERYWHERE = 2
    SCHEME = 3
    HIDE = 4
    REL = 5
    BALANCE = 6
    TREE = 7
    DEPTH = 8


_Attributes = Tuple[Tuple[str, Tuple[str, ...]], ...]


class Keywords(NamedTuple):
    """The keywords of a policy, in a form in which two that say the same are equal. None stands for the standard's list."""

    tags: Optional[Tuple[str, ...]]
    attributes: Optional[_Attributes]
    url_schemes: Optional[Tuple[str, ...]]
    clean_content_tags: Tuple[str, ...]
    link_rel: Tuple[str, ...]
    balance: Optional[bool]
    tree: Optional[bool]
    depth: Optional[int]


# What a policy is by: its text, its keywords, or nothing, which is the standard policy.
Said = Union[None, str, Keywords]

# What `clean_content_tags` is where it isn't said.
_NONE: Iterable[str] = ()

_NAMES = '{"a", "p"}'
_MAPPING = '{"a": {"href"}}'


def _attributes_of(given: Any) -> _Attributes:
    """Elements with the names of their attributes, in order."""
    if not isinstance(given, AnyMapping):
        raise TypeError(f"attributes is a mapping from elements to names, as {_MAPPING}, not of type {kind_of(given)}")
    made = {}
    for element, names in given.items():
        key = text_of("a key of attributes", element)
        made[key] = names_of(f"attributes[{key!r}]", names, '{"href"}')
    return tuple(sorted(made.items()))


def keywords_of(
    tags: Optional[Iterable[str]],
    attributes: Optional[Mapping[str, Iterable[str]]],
    url_schemes: Optional[Iterable[str]],
    clean_content_tags: Iterable[str],
    link_rel: Optional[str],
    balance: Optional[bool],
    tree: Optional[bool],
    depth: Optional[int],
) -> Optional[Keywords]:
    """These keywords, or None if none is given."""
    if link_rel is LINK_REL and clean_content_tags is _NONE:
        if tags is attributes is url_schemes is None and balance is tree is depth is None:
            return None
    return Keywords(
        None if tags is None else names_of("tags", tags, _NAMES),
        None if attributes is None else _attributes_of(attributes),
        None if url_schemes is None else names_of("url_schemes", url_schemes, '{"https"}'),
        () if clean_content_tags is _NONE else names_of("clean_content_tags", clean_content_tags, _NAMES),
        _REL if link_rel is LINK_REL else () if link_rel is None else _words_of_rel(link_rel),
        truth("balance", balance),
        truth("tree", tree),
        None if depth is None else _depth_of(depth),
    )


def _words_of_rel(given: str) -> Tuple[str, ...]:
    """The words of `rel`, each once, in the order in which they are said."""
    words = re.split("[ \t\n\f\r]+", text_of("link_rel", given))
    return tuple(dict.fromkeys(filter(None, words)))


def _depth_of(given: int) -> int:
    try:
        return whole_number("depth", given, 1, 4096)
    except ValueError:
        raise fault_of_word("depth", given, PolicyFault.BAD_DEPTH) from None


# A rule, with its name and attribute, and the keyword that says it.
_Line = Tuple[_Rule, str, str, str]


def _check_names(argument: str, names: Iterable[str], cause: PolicyFault) -> None:
    """Sees to it that no name is meant as a pattern: a page may have one with a star."""
    for name in names:
        if "*" in name:
            raise fault_of_word(argument, name, cause)


def _check_attributes(said: _Attributes, tags: Iterable[str]) -> None:
    """Sees to it that the attributes of an element are names, and that it is kept."""
    for element, names in said:
        _check_names("attributes", names, PolicyFault.ATTRIBUTE_NAME)
        if element != "*" and element not in tags:
            raise PolicyError(f"attributes: {element!r} is none of the tags", argument="attributes", word=element)


def _standard_attributes(tags: Iterable[str]) -> _Attributes:
    """The standard's attributes of these elements."""
    return tuple((element, tuple(names)) for element, names in _STANDARD.items() if element == "*" or element in tags)


def _lines(said: Keywords) -> Iterator[_Line]:
    """The rules that keywords say, except those of the whole page."""
    tags = ALLOWED_TAGS if said.tags is None else frozenset(said.tags)
    attributes = _standard_attributes(tags) if said.attributes is None else said.attributes
    _check_names("tags", tags, PolicyFault.ELEMENT_NAME)
    _check_names("clean_content_tags", said.clean_content_tags, PolicyFault.ELEMENT_NAME)
    _check_attributes(attributes, tags)
    yield from ((_Rule.ALLOW, tag, "", "tags") for tag in sorted(tags))
    for element, names in attributes:
        for name in names:
            if element == "*":
                yield _Rule.EVERYWHERE, name, "", "attributes"
            else:
                yield _Rule.ATTRIBUTE, element, name, "attributes"
    schemes = ALLOWED_URL_SCHEMES if said.url_schemes is None else said.url_schemes
    yield from ((_Rule.SCHEME, scheme, "", "url_schemes") for scheme in schemes)
    yield from ((_Rule.HIDE, tag, "", "clean_content_tags") for tag in said.clean_content_tags)
    yield from ((_Rule.REL, word, "", "link_rel") for word in said.link_rel)
    if said.depth is not None:
        yield _Rule.DEPTH, str(said.depth), "", "depth"


def _new() -> Handle:
    """The handle of a policy that keeps text alone."""
    handle = Handle()
    _check(library.html5_policy_new(handle))
    return handle


def _check(status: int) -> None:
    """Sees to it that memory was given, which is all that such a call is refused."""
    if status:
        raise TokenizerError(Status(status))


def _add(handle: Handle, rule: _Rule, name: str = "", attribute: str = "") -> int:
    """Adds a rule, and answers the status. A lone surrogate, which is in no name, is not UTF-8."""
    words = name.encode("utf-8", "surrogatepass"), attribute.encode("utf-8", "surrogatepass")
    return int(library.html5_policy_add(handle, rule, words[0], len(words[0]), words[1], len(words[1])))


def _add_line(handle: Handle, rule: _Rule, name: str, attribute: str, argument: str) -> None:
    status = _add(handle, rule, name, attribute)
    if status in FAULTS:
        raise fault_of_word(argument, attribute or name, PolicyFault(status))
    if status == Status.NOT_UTF8:
        word = attribute or name
        raise PolicyError(f"{argument}: {word!r} has a lone surrogate", argument=argument, word=word)
    _check(status)


def _add_fitting(handle: Handle, said: Keywords) -> None:
    """Has pages made to fit, or balanced, as is said or else as the elements allow."""
    status = 0 if said.tree is False else _add(handle, _Rule.TREE)
    if status in FAULTS and said.tree:
        raise _without_place(said, PolicyFault(status))
    if status and status not in FAULTS:
        _check(status)
    if said.tree is not False and status == 0:
        return
    if said.depth is not None:
        why = f"depth: {said.depth} goes with the tree alone, and no tree is made"
        raise PolicyError(why, argument="depth", word=str(said.depth))
    if said.balance is not False:
        _check(_add(handle, _Rule.BALANCE))
    elif said.tree is None:
        why = f"{_without_place(said, PolicyFault(status))}: with balance=False say tree=False, too, or leave out both"
        raise PolicyError(why, argument="balance", word="False")


def _without_place(said: Keywords, cause: PolicyFault) -> PolicyError:
    """Why pages can't be made to fit: the first word by which alone they can't be."""
    tags = sorted(ALLOWED_TAGS) if said.tags is None else said.tags
    for rule, words in ((_Rule.ALLOW, tags), (_Rule.HIDE, said.clean_content_tags)):
        for word in words:
            handle = _new()
            _add(handle, rule, word)
            if _add(handle, _Rule.TREE):
                return fault_of_word("tree", word, cause)
    return PolicyError(f"tree: {FAULTS[cause]}", argument="tree", cause=cause)


def policy_handle(said: Keywords) -> Handle:
    """The handle of a policy of these keywords."""
    handle = _new()
    for line in _lines(said):
        _add_line(handle, *line)
    _add_fitting(handle, said)
    return handle


def cleaner_handle(said: Said) -> Handle:
    """The handle of a cleaner by this policy, at the start of a page."""
    if isinstance(said, Keywords):
        handle = policy_handle(said)
        _check(library.html5_cleaner_begin(handle))
        return handle
    handle, place = Handle(), ctypes.c_uint64()
    # To the library a policy of no bytes is the standard one. A text of nothing says nothing.
    text = b"" if said is None else said.encode() or b"\n"
    status = library.html5_cleaner_new(handle, text, len(text), place)
    if said is not None and status in FAULTS:
        raise fault_of_line(place.value, said.split("\n")[place.value - 1].strip(), PolicyFault(status))
    _check(status)
    return handle


class Policy:
    """What a cleaner keeps of a page.

    `Policy()` is the standard policy, which keeps what ALLOWED_TAGS, ALLOWED_ATTRIBUTES and ALLOWED_URL_SCHEMES list.
    `Policy(text)` has the rules of a text (policy.md in the package); one of an empty text keeps nothing but text.

    With keywords it keeps

    - the elements `tags`,
    - their `attributes`: a mapping from elements to names, "*" for each element,
    - addresses of the `url_schemes`, and relative ones.

    Where one of the three isn't given it is the standard's. Elements of `clean_content_tags` are dropped with their
    content, and of other elements just the tags. Each link gets the words of `link_rel` as its `rel`; None adds none.

    The page is made to fit, so that a browser builds it with the nesting of its tags, with no more than `depth` elements open
    (by default 256), where all tags have a place in that tree. Else it is balanced: each end tag closes what was opened
    inside its element. `tree=True` wants it made to fit, and `tree=False` balanced; with `balance=False` as well it is neither.

    A rule that no policy takes is a PolicyError: what runs scripts, or acts on more of the page than its place, or what is not a
    name. Names are taken as they are: none is a pattern.
    """

    def __init__(
        self,
        text: Optional[str] = None,
        *,
        tags: Optional[Iterable[str]] = None,
        attributes: Optional[Mapping[str, Iterable[str]]] = None,
        url_schemes: Optional[Iterable[str]] = None,
        clean_content_tags: Iterable[str] = _NONE,
        link_rel: Optional[str] = LINK_REL,
        balance: Optional[bool] = None,
        tree: Optional[bool] = None,
        depth: Optional[int] = None,
    ) -> None:
        said: Said = keywords_of(tags, attributes, url_schemes, clean_content_tags, link_rel, balance, tree, depth)
        if text is not None:
            if said is not None:
                raise TypeError("a policy has a text or keywords, not both")
            said = text_of("text", text)
        # It is tried first, so that where it is refused a policy of before stays as it was.
        if isinstance(said, Keywords):
            policy_handle(said)
        elif said is not None:
            cleaner_handle(said)
        self._said = said

    @property
    def text(self) -> Optional[str]:
        """The text of its rules; None where it has none."""
        return self._said if isinstance(self._said, str) else None

    def __eq__(self, other: object) -> bool:
        return isinstance(other, Policy) and self._said == other._said

    def __hash__(self) -> int:
        return hash(self._said)

    def __repr__(self) -> str:
        if not isinstance(self._said, Keywords):
            return f"Policy({'' if self._said is None else repr(self._said)})"
        return f"Policy({', '.join(_shown(self._said))})"


def _shown(said: Keywords) -> Iterator[str]:
    """Keywords as a caller writes them."""
    if said.tags is not None:
        yield f"tags={list(said.tags)}"
    if said.attributes is not None:
        yield f"attributes={ {element: list(names) for element, names in said.attributes} }"
    if said.url_schemes is not None:
        yield f"url_schemes={list(said.url_schemes)}"
    if said.clean_content_tags:
        yield f"clean_content_tags={list(said.clean_content_tags)}"
    yield f"link_rel={' '.join(said.link_rel) or None!r}"
    yield from (f"{name}={getattr(said, name)}" for name in ("balance", "tree", "depth") if getattr(said, name) is not None)


def said_of(policy: Optional[Policy]) -> Said:
    """What a policy is by."""
    if policy is None:
        return None
    if not isinstance(policy, Policy):
        made = 'Policy("allow p") or Policy(tags={"p"})'
        raise TypeError(f"policy is a Policy, as {made}, not of type {kind_of(policy)}")
    return policy._said
