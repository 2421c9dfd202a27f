"""The normaliser: items of any kind made into items that fit, by crates/html5tree/README.md, "Normalising".

It goes by the names of the open elements, the innermost last, and by a limit of how many may be open. `normal` makes
items of items; `plan_of` says what is done for one.
"""

from __future__ import annotations

from dataclasses import dataclass
from typing import Callable, FrozenSet, List, Tuple

from . import tree
from .tree import End, Start, Text, names

Stack = List[str]
LIST_ITEM_BOUNDS = tree.CELL | names("ol ul")
PARAGRAPH_BOUNDS = tree.CELL | names("button")
ANCHORS = names("a nobr button")


@dataclass(frozen=True)
class Plan:
    """What is done for an item: a prefix of a text is written, elements are closed, parents opened, the rest written."""

    stays: int = 0
    closes: int = 0
    opens: tuple[str, ...] = ()
    writes: str = "nothing"


def inside(stack: Stack, wanted: frozenset[str]) -> int:
    """How many elements are open in the innermost of these."""
    count = 0
    for name in reversed(stack):
        if name in wanted:
            break
        count += 1
    return count


def through(stack: Stack, wanted: frozenset[str], bounds: frozenset[str]) -> int:
    """How many are closed so that the innermost of these is, if one is near."""
    return inside(stack, wanted) + 1 if tree.is_near(stack, wanted, bounds) else 0


def without(stack: Stack, closes: int) -> Stack:
    return stack[: len(stack) - closes]


def top_of(stack: Stack) -> str:
    return stack[-1] if stack else ""


# ---- parts of tables, and what can't stand in a table

CONTEXTS = {name: names("table") for name in tree.PARTS}
CONTEXTS.update(col=names("colgroup table"), tr=tree.BODIES | {"table"})
CONTEXTS.update({name: tree.BODIES | names("table tr") for name in tree.CELLS})


def parents(top: str, part: str) -> tuple[str, ...]:
    """The implied parents of a part in an open element, the outermost first."""
    if part == "col":
        return ("colgroup",) if top == "table" else ()
    if part == "tr":
        return ("tbody",) if top == "table" else ()
    if part in tree.CELLS:
        return ("tbody", "tr") if top == "table" else ("tr",) if top in tree.BODIES else ()
    return ()


Place = Tuple[int, Tuple[str, ...]]


def part_place(stack: Stack, part: str) -> Place | None:
    if not tree.is_near(stack, CONTEXTS[part], frozenset()):
        return None
    closes = inside(stack, CONTEXTS[part])
    return closes, parents(top_of(without(stack, closes)), part)


def cell_place(stack: Stack) -> Place:
    closes = inside(stack, CONTEXTS["td"])
    return closes, (*parents(top_of(without(stack, closes)), "td"), "td")


def table_place(stack: Stack, name: str) -> Place | None:
    """Where what is no part stands that comes straight in a table."""
    if name == "form":
        return None
    if name == "table":
        return inside(stack, names("table")) + 1, ()
    return cell_place(stack)


# ---- where text can stand


def paragraph_closes(stack: Stack) -> int:
    return through(stack, names("p"), PARAGRAPH_BOUNDS)


def item_closes(stack: Stack, wanted: frozenset[str]) -> int:
    return through(stack, wanted, tree.BOUNDS_ITEM) or paragraph_closes(stack)


def heading_closes(stack: Stack) -> int:
    closes = paragraph_closes(stack)
    return closes + (top_of(without(stack, closes)) in tree.HEADINGS)


def implied_closes(stack: Stack, implied: frozenset[str]) -> int:
    if not tree.is_near(stack, names("ruby"), tree.CELL):
        return 0
    count = 0
    while count < len(stack) and stack[-1 - count] in implied:
        count += 1
    return count


def flow_closes(stack: Stack, name: str) -> int:
    if name in ANCHORS:
        return through(stack, frozenset([name]), tree.CELL)
    if name == "li":
        return item_closes(stack, names("li"))
    if name in ("dd", "dt"):
        return item_closes(stack, names("dd dt"))
    if name in tree.HEADINGS:
        return heading_closes(stack)
    if name in tree.RUBY_PARTS:
        return implied_closes(stack, tree.IMPLIED if name in ("rb", "rtc") else tree.IMPLIED - {"rtc"})
    return paragraph_closes(stack) if name in tree.ENDS_PARAGRAPH else 0


def place_of(stack: Stack, name: str) -> Place | None:
    if name not in tree.ALL:
        return None
    if name in tree.PARTS:
        return part_place(stack, name)
    if top_of(stack) in tree.HOLDS:
        return table_place(stack, name)
    if name == "form" and "form" in stack:
        return None
    return flow_closes(stack, name), ()


# ---- plans

Bounds = Callable[[str], FrozenSet[str]]


def end_bounds(name: str) -> frozenset[str]:
    if name == "p":
        return PARAGRAPH_BOUNDS
    if name == "li":
        return LIST_ITEM_BOUNDS
    if name in tree.ORDINARY | tree.RUBY_PARTS | {"ruby"}:
        return tree.SPECIAL
    return names("table") if name in tree.PARTS | {"table"} else tree.CELL


def stack_after(stack: Stack, plan: Plan, name: str = "") -> Stack:
    """The open elements after a plan, where it writes the start tag of this name, if any."""
    opened = [*without(stack, plan.closes), *plan.opens]
    return [*opened, name] if name and name not in tree.VOID and plan.writes == "itself" else opened


def start_plan(limit: int, stack: Stack, name: str, writes: str = "itself") -> Plan:
    place = place_of(stack, name)
    if place is None:
        return Plan()
    plan = Plan(0, *place, writes)
    return plan if len(stack_after(stack, plan, name)) <= limit else Plan()


def end_plan(limit: int, stack: Stack, name: str) -> Plan:
    if name == "br":
        return start_plan(limit, stack, name, "line break")
    wanted = tree.HEADINGS if name in tree.HEADINGS else frozenset([name])
    closes = through(stack, wanted, end_bounds(name))
    if closes:
        return Plan(closes=closes)
    if name == "p" and top_of(stack) not in tree.HOLDS and len(stack) < limit:
        return Plan(writes="empty paragraph")
    return Plan()


def text_plan(limit: int, stack: Stack, text: str) -> Plan:
    if top_of(stack) not in tree.HOLDS or not text.strip(tree.WHITE_SPACE):
        return Plan(writes="itself")
    closes, opens = cell_place(stack)
    if len(stack) - closes + len(opens) > limit:
        return Plan(writes="white space")
    return Plan(len(text) - len(text.lstrip(tree.WHITE_SPACE)), closes, opens, "itself")


def plan_of(limit: int, stack: Stack, item) -> Plan:
    if isinstance(item, Start):
        return start_plan(limit, stack, item.name)
    return end_plan(limit, stack, item.name) if isinstance(item, End) else text_plan(limit, stack, item.text)


def written(plan: Plan, item) -> list:
    """The items that stand for an item, after the tags that a plan writes."""
    if plan.writes == "itself":
        return [Text(item.text[plan.stays :])] if isinstance(item, Text) else [item]
    if plan.writes == "white space":
        return [Text("".join(c for c in item.text if c in tree.WHITE_SPACE))]
    if plan.writes == "line break":
        return [Start("br")]
    return [Start("p"), End("p")] if plan.writes == "empty paragraph" else []


def fitted(limit: int, stack: Stack, item) -> list:
    plan = plan_of(limit, stack, item)
    before = [Text(item.text[: plan.stays])] if plan.stays else []
    ends = [End(name) for name in reversed(stack[len(stack) - plan.closes :])]
    return before + ends + [Start(name) for name in plan.opens] + written(plan, item)


def open_after(limit: int, stack: Stack, item) -> Stack:
    return stack_after(stack, plan_of(limit, stack, item), item.name if isinstance(item, Start) else "")


def normal(limit: int, items) -> list:
    stack: Stack = []
    made: list = []
    for item in items:
        made += fitted(limit, stack, item)
        stack = open_after(limit, stack, item)
    return made + [End(name) for name in reversed(stack)]
