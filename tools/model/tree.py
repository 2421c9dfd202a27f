"""What a browser builds of tags and texts: "Tree construction" of the HTML standard, of a fragment in a `div`.

It knows the names of crates/html5tree/README.md, of which none is foreign and none switches the tokenizer. It is
written from that page and the standard's section, and goes on token by token, a character a token, as the standard
does: with "in table text" as an insertion mode, and a tree of nodes that are moved. `tree_of` builds, `all_fit` says
which items fit, by the page's table, and `nesting` is the tree that the tags show.
"""

from __future__ import annotations

from dataclasses import dataclass, field


def names(text: str) -> frozenset[str]:
    return frozenset(text.split())


ORDINARY = names("abbr bdi bdo cite data del dfn ins kbd label map mark picture q ruby samp span sub sup time var")
FORMATTING = names("a b big code em font i nobr s small strike strong tt u")
BLOCKS = names(
    "address article aside blockquote center details dialog dir div dl fieldset figcaption figure footer header hgroup"
    " main menu nav ol p search section summary ul"
)
HEADINGS = names("h1 h2 h3 h4 h5 h6")
PREFORMATTED = names("pre listing")
VOID = names("area br col embed hr img input wbr")
RUBY_PARTS = names("rb rp rt rtc")
BODIES = names("tbody tfoot thead")
CELLS = names("td th")
PARTS = BODIES | CELLS | names("caption col colgroup tr")
FOSTERING = BODIES | names("table tr")
ALL = ORDINARY | FORMATTING | BLOCKS | HEADINGS | PREFORMATTED | VOID | RUBY_PARTS | PARTS
ALL |= names("button dd dt form li table")

IMPLIED = names("dd dt li p rb rp rt rtc")
SPECIAL = ALL - ORDINARY - FORMATTING - RUBY_PARTS - names("dialog")
SCOPE = names("caption html table td th")
LIST_SCOPE = SCOPE | names("ol ul")
BUTTON_SCOPE = SCOPE | names("button")
TABLE_SCOPE = names("html table")
WHITE_SPACE = "\t\n\f\r "


@dataclass(frozen=True)
class Start:
    name: str
    attributes: tuple[tuple[str, str], ...] = ()


@dataclass(frozen=True)
class End:
    name: str


@dataclass(frozen=True)
class Text:
    text: str


@dataclass(eq=False)
class Node:
    """An element, or a text where it has no name."""

    name: str = ""
    attributes: tuple[tuple[str, str], ...] = ()
    text: str = ""
    parent: Node | None = None
    children: list[Node] = field(default_factory=list)

    def put(self, node: Node, before: Node | None = None):
        """Puts a node before a child, or last; it leaves the parent that it had."""
        if node.parent is not None:
            node.parent.children.remove(node)
        at = len(self.children) if before is None else self.children.index(before)
        self.children.insert(at, node)
        node.parent = self

    def put_text(self, text: str, before: Node | None = None):
        """Puts a text there: it is joined with a text that stands just before."""
        at = len(self.children) if before is None else self.children.index(before)
        if at and not self.children[at - 1].name:
            self.children[at - 1].text += text
        else:
            self.put(Node(text=text), before)


MARKER = Node("marker")


class TreeConstruction:
    """The parse state, and the rules by insertion mode."""

    def __init__(self):
        self.root = Node("html")
        self.stack = [self.root]
        self.formatting: list[Node] = []
        self.mode = self.in_body
        self.original_mode = self.in_body
        self.pending = ""
        self.form: Node | None = None
        self.is_fostering = False
        self.ignores_newline = False

    @property
    def current(self) -> Node:
        return self.stack[-1]

    def take(self, item):
        """The tokens of an item."""
        if not isinstance(item, Text):
            self.ignores_newline = False
            self.mode(item)
            return
        for character in item.text:
            is_ignored = self.ignores_newline and character == "\n"
            self.ignores_newline = False
            if not is_ignored:
                self.mode(Text(character))

    def take_end(self):
        """The end of the file, which only pending table characters wait for."""
        if self.mode == self.in_table_text:
            self.put_pending()

    # ---- "The stack of open elements"

    def has(self, wanted: frozenset[str], scope: frozenset[str]) -> bool:
        for node in reversed(self.stack):
            if node.name in wanted:
                return True
            if node.name in scope:
                return False
        return False

    def has_node(self, wanted: Node, scope: frozenset[str]) -> bool:
        for node in reversed(self.stack):
            if node is wanted:
                return True
            if node.name in scope:
                return False
        return False

    def pop_until(self, wanted: frozenset[str]):
        while self.stack.pop().name not in wanted:
            pass

    def clear_back_to(self, context: frozenset[str]):
        while self.current.name not in context | {"html"}:
            self.stack.pop()

    def generate_implied(self, but: frozenset[str] = frozenset()):
        while self.current.name in IMPLIED - but:
            self.stack.pop()

    def close_paragraph(self):
        self.generate_implied(frozenset(["p"]))
        self.pop_until(frozenset(["p"]))

    def close_paragraph_in_scope(self):
        if self.has(frozenset(["p"]), BUTTON_SCOPE):
            self.close_paragraph()

    # ---- "Creating and inserting nodes"

    def place(self, target: Node) -> tuple[Node, Node | None]:
        """"The appropriate place for inserting a node": a parent, and the child before which it is."""
        if not self.is_fostering or target.name not in FOSTERING:
            return target, None
        table = next(node for node in reversed(self.stack) if node.name == "table")
        return table.parent, table

    def insert(self, name: str, attributes: tuple[tuple[str, str], ...] = ()) -> Node:
        node = Node(name, attributes)
        parent, before = self.place(self.current)
        parent.put(node, before)
        self.stack.append(node)
        return node

    def insert_text(self, text: str):
        parent, before = self.place(self.current)
        parent.put_text(text, before)

    # ---- "The list of active formatting elements"

    def after_last_marker(self) -> list[Node]:
        entries: list[Node] = []
        for node in reversed(self.formatting):
            if node is MARKER:
                break
            entries.insert(0, node)
        return entries

    def last_named(self, name: str) -> Node | None:
        return next((node for node in reversed(self.after_last_marker()) if node.name == name), None)

    def push_formatting(self, node: Node):
        key = (node.name, sorted(node.attributes))
        alike = [it for it in self.after_last_marker() if (it.name, sorted(it.attributes)) == key]
        if len(alike) >= 3:
            self.drop_entry(alike[0])
        self.formatting.append(node)

    def drop_entry(self, node: Node):
        self.formatting = [it for it in self.formatting if it is not node]

    def reconstruct(self):
        lost = []
        for node in reversed(self.after_last_marker()):
            if node in self.stack:
                break
            lost.append(node)
        for node in reversed(lost):
            self.formatting[self.formatting.index(node)] = self.insert(node.name, node.attributes)

    def clear_to_marker(self):
        while self.formatting and self.formatting.pop() is not MARKER:
            pass

    # ---- "The adoption agency algorithm"

    def adopt(self, name: str):
        if self.current.name == name and self.current not in self.formatting:
            self.stack.pop()
            return
        for _ in range(8):
            element = self.last_named(name)
            if element is None:
                self.any_other_end(name)
                return
            if element not in self.stack:
                self.drop_entry(element)
                return
            if not self.has_node(element, SCOPE):
                return
            inner = self.stack[self.stack.index(element) + 1 :]
            block = next((node for node in inner if node.name in SPECIAL), None)
            if block is None:
                del self.stack[self.stack.index(element) :]
                self.drop_entry(element)
                return
            self.adopt_into(element, block)

    def adopt_into(self, element: Node, block: Node):
        """The loop's turn with a furthest block."""
        ancestor = self.stack[self.stack.index(element) - 1]
        last, after = block, None  # the bookmark is after this entry, or where the element's is
        between = self.stack[self.stack.index(element) + 1 : self.stack.index(block)]
        for counter, node in enumerate(reversed(between), 1):
            if counter > 3:
                self.drop_entry(node)
            if node not in self.formatting:
                self.stack.remove(node)
                continue
            clone = Node(node.name, node.attributes)
            self.formatting[self.formatting.index(node)] = clone
            self.stack[self.stack.index(node)] = clone
            if last is block:
                after = clone
            clone.put(last)
            last = clone
        parent, before = self.place(ancestor)
        parent.put(last, before)
        clone = Node(element.name, element.attributes)
        for child in list(block.children):
            clone.put(child)
        block.put(clone)
        at = self.formatting.index(element) if after is None else self.formatting.index(after) + 1
        self.formatting.insert(at, clone)
        self.drop_entry(element)
        self.stack.remove(element)
        self.stack.insert(self.stack.index(block) + 1, clone)

    # ---- "In body"

    def in_body(self, token):
        if isinstance(token, Text):
            self.reconstruct()
            self.insert_text(token.text)
        elif isinstance(token, Start):
            self.start_in_body(token.name, token.attributes)
        else:
            self.end_in_body(token.name)

    def start_in_body(self, name: str, attributes: tuple[tuple[str, str], ...]):
        if name in BLOCKS | PREFORMATTED | HEADINGS:
            self.close_paragraph_in_scope()
            if name in HEADINGS and self.current.name in HEADINGS:
                self.stack.pop()
            self.insert(name, attributes)
            self.ignores_newline = name in PREFORMATTED
        elif name == "form":
            if self.form is None:
                self.close_paragraph_in_scope()
                self.form = self.insert(name, attributes)
        elif name in ("li", "dd", "dt"):
            self.close_item(names("li") if name == "li" else names("dd dt"))
            self.close_paragraph_in_scope()
            self.insert(name, attributes)
        elif name == "button":
            if self.has(frozenset(["button"]), SCOPE):
                self.generate_implied()
                self.pop_until(frozenset(["button"]))
            self.reconstruct()
            self.insert(name, attributes)
        elif name == "a":
            element = self.last_named("a")
            if element is not None:
                self.adopt("a")
                self.drop_entry(element)
                self.stack = [node for node in self.stack if node is not element]
            self.reconstruct()
            self.push_formatting(self.insert(name, attributes))
        elif name == "nobr":
            self.reconstruct()
            if self.has(frozenset(["nobr"]), SCOPE):
                self.adopt("nobr")
                self.reconstruct()
            self.push_formatting(self.insert(name, attributes))
        elif name in FORMATTING:
            self.reconstruct()
            self.push_formatting(self.insert(name, attributes))
        elif name == "table":
            self.close_paragraph_in_scope()
            self.insert(name, attributes)
            self.mode = self.in_table
        elif name == "hr":
            self.close_paragraph_in_scope()
            self.insert(name, attributes)
            self.stack.pop()
        elif name in RUBY_PARTS:
            if self.has(frozenset(["ruby"]), SCOPE):
                self.generate_implied(frozenset(["rtc"]) if name in ("rp", "rt") else frozenset())
            self.insert(name, attributes)
        elif name in PARTS:
            pass
        else:
            self.reconstruct()
            self.insert(name, attributes)
            if name in VOID:
                self.stack.pop()

    def close_item(self, wanted: frozenset[str]):
        """The loop of a start tag `li`, or `dd` and `dt`."""
        for node in reversed(self.stack):
            if node.name in wanted:
                self.generate_implied(frozenset([node.name]))
                self.pop_until(frozenset([node.name]))
                return
            if node.name == "html" or node.name in SPECIAL - names("address div p"):
                return

    def end_in_body(self, name: str):
        only = frozenset([name])
        if name == "p":
            if not self.has(only, BUTTON_SCOPE):
                self.insert("p")
            self.close_paragraph()
        elif name in BLOCKS | PREFORMATTED | {"button"}:
            self.close_in_scope(only, SCOPE)
        elif name in HEADINGS:
            self.close_in_scope(HEADINGS, SCOPE)
        elif name == "li":
            self.close_in_scope(only, LIST_SCOPE, only)
        elif name in ("dd", "dt"):
            self.close_in_scope(only, SCOPE, only)
        elif name == "form":
            form, self.form = self.form, None
            if form is not None and self.has_node(form, SCOPE):
                self.generate_implied()
                self.stack.remove(form)
        elif name in FORMATTING:
            self.adopt(name)
        elif name == "br":
            self.start_in_body("br", ())
        else:
            self.any_other_end(name)

    def close_in_scope(self, wanted: frozenset[str], scope: frozenset[str], but: frozenset[str] = frozenset()):
        if self.has(wanted, scope):
            self.generate_implied(but)
            self.pop_until(wanted)

    def any_other_end(self, name: str):
        for node in reversed(self.stack):
            if node.name == name:
                self.generate_implied(frozenset([name]))
                del self.stack[self.stack.index(node) :]
                return
            if node.name in SPECIAL:
                return

    # ---- "In table", and "in table text"

    def in_table(self, token):
        if isinstance(token, Text) and self.current.name in FOSTERING:
            self.pending, self.original_mode, self.mode = "", self.mode, self.in_table_text
            self.mode(token)
        elif isinstance(token, Start) and token.name in PARTS:
            self.part_in_table(token)
        elif isinstance(token, Start) and token.name == "form":
            if self.form is None:
                self.form = self.insert(token.name, token.attributes)
                self.stack.pop()
        elif isinstance(token, Start) and token.name == "input" and is_hidden(token):
            self.insert(token.name, token.attributes)
            self.stack.pop()
        elif isinstance(token, (Start, End)) and token.name == "table":
            if self.has(frozenset(["table"]), TABLE_SCOPE):
                self.pop_until(frozenset(["table"]))
                self.reset_mode()
                if isinstance(token, Start):
                    self.mode(token)
        elif not (isinstance(token, End) and token.name in PARTS):
            self.foster(token)

    def part_in_table(self, token: Start):
        self.clear_back_to(frozenset(["table"]))
        if token.name == "caption":
            self.formatting.append(MARKER)
        wrapper = {"col": "colgroup", "tr": "tbody", "td": "tbody", "th": "tbody"}.get(token.name)
        self.insert(wrapper, ()) if wrapper else self.insert(token.name, token.attributes)
        self.reset_mode()
        if wrapper:
            self.mode(token)

    def foster(self, token):
        self.is_fostering = True
        self.in_body(token)
        self.is_fostering = False

    def in_table_text(self, token):
        if isinstance(token, Text):
            self.pending += token.text
            return
        self.put_pending()
        self.mode(token)

    def put_pending(self):
        self.mode = self.original_mode
        is_white_space = not self.pending.strip(WHITE_SPACE)
        for character in self.pending:
            self.insert_text(character) if is_white_space else self.foster(Text(character))

    # ---- "In caption", "in column group"

    def in_caption(self, token):
        is_end = isinstance(token, End) and token.name == "caption"
        leaves = isinstance(token, End) and token.name == "table" or isinstance(token, Start) and token.name in PARTS
        if is_end or leaves:
            if self.has(frozenset(["caption"]), TABLE_SCOPE):
                self.generate_implied()
                self.pop_until(frozenset(["caption"]))
                self.clear_to_marker()
                self.mode = self.in_table
                if leaves:
                    self.mode(token)
        elif not (isinstance(token, End) and token.name in PARTS):
            self.in_body(token)

    def in_column_group(self, token):
        if isinstance(token, Text) and token.text in WHITE_SPACE:
            self.insert_text(token.text)
        elif isinstance(token, Start) and token.name == "col":
            self.insert(token.name, token.attributes)
            self.stack.pop()
        elif not (isinstance(token, End) and token.name == "col") and self.current.name == "colgroup":
            self.stack.pop()
            self.mode = self.in_table
            if not (isinstance(token, End) and token.name == "colgroup"):
                self.mode(token)

    # ---- "In table body", "in row", "in cell"

    def in_table_body(self, token):
        if isinstance(token, Start) and token.name in CELLS | {"tr"}:
            self.clear_back_to(BODIES)
            self.insert("tr", token.attributes if token.name == "tr" else ())
            self.mode = self.in_row
            if token.name != "tr":
                self.mode(token)
        elif isinstance(token, End) and token.name in BODIES:
            if self.has(frozenset([token.name]), TABLE_SCOPE):
                self.leave(BODIES, self.in_table)
        elif isinstance(token, Start) and token.name in PARTS or isinstance(token, End) and token.name == "table":
            if self.has(BODIES, TABLE_SCOPE):
                self.leave(BODIES, self.in_table)
                self.mode(token)
        elif not (isinstance(token, End) and token.name in PARTS):
            self.in_table(token)

    def in_row(self, token):
        row = frozenset(["tr"])
        if isinstance(token, Start) and token.name in CELLS:
            self.clear_back_to(row)
            self.insert(token.name, token.attributes)
            self.mode = self.in_cell
            self.formatting.append(MARKER)
        elif isinstance(token, End) and token.name == "tr":
            if self.has(row, TABLE_SCOPE):
                self.leave(row, self.in_table_body)
        elif isinstance(token, Start) and token.name in PARTS or isinstance(token, End) and token.name == "table":
            if self.has(row, TABLE_SCOPE):
                self.leave(row, self.in_table_body)
                self.mode(token)
        elif isinstance(token, End) and token.name in BODIES:
            if self.has(frozenset([token.name]), TABLE_SCOPE) and self.has(row, TABLE_SCOPE):
                self.leave(row, self.in_table_body)
                self.mode(token)
        elif not (isinstance(token, End) and token.name in PARTS):
            self.in_table(token)

    def leave(self, context: frozenset[str], mode):
        self.clear_back_to(context)
        self.stack.pop()
        self.mode = mode

    def in_cell(self, token):
        is_end = isinstance(token, End)
        if is_end and token.name in CELLS:
            if self.has(frozenset([token.name]), TABLE_SCOPE):
                self.close_cell(frozenset([token.name]))
        elif isinstance(token, Start) and token.name in PARTS:
            self.close_cell(CELLS)
            self.mode(token)
        elif is_end and token.name in ("caption", "col", "colgroup"):
            pass
        elif is_end and token.name in FOSTERING:
            if self.has(frozenset([token.name]), TABLE_SCOPE):
                self.close_cell(CELLS)
                self.mode(token)
        else:
            self.in_body(token)

    def close_cell(self, wanted: frozenset[str]):
        self.generate_implied()
        self.pop_until(wanted)
        self.clear_to_marker()
        self.mode = self.in_row

    def reset_mode(self):
        """"Reset the insertion mode appropriately"; the context element is a `div`."""
        modes = {"td": self.in_cell, "th": self.in_cell, "tr": self.in_row, "caption": self.in_caption}
        modes.update(dict.fromkeys(BODIES, self.in_table_body), colgroup=self.in_column_group, table=self.in_table)
        self.mode = next((modes[node.name] for node in reversed(self.stack) if node.name in modes), self.in_body)


def is_hidden(token: Start) -> bool:
    return dict(token.attributes).get("type", "").lower() == "hidden"


def tree_of(items) -> list[Node]:
    """The nodes that stand in the root."""
    construction = TreeConstruction()
    for item in items:
        construction.take(item)
    construction.take_end()
    return construction.root.children


def nesting(items) -> list[Node]:
    """The tree that the tags of items show, where each end tag closes the innermost element."""
    root = Node("html")
    path = [root]
    for item in items:
        if isinstance(item, Text):
            for character in item.text:
                path[-1].put_text(character)
        elif isinstance(item, End):
            path.pop()
        else:
            node = Node(item.name, item.attributes)
            path[-1].put(node)
            if item.name not in VOID:
                path.append(node)
    return root.children


def whole_texts(items) -> list:
    """Items in which no two texts stand side by side, and none is empty."""
    whole: list = []
    for item in items:
        if isinstance(item, Text) and whole and isinstance(whole[-1], Text):
            whole[-1] = Text(whole[-1].text + item.text)
        elif item != Text(""):
            whole.append(item)
    return whole


def read_items(items) -> list:
    """What tree construction reads of items: whole texts, without a newline straight after a `pre` or `listing`."""
    read: list = []
    is_fresh = False
    for item in whole_texts(items):
        if isinstance(item, Text) and is_fresh and item.text[0] == "\n":
            item = Text(item.text[1:])
        is_fresh = isinstance(item, Start) and item.name in PREFORMATTED
        if item != Text(""):
            read.append(item)
    return read


def most_open(items) -> int:
    """How many elements are open where most are, if the items are balanced."""
    opened = most = 0
    for item in items:
        if isinstance(item, End) or isinstance(item, Start) and item.name not in VOID:
            opened += 1 if isinstance(item, Start) else -1
        most = max(most, opened)
    return most


def shown(nodes: list[Node]) -> str:
    """Nodes as text, with all their tags, and attributes in the order in which they came."""
    parts = []
    for node in nodes:
        attributes = "".join(f" {name}={value}" for name, value in node.attributes)
        parts.append(f"<{node.name}{attributes}>{shown(node.children)}</{node.name}>" if node.name else node.text)
    return "".join(parts)


# ---- crates/html5tree/README.md, "What fits"

HOLDS = {"table": BODIES | names("caption colgroup"), "colgroup": names("col"), "tr": CELLS}
HOLDS.update({name: names("tr") for name in BODIES})
CELL = CELLS | names("caption")
ENDS_PARAGRAPH = BLOCKS | HEADINGS | PREFORMATTED | names("dd dt form hr li table")
BOUNDS_ITEM = SPECIAL - names("address div p search")


def is_near(stack: list[str], wanted: frozenset[str], bounds: frozenset[str]) -> bool:
    for name in reversed(stack):
        if name in wanted:
            return True
        if name in bounds:
            return False
    return False


def start_fits(stack: list[str], name: str) -> bool:
    top = stack[-1] if stack else ""
    if name not in ALL or top in HOLDS or name in PARTS:
        return name in HOLDS.get(top, ())
    if name in ENDS_PARAGRAPH and is_near(stack, names("p"), CELL | names("button")):
        return False
    if name in HEADINGS:
        return top not in HEADINGS
    if name == "li":
        return not is_near(stack, names("li"), BOUNDS_ITEM)
    if name in ("dd", "dt"):
        return not is_near(stack, names("dd dt"), BOUNDS_ITEM)
    if name in ("a", "nobr", "button"):
        return not is_near(stack, frozenset([name]), CELL)
    if name == "form":
        return "form" not in stack
    if name in RUBY_PARTS and is_near(stack, names("ruby"), CELL):
        return top not in (IMPLIED if name in ("rb", "rtc") else IMPLIED - {"rtc"})
    return True


def fits(stack: list[str], item) -> bool:
    if isinstance(item, Start):
        return start_fits(stack, item.name)
    if isinstance(item, End):
        return bool(stack) and item.name == stack[-1] and item.name in ALL - VOID
    return not stack or stack[-1] not in HOLDS or not item.text.strip(WHITE_SPACE)


def all_fit(items, stack: tuple[str, ...] = ()) -> bool:
    """Whether each item fits where it stands, and no element is open at the end."""
    opened = list(stack)
    for item in items:
        if not fits(opened, item):
            return False
        if isinstance(item, Start) and item.name not in VOID:
            opened.append(item.name)
        elif isinstance(item, End):
            opened.pop()
    return not opened


def keeps_newlines(items) -> bool:
    """Whether no text straight after the start tag of a `pre` or `listing` begins with a newline."""
    is_fresh = False
    for item in items:
        if not isinstance(item, Text):
            is_fresh = isinstance(item, Start) and item.name in PREFORMATTED
        elif item.text:
            if is_fresh and item.text[0] == "\n":
                return False
            is_fresh = False
    return True
