"""Tree construction by its definition: the tree of messages, as the public tests of tree construction write trees."""

import functools
import pathlib
import threading

from model.definitions import Definitions, codes, items_of, listed

TOP = pathlib.Path(__file__).resolve().parent.parent.parent
MODULES = ["Names", "Adjusting", "Tokens", "Doctypes", "Page", "Parser", "Formatting", "Adoption", "Resetting", "BeforeBody",
           "InBody", "Tables", "AfterBody", "ForeignContent", "Construction", "Document"]
PREFIXES = {"Html": "", "MathMl": "math ", "Svg": "svg "}
NAMESPACES = {"html": "Html", "math": "MathMl", "svg": "Svg"}


def sources():
    """The text of each module of the definition."""
    folder = TOP / "crates" / "tree_construction" / "specs"
    return {it: (folder / f"{it}.antt").read_text(encoding="utf-8") for it in MODULES}


@functools.lru_cache(maxsize=None)
def definition():
    return Definitions(sources().values())


def text_of(cells):
    return bytes(items_of(cells)).decode("utf-8", "replace")


def optional(text):
    return "None" if text is None else ("Some", codes(text))


def attributes_of(pairs):
    return listed({"name": {"prefix": "None", "ns": (), "local": codes(name)}, "value": codes(value)} for name, value in pairs)


def token_of(kind, values):
    """What the tokenizer sends, in the words of the definition."""
    if kind in ("start", "closed", "end"):
        tag = {"kind": "EndTag" if kind == "end" else "StartTag", "name": codes(values[0]), "self_closing": kind == "closed",
               "attributes": attributes_of(values[1] if kind != "end" else []), "had_duplicate_attributes": False}
        return ("Tag", tag)
    if kind == "doctype":
        name, public_id, system_id, force_quirks = values
        return ("Doctype", {"name": optional(name), "public_id": optional(public_id), "system_id": optional(system_id),
                            "force_quirks": force_quirks})
    return kind.capitalize() if not values else (kind.capitalize(), codes(values[0]))  # Null, Text, Comment, Instruction


def limit_of(limit):
    return "None" if limit is None else ("Some", limit)


def options_of(scripting, context, limits):
    """The options of a page, or of a fragment by its context: namespace, name and attributes."""
    found = "None"
    if context:
        namespace, name, attributes = context
        kind = definition().kind_in_namespace(NAMESPACES[namespace], codes(name), attributes_of(attributes))
        found = ("Some", {"kind": kind, "in_form": kind == "Form", "quirks_mode": "NoQuirks"})
    return {"scripting": scripting, "iframe_srcdoc": False, "context": found,
            "depth_limit": limit_of(limits[0]), "formatting_limit": limit_of(limits[1])}


class Parser:
    """A parser by the definition, or by another one. It is sent messages one after another."""

    def __init__(self, scripting=False, context=None, limits=(None, None), own=None):
        self.own = own or definition()
        self.root = 3 if context else 0
        self.state = self.own.start(options_of(scripting, context, limits))

    def take(self, kind, *values):
        """Takes a message. Answers what it asks for: the request's name and what comes with it."""
        self.state = self.own.told(token_of(kind, values), self.state)
        return self.state["request"]

    def end(self):
        self.state = self.own.told("End", self.state)

    def start_request(self):
        return self.own.start_request(self.state["options"])

    def is_foreign(self):
        return self.own.is_foreign(self.state)

    def tree(self):
        """The tree that was built so far, as lines."""
        return "\n".join(lines_of(self.own.tree_in(self.root, self.state["page"]["edits"]), 0))


def shown_attributes(attributes, pad):
    shown = []
    for it in items_of(attributes):
        prefix = it["name"]["prefix"]
        shown.append(((text_of(prefix[1]) + " " if prefix != "None" else "") + text_of(it["name"]["local"]), text_of(it["value"])))
    return [f'{pad}{name}="{value}"' for name, value in sorted(shown, key=lambda pair: pair[0].encode())]


def lines_of(tree, depth):
    """The lines of a tree: a node is after those that stand before it."""
    nodes = []
    while tree != "Nothing":
        nodes.append(tree)
        tree = tree[1]
    found = []
    for node in reversed(nodes):
        found += node_lines(node, depth)
    return found


def node_lines(node, depth):
    pad, inner = "| " + "  " * depth, "| " + "  " * (depth + 1)
    if node[0] == "ElementNode":
        _, _, namespace, name, attributes, children = node
        return [f"{pad}<{PREFIXES[namespace]}{text_of(name)}>", *shown_attributes(attributes, inner), *lines_of(children, depth + 1)]
    if node[0] == "TemplateNode":
        _, _, attributes, contents = node
        return [f"{pad}<template>", *shown_attributes(attributes, inner), f"{inner}content", *lines_of(contents, depth + 2)]
    if node[0] == "DoctypeNode":
        name, public_id, system_id = map(text_of, node[2:])
        return [f"{pad}<!DOCTYPE {name}" + (f' "{public_id}" "{system_id}"' if public_id or system_id else "") + ">"]
    text = text_of(node[2])
    return [f'{pad}"{text}"' if node[0] == "TextNode" else f"{pad}<!-- {text} -->"]


def tree_of(messages, scripting=False, context=None, limits=(None, None)):
    """The tree of messages and the end."""
    parser = Parser(scripting, context, limits)
    for kind, *values in messages:
        parser.take(kind, *values)
    parser.end()
    return parser.tree()


def with_deep_stack(work):
    """Runs some work where lists of many thousand items can be gone through."""
    threading.stack_size(512 << 20)
    found = []
    thread = threading.Thread(target=lambda: found.append(work()))
    thread.start()
    thread.join()
    return found[0]
