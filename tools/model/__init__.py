"""What a text tells by docs/GRAMMAR.md: a model in Python to compare the program html5tok with.

    python3 tools/model [the arguments of html5tok] < FILE

It prints the lines that html5tok prints, and ends with its statuses (crates/html5tok/README.md). It is written from
docs/GRAMMAR.md and the definitions that the page names, and not from the code. A text is items as they are written, one
after another, and at most one unfinished item after them (`items.items_of`). An item is found by longest runs and first
occurrences, and says what each of its places tells. The modules have the names of the page's sections. `program.run` is
a run of the program, and `places.run` one of crates/print_places. `cleaning.run` is one of firnuubal clean, by
crates/html5policy/README.md and crates/html5cleaner/README.md. `tree.tree_of` is what a browser builds of tags and texts,
by the standard and crates/html5tree/README.md.
"""
