"""Compares what programs print of random cases with models of what they should, and shows the smallest case that differs.

    python3 tools/compare KIND [--cases N] [--seed S] [--program PATH]
    python3 tools/compare KIND --self-test
    python3 tools/compare tokens --peer html5lib|parse5
    python3 tools/compare written FOLDER

    tokens    html5tok, with a model of docs/GRAMMAR.md: each text whole and in pieces
    clean     firnuubal clean, with a model of cleaning: by its own policy and those of tools/cases/policies
    check     firnuubal check, with a model of crates/html5check/README.md: pages of tags, many in a run
    rewrite   firnuubal rewrite, with a model of crates/html5edit/README.md: pages of tags, texts and scripts
    places    print_places, with a model of docs/GRAMMAR.md, "Where tokens stand": also the worked cases, in four cuts
    written   write_back, with html5tok: what is read of a page is read of that page written back by its tokens
    tree      print_trees, with the definition of tree construction over the model of docs/GRAMMAR.md: pages, also in pieces

A case is words of the command line, and a text or a page (tools/cases). Its number and the seed say what it is, so a run
can be repeated; the seed `today` is the day's date. The models are those of tools/model, written from the documents and
not from the code. That they have the lines of the worked cases is a test (test_compare.py). A case that differs is made as
small as it goes, and shown with a command line, the program's lines and the model's. After three no more are looked for.

--peer compares tokens with those of Debian's html5lib or parse5 in place of the model: peer.py says of what all speak.
FOLDER has pages, of which those that are UTF-8 are written back, all of them or N. --self-test plants wrong changes in
copies of the model or of the definition, or in what is written, and says at which case each is found.

Status 0: no difference, and each change was found. 1: a difference, or a change that was not found. 2: the program or
the peer is not there.
"""
