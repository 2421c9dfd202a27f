"""What is made from something else, and by `--check` compared with it: lists, tables, cases, manual pages, completions."""
