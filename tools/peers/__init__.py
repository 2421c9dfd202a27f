"""Comparisons with other people's programs, beyond the gate: each wants pages, a package of Debian's, or a browser."""
