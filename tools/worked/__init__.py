"""Runs of the programs with what they print, written by hand: rows, lines of documents, and calls that fail."""
