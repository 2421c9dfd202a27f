"""Cases for the programs, which tools/compare runs: random ones of each kind by a seed and a number, and worked ones."""
