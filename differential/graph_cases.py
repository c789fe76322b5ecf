#!/usr/bin/env python3
"""Makes crates/graph_cases/stdin and stdout from the Rust's answers and from boundary cases worked out by hand.

Usage: differential/run --sample graph | differential/graph_cases.py
"""
import pathlib
import sys

folder = pathlib.Path(__file__).resolve().parent.parent / "crates" / "graph_cases"
TOP = str(2**64 - 1)
MARK_63 = str(2**63)

# Boundary cases of RULES 2.2 and 15, worked out by hand; src/main.rt says what a question means.
BY_HAND = [
    # refusal 2 comes before 3
    ("2 1 0 0", "2"), ("2 1 65 0", "2"), (f"2 1 {TOP} 0", "2"), ("2 9 65 0", "2"),
    # topology unknown, or its argument wrong
    ("2 9 2 0", "3"), ("2 0 2 0", "3"), ("2 6 2 0", "3"), ("2 1 2 1", "3"), ("2 2 2 1", "3"), ("2 3 2 255", "3"),
    ("2 4 6 0", "3"), ("2 4 6 4", "3"), ("2 4 6 7", "3"),
    # grids of two rows, of one, and of six
    ("2 4 6 2", "0 3 10 21 34 17 42 20"), ("2 4 6 1", "0 5 2 5 10 20 40 16"), ("2 4 6 6", "0 5 2 5 10 20 40 16"),
    # rings of one, two and three, and the line of two
    ("2 3 1 0", "0 0 0"), ("2 3 2 0", "0 1 2 1"), ("2 2 2 0", "0 1 2 1"), ("2 3 3 0", "0 1 6 5 3"),
    # trees of branching 0 and 1
    ("2 5 4 0", "0 0 0 0 0 0"), ("2 5 4 1", "0 3 2 5 10 4"),
    # rows: none, 65, a neighbour out of range, a position out of range, mark 63
    ("1 0 0", "2"), ("1 0 65 " + " ".join(["0"] * 65), "2"), ("1 0 2 4 0", "3"), ("1 2 2 2 1", "8"), (f"1 {TOP} 2 2 1", "8"),
    ("1 63 64 " + " ".join(["0"] * 63 + [MARK_63]), "0 0 1 63"), ("1 0 63 " + " ".join(["0"] * 62 + [MARK_63]), "3"),
    # one-way links, a link to oneself, and the order of refusals
    ("3 0 1 2 2 0", "0 1 1"), ("3 1 0 2 2 0", "0 0 0"), ("3 0 0 2 2 0", "0 0 1"), ("3 0 0 2 3 0", "0 1 1"),
    ("3 0 2 3 2 4 0", "0 0 1"), ("3 2 0 3 2 4 0", "0 0 0"), ("3 0 2 2 2 1", "8"), ("3 2 0 2 2 1", "8"), ("3 5 5 2 8 1", "3"),
]


def from_sample(line):
    """A line of the sample as a question and its answer."""
    asked, middle, last = (part.split() for part in line.split("|"))
    if len(last) > 1:  # n rows | diameter | i count neighbours
        return " ".join(["1", last[0]] + asked), " ".join(["0"] + middle + last[1:])
    return " ".join(["2"] + asked), " ".join(["0"] + last + middle)  # topology n argument | rows | diameter


lines = (line.strip() for line in sys.stdin)
cases = [from_sample(line) for line in lines if line and not line.startswith("#")] + BY_HAND
(folder / "stdin").write_text("".join(asked + "\n" for asked, _ in cases))
(folder / "stdout").write_text("".join(answer + "\n" for _, answer in cases))
print(len(cases), "cases")
