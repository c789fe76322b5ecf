#!/usr/bin/env python3
"""Makes crates/engine_cases/stdin and stdout from the Rust's answers.

Usage: differential/run --sample capture | differential/engine_cases.py
"""
import pathlib
import sys

folder = pathlib.Path(__file__).resolve().parent.parent / "crates" / "engine_cases"
lines = [line.rstrip("\n") for line in sys.stdin]
for name, sign in (("stdin", "< "), ("stdout", "> ")):
    chosen = [line[2:] for line in lines if line.startswith(sign)]
    (folder / name).write_text("".join(line + "\n" for line in chosen))
    print(len(chosen), "lines of", name)
