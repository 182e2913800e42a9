#!/usr/bin/env python3
"""Prints a table of questions for C and Rust, which have no JSON: flatten.py TABLE

US ends a field that another follows, GS a question, and RS its answer. A lone surrogate is a byte that isn't UTF-8."""
import json
import sys

US, GS, RS = "\x1f", "\x1d", "\x1e"


def flat(row):
    question, answer = row
    if any(mark in field for field in question + answer for mark in (US, GS, RS)):
        raise ValueError(f"a field holds a separator: {row}")
    return US.join(question) + GS + US.join(answer) + RS


with open(sys.argv[1], encoding="utf-8") as table:
    rows = [flat(json.loads(line)) for line in table]
sys.stdout.buffer.write("".join(rows).encode("utf-8", "surrogateescape"))
