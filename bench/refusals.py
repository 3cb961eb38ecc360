#!/usr/bin/env python3
"""Holds docs/FORMATS.md against the text of refusals that `./rvsuite help KIND` prints.

usage: refusals.py

Each meaning of a number in crates/rvs_suite_tests/data/refusals is the row of that number in one
table of FORMATS, and each row of a table of kinds is one of these; what has no number is the
meaning of its fault line. What differs is told, and then the exit status is 1."""
import os
import re
import sys

TOP = os.path.join(os.path.dirname(os.path.abspath(__file__)), "..")
TABLE = re.compile(r"^\| (?:[a-z ]*kind|trap) \| meaning \|.*\n\|[-|]*\n((?:\|.*\n)*)", re.M)


def read(name):
    with open(os.path.join(TOP, name)) as file:
        return file.read()


def main():
    text = read("crates/rvs_suite_tests/data/refusals")
    formats = read("docs/FORMATS.md")
    wanted = {}
    differ = []
    for kind, number, meaning in re.findall(r"^([a-z]+) (\S+) (.*) -- ", text, re.M):
        meaning = meaning.replace("|", "\\|")
        if number.isdigit():
            wanted.setdefault(kind, []).append((number, meaning))
        elif f"| {meaning}" not in formats:
            differ.append(f"{kind} {number}: FORMATS hasn't {meaning}")
    cells = re.compile(r"^\| (\d+) \| ((?:\\\||[^|])*) \|", re.M)
    tables = [cells.findall(rows) for rows in TABLE.findall(formats)]
    for kind, rows in wanted.items():
        if tables.count(rows) != 1:
            differ.append(f"{kind}: {tables.count(rows)} tables of FORMATS have these rows")
    for rows in tables:
        if rows not in wanted.values():
            differ.append(f"a table of FORMATS that the text hasn't: {rows[0]}")
    print("\n".join(differ + [f"{len(wanted)} kinds, {len(differ)} differ"]))
    return 1 if differ else 0


sys.exit(main())
