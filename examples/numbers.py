#!/usr/bin/env python3
"""Holds what c/numbers.c prints, on standard input, to the documents: the version to the first of docs/CHANGES.md, and the
meaning of each number to the words of document 01 for it, or of document 02 for those that it adds.

The signs are in ASCII, and a text may begin with the call that refuses. 01's remark on the Rust is left out, and `23 source, 24
goal too large` is read as two."""
import pathlib
import re
import sys

DOCS = pathlib.Path(__file__).resolve().parent.parent / "docs"
CALLS = ("plan", "read file", "build", "store check", "change", "route", "windows", "write file")

# The last number of the requests that have landed.
LAST = 29

READ_AS = {"≤": "<=", "≥": ">=", "×": "x", " (the Rust panics)": "", "source, 24 goal": "source too large; 24 goal"}


def document(name):
    return (DOCS / name).read_text(encoding="utf-8")


def words_of_01():
    """01's words for each number, where it first stands with words behind it (18 has others in the store check)."""
    section = document("01-scope.md").split("## Calls and their numbers")[1].split("\n## ")[0]
    for there, here in READ_AS.items():
        section = section.replace(there, here)
    words = {}
    for number, text in re.findall(r"[:;] (\d+) ([^;.\n]+)", section):
        words.setdefault(int(number), text)
    return words


def words_of_02():
    """02's words for each number that it adds; behind them it says where the refusal comes in the order."""
    found = re.findall(r"\b(\d+) when (.+?), (?:after|first)\b", document("02-change-requests.md"))
    return {int(number): text for number, text in found if int(number) <= LAST}


def main():
    version, *lines = sys.stdin.read().splitlines()
    texts = dict(line.split(" ", 1) for line in lines)
    changes = re.findall(r"^## Version (\d+)", document("CHANGES.md"), re.M)
    if version != f"version {changes[0]}":
        sys.exit(f"hall.h has {version}, docs/CHANGES.md version {changes[0]}")
    words = words_of_01() | words_of_02()
    if sorted(words) != list(range(1, LAST + 1)):
        sys.exit(f"the documents have the numbers {sorted(words)}")
    for number, owed in words.items():
        call, _, text = texts[str(number)].rpartition(": ")
        if text != owed or call not in ("", *CALLS):
            sys.exit(f"{number} is '{texts[str(number)]}', in the documents '{owed}'")
    unnamed = {texts[str(number)] for number in range(LAST + 1, 256)}
    # Besides the numbers 1 to LAST, 0 has a text, and all the others one.
    if len(unnamed) != 1 or len(set(texts.values())) != LAST + 2:
        sys.exit(f"two numbers have one text, or a number past {LAST} has one of its own")


main()
