#!/usr/bin/env python3
"""Lists the places of older forms in crates/*/src, by the points of docs/DESIGN-PASS.md: forms.py [COMMIT], of the files as they stand or as they stood."""
import re
import subprocess
import sys
from collections import defaultdict
from pathlib import Path

POINTS = {
    "1 an enum of its own": r"^(pub )?enum (Measured|Routed|Listed|Written|Input)\b|^(pub )?enum \w+ \{",
    "1 a flag in a struct": r"^    (pub )?\w+: bool,",
    "1 a number that is returned for a refusal or for none": r"return (\d+|PAIRS|APART|UNLINKED|NO_CROSSING);|Refused\(\w+\)",
    "1 a name for none": r"\b(APART|UNLINKED|NO_CROSSING|PAIRS)\b",
    "1 a number for a kind": r"\bkind: u\d+",
    "3 a loop that is no for": r"^\s*('\w+: )?(while|loop)\b|= ('\w+: )?loop\b",
    "4 a conversion by hand": r"\b(wide|byte|less|long_word|side_number|side_at|compass)\(",
    "4 a cast": r" as (u8|u16|u32|u64|usize)\b",
    "4 a byte of a number": r"[%/] 256\b",
    "6 a list lent beside its length": r"\b(count|end|n): usize\b",
}


def sources(commit):
    if commit is None:
        return {str(p): p.read_text() for p in sorted(Path("crates").glob("*/src/*.rt"))}
    names = subprocess.run(["git", "ls-tree", "-r", "--name-only", commit, "crates"], capture_output=True, text=True, check=True).stdout.split()
    return {n: subprocess.run(["git", "show", f"{commit}:{n}"], capture_output=True, text=True, check=True).stdout for n in names if re.fullmatch(r"crates/\w+/src/\w+\.rt", n)}


KEYWORDS = set("fn pub let mut if else while for in match return loop break as const static struct enum impl where self Self true false ref move".split())


def functions(text):
    """Name and body of each function."""
    for m in re.finditer(r"^( *)(?:pub )?fn (\w+)", text, re.M):
        begin = re.compile(rf"^{m[1]}\{{$|[)>\w] \{{$", re.M).search(text, m.end())
        end = begin and re.compile(rf"^{m[1]}\}}$", re.M).search(text, begin.end())
        if end:
            yield m[2], text[begin.end() : end.start()]


def twins(files):
    """The bodies of twelve words or more that differ in names and numbers only, by who has them."""
    seen = defaultdict(list)
    for file, text in files.items():
        for name, body in functions(text):
            words = re.findall(r"\w+|[^\w\s]", re.sub(r"//.*", "", body))
            shape = tuple(w if w in KEYWORDS or not re.match(r"\w", w) else "0" if w[0].isdigit() else "x" for w in words)
            if len(shape) >= 12:
                seen[shape].append(f"{file.split('/')[1]} {name}")
    return [names for names in seen.values() if len(names) > 1]


def repeated_facts(files):
    """The facts of requires clauses that stand in three functions or more, with how many."""
    seen = defaultdict(int)
    for text in files.values():
        for clause in re.findall(r"requires(?: \w+)? \{ (.*) \}", text):
            for fact in clause.split(" × "):
                seen[fact.strip().removeprefix("(").removesuffix(")")] += 1
    return {fact: n for fact, n in seen.items() if n >= 3}


def main():
    files = sources(sys.argv[1] if len(sys.argv) > 1 else None)
    for point, pattern in POINTS.items():
        places = [f"{name}:{i}: {line.strip()}" for name, text in files.items() for i, line in enumerate(text.splitlines(), 1) if not line.lstrip().startswith("//") and re.search(pattern, line)]
        print(f"{point}: {len(places)}")
        print("".join(f"    {place}\n" for place in places), end="")
    same = twins(files)
    print(f"2 functions of one shape: {len(same)}")
    print("".join(f"    {', '.join(names)}\n" for names in same), end="")
    facts = repeated_facts(files)
    print(f"5 a fact in three requires or more: {len(facts)}, {sum(facts.values())} times")
    for fact, n in sorted(facts.items(), key=lambda f: -f[1]):
        print(f"    {n} {fact}")


if __name__ == "__main__":
    main()
