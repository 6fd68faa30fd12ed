#!/usr/bin/env python3
"""Brings this repository's own names in specs, proofs, clauses, edits and documents to today's spelling: words in snake case, types in camel case.

usage: python3 tools/respell.py [--list]     at the top of the repository, after the toolchain's own port.py; run once

A name is the repository's own if a file below crates/ declares it (a definition, a lemma, a field, a constructor) or binds it, and the toolchain's library has no such name or the file does not import it from there.
Where two names would fall together, the lemma gets `_lem`.
"""
import collections
import glob
import os
import re
import subprocess
import sys

KIT = os.path.join(os.path.dirname(subprocess.run(["rt", "doc"], capture_output=True, text=True, check=True).stdout.strip()), "rattle")
WORD = re.compile(r"[^\s(){}\[\];,.:=λ⌜⌝\"`]+")
DECLARED = re.compile(r"^\s*(?:(?:pub|abbrev|unfoldable|data|record)\s+)*([^\s(){};,.\[\]:=]+)\s+(?:\{[^}]*\}\s*|\([^)]*\)\s*)*:\s")
IMPORT = re.compile(r"^\s*(?:pub\s+)?(?:ghost\s+)?use\s+([^\s{;]+?)\.?(?:\{([^}]*)\}|)\s*;?\s*$")
OLD = re.compile(r"[a-z0-9][A-Z]|[A-Za-z0-9]-[A-Za-z0-9]")


def snake(name):
    name = re.sub(r"^getD(?=-)", "get_or", name)
    if name[0].isupper():
        return name.replace("-", "_")
    name = re.sub(r"([a-z0-9])([A-Z])", lambda m: m[1] + "_" + m[2].lower(), name)
    return name.replace("-", "_").replace("′", "'")


def lines(path):
    with open(path, encoding="utf-8") as f:
        return f.read().split("\n")


def modules():
    return sorted(glob.glob("crates/*/specs/**/*.antt", recursive=True)) + sorted(p for p in glob.glob("crates/*/proofs/*.antt"))


def walks():
    return sorted(set(glob.glob("crates/*/proofs/**/*.antt", recursive=True)) - set(modules()))


def library():
    found = set()
    for p in glob.glob(KIT + "/**/*.antt", recursive=True):
        for l in lines(p):
            found.update(WORD.findall(l.split("--")[0]))
    return found


def declared():
    """The names that the repository's own modules declare, each with whether it is a definition (a word that clauses may cite) or a lemma."""
    names = collections.OrderedDict()
    for p in modules() + walks():
        for l in lines(p):
            m = DECLARED.match(l)
            if m and OLD.search(m[1]) and not (m[1][0].isupper() and "-" not in m[1]) and p in OWN:
                names[m[1]] = True
    return names


def imported(path):
    """The names that a file takes from outside the repository."""
    own = {os.path.basename(c) for c in glob.glob("crates/*")}
    found = set()
    for l in lines(path):
        m = IMPORT.match(l)
        if m and m[2]:
            root = m[1].split(".")
            if not (root[0] == "Rattle" and len(root) > 1 and root[1] in own):
                for n in m[2].split(","):
                    found.update(n.split(" as ")[0].split())
    return found


OWN = set(modules())
STANDING = {m[1] for p in modules() for l in lines(p) for m in [DECLARED.match(l)] if m}


def table():
    kit = library()
    names = declared()
    local = set()
    for p in modules():
        taken = imported(p)
        for l in lines(p):
            for w in WORD.findall(l.split("--")[0]):
                if OLD.search(w) and w[0].islower() and w not in kit and w not in taken:
                    local.add(w)
    every = collections.OrderedDict((n, snake(n)) for n in sorted(set(names) | local))
    standing = collections.defaultdict(set)
    for p in modules():
        for l in lines(p):
            m = DECLARED.match(l)
            if m:
                standing[snake(m[1])].add(m[1])
    for n in list(every):
        to = every[n]
        others = {o for o in standing[to] | {o for o in every if every[o] == to} if o != n}
        if others and "-" in n:
            every[n] = to + "_lem"
    return every


def turned(text, every, skip, after_dot_too=True):
    def one(m):
        w = m[0]
        if w in skip or w not in every:
            return w
        return every[w]

    return WORD.sub(one, text)


def comment(text, every):
    text = re.sub(r"`([^`]*)`", lambda m: "`" + turned(m[1], every, set()) + "`", text)
    return WORD.sub(lambda m: every[m[0]] if m[0] in every and re.search(r"[a-z0-9][A-Z]", m[0]) else m[0], text)


def antt(path, every):
    skip = imported(path)
    out = []
    for l in lines(path):
        code, dash, said = l.partition("-- ") if not l.startswith("--") else ("", "--", l[2:])
        out.append(turned(code, every, skip) + dash + comment(said, every))
    return "\n".join(out)


CLAUSE = re.compile(r"^\s*(?:requires|ensures|ghost|invariant|decreases)\b")


def source(path, every):
    skip = imported(path)
    out = []
    for l in lines(path):
        code, slashes, said = l.partition("// ")
        if CLAUSE.match(code):
            code = turned(code, every, skip)
        out.append(code + slashes + comment(said, every))
    return "\n".join(out)


def edit(path, every):
    out = []
    for l in lines(path):
        key, colon, text = l.partition(": ")
        if key in ("old", "new") and re.search(r"\b(requires|ensures)\b", text):
            text = turned(text, every, set())
        out.append(key + colon + text)
    return "\n".join(out)


def page(path, every):
    """A document's names in backticks, those that port.py turned among them."""
    text = "\n".join(lines(path))
    today = {}
    for w in {w for said in re.findall(r"`([^`\n]*)`", text) for w in WORD.findall(said)}:
        if w not in every and OLD.search(w) and snake(w) in STANDING:
            today[w] = snake(w)
    return re.sub(r"`([^`\n]*)`", lambda m: "`" + turned(m[1], {**every, **today}, set()) + "`", text)


def main():
    every = table()
    fell = collections.defaultdict(list)
    for n, to in every.items():
        fell[to].append(n)
    for to, ns in fell.items():
        if len(ns) > 1:
            print("falls together:", to, ns)
    if "--list" in sys.argv:
        for n, to in every.items():
            print(n, to)
        return
    work = [(p, antt) for p in modules() + walks()]
    work += [(p, source) for p in sorted(glob.glob("crates/*/src/**/*.rt", recursive=True))]
    work += [(p, edit) for p in sorted(glob.glob("crates/*/must-fail/*.edit"))]
    pages = [p for p in sorted(glob.glob("*.md") + glob.glob("docs/*.md") + glob.glob("docs/requests/*.md") + glob.glob("*/README.md")) if os.path.basename(p)[:2] not in ("01", "02") or "requests" in p]
    work += [(p, page) for p in pages]
    changed = 0
    for p, how in work:
        was = "\n".join(lines(p))
        now = how(p, every)
        if now != was:
            changed += 1
            with open(p, "w", encoding="utf-8") as f:
                f.write(now)
    print(len(every), "names,", changed, "files")


main()
