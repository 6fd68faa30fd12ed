#!/usr/bin/env python3
"""Lists the names and paths that the documents quote and the repository does not have, and ends with 1 if there is one.

A name is a word in backticks, of letters and digits with the marks between them: its parts have to stand in a source, or be files or folders.
A path begins with a folder of the repository; what a command writes, below target/, is not looked for.
The audit page also has to name every file of definitions.
"""
import pathlib
import re
import subprocess
import sys

TOP = pathlib.Path(__file__).resolve().parent.parent
FOLDERS = "crates|oracle|view|conformance|examples|include|bench|sample|docs|\\.ci"
NAME = re.compile(r"(?<!`)`([^\W\d][\w'.:/-]{2,})`(?!`)")
PATH = re.compile(rf"(?<![\w./-])((?:{FOLDERS})/[\w./-]*[\w/-])")
SPLIT = re.compile(r"[^\w'-]+")

# Documents that are not ours to mend, two that quote what stood before, and quoted words that are nothing of this repository.
GIVEN = ("docs/01-scope.md", "docs/02-change-requests.md", "docs/src/", "docs/PORT.md", "docs/DESIGN-PASS.md")
ELSEWHERE = {
    "cargo-web": "a package of Debian's",
    "rattle-kit-5b-plain": "the kit that the repository was written for",
}


def tracked():
    """The files of the repository, those not yet committed among them."""
    listed = subprocess.run(["git", "ls-files", "--cached", "--others", "--exclude-standard"], cwd=TOP, capture_output=True, text=True, check=True)
    return [name for name in listed.stdout.splitlines() if (TOP / name).is_file()]


def known_words(files):
    """Every word of a source, and every part of a path."""
    words = set()
    for name in files:
        words.update(SPLIT.split(name))
        words.update(pathlib.PurePath(name).parts)
        if not name.endswith((".md", ".svg")):
            words.update(SPLIT.split((TOP / name).read_text(encoding="utf-8", errors="replace")))
    return words


def missing(name, files, folders, words):
    """What a document quotes that is not there: paths, then names."""
    text = (TOP / name).read_text(encoding="utf-8")
    here = str(pathlib.PurePath(name).parent)
    for path in sorted(set(PATH.findall(text))):
        beside = str(pathlib.PurePath(here) / path)
        if "target" not in path and not {path.rstrip("/"), beside} & (files | folders):
            yield path
    for quoted in sorted(set(NAME.findall(text)) - set(ELSEWHERE)):
        if not PATH.match(quoted) and not set(filter(None, SPLIT.split(quoted))) <= words:
            yield quoted


def unnamed(files):
    """The files of definitions that the audit page does not name."""
    named = set(SPLIT.split((TOP / "docs/AUDIT.md").read_text(encoding="utf-8")))
    stems = {name: pathlib.PurePath(name).stem for name in files if name.startswith("crates/model/specs/")}
    return sorted(name for name, stem in stems.items() if stem not in named | {"Lib"})


def main():
    files = set(tracked())
    folders = {str(folder) for name in files for folder in pathlib.PurePath(name).parents}
    words = known_words(sorted(files))
    documents = [name for name in sorted(files) if name.endswith(".md") and not name.startswith(GIVEN)]
    found = [(name, quoted) for name in documents for quoted in missing(name, files, folders, words)]
    for name, quoted in found:
        print(f"{name}: {quoted}: not in the repository")
    silent = unnamed(files)
    for name in silent:
        print(f"docs/AUDIT.md: {name}: not named")
    print(f"{len(documents)} documents, {len(found)} names or paths that are not there, {len(silent)} files of definitions not named")
    sys.exit(1 if found or silent else 0)


main()
