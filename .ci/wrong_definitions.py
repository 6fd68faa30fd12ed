#!/usr/bin/env python3
"""Tries each wrong definition of crates/audit/wrong/*.edit: the file that it names must refuse it.

An edit changes files of `model` or `laws` in a copy of the repository that has the named file of `audit` and what that
file rests on, and nothing else: so it is the named table or theorem that tells the wrong definition from the right one.
Where `laws` is not edited it is taken whole, as the gate has proved it.
An edit has the form of a must-fail edit, with the crate before the file, and says which file must refuse it:

    # what is wrong
    file: model/specs/Windows.antt
    old: text that stands there once
    new: text in its place
    refused by: audit/specs/Starred.antt
"""
import concurrent.futures
import os
import pathlib
import re
import shutil
import subprocess
import sys
import tempfile

TOP = pathlib.Path(__file__).resolve().parent.parent
CRATES = ("laws", "model", "audit")
USED = re.compile(r"Rattle\.(\w+)\.specs\.(\w+)")
ERROR = re.compile(r"^\./(\S+?\.antt):\d+:\d+: error", re.M)


def read_edit(path):
    """The replacements of an edit, and the file that must refuse it."""
    pairs, refuser, file, old = [], None, None, None
    for line in path.read_text(encoding="utf-8").splitlines():
        word, _, rest = line.partition(": ")
        if word == "file":
            file = rest
        elif word == "old":
            old = rest
        elif word == "new":
            pairs.append((file, old, rest))
        elif word == "refused by":
            refuser = rest
    if not pairs or refuser is None:
        sys.exit(f"{path.name}: no replacement, or no line 'refused by'")
    return pairs, refuser


def rests_on(file, found):
    """The spec files that a spec file rests on, itself among them."""
    if file in found or not (TOP / "crates" / file).exists():
        return found
    found.add(file)
    for crate, module in USED.findall((TOP / "crates" / file).read_text(encoding="utf-8")):
        if crate in CRATES:
            rests_on(f"{crate}/specs/{module}.antt", found)
    return found


def copy_part(refuser, edited, folder):
    """A repository of the named file and what it rests on."""
    wanted = rests_on(refuser, set())
    listed = [line for line in (TOP / "crates.txt").read_text().splitlines() if line.split(":")[0] in CRATES]
    (folder / "crates.txt").write_text("\n".join(listed) + "\n")
    for name in CRATES:
        if name == "laws" and name not in edited:
            # with the library that the gate has built of it
            shutil.copytree(TOP / "crates" / name, folder / "crates" / name)
            continue
        shutil.copytree(TOP / "crates" / name / "src", folder / "crates" / name / "src")
        specs = folder / "crates" / name / "specs"
        specs.mkdir()
        modules = [line for line in (TOP / "crates" / name / "specs" / "Lib.antt").read_text().splitlines() if f"{name}/specs/{line.split()[-1]}.antt" in wanted]
        (specs / "Lib.antt").write_text("\n".join(modules) + "\n")
        for file in wanted:
            if file.startswith(f"{name}/"):
                shutil.copy(TOP / "crates" / file, folder / "crates" / file)


def apply(pairs, folder):
    """Makes the replacements, and says what stands in the way."""
    for file, old, new in pairs:
        target = folder / "crates" / file
        text = target.read_text(encoding="utf-8")
        if text.count(old) != 1:
            return f"'{old}' stands {text.count(old)} times in {file}"
        target.write_text(text.replace(old, new), encoding="utf-8")
    return None


def check(crate):
    """A check of a crate, and the first error in a file. One that fails without such an error met something else than the
    edit, and is made once more."""
    for _ in range(2):
        run = subprocess.run(["rt", "check"], cwd=crate, capture_output=True, text=True)
        error = ERROR.search(run.stdout + run.stderr)
        if not run.returncode or error:
            break
    return run, error


def try_edit(path):
    """What is wrong with the verdict on an edit; None if it is refused as it must be."""
    pairs, refuser = read_edit(path)
    with tempfile.TemporaryDirectory() as scratch:
        folder = pathlib.Path(scratch)
        copy_part(refuser, {file.split("/")[0] for file, _, _ in pairs}, folder)
        hindered = apply(pairs, folder)
        if hindered:
            return hindered
        for name in CRATES:
            if name == "laws" and not any(file.startswith("laws/") for file, _, _ in pairs):
                continue
            run, error = check(folder / "crates" / name)
            if run.returncode:
                found = f"{name}/{error.group(1)}" if error else f"no file: {(run.stdout + run.stderr)[-500:]}"
                return None if found == refuser else f"refused by {found}, not by {refuser}"
    return "not refused"


def main():
    edits = [pathlib.Path(name) for name in sys.argv[1:]] or sorted((TOP / "crates" / "audit" / "wrong").glob("*.edit"))
    with concurrent.futures.ThreadPoolExecutor(os.cpu_count() or 1) as pool:
        verdicts = list(pool.map(try_edit, edits))
    for path, verdict in zip(edits, verdicts):
        print(f"wrong definition {path.stem}: {verdict or 'refused, as it must be'}")
    wrong = sum(verdict is not None for verdict in verdicts)
    print(f"{len(edits) - wrong} wrong definitions refused, {wrong} not")
    sys.exit(1 if wrong or not edits else 0)


if __name__ == "__main__":
    main()
