"""Wrong readings of documents 01 and 02: each wrong/*.edit makes one of the second reading (oracle/second).

An edit has the form of a must-fail edit, and says which group of cases must catch it and which rule it breaks:

    # what is wrong
    file: route.rs
    old: text that stands there once
    new: text in its place
    group: pairs
    rule: a sentence of document 01 or 02

    python3 conformance/make/wrong.py [NAME...]     holds wrong readings, or all, against the cases: each must fail by its rule
"""
import hashlib
import os
import pathlib
import shutil
import subprocess
import sys

FOLDER = pathlib.Path(__file__).resolve().parent
CONFORMANCE = FOLDER.parent
TOP = CONFORMANCE.parent
sys.path.insert(0, str(CONFORMANCE))
import form

SECOND = TOP / "oracle" / "second"
PROGRAMS = ("hallcalls", "hallroute")
TARGET = TOP / "target" / "conformance"


class Edit:
    """A wrong reading."""

    def __init__(self, path):
        self.name, self.replacements, file, old = path.stem, [], None, None
        self.text = path.read_text(encoding="utf-8")
        for line in self.text.splitlines():
            word, _, rest = line.partition(": ")
            if line.startswith("# "):
                self.what = line[2:]
            elif word == "file":
                file = rest
            elif word == "old":
                old = rest
            elif word == "new":
                self.replacements.append((file, old, rest))
            elif word == "group":
                self.group = rest
            elif word == "rule":
                self.rule = rest

    def apply(self, folder):
        """Makes the replacements in a copy of the second reading, each in the text as it stood."""
        texts = {}
        for file, old, _ in self.replacements:
            text = (folder / "src" / file).read_text(encoding="utf-8")
            if text.count(old) != 1:
                sys.exit(f"{self.name}: '{old}' stands {text.count(old)} times in {file}")
            texts[file] = text
        for file, text in texts.items():
            places = sorted((text.index(old), old, new) for name, old, new in self.replacements if name == file)
            for at, old, new in reversed(places):
                text = text[:at] + new + text[at + len(old):]
            (folder / "src" / file).write_text(text, encoding="utf-8")


def all_edits():
    return [Edit(path) for path in sorted((FOLDER / "wrong").glob("*.edit"))]


def build(edit, target=TARGET):
    """Builds a wrong reading, or takes it as it was built before; the folder of its programs."""
    sources = [path.read_bytes() for path in sorted(SECOND.rglob("*.rs"))]
    digest = hashlib.sha256(b"\0".join([*sources, edit.text.encode()])).hexdigest()[:16]
    folder = target / f"{edit.name}-{digest}"
    if folder.exists():
        return folder
    # One folder for all copies, so that each build only does what is new.
    copy = target / "copy"
    shutil.rmtree(copy / "src", ignore_errors=True)
    shutil.copytree(SECOND, copy, ignore=shutil.ignore_patterns("target", "tests"), dirs_exist_ok=True)
    edit.apply(copy)
    for path in copy.rglob("*.rs"):
        path.touch()
    command = ["cargo", "build", "--offline", "--quiet", "--bins", "--target-dir", str(target / "built")]
    quick = {"CARGO_PROFILE_DEV_OPT_LEVEL": "1", "CARGO_PROFILE_DEV_DEBUG": "0", "RUSTFLAGS": "-Awarnings"}
    built = subprocess.run(command, cwd=copy, env={**os.environ, **quick}, capture_output=True, text=True)
    if built.returncode:
        sys.exit(f"{edit.name} does not build:\n{built.stderr}")
    folder.mkdir(parents=True)
    for program in PROGRAMS:
        shutil.copy(target / "built" / "debug" / program, folder)
    return folder


def programs(edit):
    """By which program each interface is asked that tries all of the group, or a case against this wrong reading."""
    cases = form.read(CONFORMANCE / "cases" / f"{edit.group}.txt")
    tries = {"calls": form.Case.by_calls, "hallroute": form.Case.by_hallroute}
    asked = [all(map(by, cases)) or any(by(case) and case.against == edit.what for case in cases) for by in tries.values()]
    return [(interface, program) for interface, program, ask in zip(tries, PROGRAMS, asked) if ask]


def fails_by_its_rule(edit, interface, program):
    """Whether a wrong reading fails and the rule that it breaks is named, for a wrong tie that alone."""
    command = [sys.executable, CONFORMANCE / "run.py", interface, build(edit) / program]
    held = subprocess.run(command, capture_output=True, text=True)
    lines = held.stdout.splitlines()
    broken = [edit.rule in line for line in lines if line.startswith("broken rule, ")]
    # The maker keeps no case about another rule that a wrong tie fails.
    named = any(broken) if edit.group != "ties" else all(broken)
    print(f"{edit.name}: {lines[-1]}{'' if named else ', and its rule is not named, or not alone'}", flush=True)
    return held.returncode == 1 and named


def main():
    edits = [edit for edit in all_edits() if not sys.argv[1:] or edit.name in sys.argv[1:]]
    tried = [(edit, *asked) for edit in edits for asked in programs(edit)]
    missed = [edit.name for edit, *asked in tried if not fails_by_its_rule(edit, *asked)]
    print(f"wrong readings tried: {len(edits)}; not failing by their rule: {', '.join(missed) or 'none'}")
    return 1 if missed or not edits else 0


if __name__ == "__main__":
    sys.exit(main())
