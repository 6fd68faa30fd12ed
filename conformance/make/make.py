#!/usr/bin/env python3
"""Makes the conformance cases, ../cases/*.txt, from seeds.

Owed answers are those of the Rust of docs/src (compare answer --router rust). Drawn cases are kept because a wrong
reading (wrong/*.edit) answers them otherwise: for each wrong reading the shortest of those drawn, and for one of scaling
also the shortest whose routes a program like hallroute prints otherwise. Listed cases come from listed.py. No case about
another rule is one that a wrong tie answers otherwise. The status is not 0 if a wrong reading passes all cases of its
group, or two cases are equal.

    python3 conformance/make/make.py [FOLDER]     writes into FOLDER, or over ../cases
"""
import itertools
import pathlib
import subprocess
import sys

sys.path.insert(0, str(pathlib.Path(__file__).resolve().parent.parent))
import asking
import calls
import form
import drawn
import listed
import router
import rules
import store
import wrong

COMPARE = wrong.TOP / "oracle" / "target" / "release" / "compare"
# The words of documents 01 and 02.
WORDS = "\n".join((wrong.TOP / "docs" / name).read_text(encoding="utf-8") for name in ("01-scope.md", "02-change-requests.md")).replace("**", "")


class Router:
    """A program that answers calls, kept running."""

    def __init__(self, command):
        self.process = subprocess.Popen(command, stdin=subprocess.PIPE, stdout=subprocess.PIPE, text=True)

    def ask(self, line):
        self.process.stdin.write(line + "\n")
        self.process.stdin.flush()
        return self.process.stdout.readline().rstrip("\n")


def answered(group, name, statements, rust):
    """A case with the Rust's answers, and the lines that it asks with the answers to them."""
    case, state, asked = form.Case(group, name), store.State(), []
    for line in statements:
        answer = []
        if line.startswith("input"):
            answer = program_answer(line)
        elif not store.prepare(state, line):
            asked.append((calls.call(state, line), rust.ask(calls.call(state, line))))
            answer = calls.told(state, line, asked[-1][1])
            calls.follow(state, line, answer)
        case.statements.append((line, answer))
    return case, asked


def program_answer(line):
    """What the Rust prints for an input; equal lines in a row are counted."""
    data = calls.data_of(line.split()[1:])
    printed = subprocess.run([COMPARE, "hallroute", "--router", "rust"], input=data, stdout=subprocess.PIPE, check=True).stdout
    lines = []
    for text in printed.decode().splitlines():
        if lines and lines[-1][1] == text:
            lines[-1][0] += 1
        else:
            lines.append([1, text])
    return [text if count == 1 else f"{count} times {text}" for count, text in lines]


def answers_of(program, lines):
    """The answers of a wrong reading. A line at which it stops is answered by nothing."""
    answers = []
    while len(answers) < len(lines):
        rest = lines[len(answers):]
        ended = router.run([program], "".join(line + "\n" for line in rest).encode())
        answers += ended.printed.splitlines()[:len(rest)]
        if len(answers) < len(lines):
            answers.append("")
    return answers


def telling(edit, pool):
    """The cases of a pool that a wrong reading answers otherwise, the shortest first."""
    program = wrong.build(edit) / "hallcalls"
    asked = [pair for _, pairs in pool for pair in pairs]
    answers = answers_of(program, [line for line, _ in asked])
    found, at = [], 0
    for case, pairs in pool:
        given = answers[at:at + len(pairs)]
        at += len(pairs)
        # A store that is only told is not asked for.
        words = [line.split()[0] for line, _ in case.statements if line.split()[0] in calls.TELL]
        if any(a != owed for (_, owed), a, word in zip(pairs, given, words) if word != "built"):
            found.append(case)
    return sorted(found, key=lambda case: len(case.text()))


def telling_by_route(edit, pool):
    """The same, but only cases whose lines a program like hallroute prints otherwise."""
    # A call of route is lent the store that is owed: of the calls only the first, build, can tell a wrong scaling.
    built = [(case, pairs[:1]) for case, pairs in pool]
    program = wrong.build(edit) / "hallroute"
    return (case for case in telling(edit, built) if asking.fails_hallroute(case, [program]))


def tied(pool):
    """The cases of a pool that a wrong tie answers otherwise."""
    return {id(case) for edit in wrong.all_edits() if edit.group == "ties" for case in telling(edit, pool)}


def drawn_cases(group, edits, rust):
    """For each wrong reading of a group, the shortest of the drawn cases that tell it."""
    cases = []
    if group in drawn.POOLS:
        cases += kept(drawn.POOLS[group](), telling, drawn.KEPT.get(group, drawn.USUALLY_KEPT), group, edits, rust)
    if group in drawn.ROUTE_POOLS:
        cases += kept(drawn.ROUTE_POOLS[group](), telling_by_route, drawn.ROUTES_KEPT, group, edits, rust)
    return cases


def kept(drawn_statements, tells, most, group, edits, rust):
    """For each wrong reading, the first cases of a pool that tell it and are kept for no other."""
    pool = [answered(group, "", statements, rust) for statements in drawn_statements]
    cases, texts, ties = [], set(), tied(pool)
    for edit in edits:
        untied = (case for case in tells(edit, pool) if edit.rule == rules.TIES or id(case) not in ties)
        fresh = (case for case in untied if case.text() not in texts)
        for case in itertools.islice(fresh, most):
            texts.add(case.text())
            case.rule, case.against = edit.rule, edit.what
            cases.append(case)
    return cases


def listed_cases(group, rust):
    pool = []
    for rule, statements in listed.GROUPS[group]():
        pool.append(answered(group, "", statements, rust))
        pool[-1][0].rule = rule
    ties = tied(pool)
    for case, _ in pool:
        if id(case) in ties and case.rule != rules.TIES:
            sys.exit(f"a tie decides, which is another rule than that of\n{case.rule}\n{case.text()}")
    return [case for case, _ in pool]


def caught(edit, cases):
    """How many cases a wrong reading fails."""
    folder = wrong.build(edit)
    by_calls = [asking.fails_calls(case, [folder / "hallcalls"]) for case in cases if case.by_calls()]
    by_program = [asking.fails_hallroute(case, [folder / "hallroute"]) for case in cases if not case.by_calls()]
    return sum(failure is not None for failure in by_calls + by_program)


def asked_by(case):
    """What a case asks, without remarks."""
    return tuple(line.partition(" # ")[0] for line, _ in case.statements)


def name(group, cases, known):
    """Names the cases of a group; `known` has what the cases named before ask."""
    for at, case in enumerate(cases, 1):
        case.name = f"{group}-{at:02}"
        if case.rule not in WORDS:
            sys.exit(f"{case.name}: no sentence of document 01 or 02: {case.rule}")
        equal = known.setdefault(asked_by(case), case.name)
        if equal != case.name:
            sys.exit(f"{case.name} asks the same as {equal}")


def write(group, cases, folder):
    text = f"# {drawn.ABOUT[group]}\n\n{form.written(cases)}"
    (folder / f"{group}.txt").write_text(text, encoding="utf-8")


def main():
    folder = pathlib.Path(sys.argv[1] if len(sys.argv) > 1 else form.FOLDER)
    folder.mkdir(parents=True, exist_ok=True)
    rust = Router([COMPARE, "answer", "--router", "rust"])
    missed, total, known = [], 0, {}
    for group in drawn.ABOUT:
        edits = [edit for edit in wrong.all_edits() if edit.group == group]
        cases = listed_cases(group, rust) if group in listed.GROUPS else []
        cases += drawn_cases(group, edits, rust)
        name(group, cases, known)
        counts = {edit.name: caught(edit, cases) for edit in edits}
        missed += [name for name, count in counts.items() if not count]
        write(group, cases, folder)
        total += len(cases)
        least = min(counts, key=counts.get)
        print(f"{group}: {len(cases)} cases, {len(edits)} wrong readings; {least} fails {counts[least]}", flush=True)
    print(f"{total} cases; wrong readings that no case of their group catches: {', '.join(missed) or 'none'}")
    return 1 if missed else 0


if __name__ == "__main__":
    sys.exit(main())
