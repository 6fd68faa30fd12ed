#!/usr/bin/env python3
"""Holds a router against the conformance cases.

    python3 conformance/run.py hallroute COMMAND...       a program like hallroute: standard input to standard output
    python3 conformance/run.py calls COMMAND...           a program that answers calls, a line for each line
    python3 conformance/run.py show CASE                  a case, its floor, what a router is given and what it owes
    python3 conformance/run.py send hallroute|calls CASE  what a router is given, and nothing else

`--group NAME` in front of COMMAND takes the cases of one file. Each case that fails is printed with the rule of
document 01 or 02 that it is about, those of the rule that most of them share first. The status is 0 if some were tried
and none fails. README.md has the forms of cases and lines.
"""
import concurrent.futures
import os
import pathlib
import sys

sys.path.insert(0, str(pathlib.Path(__file__).resolve().parent))
import asking
import form
import program
import report
import router
import show

# After so many cases in which the program had to be ended, no further one is asked.
MOST_HUNG = 3
WAYS = {
    "hallroute": (form.Case.by_hallroute, asking.fails_hallroute),
    "calls": (form.Case.by_calls, asking.fails_calls),
}


def ask_all(cases, fails, command):
    """The cases that were asked, each with its failure or none."""
    hung = []

    def ask(case):
        if len(hung) >= MOST_HUNG:
            return None
        failure = fails(case, command)
        if failure and failure.hung:
            hung.append(case)
        return case, failure

    with concurrent.futures.ThreadPoolExecutor(os.cpu_count() or 1) as pool:
        return [asked for asked in pool.map(ask, cases) if asked]


def hold(way, command, group):
    can_be_asked, fails = WAYS[way]
    wanted = [case for case in form.all_cases(group) if can_be_asked(case)]
    if not wanted:
        print(f"{way}: 0 cases; none of {group or 'the groups'} can be asked in this way")
        return 1
    asked = ask_all(wanted, fails, command)
    failed = [(case, failure) for case, failure in asked if failure]
    for case, failure in report.rule_by_rule(failed):
        report.print_failure(case, failure)
    print()
    report.print_groups(asked)
    report.print_rules(asked, failed)
    print(f"{way}: {len(wanted)} cases, {len(failed)} fail{stopped(asked, wanted)}")
    return 1 if failed else 0


def stopped(asked, wanted):
    """Told of a program that has to be ended again and again."""
    if len(asked) == len(wanted):
        return ""
    hung = sum(failure is not None and failure.hung for _, failure in asked)
    return f"; stopped after {len(asked)}, because {hung} times the program did not end within {router.SECONDS} seconds"


def send(case, way):
    """Writes what a router is given."""
    if not WAYS[way][0](case):
        print(f"{case.name} cannot be asked by {way}")
        return 1
    lines = "".join(line + "\n" for _, line, _, _ in asking.calls_of(case)) if way == "calls" else ""
    sys.stdout.buffer.write(lines.encode() or program.program_input(case)[0])
    return 0


def of_one_case(words):
    """`show CASE` and `send WAY CASE`."""
    case = next((case for case in form.all_cases() if case.name == words[-1]), None)
    if case is None:
        print(f"no case {words[-1]}")
        return 1
    if words[0] == "send":
        return send(case, words[1])
    show.print_case(case)
    return 0


def main():
    # Rules have signs, as ×, that not every output can print.
    sys.stdout.reconfigure(errors="replace")
    words, group = sys.argv[1:], None
    if "--group" in words[:2]:
        at = words.index("--group")
        group = next(iter(words[at + 1:]), None)
        del words[at:at + 2]
    if group not in (None, *form.groups()):
        print(f"no group {group}; the groups are {', '.join(form.groups())}")
        return 2
    if words[:1] == ["show"] and len(words) == 2 or words[:1] == ["send"] and len(words) == 3 and words[1] in WAYS:
        return of_one_case(words)
    if len(words) >= 2 and words[0] in WAYS:
        return hold(words[0], words[1:], group)
    print(__doc__)
    return 2


if __name__ == "__main__":
    try:
        status = main()
        sys.stdout.flush()
        sys.exit(status)
    except BrokenPipeError:
        # Whoever reads has seen enough; what is still held back goes nowhere.
        os.dup2(os.open(os.devnull, os.O_WRONLY), sys.stdout.fileno())
        sys.exit(1)
