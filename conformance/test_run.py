#!/usr/bin/env python3
"""Tries run.py with programs that do not start, crash, hang, and answer wrong or right; holds the cases to README.md's
counts, and to hallroute's telling every wrong reading of scaling."""
import contextlib
import io
import os
import pathlib
import re
import subprocess
import sys
import unittest

import asking
import calls
import form
import program
import report
import router
import run
import show
import store

FOLDER = pathlib.Path(__file__).resolve().parent
# Answers each input of hallroute with the text that is owed for it.
RIGHT = f"""
import sys
sys.path.insert(0, {str(FOLDER)!r})
import form, program
owed = dict(program.program_input(case) for case in form.all_cases("refusals") if case.by_hallroute())
text = owed[sys.stdin.buffer.read()]
"""
# A case with one call, whose owed line is that of the protocol.
PLAN = form.all_cases("plans")[0]
PLANNED = PLAN.statements[0][1][0]
PRINT = "print(text, end='')\n"
PRINT_FOR_WINDOWS = "sys.stdout.reconfigure(newline='\\r\\n')\n" + PRINT


def held(*words, encoding="utf-8"):
    """Status and text of a run of run.py."""
    ended = subprocess.run([sys.executable, FOLDER / "run.py", *words], capture_output=True, text=True, encoding=encoding,
                           env=os.environ | {"PYTHONIOENCODING": encoding})
    return ended.returncode, ended.stdout + ended.stderr


def python(text):
    return [sys.executable, "-c", text]


def routes(cases):
    return sum(line.startswith("route") for case in cases for line, _ in case.statements)


def a_case(*statements):
    case = form.Case("trial", "trial-01")
    case.statements = [(line, []) for line in statements]
    return case


class Programs(unittest.TestCase):
    def test_right_answers_pass(self):
        status, text = held("hallroute", "--group", "refusals", *python(RIGHT + PRINT))
        self.assertEqual(status, 0)
        self.assertTrue(text.endswith(" cases, 0 fail\n"), text)
        self.assertIsNone(asking.fails_calls(PLAN, python(f"print({PLANNED!r})")))

    def test_a_plain_output_is_enough(self):
        status, text = held("calls", "--group", "files", *python("print('no')"), encoding="ascii")
        self.assertEqual(status, 1)
        self.assertIn("14 length not 5 + 3 ? count", text)

    def test_a_wrong_answer_names_its_rule(self):
        status, text = held("hallroute", "--group", "limits", *python("print('0 9999 none')"))
        case = next(case for case in form.all_cases("limits") if case.by_hallroute())
        self.assertEqual(status, 1)
        self.assertIn(f"{case.name} fails. The rule: {case.rule}\n", text)
        self.assertIn("given  0 9999 none\n", text)
        self.assertRegex(text, rf"\nbroken rule, \d+ of its \d+ cases: {re.escape(case.rule)}\n")

    def test_a_program_that_cannot_be_started(self):
        for interface in ("hallroute", "calls"):
            status, text = held(interface, "./no-such-program", "word")
            self.assertEqual((status, text), (1, "./no-such-program word cannot be started: No such file or directory\n"))

    def test_a_crash(self):
        crash = python("import sys; print('first', file=sys.stderr); sys.exit('the last line')")
        for interface in ("hallroute", "calls"):
            status, text = held(interface, "--group", "limits", *crash)
            self.assertEqual(status, 1)
            self.assertIn("given  the program ended with status 1: the last line\n", text)

    def test_a_crash_where_no_line_is_owed(self):
        silent = next(case for case in form.all_cases("program") if not program.program_input(case)[1])
        self.assertIsNone(asking.fails_hallroute(silent, python("")))
        self.assertIsNotNone(asking.fails_hallroute(silent, python("raise SystemExit(3)")))

    def test_a_crash_after_an_answer(self):
        case = next(case for case in form.all_cases("windows") if len(asking.calls_of(case)) > 1)
        (_, _, state, owed), (second, *_) = asking.calls_of(case)[:2]
        store = calls.built_store(calls.lent_to_build(state, []), owed)
        failure = asking.fails_calls(case, python(f"print('0 {store.hex()}'); raise SystemExit(3)"))
        self.assertEqual((failure.asked, failure.given), (second, ["the program ended with status 3"]))

    def test_a_bad_status_after_every_answer(self):
        given = "the answers, but the program ended with status 3"
        status, text = held("hallroute", "--group", "refusals", *python(RIGHT + PRINT + "sys.exit(3)"))
        self.assertEqual(status, 1)
        self.assertIn(f"given  {given}\n", text)
        self.assertEqual(asking.fails_calls(PLAN, python(f"print({PLANNED!r}); raise SystemExit(3)")).given, [given])


class Hanging(unittest.TestCase):
    def setUp(self):
        self.addCleanup(setattr, router, "SECONDS", router.SECONDS)

    def test_what_was_printed_is_kept(self):
        router.SECONDS = 1
        ended = router.run(python("import time; print('so far', flush=True); time.sleep(60)"), b"")
        self.assertEqual(ended, ("so far\n", "the program did not end within 1 seconds", True))

    def test_what_it_started_is_ended_too(self):
        router.SECONDS = 1
        late = "import subprocess, sys; subprocess.run([sys.executable, '-c', 'import time; time.sleep(4); print(5)'])"
        self.assertEqual(router.run(python(late), b"").printed, "")

    def test_the_first_few_are_enough(self):
        router.SECONDS = 0.1
        with contextlib.redirect_stdout(io.StringIO()) as text:
            status = run.hold("calls", python("import time; time.sleep(60)"), None)
        last = text.getvalue().splitlines()[-1]
        most = run.MOST_HUNG + (os.cpu_count() or 1) - 1
        self.assertEqual(status, 1)
        self.assertRegex(last, r"^calls: \d+ cases, \d+ fail; stopped after \d+, because \d+ times the program did not end within 0.1 seconds$")
        self.assertLessEqual(int(last.split("stopped after ")[1].split(",")[0]), most)


class Lines(unittest.TestCase):
    def test_a_carriage_return_is_told(self):
        status, text = held("hallroute", "--group", "refusals", *python(RIGHT + PRINT_FOR_WINDOWS))
        self.assertEqual(status, 1)
        self.assertIn("\\r, and the line ends in a carriage return\n", text)

    def test_calls_may_end_lines_in_a_carriage_return(self):
        self.assertIsNone(asking.fails_calls(PLAN, python(f"print({PLANNED!r}, end='\\r\\n')")))

    def test_what_cannot_be_seen_is_told(self):
        self.assertEqual(asking.shown("0 5 none\n"), "0 5 none")
        self.assertEqual(asking.shown("0 5 none \n"), "0 5 none , and the line ends in a blank")
        self.assertEqual(asking.shown("0 5 none"), "0 5 none, and the line has no line feed")
        self.assertEqual(asking.shown("0\t5 \x1b[31mnone\n"), "0\\t5 \\x1b[31mnone")

    def test_a_line_too_few_or_too_many(self):
        case = next(case for case in form.all_cases("limits") if case.by_hallroute())
        owed = program.program_input(case)[1]
        fewer = asking.fails_hallroute(case, python(f"print({owed.splitlines()[0]!r})"))
        more = asking.fails_hallroute(case, python(f"print({owed + 'more'!r})"))
        self.assertEqual((fewer.owed, fewer.given), (owed.splitlines()[1:2], ["no further line"]))
        self.assertEqual((more.owed, more.given), (["no further line"], ["more"]))

    def test_long_lines_are_shown_where_they_differ(self):
        for length in (0, 200, 5000):
            owed, given = report.differing("7" * length + "5" + "6" * 900, "7" * length + "9" + "6" * 900)
            self.assertIn("75" if length else "5", owed)
            self.assertIn("79" if length else "9", given)
            self.assertLess(max(len(owed), len(given)), report.SHOWN + 3)


class Rules(unittest.TestCase):
    """Three cases about one rule and one about another, of which one and the other fail."""

    def setUp(self):
        self.cases = [a_case() for _ in range(5)]
        for case, name, rule in zip(self.cases, "12345", ["11 first by the alphabet", *["the tie"] * 3, "never broken"]):
            case.name, case.rule = name, rule
        failure = asking.Failure("route 0 5", ["2 13 5 0,0:49E9-99 1,0:0-"], ["none"], False)
        self.asked = [(case, failure if case.name in "124" else None) for case in self.cases]
        self.failed = [(case, failure) for case, failure in self.asked if failure]

    def test_the_rule_that_most_share_comes_first(self):
        with contextlib.redirect_stdout(io.StringIO()) as text:
            report.print_rules(self.asked, self.failed)
        first, second = text.getvalue().splitlines()
        self.assertEqual(first, "broken rule, 2 of its 3 cases: the tie")
        self.assertEqual(second, "broken rule, 1 of its 1 cases: 11 first by the alphabet")
        self.assertEqual([case.name for case, _ in report.rule_by_rule(self.failed)], ["2", "4", "1"])

    def test_the_number_that_differs_is_told(self):
        owed = "2 13 5 0,0:49E9-99 1,0:0-"
        given = {"2 12 5 0,0:49E9-99 1,0:0-": "leg", "2 13 6 0,0:49E9-99 1,0:0-": "run", "2 12 6 0,0:49E9-99 1,0:0-": None,
                 "2 12 5 0,0:49E9-99 1,0:1-": None, "none": None, "no 25": None, "": None}
        for pair in ("", "0 100 "):
            for text, number in given.items():
                failure = asking.Failure("route 0 100", [pair + owed], [text and pair + text], False)
                self.assertEqual(report.differing_alone(failure), number, text)
        self.assertIsNone(report.differing_alone(asking.Failure("plan", ["0 2 1 1"], ["0 2 2 1"], False)))


class Show(unittest.TestCase):
    def test_no_line_is_long(self):
        for case in ("limits-10", "scaling-01", "program-01"):
            status, text = held("show", case)
            self.assertEqual(status, 0)
            self.assertLessEqual(max(map(len, text.splitlines())), max(show.WIDTH, form.WIDTH), case)

    def test_equal_bytes_are_counted(self):
        for line, told in (("0a" * 8, "8*0a"), ("0a" * 7, "0a" * 7), (f"file 03{'00' * 9}ff0102 -", "file 03 9*00 ff0102 -")):
            self.assertEqual(show.counted(line), told)

    def test_every_floor_can_be_drawn(self):
        for case in form.all_cases():
            lines = show.drawing(case)
            self.assertEqual(bool(lines), any(line.startswith("hall ") for line, _ in case.statements), case.name)

    def test_whoever_reads_may_stop(self):
        reader, writer = os.pipe()
        os.close(reader)
        ended = subprocess.run([sys.executable, FOLDER / "run.py", "show", "plans-01"], stdout=writer, stderr=subprocess.PIPE)
        os.close(writer)
        self.assertEqual((ended.returncode, ended.stderr), (1, b""))

    def test_the_floor_is_drawn(self):
        case = a_case("hall 1 2 3", "blocked 1 110-119", "cost 0 2", "cost 7 3", "cost 40 4", "built", "route 0 199", "route 5 5")
        rows = ["S#07~....."] + [".........."] * 10 + ["##########"] + [".........."] * 7 + [".........G"]
        border = "+----------+"
        lines = ["scale 3", "~ = 40", border, *(f"|{row}|" for row in rows[:10]), border, *(f"|{row}|" for row in rows[10:]), border]
        self.assertEqual(show.drawing(case), [*lines, ""])

    def test_ends_that_are_no_two_open_cells_are_not_drawn(self):
        for route in ("route 5 5", "route 1 5", "route 5 100"):
            lines = show.drawing(a_case("hall 1 1 1", "blocked 1", "built", route))
            self.assertFalse(set("SG") & set("".join(lines)), route)

    def test_no_floor_no_drawing(self):
        self.assertEqual(show.drawing(a_case("input 0201010000")), [])

    def test_send_writes_what_is_given(self):
        case = next(case for case in form.all_cases("limits") if case.by_hallroute())
        for way, given in (("hallroute", program.program_input(case)[0]), ("calls", "\n".join(line for _, line, _, _ in asking.calls_of(case)).encode() + b"\n")):
            sent = subprocess.run([sys.executable, FOLDER / "run.py", "send", way, case.name], capture_output=True)
            self.assertEqual((sent.returncode, sent.stdout), (0, given))

    def test_what_cannot_be_sent(self):
        self.assertEqual(held("send", "hallroute", "plans-01"), (1, "plans-01 cannot be asked by hallroute\n"))
        self.assertEqual(held("send", "calls", "plans-999"), (1, "no case plans-999\n"))


class Texts(unittest.TestCase):
    def test_long_lines_go_on_after_a_plus(self):
        long = "blocked " + " ".join(map(str, range(0, 999, 2)))
        lines = form.wrapped(long)
        self.assertGreater(len(lines), 2)
        self.assertLessEqual(max(map(len, lines)), form.WIDTH)
        self.assertEqual(form.unwrapped([*lines, "built"]), [long, "built"])

    def test_entries_and_zeros_stand_behind_a_head(self):
        data = calls.data_of("020101 cells 9 5-6 cost 40 zeros 2".split())
        self.assertEqual(data.hex(" ", -5), "0201010300 0900050006 0028282800 00")

    def test_a_long_file_is_told_by_its_cells(self):
        for words in ("010101 cells 3 5-50 cost 40", "0a0a01 cells 0-9999 cost 255"):
            self.assertEqual(calls.file_text(calls.data_of(words.split())), words)
        for words in ("010101 cells 3 5 cost 40", "010101 cells 50 0-49 cost 40", "010101 cells 0-50 cost 40 zeros 1"):
            data = calls.data_of(words.split())
            self.assertEqual(calls.file_text(data), data.hex())
        other = calls.data_of("010101 cells 0-50 cost 40".split())[:-1] + b"\x29"
        self.assertEqual(calls.file_text(other), other.hex())

    def test_what_is_written_behind_a_file_is_told(self):
        for room, answer, told in ((7, "0 5 0101010000a5a5", ["0 5", "file 0101010000"]), (4, "29 0 a5a5a5a5", ["29 0"])):
            line = f"write room {room}"
            self.assertEqual(calls.told(None, line, answer), told)
            self.assertEqual(calls.told(None, line, answer[:-2] + "00")[1][:21], "the output is altered")
            self.assertEqual(calls.told(None, line, answer + "a5")[1][:21], "the output is altered")

    def test_no_two_cases_are_equal(self):
        asked = [[line for line, _ in case.statements] for case in form.all_cases()]
        self.assertEqual([statements for at, statements in enumerate(asked) if statements in asked[:at]], [])

    def test_an_aisle_is_open(self):
        state = store.State()
        for line in ("hall 2 1 1", "blocked 0-199", "aisle 8,1 2(E1 S2) W1 N1"):
            self.assertTrue(store.prepare(state, line))
        opened = [number for number, cost in enumerate(state.base) if cost == 1]
        self.assertEqual(opened, [18, 19, 29, 39, 49, 59, 130, 140, 150])

    def test_an_aisle_stays_on_the_floor(self):
        for aisle in ("8,1 E12", "0,0 W1", "0,0 N1", "0,9 S1"):
            state = store.State()
            store.prepare(state, "hall 2 1 1")
            with self.assertRaises(ValueError, msg=aisle):
                store.prepare(state, f"aisle {aisle}")


class Groups(unittest.TestCase):
    def test_an_unknown_group(self):
        status, text = held("hallroute", "--group", "nosuch", "true")
        self.assertEqual((status, text), (2, f"no group nosuch; the groups are {', '.join(form.groups())}\n"))

    def test_no_name_of_a_group(self):
        self.assertEqual(held("hallroute", "--group"), (2, run.__doc__ + "\n"))

    def test_a_group_of_which_nothing_can_be_tried(self):
        status, text = held("hallroute", "--group", "plans", "true")
        self.assertEqual((status, text), (1, "hallroute: 0 cases; none of plans can be asked in this way\n"))


class Scaling(unittest.TestCase):
    def test_each_wrong_reading_can_be_told_by_hallroute(self):
        cases = [case for case in form.all_cases("scaling") if case.against]
        by_hallroute = {case.against for case in cases if case.by_hallroute()}
        self.assertEqual(by_hallroute, {case.against for case in cases})


class Readme(unittest.TestCase):
    def setUp(self):
        self.cases = form.all_cases()
        self.text = (FOLDER / "README.md").read_text(encoding="utf-8")

    def test_the_counts(self):
        by_hallroute = [case for case in self.cases if case.by_hallroute()]
        self.assertIn(f"{len(by_hallroute)} of the {len(self.cases)} cases, with {routes(by_hallroute)} of the {routes(self.cases)} routes", self.text)
        by_calls = [case for case in self.cases if case.by_calls()]
        self.assertIn(f"{len(by_calls)} cases, with {routes(by_calls)} routes", self.text)

    def test_the_examples(self):
        owed = {case.name: case.statements[-1][1][0] for case in self.cases if case.statements[-1][1]}
        self.assertIn(f"owed   {owed['ties-02']}\n", self.text)
        self.assertIn(f"    {owed['corner_gates-23']}\n", self.text)
        windows = next(case for case in self.cases if case.name == "windows-01")
        self.assertIn("".join(f"    {line}\n" for line in windows.text().splitlines()), self.text)

    def test_the_longest_routes(self):
        for by in (form.Case.by_hallroute, form.Case.by_calls):
            answers = [answer[0] for case in self.cases if by(case) for line, answer in case.statements if line.startswith("route")]
            numbers = [[int(word) for word in answer.split()[:3]] for answer in answers if answer[0].isdigit()]
            steps, leg, run = map(max, zip(*numbers))
            self.assertIn(f"up to {steps} steps, legs up to {leg}, runs up to {run:,}", self.text)


if __name__ == "__main__":
    unittest.main()
