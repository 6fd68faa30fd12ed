"""The text of conformance cases. README.md tells the forms.

A case is a list of statements; each statement that calls something has an answer, a list of lines.
"""
import pathlib
import re
import textwrap

FOLDER = pathlib.Path(__file__).resolve().parent / "cases"
# The longest line of a case, if its words allow it.
WIDTH = 120
# What a hall file and pairs can say; what build leaves in the store shows only in the routes.
IN_A_FILE = re.compile(r"(hall|blocked|cost|aisle) .*|build|built|route \d+ \d+")


class Case:
    """A case as it stands in a file."""

    def __init__(self, group, name):
        self.group, self.name = group, name
        self.rule, self.against = "", ""
        self.statements = []  # pairs of a line and its answer

    def by_hallroute(self):
        """Whether a program like hallroute can be asked."""
        words = {line.split()[0] for line, _ in self.statements}
        return "input" in words or "route" in words and all(IN_A_FILE.fullmatch(line) for line, _ in self.statements)

    def by_calls(self):
        return self.group != "program"

    def text(self):
        lines = [f"case {self.name}"]
        for line, answer in self.statements:
            lines += wrapped(line)
            lines += [text for part in answer for text in wrapped(f"= {part}")]
        return "\n".join(lines) + "\n"


def wrapped(line):
    """A line, or what does not fit into it on further ones that begin with a plus."""
    return textwrap.wrap(line, WIDTH, subsequent_indent="+ ", break_long_words=False, break_on_hyphens=False)


def unwrapped(lines):
    whole = []
    for line in lines:
        if line.startswith("+ "):
            whole[-1] += line[1:]
        else:
            whole.append(line)
    return whole


def groups():
    return sorted(path.stem for path in FOLDER.glob("*.txt"))


def all_cases(group=None):
    return [case for name in groups() if group in (None, name) for case in read(FOLDER / f"{name}.txt")]


def read(path):
    """The cases of a file."""
    cases, rule, against = [], "", ""
    for line in unwrapped(path.read_text(encoding="utf-8").splitlines()):
        word, _, rest = line.partition(" ")
        if not line or word == "#":
            continue
        if word == "rule":
            rule, against = rest, ""
        elif word == "against":
            against = rest
        elif word == "case":
            cases.append(Case(path.stem, rest))
            cases[-1].rule, cases[-1].against = rule, against
        elif word == "=":
            cases[-1].statements[-1][1].append(rest)
        else:
            cases[-1].statements.append((line, []))
    return cases


def written(cases):
    """The text of cases; a rule, and what a case is against, hold for those that follow."""
    parts, before = [], ("", "")
    for case in cases:
        here, text = (case.rule, case.against), ""
        if here[0] != before[0] or before[1] and not here[1]:
            text += f"rule {case.rule}\n"
            before = (case.rule, "")
        if here[1] != before[1]:
            text += f"against {case.against}\n"
        parts.append(f"{text}\n{case.text()}" if text else case.text())
        before = here
    return "\n".join(parts)


def numbers(words):
    """Numbers and ranges: 3 5-7 is 3, 5, 6, 7."""
    found = []
    for word in words:
        first, _, last = word.partition("-")
        found += range(int(first), int(last or first) + 1)
    return found


def ranges(found):
    """The same the other way round."""
    words = []
    for number in sorted(found):
        if words and words[-1][1] == number - 1:
            words[-1][1] = number
        else:
            words.append([number, number])
    return " ".join(str(a) if a == b else f"{a}-{b}" for a, b in words)
