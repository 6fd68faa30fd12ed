"""What a program like hallroute is given for a case, and the text that it owes."""
import re

from calls import data_of, entries
from store import State, prepare


def hall_file(state):
    """The hall file of the present measures and base costs."""
    return bytearray(state.measures) + entries([(number, cost) for number, cost in enumerate(state.base) if cost != 1])


def program_input(case):
    """What a program like hallroute is given, and the text that it owes."""
    state, data, owed = State(), None, []
    for line, answer in case.statements:
        word, *words = line.split()
        if word == "input":
            data = data_of(words)
            owed += [text for part in answer for text in repeated(part)]
        elif not prepare(state, line) and word == "route":
            data = hall_file(state) if data is None else data
            data += b"".join(int(word).to_bytes(2, "little") for word in words[:2])
            owed += [f"{words[0]} {words[1]} {part}" for part in answer]
    return bytes(data), "".join(f"{line}\n" for line in owed)


def repeated(part):
    """A line, or `N times LINE`."""
    many = re.match(r"(\d+) times (.*)", part)
    return [many[2]] * int(many[1]) if many else [part]
