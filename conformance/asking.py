"""Asks a router a case, and tells the first answer that is other than owed."""
import itertools
import re
import typing

import calls
import program
import router
from store import State, prepare


class Failure(typing.NamedTuple):
    """What was asked, owed and given, and whether the program had to be ended."""

    asked: str
    owed: list
    given: list
    hung: bool


def calls_of(case):
    """Each call of a case: what is asked, its line, the state it is asked in, and the answer owed."""
    state, found = State(), []
    for line, owed in case.statements:
        if prepare(state, line):
            continue
        if line != "built":
            found.append((line, calls.call(state, line), state_copy(state), owed))
        calls.follow(state, line, owed)
    return found


def state_copy(state):
    copy = State()
    copy.measures, copy.base, copy.store = state.measures, state.base[:], state.store and state.store[:]
    return copy


def fails_calls(case, command):
    """The first call that is answered otherwise."""
    asked = calls_of(case)
    ended = router.run(command, "".join(line + "\n" for _, line, _, _ in asked).encode())
    answers = ended.printed.splitlines()[:len(asked)]
    for (statement, _, state, owed), answer in itertools.zip_longest(asked, answers):
        given = [ended.badly or "no answer"] if answer is None else calls.told(state, statement, answer)
        if given != owed:
            return Failure(statement, owed, given, ended.hung)
    return fails_at_the_end(asked[-1][0], ended)


def fails_hallroute(case, command):
    """The first line that is printed otherwise."""
    data, owed = program.program_input(case)
    ended = router.run(command, data)
    asked = [line for line, _ in case.statements if line.split()[0] in ("route", "input")]
    if ended.printed == owed:
        return fails_at_the_end(asked[-1], ended)
    pairs = itertools.zip_longest(lines_of(owed), lines_of(ended.printed))
    at, (owed, given) = next((at, pair) for at, pair in enumerate(pairs) if pair[0] != pair[1])
    given = ended.badly or "no further line" if given is None else shown(given)
    return Failure(asked[min(at, len(asked) - 1)], ["no further line" if owed is None else shown(owed)], [given], ended.hung)


def fails_at_the_end(asked, ended):
    """Right answers are not enough: the program has to end, and well."""
    return Failure(asked, ["the answers, and status 0"], ["the answers, but " + ended.badly], ended.hung) if ended.badly else None


def lines_of(text):
    """Lines, each with its line feed."""
    return re.findall("[^\n]*\n|[^\n]+", text)


def shown(line):
    """A line in signs that can be seen; how it ends is told if that cannot."""
    text = line.removesuffix("\n")
    visible = "".join(sign if sign.isprintable() else repr(sign)[1:-1] for sign in text)
    ends = {
        "the line ends in a carriage return": text.endswith("\r"),
        "the line ends in a blank": text.endswith(" "),
        "the line has no line feed": text == line,
    }
    return ", and ".join([visible, *(what for what, so in ends.items() if so)])
