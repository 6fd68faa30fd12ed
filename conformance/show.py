"""Prints a case: its text, its floor as a drawing, and what a router is given for it."""
import itertools
import re
import textwrap

import asking
import program
from store import State, prepare

WIDTH = 100
# Signs for costs that have none of their own in a drawing.
LEGEND = "~abcdefhijklmnopqrstuvwxyz"
# So many equal bytes in a row are counted.
MANY = 8


def print_case(case):
    print("\n".join([case.text(), *drawing(case)]))
    if case.by_hallroute():
        data, owed = program.program_input(case)
        print(f"hallroute is given {len(data)} bytes\n{folded(counted(data.hex()))}\nand owes\n{folded(owed)}")
    for statement, line, _, _ in asking.calls_of(case) if case.by_calls() else []:
        print(f"calls are given for {folded(statement).strip()}\n{folded(counted(line))}")


def counted(line):
    """A line with bytes in hex; many equal ones in a row are `COUNT*BYTE`."""
    return re.sub(rf"\b(?:[0-9a-f]{{2}}){{{MANY},}}\b", lambda word: counted_bytes(bytes.fromhex(word[0])), line)


def counted_bytes(data):
    runs = [(byte, len(list(run))) for byte, run in itertools.groupby(data)]
    parts = [f" {count}*{byte:02x} " if count >= MANY else f"{byte:02x}" * count for byte, count in runs]
    return " ".join("".join(parts).split())


def folded(text):
    """Lines of a text, none too long to be read."""
    fold = textwrap.TextWrapper(WIDTH, initial_indent="  ", subsequent_indent="    ", break_on_hyphens=False)
    return "\n".join(part for line in text.splitlines() for part in fold.wrap(line))


def drawing(case):
    """The lines of the floor in the form that hallview reads, with the ends of the first route; none without a floor."""
    state = floor_of(case)
    if not state.base:
        return []
    signs = signs_of(state.base)
    cells = [signs[cost] for cost in state.base]
    mark_ends(case, state.base, cells)
    head = [f"scale {state.measures[2]}"] + [f"{sign} = {cost}" for cost, sign in signs.items() if sign in LEGEND]
    return [*head, *ruled(state.floor(), cells), ""]


def floor_of(case):
    """The state when the floor is drawn and nothing is built yet."""
    state = State()
    for line, _ in case.statements:
        if not prepare(state, line):
            break
    return state


def signs_of(base):
    """A sign for each cost: blocked, open at 1, at another cost of one digit, and others by a legend."""
    signs = {255: "#", 1: "."} | {cost: str(cost) for cost in (0, *range(2, 10))}
    return signs | dict(zip(sorted(set(base) - set(signs)), LEGEND))


def mark_ends(case, base, cells):
    """S and G, if they are two cells of cost 1."""
    routes = [line.split() for line, _ in case.statements if line.startswith("route ")]
    source, goal = (int(word) for word in routes[0][1:3]) if routes else (0, 0)
    if source != goal and max(source, goal) < len(base) and base[source] == base[goal] == 1:
        cells[source], cells[goal] = "S", "G"


def ruled(floor, cells):
    """The rows of a floor, with lines between sectors."""
    border = "+----------" * floor.columns + "+"
    lines = []
    for y in range(10 * floor.rows):
        tens = ["".join(cells[floor.number(x + i, y)] for i in range(10)) for x in range(0, 10 * floor.columns, 10)]
        lines += [border] * (y % 10 == 0) + [f"|{'|'.join(tens)}|"]
    return [*lines, border]
