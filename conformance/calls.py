"""The calls of a case: the line that asks for each, what an answer says, and the store that it leaves.

The present store of a case follows the owed answers, so each call stands alone.
"""
from form import numbers, ranges
from store import LETTERS, OLD, State

MOST_STEPS = 1001
# The longest file that an answer has in hex, if its entries can be told by their cells.
IN_HEX = 40


def to_hex(data):
    return bytes(data).hex() or "-"


def from_hex(text):
    return bytearray() if text == "-" else bytearray.fromhex(text)


def entries(named):
    """What a hall file has behind its scale: count, floor numbers, costs."""
    two_bytes = [number.to_bytes(2, "little") for number in (len(named), *(cell for cell, _ in named))]
    return b"".join(two_bytes) + bytes(cost for _, cost in named)


def file_of(measures, named):
    """A hall file, in hex."""
    return (bytes(measures) + entries(named)).hex()


def data_of(words):
    """Bytes in hex, and behind them entries for some cells at one cost, and zeros."""
    data = from_hex(words[0])
    if "cells" in words:
        at = words.index("cost")
        data += entries([(cell, int(words[at + 1])) for cell in numbers(words[2:at])])
    if "zeros" in words:
        data += bytes(int(words[words.index("zeros") + 1]))
    return data


def call(state, line):
    """The line of the protocol that makes a call."""
    word, *words = line.split()
    if word == "plan":
        return " ".join([word, *words[:4]])
    if word == "file":
        length = int(words[words.index("list") + 1])
        return f"file {to_hex(data_of(words))} {to_hex([OLD] * length)}"
    if word in ("build", "built"):
        state = lent_to_build(state, words)
        return f"build {' '.join(map(str, state.measures))} {to_hex(state.base)} {to_hex(state.store)}"
    if word == "change":
        return f"change {to_hex(state.store)} {words[0]} {words[1]}"
    if word == "windows":
        return f"windows {to_hex(state.store)} {words[0]} {to_hex([OLD] * 3 * int(words[2]))}"
    if word == "write":
        return f"write {to_hex(state.store)} {to_hex([OLD] * int(words[1]))}"
    room = int(words[3]) if len(words) > 2 else MOST_STEPS
    return f"route {to_hex(state.store)} {words[0]} {words[1]} {to_hex([OLD] * 6 * room)}"


def told(state, line, answer):
    """What a router answered, as the lines of an answer."""
    words = answer.split()
    try:
        return TELL[line.split()[0]](state, line.split(), words)
    except (IndexError, ValueError):
        return [f"no answer of this form: {answer[:80]}"]


def tell_plan(_state, _line, words):
    return [" ".join(words)]


def tell_file(_state, line, words):
    length = int(line[line.index("list") + 1])
    lent = from_hex(words[4])
    lines = [" ".join(words[:4])]
    if lent == bytes([OLD]) * length:
        return lines if words[0] != "0" or not length else lines + ["the list stays as it was"]
    if words[0] != "0":
        return lines + ["the list is altered"]
    costs = [f"{number}:{cost}" for number, cost in enumerate(lent) if cost != 1]
    return lines + ([f"costs {' '.join(costs)}"] if costs else [])


def stray_bytes(given, owed):
    """Bytes that are not what the rest of an answer says."""
    if len(given) != len(owed):
        return [f"a store of {len(given)} bytes"]
    stray = [f"{at}:{byte}" for at, byte in enumerate(given) if byte != owed[at]]
    return [f"bytes {' '.join(stray)}"] if stray else []


def lent_to_build(state, words):
    """Measures, base costs and store that build is given: those of the case, or `C R S base LENGTH store LENGTH`."""
    lent = State()
    if words:
        lent.measures = tuple(int(word) for word in words[:3])
        lent.base, lent.store = bytearray([1]) * int(words[4]), bytearray([OLD]) * int(words[6])
    else:
        lent.measures, lent.base, lent.store = state.measures, state.base, state.blank_store()
    return lent


def tell_build(state, line, words):
    given, lent = from_hex(words[1]), lent_to_build(state, line[1:])
    floor = lent.floor()
    if words[0] != "0" or len(given) < floor.size:
        return [words[0]] + stray_bytes(given, lent.store)
    scaled = given[4 + floor.cells:4 + 2 * floor.cells]
    marks = [[f"{floor.mark(given, s, side):x}" for side in range(4)] for s in range(floor.sectors)]
    blocked = [number for number in range(floor.cells) if scaled[number] == 255 != lent.base[number]]
    lines = ["0"]
    if blocked:
        lines.append(f"scaled {ranges(blocked)}")
    lines.append(f"marks {' '.join('/'.join(sector) for sector in marks)}")
    return lines + stray_bytes(given, built_store(lent, lines))


def built_store(lent, lines):
    """The store that an answer to build tells of."""
    floor, store = lent.floor(), bytearray(lent.store)
    store[0:4] = bytes([*lent.measures, 0])
    scaled = bytearray(lent.base)
    for line in lines[1:]:
        word, *words = line.split()
        if word == "scaled":
            for number in numbers(words):
                scaled[number] = 255
        elif word == "marks":
            for sector, marks in enumerate(words):
                for side, mark in enumerate(marks.split("/")):
                    at = floor.mark_at(sector, side)
                    store[at:at + 2] = int(mark, 16).to_bytes(2, "little")
    store[4:4 + 2 * floor.cells] = lent.base + scaled
    return store


def tell_change(state, _line, words):
    given, floor = from_hex(words[1]), state.floor()
    if len(given) != len(state.store):
        return [words[0], f"a store of {len(given)} bytes"]
    lines = [words[0]]
    parts = {"base": (4, floor.cells), "scaled": (4 + floor.cells, floor.cells)}
    owed = bytearray(state.store)
    for part, (start, length) in parts.items():
        altered = [n for n in range(length) if start + n < len(given) and given[start + n] != owed[start + n]]
        if altered:
            lines.append(f"{part} " + " ".join(f"{n}:{given[start + n]}" for n in altered))
    sides = [(s, side) for s in range(floor.sectors) for side in range(4)]
    marked = [(s, side) for s, side in sides if floor.mark(given, s, side) != floor.mark(owed, s, side)]
    if marked:
        lines.append("mark " + " ".join(f"{s}{LETTERS[side]}:{floor.mark(given, s, side):x}" for s, side in marked))
    return lines + stray_bytes(given, changed_store(state, lines))


def changed_store(state, lines):
    """The store that an answer to change tells of."""
    after = State()
    after.measures, after.store = state.measures, bytearray(state.store)
    for line in lines[1:]:
        if line.split()[0] in ("base", "scaled", "mark"):
            after.lend(line.split())
    return after.store


def tell_windows(_state, line, words):
    lent = from_hex(words[2])
    entries = [lent[at:at + 3] for at in range(0, len(lent), 3)]
    count = int(words[1])
    if len(entries) != int(line[3]) or any(entry != bytes([OLD] * 3) for entry in entries[count:]):
        return [" ".join(words[:2]), "the list is altered behind the windows"]
    listed = [f"{LETTERS[side]}{first}-{last}" for first, last, side in entries[:count]]
    return [" ".join([*words[:2], *listed])]


def step_text(entry):
    column, row, goal, side, first, last = entry
    window = "-" if side == 4 else f"{LETTERS[side]}{first}-{last}"
    return f"{column},{row}:{goal}{window}"


def tell_route(_state, line, words):
    number, steps, leg, run = (int(word) for word in words[:4])
    lent = from_hex(words[4])
    entries = [lent[at:at + 6] for at in range(0, len(lent), 6)]
    room = int(line[4]) if len(line) > 3 else MOST_STEPS
    stray = []
    if len(entries) != room or any(entry != bytes([OLD] * 6) for entry in entries[steps:]):
        stray = ["the list is altered behind the steps"]
    if number or not steps:
        stray += [f"with {steps} {leg} {run}"] if (steps, leg, run) != (0, 0, 0) else []
        return [f"no {number}" if number else "none"] + stray
    return [" ".join([str(steps), str(leg), str(run), *map(step_text, entries[:steps])])] + stray


def tell_write(_state, line, words):
    length, lent = int(words[1]), from_hex(words[2])
    told_numbers = " ".join(words[:2])
    if len(lent) != int(line[2]) or any(byte != OLD for byte in lent[length:]):
        return [told_numbers, "the output is altered behind the file" if length else "the output is altered"]
    return [told_numbers] if words[0] != "0" else [told_numbers, f"file {file_text(lent[:length])}"]


def file_text(file):
    """A file in hex; a long one by its cells, if they ascend and have one cost."""
    count = int.from_bytes(file[3:5], "little")
    cells = [int.from_bytes(file[at:at + 2], "little") for at in range(5, 5 + 2 * count, 2)]
    by_cells = f"{file[:3].hex()} cells {ranges(cells)} cost {file[-1]}" if len(file) > IN_HEX else ""
    return by_cells if by_cells and data_of(by_cells.split()) == file else to_hex(file)


TELL = {
    "plan": tell_plan, "file": tell_file, "build": tell_build, "built": tell_build, "change": tell_change,
    "windows": tell_windows, "route": tell_route, "write": tell_write,
}


def follow(state, line, answer):
    """Takes over what an answer says about the store."""
    word = line.split()[0]
    if line in ("build", "built") and answer[0] == "0":
        state.store = built_store(lent_to_build(state, []), answer)
    elif word == "change":
        state.store = changed_store(state, answer)
