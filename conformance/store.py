"""Floor and store that the statements of a case make, apart from those that call something."""
import re

from form import numbers

LETTERS = "NESW"
# What lent bytes hold before a call.
OLD = 0xA5
# Lent bytes behind the size of a store: they must stay.
SPARE = 5


class Floor:
    """Where things stand in a store."""

    def __init__(self, columns, rows):
        self.columns, self.rows = columns, rows
        self.sectors = columns * rows
        self.cells = 100 * self.sectors
        self.size = 4 + 208 * self.sectors

    def number(self, x, y):
        """The floor number of column x and row y of the whole floor."""
        if not (0 <= x < 10 * self.columns and 0 <= y < 10 * self.rows):
            raise ValueError(f"{x},{y} is not on a floor of {self.columns} by {self.rows} sectors")
        return (x // 10 * self.rows + y // 10) * 100 + y % 10 * 10 + x % 10

    def mark_at(self, sector, side):
        return 4 + 2 * self.cells + 8 * sector + 2 * side

    def mark(self, store, sector, side):
        at = self.mark_at(sector, side)
        return int.from_bytes(store[at:at + 2], "little")


class State:
    """Measures, base costs and store that the statements of a case have made."""

    def __init__(self):
        self.measures, self.base, self.store = (1, 1, 1), bytearray(), None

    def floor(self):
        return Floor(self.measures[0], self.measures[1])

    def hall(self, words):
        self.measures = tuple(int(word) for word in words)
        self.base = bytearray([1]) * self.floor().cells

    def set_costs(self, cost, words):
        for number in numbers(words):
            self.base[number] = cost

    def open_aisle(self, words):
        """Opens the cells that an aisle passes."""
        for x, y in aisle_cells(words):
            self.base[self.floor().number(x, y)] = 1

    def blank_store(self):
        return bytearray([OLD]) * (self.floor().size + SPARE)

    def lend(self, words):
        """Alters the store between two calls."""
        floor, what = self.floor(), words[0]
        if what == "length":
            length = int(words[1])
            self.store = (self.store + bytearray([OLD]) * length)[:length]
            return
        for word in words[1:]:
            place, _, value = word.partition(":")
            if what == "mark":
                at = floor.mark_at(int(place[:-1]), LETTERS.index(place[-1]))
                self.store[at:at + 2] = int(value, 16).to_bytes(2, "little")
            else:
                start = {"base": 4, "scaled": 4 + floor.cells, "byte": 0}[what]
                self.store[start + int(place)] = int(value)


def aisle_cells(words):
    """The cells from x,y on: `0,0 E3 2(S2 W1)` goes 3 cells east, then twice 2 south and 1 west."""
    moves = " ".join(words[1:])
    while "(" in moves:
        moves = re.sub(r"(\d+)\(([^()]*)\)", lambda again: " ".join([again[2]] * int(again[1])), moves)
    x, y = (int(word) for word in words[0].split(","))
    cells = [(x, y)]
    for move in moves.split():
        for _ in range(int(move[1:])):
            x, y = x + (move[0] == "E") - (move[0] == "W"), y + (move[0] == "S") - (move[0] == "N")
            cells.append((x, y))
    return cells


def prepare(state, line):
    """Does what a statement without answer says; false if it has an answer."""
    word, *words = line.split()
    if word == "hall":
        state.hall(words)
    elif word == "blocked":
        state.set_costs(255, words)
    elif word == "cost":
        state.set_costs(int(words[0]), words[1:])
    elif word == "aisle":
        state.open_aisle(words)
    elif word == "lend":
        state.lend(words)
    else:
        return False
    return True
