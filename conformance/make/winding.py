"""Winding floors: snakes, serpentines, a comb, stairs and weaves, for routes with many steps, a long run or a long leg."""
import snake
from floors import Hall
from rules import JOINED, LEG, NONE, ONE, PORTAL, RUN, STEPS, WEIGHT
from store import aisle_cells


def winding():
    # Through a sector from its north-west to its south-east and, one column free, from its south-west to its north-east.
    through, down, up = "E9 S2 W9 S2 E9 S2 W9 S2 E9", "E8 S2 W8 S2 E8 S2 W8 S2 E8", "E8 N2 W8 N2 E8 N2 W8 N2 E8"
    return [
        *snakes(),
        (LEG, aisle(2, 1, f"0,0 {through} E10")),
        (WEIGHT, aisle(3, 1, f"0,0 E10 {through} E10")),
        (RUN, aisle(8, 1, f"0,0 E10 3({down} E2 {up} E2) {down}")),
        (RUN, [*closed(10, 10, "0,0 49(S99 N99 E2) S99"), route(10, 10, (0, 99), (98, 99))]),
        (RUN, aisle(5, 4, serpentine(5, 4))),
        (NONE, aisle(10, 10, serpentine(10, 10))),
        # From where the stairs first leave a sector: the leg is 0.
        (RUN, [*closed(10, 10, stairs(10)), route(10, 10, (0, 9), aisle_cells(stairs(10).split())[-1])]),
        (PORTAL, aisle(5, 8, weave(5, 8))),
        (STEPS, aisle(10, 10, weave(10, 10))),
    ]


def closed(columns, rows, way):
    """A closed floor with an aisle."""
    return [f"hall {columns} {rows} 1", f"blocked 0-{100 * columns * rows - 1}", f"aisle {way}", "built"]


def aisle(columns, rows, way):
    """A closed floor with an aisle, and the route from its first cell to its last."""
    cells = aisle_cells(way.split())
    return [*closed(columns, rows, way), route(columns, rows, cells[0], cells[-1])]


def steps(way):
    """The steps of the route along an aisle: one for the first sector, and one each time that it enters another."""
    sectors = [(x // 10, y // 10) for x, y in aisle_cells(way.split())]
    return 1 + sum(here != there for here, there in zip(sectors, sectors[1:]))


def route(columns, rows, source, goal):
    """By column and row of the whole floor."""
    hall = Hall(columns, rows, 1)
    return f"route {hall.number(*source)} {hall.number(*goal)}"


def snakes():
    """The longest leg, last stretch and run inside a sector that there can be; and the leg with rows and columns exchanged."""
    path = snake.longest(10)
    inner, gate = (path[0], path[-1]) if path[-1][0] == 9 else (path[-1], path[0])
    two, turned, one = Hall(2, 1, 1), Hall(1, 2, 1), Hall(1, 1, 1)
    for x, y in set(one.places()) - set(path):
        one.block(x, y), two.block(x, y), turned.block(y, x)
    for place in set(range(10)) - {gate[1]}:
        two.block(10, place), turned.block(place, 10)
    far = (15, 5)
    return [
        (LEG, [*two.statements("built"), route(2, 1, inner, far)]),
        (RUN, [*two.statements("built"), route(2, 1, far, inner)]),
        (JOINED, [*turned.statements("built"), route(1, 2, inner[::-1], far[::-1])]),
        (ONE, [*one.statements("built"), route(1, 1, inner, gate)]),
    ]


def serpentine(columns, rows):
    """Every other row of cells, joined at alternate ends."""
    east, west = f"E{10 * columns - 1}", f"W{10 * columns - 1}"
    last = f"{east} S2 {west}" if rows % 2 == 0 else east
    return f"0,0 {(5 * rows - 1) // 2}({east} S2 {west} S2) {last}"


def weave(columns, rows):
    """Columns of cells, joined at alternate ends; beside each border between columns of sectors one that crosses it at every other cell."""
    most = 10 * rows - 1
    straight = f"N{most} E2 S{most} E2 N{most} E3"
    return f"0,0 S{most} E2 {straight} {columns - 1}({(most - 1) // 4}(E1 S2 W1 S2) E1 S3 E2 {straight}) S{most}"


def stairs(sectors):
    """Stairs from one edge of a square floor to another, up and down by turns: two of three cells are open."""
    most, way, turns = 10 * sectors - 1, "0,0", [("E1", "N1", "S1"), ("S1", "W1", "E1")]
    # Along the stairs and across: column and row where they lead up, row and column where they lead down.
    along, across = 0, 0
    while along + 2 <= most and along + across + 3 <= 2 * most:
        forth, back, on = turns[0]
        count = min(across, most - 2 - along)
        way += f" {forth} {count}({back} {forth}) {forth} {on}"
        along, across = across - count + 1, along + count + 2
        turns.reverse()
    return way
