"""What is drawn for each group of cases, and how many are kept."""
from floors import Draw, Hall, change, draw_hall, route

# Cases that are kept for each wrong reading; the last number holds for ROUTE_POOLS.
KEPT = {"ties": 8, "edges": 8}
USUALLY_KEPT = 4
ROUTES_KEPT = 2

ABOUT = {
    "ties": "Which of several portal paths of equal cost is taken.",
    "edges": "Least cost, then fewest edges.",
    "pairs": "Which pair of start and end portal is taken; leg and run.",
    "corner_gates": "Windows that meet in a corner, and which positions of a path are steps.",
    "moves": "Moves inside a sector, open and blocked cells, routes inside one sector.",
    "winding": "Winding floors: many steps, long runs and long legs.",
    "windows": "Open places, windows, their order and midpoints.",
    "scaling": "Which cells scaling closes: order, walks, and where they write.",
    "changes": "Which sectors a change rescales, and in which order.",
    "stale_borders": "Marks after a change, refusal 22, and routes over borders that do not fit.",
    "lent_stores": "Stores whose scaled costs and marks disagree, and bytes behind a store.",
    "limits": "The smallest and the largest floors, and how sectors are numbered.",
    "refusals": "Each refusal of build, change, route and windows, and their order.",
    "files": "Hall files: entries, and refusals 10 to 16 and 28.",
    "written": "Floors written back as hall files: their bytes, the output around them, and refusal 29.",
    "plans": "Measures from floats: rounding, and refusals 1 to 9.",
    "program": "The program hallroute: its input's limits and its lines.",
}


def pool(seed, count, statements):
    """Statements of a number of cases, from a seed."""
    draw = Draw(seed)
    return [statements(draw) for _ in range(count)]


def routes(kinds, sizes, seed, count):
    """A hall of scale 1 and one route on it."""
    def statements(draw):
        hall = draw_hall(draw, sizes, [1], kinds)
        return [*hall.statements("built"), route(draw, hall)]
    return pool(seed, count, statements)


def moves():
    def statements(draw):
        hall = draw_hall(draw, [1, 1, 2], [1], ("dots", "walls", "density"))
        for place in hall.places():
            if place not in hall.costs and draw.per_cent(20):
                hall.costs[place] = draw.pick([0, 2, 40, 254])
        return [*hall.statements("built"), route(draw, hall)]
    return pool(101, 500, statements)


def windows():
    def statements(draw):
        hall = draw_hall(draw, [1, 2, 2, 3], [1, 1, 2], ("dots", "walls", "corner gaps"))
        sector = draw.below(hall.columns * hall.rows)
        return [*hall.statements("build"), f"windows {sector} room 20", route(draw, hall)]
    return pool(102, 300, statements)


def scaling():
    def statements(draw):
        hall = draw_hall(draw, [1, 1, 2, 3], [2, 2, 3, 3, 4, 6, 9], ("dots", "density"))
        return hall.statements("build")
    return pool(103, 2500, statements)


def scaled_routes():
    def statements(draw):
        hall = draw_hall(draw, [1, 2, 2, 3], [2, 3, 4, 5, 6, 7, 8, 9], ("dots", "density"))
        return [*hall.statements("build"), route(draw, hall)]
    return pool(111, 6000, statements)


def changes():
    def statements(draw):
        hall = draw_hall(draw, [1, 2, 3], [2, 2, 3, 4], ("dots", "dots", "density"))
        calls = [change(draw, hall) for _ in range(1 + draw.below(2))]
        return [*hall.statements("built"), *calls]
    return pool(104, 1500, statements)


def stale_borders():
    def statements(draw):
        if draw.per_cent(30):
            hall = Hall(draw.pick([1, 2, 3]), draw.pick([1, 2]), 1)
            return [*hall.statements("built"), *lent_marks(draw, hall), route(draw, hall)]
        hall = draw_hall(draw, [1, 2, 3, 4], [1, 2, 2, 3], ("dots", "dots", "density", "corner gaps"))
        calls = [change(draw, hall) for _ in range(1 + draw.below(2))]
        sector = draw.below(hall.columns * hall.rows)
        return [*hall.statements("built"), *calls, f"windows {sector} room 20", route(draw, hall)]
    return pool(105, 1500, statements)


def lent_stores():
    def statements(draw):
        hall = Hall(draw.pick([1, 2, 3]), draw.pick([1, 2]), draw.pick([1, 2]))
        lines = [*hall.statements("built"), *lent_marks(draw, hall)]
        cells = [draw.below(hall.cells()) for _ in range(draw.below(12))]
        lines += [f"lend scaled {cell}:{draw.pick([255, 255, 0])}" for cell in cells]
        sector = draw.below(hall.columns * hall.rows)
        calls = [change(draw, hall), f"windows {sector} room 20", route(draw, hall, 20)]
        return [*lines, draw.pick(calls)]
    return pool(106, 500, statements)


def lent_marks(draw, hall):
    """Other marks for some sides."""
    sides = [(sector, side) for sector in range(hall.columns * hall.rows) for side in range(4) if neighbours(hall, sector)[side]]
    marks = [(sector, side, draw.bits() & draw.bits() & 1023) for sector, side in sides if draw.per_cent(60)]
    return [f"lend mark {sector}{'NESW'[side]}:{mark:x}" for sector, side, mark in marks]


def neighbours(hall, sector):
    """Whether a sector has a neighbour N, E, S, W."""
    column, row = divmod(sector, hall.rows)
    return row > 0, column + 1 < hall.columns, row + 1 < hall.rows, column > 0


POOLS = {
    "ties": lambda: routes(("few", "few", "dots", "corner gaps"), [2, 3, 3, 4], 107, 2500),
    "edges": lambda: routes(("corner gaps", "aisles", "density", "walls"), [2, 2, 3], 108, 1500),
    "pairs": lambda: routes(("few", "dots", "walls"), [1, 2, 2, 3], 109, 1200),
    "corner_gates": lambda: routes(("corner gaps",), [2, 2, 3], 110, 1000),
    "moves": moves,
    "windows": windows,
    "scaling": scaling,
    "changes": changes,
    "stale_borders": stale_borders,
    "lent_stores": lent_stores,
}
# Of these, only cases are kept that a program like hallroute, which shows routes alone, answers otherwise.
ROUTE_POOLS = {"scaling": scaled_routes}
