"""Floors, changes and pairs drawn from a seed, as statements of cases."""
import form
from store import Floor


class Draw:
    """Numbers from a seed (splitmix64)."""

    def __init__(self, seed):
        self.state = seed

    def bits(self):
        mask = (1 << 64) - 1
        self.state = (self.state + 0x9E3779B97F4A7C15) & mask
        mixed = self.state
        mixed = ((mixed ^ (mixed >> 30)) * 0xBF58476D1CE4E5B9) & mask
        mixed = ((mixed ^ (mixed >> 27)) * 0x94D049BB133111EB) & mask
        return mixed ^ (mixed >> 31)

    def below(self, count):
        return self.bits() % count

    def pick(self, options):
        return options[self.below(len(options))]

    def per_cent(self, chance):
        return self.below(100) < chance


class Hall:
    """Measures and the cells that do not cost 1, by x and y."""

    def __init__(self, columns, rows, scale):
        self.columns, self.rows, self.scale = columns, rows, scale
        self.floor = Floor(columns, rows)
        self.costs = {}

    def number(self, x, y):
        return self.floor.number(x, y)

    def places(self):
        return [(x, y) for x in range(10 * self.columns) for y in range(10 * self.rows)]

    def block(self, x, y):
        self.costs[x, y] = 255

    def cells(self):
        return self.floor.cells

    def statements(self, build):
        """The hall and its costs; `build` is asked, `built` is only told."""
        lines = [f"hall {self.columns} {self.rows} {self.scale}"]
        by_cost = {}
        for (x, y), cost in self.costs.items():
            by_cost.setdefault(cost, []).append(self.number(x, y))
        for cost, cells in sorted(by_cost.items(), reverse=True):
            lines.append(("blocked " if cost == 255 else f"cost {cost} ") + form.ranges(cells))
        return [*lines, build]


def scatter(draw, hall, per_thousand):
    for place in hall.places():
        if draw.below(1000) < per_thousand:
            hall.block(*place)


def dots(draw, hall):
    """A few blocked cells, most of them near borders of sectors."""
    for _ in range(1 + draw.below(3 * hall.columns * hall.rows)):
        near, along = draw.pick([0, 1, 2, 7, 8, 9]), draw.below(10)
        x, y = draw.pick([(near, along), (along, near), (draw.below(10), draw.below(10))])
        hall.block(10 * draw.below(hall.columns) + x, 10 * draw.below(hall.rows) + y)


def walls(draw, hall):
    """Straight walls with a few gaps."""
    for _ in range(1 + draw.below(1 + hall.columns + hall.rows)):
        upright = draw.per_cent(50)
        across, along = 10 * hall.columns, 10 * hall.rows
        if not upright:
            across, along = along, across
        at, gaps = draw.below(across), [draw.below(along) for _ in range(1 + draw.below(4))]
        for i in range(along):
            if not any(0 <= i - gap < 2 for gap in gaps):
                hall.block(*((at, i) if upright else (i, at)))


def corner_gaps(draw, hall):
    """Closed borders of sectors, open at corners and here and there."""
    chance, stray = 40 + draw.below(60), draw.pick([6, 20, 50])
    for x, y in hall.places():
        edges = (x % 10 in (0, 9)) + (y % 10 in (0, 9))
        if edges == 1 and not draw.per_cent(stray) or edges == 2 and not draw.per_cent(chance):
            hall.block(x, y)


def few(draw, hall):
    """Hardly anything, so that many paths are equal."""
    for _ in range(draw.below(3)):
        hall.block(draw.below(10 * hall.columns), draw.below(10 * hall.rows))


def aisles(draw, hall):
    """Aisles one cell wide in a closed floor, end to end."""
    for place in hall.places():
        hall.block(*place)
    x, y = draw.below(10 * hall.columns), draw.below(10 * hall.rows)
    for _ in range(3 + 2 * hall.columns * hall.rows):
        to_x, to_y = draw.below(10 * hall.columns), draw.below(10 * hall.rows)
        for step in range(min(x, to_x), max(x, to_x) + 1):
            hall.costs.pop((step, y), None)
        for step in range(min(y, to_y), max(y, to_y) + 1):
            hall.costs.pop((to_x, step), None)
        x, y = to_x, to_y


KINDS = {"few": few, "dots": dots, "walls": walls, "corner gaps": corner_gaps, "aisles": aisles}


def draw_hall(draw, sizes, scales, kinds=("dots", "walls", "density")):
    hall = Hall(draw.pick(sizes), draw.pick(sizes), draw.pick(scales))
    kind = draw.pick(kinds)
    if kind == "density":
        scatter(draw, hall, draw.pick([20, 60, 150, 300]) // hall.scale)
    else:
        KINDS[kind](draw, hall)
    return hall


def end(draw, hall):
    """A floor number, not seldom of a corner of a sector or of a cell beside it; open, if a few tries find one."""
    for _ in range(8):
        x, y = draw.below(10 * hall.columns), draw.below(10 * hall.rows)
        if draw.per_cent(40):
            x, y = x // 10 * 10 + draw.pick([0, 9]), y // 10 * 10 + draw.pick([0, 1, 8, 9])
        if hall.costs.get((x, y)) != 255:
            break
    return hall.number(x, y)


def route(draw, hall, room=None):
    source, goal = end(draw, hall), end(draw, hall)
    blocked = [hall.number(x, y) for x, y in sorted(hall.costs)]
    if draw.per_cent(10) and blocked:
        source = goal = draw.pick(blocked)
    elif draw.per_cent(25):
        goal = source // 100 * 100 + goal % 100
    return f"route {source} {goal}" + (f" room {room}" if room is not None else "")


def change(draw, hall):
    """A cell near a border or a blocked one, to another cost or the same."""
    blocked = [hall.number(x, y) for x, y in sorted(hall.costs)]
    near, along = draw.pick([0, 1, 2, 7, 8, 9]), draw.below(10)
    cell = 100 * draw.below(hall.columns * hall.rows) + draw.pick([near * 10 + along, along * 10 + near])
    if blocked and draw.per_cent(40):
        cell = draw.pick(blocked)
    return f"change {cell} {draw.pick([255, 255, 255, 1])}"
