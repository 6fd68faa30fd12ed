"""The longest way without a shorter one through a square of cells: a path whose cells touch no others of it.

Cells are decided row by row. What the rest can see of those decided is the last cell of each column: closed, or inside
a path, or the end of one. Of all choices that leave the same to see only one with the most cells is kept, so the length
found is the largest there is.

    python3 conformance/make/snake.py     draws it for a sector
"""
CLOSED, INSIDE = "0", "F"
# A path of one cell; an end whose other end is done with; the west and the east end of one path.
SINGLE, LAST, WEST, EAST = "S", "D", "(", ")"


def longest(size):
    """The cells of a longest path, x and y, from one end to the other."""
    layers, best = [{CLOSED * size: (0, None)}], (0, 0, None, 0)
    for at in range(size * (size + 1)):
        # Behind the last row all is closed.
        choices = (left_closed, taken) if at < size * size else (left_closed,)
        layer, done = next_layer(layers[-1], choices, at % size)
        best = max([best, *((count, at, seen, more) for count, seen, more in done)], key=lambda found: found[0])
        layers.append(layer)
    return in_order(taken_cells(layers, best, size))


def next_layer(layer, choices, column):
    """By what can be seen: the most cells, and what was seen before; and the paths that are complete."""
    after, done = {}, []
    found = ((choice(seen, column), seen, count) for seen, (count, _) in layer.items() for choice in choices)
    for (now, more), before, count in ((each, before, count) for chosen, before, count in found for each in chosen):
        if now is None:
            done.append((count + more, before, more))
        elif after.get(now, (-1,))[0] < count + more:
            after[now] = (count + more, before)
    return after, done


def left_closed(seen, column):
    """What is seen after a cell is left closed, and no cell more; None is seen of a path that is complete."""
    north = seen[column]
    after = put(seen, column, CLOSED)
    if north == LAST and complete(after):
        return [(None, 0)]
    if north in (WEST, EAST):
        after = put(after, other_end(seen, column), LAST)
        return [(after, 0)] if after.count(LAST) <= 2 else []
    return [(after, 0)] if north in (CLOSED, INSIDE) else []


def taken(seen, column):
    """The same after it is taken."""
    north, west = seen[column], seen[column - 1] if column else CLOSED
    if INSIDE in (north, west) or (west, north) == (WEST, EAST):
        return []
    if CLOSED not in (north, west):
        return joined(seen, column)
    if west != CLOSED:
        ends = (WEST, EAST) if west == SINGLE else (INSIDE, west)
        after = put(put(seen, column - 1, ends[0]), column, ends[1])
    else:
        after = put(seen, column, {CLOSED: SINGLE, SINGLE: LAST}.get(north, north))
    return [(after, 1)] if after.count(LAST) <= 2 else []


def joined(seen, column):
    """A cell that joins the paths to its north and west."""
    north, west = seen[column], seen[column - 1]
    ends = [column - 1] if west == SINGLE else []
    ends += [other_end(seen, at) for at in (column - 1, column) if seen[at] in (WEST, EAST)]
    after = put(put(seen, column - 1, INSIDE), column, INSIDE)
    if not ends:
        return [(None, 1)] if complete(after) else []
    signs = (LAST,) if len(ends) == 1 else (WEST, EAST)
    for end, sign in zip(sorted(ends), signs):
        after = put(after, end, sign)
    return [(after, 1)] if after.count(LAST) <= 2 else []


def put(seen, column, sign):
    return seen[:column] + sign + seen[column + 1:]


def complete(seen):
    return not set(seen) - {CLOSED, INSIDE}


def other_end(seen, column):
    """The column of the other end of a path: ends stand as parentheses do."""
    step, depth, at = (1 if seen[column] == WEST else -1), 0, column
    while True:
        depth += {WEST: -1, EAST: -1, seen[column]: 1}.get(seen[at], 0)
        if depth == 0:
            return at
        at += step


def taken_cells(layers, best, size):
    """The cells of the best choice, found backwards."""
    _, at, seen, last = best
    cells = {at} if last else set()
    while at:
        count, before = layers[at][seen]
        at -= 1
        if layers[at][before][0] < count:
            cells.add(at)
        seen = before
    return {(cell % size, cell // size) for cell in cells}


def in_order(cells):
    """The cells of a path from the end that is first by x and y."""
    path = [min(cell for cell in cells if len(beside(cell, cells)) == 1)]
    while len(path) < len(cells):
        path += [cell for cell in beside(path[-1], cells) if cell not in path[-2:]]
    return path


def beside(cell, cells):
    x, y = cell
    return [near for near in ((x, y - 1), (x + 1, y), (x, y + 1), (x - 1, y)) if near in cells]


def main():
    path = longest(10)
    for y in range(10):
        print("".join("." if (x, y) in path else "#" for x in range(10)))
    print(f"{len(path) - 1} moves from {path[0]} to {path[-1]}")


if __name__ == "__main__":
    main()
