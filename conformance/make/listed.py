"""Cases that are listed one by one: the floors of document 01, and every limit and refusal with its neighbours."""
import struct

import winding
import written
from calls import file_of
from floors import Draw, Hall, scatter
from rules import (
    BUILD, CHANGE, CHECK, COLUMNS, FILE, LEG, LINES, LISTING, NUMBER, ONE, ORDER_22, PLAN, PROGRAM, READ, REPEAT, ROUTE,
    RUN, SCALE, SIZES, STEPS, TIES, WINDOWS,
)

# Only the corner cell of the last sector is open to its north and west.
CORNER = ["hall 2 2 1", "blocked 301-310 320 330 340 350 360 370 380 390", "built"]
# One cell of the first sector is alone behind the second window of its east side.
ALONE = ["hall 2 1 1", "built", "lend scaled 9:255 19:255 28:255 39:255", "lend mark 0E:5"]

# A hall of two open sectors side by side, which every call accepts.
OPEN = ["hall 2 1 1", "built"]
OPEN_SIZE = 4 + 208 * 2


def refusals():
    return [*build_refusals(), *store_refusals(), *argument_refusals()]


def build_refusals():
    measures = [(0, 1, 1), (1, 0, 1), (11, 1, 1), (1, 11, 1), (0, 1, 0), (1, 11, 10), (1, 1, 0), (1, 1, 10), (255, 255, 255)]
    lengths = [(99, 212), (101, 212), (200, 212), (99, 211), (100, 0), (100, 3), (100, 211), (100, 212), (100, 213)]
    asked = [(*m, 100, 212) for m in measures] + [(1, 1, 0, 99, 211)] + [(1, 1, 1, *pair) for pair in lengths]
    return [(BUILD, [f"build {c} {r} {s} base {base} store {store}"]) for c, r, s, base, store in asked]


def store_refusals():
    """Each defect of a store, and with it another of a later number, before each call."""
    defects = ["length 0", "length 3", "byte 0:0", "byte 0:11", "byte 1:0", "byte 1:11", "byte 2:0", "byte 2:10", "byte 3:1"]
    defects += ["byte 3:255", "length 4", f"length {OPEN_SIZE - 1}", f"length {OPEN_SIZE}", "byte 0:3"]
    defects += ["mark 0E:400", "mark 1W:8000", "mark 0N:1", "mark 1E:3ff", "mark 0S:200", "mark 1W:3ff"]
    two = [("byte 0:0", "byte 2:0"), ("byte 2:0", "byte 3:1"), ("byte 3:1", f"length {OPEN_SIZE - 1}"), ("mark 0N:1", f"length {OPEN_SIZE - 1}")]
    calls = ["change 0 1", "windows 0 room 20", "route 0 150 room 3"]
    asked = [([f"lend {defect}"], calls[at % 3]) for at, defect in enumerate(defects)]
    asked += [([f"lend {a}", f"lend {b}"], calls[at % 3]) for at, (a, b) in enumerate(two)]
    asked += [(["lend mark 0N:1"], call) for call in ("change 200 1", "windows 2 room 0", "windows 100 room 0", "route 200 200 room 0")]
    return [(CHECK, [*OPEN, *lent, call]) for lent, call in asked]


def argument_refusals():
    changes = ["change 199 255", "change 200 255", "change 201 1", "change 65535 1"]
    routes = ["route 200 0", "route 0 200", "route 200 200", "route 65535 65535", "route 5 5 room 0", "route 5 6 room 0", "route 5 6 room 1"]
    routes += ["route 5 150 room 0", "route 5 150 room 1", "route 5 150 room 2", "route 5 150 room 4"]
    windows = ["windows 1 room 20", "windows 2 room 20", "windows 2 room 0", "windows 65535 room 0", "windows 0 room 0", "windows 0 room 1"]
    found = [(CHANGE, [*OPEN, call]) for call in changes] + [(ROUTE, [*OPEN, call]) for call in routes]
    found += [(WINDOWS, [*OPEN, call]) for call in windows]
    closed = ["hall 2 1 1", "blocked 0", "built"]
    found += [(ROUTE, [*closed, f"route 0 {goal} room {room}"]) for goal, room in ((0, 0), (0, 1), (1, 0), (150, 0), (150, 3))]
    # A list that is one step short.
    long = winding.weave(5, 8)
    *floor, route = winding.aisle(5, 8, long)
    found.append((ROUTE, [*floor, f"{route} room {winding.steps(long) - 1}"]))
    return found + [(WINDOWS, ["hall 1 1 1", "built", f"windows 0 room {room}"]) for room in (0, 1)]


def files():
    whole = file_of((1, 1, 1), [(5, 255), (7, 40)])
    found = [(READ, f"file {whole[:2 * length] or '-'} list 100") for length in (0, 1, 4, 5, 6, 10)]
    found += [(READ, f"file {whole}{more} list 100") for more in ("00", "000000")]
    heads = ["000101", "010001", "0b0101", "010b01", "010100", "01010a", "000000"]
    found += [(READ, f"file {head}0000 list 100") for head in heads] + [(READ, f"file {head}1127 list 100") for head in ("0b0101", "01010a")]
    found += [(READ, f"file 0a0a01 cells 0-{last} cost 1 list 10000") for last in (9999, 10000)]
    found += [(READ, f"file 010101{count} list {length}") for count in ("1027", "1127") for length in (100, 0)]
    beyond = [[(99, 2)], [(100, 2)], [(100, 2), (3, 1)], [(65535, 2)], [(3, 2), (356, 2)]]
    found += [(READ, f"file {file_of((1, 1, 1), entries)} list {length}") for entries in beyond for length in (100, 99)]
    found += [(READ, f"file {file_of((2, 1, 1), [])} list {length}") for length in (0, 100, 199, 200, 201)]
    entries = [[(3, 30), (4, 40)], [(256, 3), (1, 0)], [(9, 254), (8, 255), (7, 1)], [(40, 2), (299, 0), (7, 255), (8, 2)]]
    found += [(FILE, f"file {file_of((3, 1, 9), listed)} list 300") for listed in entries]
    found.append((FILE, "file 030101 cells 0-255 cost 1 list 300"))
    found += [(REPEAT, f"file {line}") for line in [*repeats(), *repeats_beside_defects(), *many_entries()]]
    return [(rule, [line]) for rule, line in found]


def repeats():
    """Files in which a floor number stands twice or more often, and one in which numbers only look alike."""
    neighbours = [[(7, 5), (7, 5)], [(7, 5), (7, 6)], [(7, 5), (7, 6), (9, 5)], [(9, 5), (7, 5), (7, 6)]]
    apart = [[(7, 5), (9, 5), (8, 5), (7, 6)], [(7, 5), (8, 5), (7, 5)], [(7, 5), (8, 5), (7, 6), (9, 5)], [(9, 5), (7, 5), (8, 5), (7, 6)]]
    others = [[(7, 1), (7, 255)], [(7, 255), (7, 1)], [(7, 1), (7, 1)], [(7, 5), (7, 6), (7, 7)], [(0, 2), (99, 2), (0, 3), (99, 3)]]
    found = [f"{file_of((1, 1, 1), entries)} list 100" for entries in [*neighbours, *apart, *others]]
    return [*found, f"{file_of((3, 1, 1), [(7, 2), (107, 3), (263, 4), (8, 2)])} list 300"]


def repeats_beside_defects():
    """A repeat with a list that is too short or too long, a number too large in every place, and a wrong length."""
    twice = file_of((1, 1, 1), [(7, 5), (7, 6)])
    found = [f"{twice} list {length}" for length in (0, 99, 101)]
    beyond = [[(0, 1), (0, 1), (100, 1)], [(0, 1), (100, 1), (0, 1)], [(100, 1), (0, 1), (0, 1)], [(100, 2), (100, 2)]]
    found += [f"{file_of((1, 1, 1), entries)} list {length}" for entries in beyond for length in (100, 99)]
    return [*found, f"{twice[:-2]} list 100", f"{twice}00 list 100"]


def many_entries():
    """10,000 entries with one repeat, also beside another defect; one entry more; and one cell 10,000 times."""
    cells = ["0-9998 0", "0-9998 9998", "0 0-9998", "0-4999 4999-9998", "0-9997 0 10000", "10000 0-9997 0", "0-9999 0"]
    found = [f"0a0a01 cells {listed} cost 1 list 10000" for listed in cells]
    return [*found, "0a0a01 cells 0-9998 0 cost 1 list 9999", "0101011027 zeros 30000 list 100", "0101011127 zeros 30003 list 100"]


def bits(value):
    """A float as the bits of its f32."""
    return struct.pack(">f", value).hex()


def plan(*values):
    """Sizes, unit and radius by their bits, and as a remark in decimals."""
    return f"plan {' '.join(map(bits, values))} # {' '.join(f'{single(value):.9g}' for value in values)}"


def plans():
    inf, nan, tiny, most = float("inf"), float("nan"), 1e-45, 3.4028234e38
    asked = [(PLAN, values) for values in (
        (20, 10, 1, 1), (20, 10, 1, 9), (20, 10, 1, 9.5), (20, 10, 1, 10), (20, 10, 1, 10.5), (nan, 10, 1, 1), (10, nan, 1, 1),
        (10, 10, nan, 1), (10, 10, 1, nan), (inf, 10, 1, 1), (10, -inf, 1, 1), (10, 10, inf, 1), (10, 10, 1, inf), (0, 10, 1, 1),
        (10, -0.0, 1, 1), (-5, nan, 0, 0), (-5, 10, 0, 0), (10, -1, 0, 0), (10, 10, 0, 0), (10, 10, 0, -1), (10, 10, 1, 0),
        (10, 10, -1, 1), (10, 10, -0.0, 1), (9.99, 10, 1, 1), (10, 9.99, 1, 1), (5, 10, 1, 100), (9.99, 10, 1, 10), (10, 10, 1, 10),
        (10, 10, 1, 9.0000001), (10, 10, 1, 9.000001), (most, most, most, 1), (most, most, tiny, tiny), (1e10, 1e10, 1e9, tiny),
        (1e30, 1e30, 1e9, tiny), (100, 100, 10, tiny), (200, 100, 1, tiny), (110, 10, 1, 9.5), (1e-44, 1e-44, 1e-45, 1e-45),
    )]
    asked += [(COLUMNS, values) for values in (
        (109, 10, 1, 1), (110, 10, 1, 1), (10, 109, 1, 1), (10, 110, 1, 1), (109.9, 10, 1, 1), (19.9, 10.9, 1, 1), (16, 15.5, 1, 1),
        (2.1, 2.1, 0.07, 0.07), (10, 10, 0.1, 0.1), (2, 2, 0.1, 0.3),
    )]
    sizes = [(unit, sectors) for unit in (0.07, 0.3, 0.7, 1.1) for sectors in (1, 3, 6, 7)]
    asked += [(COLUMNS, (single(single(unit * 10) * sectors), unit * 70, unit, unit)) for unit, sectors in sizes]
    steps = [(unit, times) for unit in (0.1, 0.07, 0.3, 0.7, 1.1) for times in (1, 3, 6, 7, 9)]
    asked += [(SCALE, (unit * 40, unit * 40, unit, unit * times)) for unit, times in steps]
    return [(rule, [plan(*values)]) for rule, values in asked]


def single(value):
    """A value rounded to f32."""
    return struct.unpack("f", struct.pack("f", value))[0]


def limits():
    return [*long_floors(), *large_floors()]


def long_floors():
    """Floors of one row or column of sectors with a few blocked cells, at scale 1 and 9; serpentines on others."""
    found = []
    for columns, rows, scale, seed in ((10, 1, 1, 200), (10, 1, 9, 219), (1, 10, 1, 200), (1, 10, 9, 210)):
        hall, cells = Hall(columns, rows, scale), 100 * columns * rows
        scatter(Draw(seed), hall, 8 if scale == 9 else 60)
        pairs = [(0, cells - 1), (cells - 1, 0), (cells // 2, 99)]
        found.append((SIZES, [*hall.statements("build"), *(f"route {s} {g}" for s, g in pairs)]))
    return found + [(NUMBER, winding.aisle(columns, rows, winding.serpentine(columns, rows))) for columns, rows in ((10, 2), (3, 7), (2, 10))]


def large_floors():
    largest = ["hall 10 10 1", "build", "windows 99 room 20", "windows 100 room 20", "change 9999 255", "change 10000 255"]
    corner = winding.closed(10, 10, "0,0 E99 S99")
    return [
        (SIZES, largest),
        (NUMBER, [*corner, "route 0 9999", "route 9999 0", "route 900 99", "route 10000 0"]),
        (SIZES, ["hall 10 10 9", "blocked 0 9999 4545", "build", "route 5050 9050"]),
        (SIZES, ["hall 1 1 9", "blocked 44", "build", "route 0 99", "windows 0 room 0"]),
    ]


def program():
    hall, pair = "0201010000", "00006400"
    found = [(PROGRAM, f"{hall}{pair}"), (PROGRAM, hall), (PROGRAM, f"{hall}{pair}{pair}")]
    found += [(LINES, f"{hall}{pair}{'01' * spare}") for spare in (1, 2, 3)] + [(LINES, f"{hall}{'01' * spare}") for spare in (1, 2, 3)]
    found += [(LINES, f"{hall}c8000000{pair}"), (LINES, f"{hall}0000c800{pair}"), (LINES, f"{hall}c800c800"), (LINES, f"{hall}ffffffff00")]
    closed = file_of((2, 1, 1), [(0, 255)])
    found += [(LINES, f"{closed}{pair}{pair}05006400"), (LINES, f"{closed}00000000"), (LINES, f"{closed}{pair}00")]
    found += [(PROGRAM, text) for text in ("-", "02", "02010100", "0201010100", "0201010100c800")]
    found += [(LINES, text) for text in ("0201010100c80007", "01010a0000")]
    found += [(LINES, f"0b010100{spare}") for spare in ("00", "000001", "00000102", "0000010203", "0000")]
    found += [(LINES, f"{file_of((1, 1, 1), [(100, 2)])}{spare}") for spare in ("", "01", "00000000")]
    found += [(PROGRAM, f"0a0a01 cells 0-9999 cost 1 zeros {more}") for more in (0, 4, 7)] + [(PROGRAM, "0101011027 zeros 29999")]
    found += [(PROGRAM, f"0101011127 zeros {more}") for more in (0, 30003, 65531, 65532)]
    found += [(PROGRAM, f"0101010000 zeros {more}") for more in (65527, 65530, 65531, 65532, 65535)] + [(PROGRAM, "- zeros 65536"), (PROGRAM, "- zeros 65537")]
    twice = file_of((2, 1, 1), [(7, 5), (9, 5), (7, 6)])
    found += [(REPEAT, text) for text in (twice, f"{file_of((2, 1, 1), [(7, 1), (7, 1)])}{pair}", "0a0a01 cells 0-9998 0 cost 1 zeros 4")]
    found += [(LINES, f"{twice}{more}") for more in (pair, pair * 2, f"{pair}01", "01")] + [(LINES, f"{file_of((1, 1, 1), [(0, 1), (0, 1), (100, 1)])}{pair}")]
    *floor, route = winding.aisle(10, 10, winding.weave(10, 10))
    _, source, goal = route.split()
    return [(rule, [f"input {text}"]) for rule, text in found] + [(LISTING, [*floor, f"route {goal} {source}"])]


def floors_of(*listed):
    return lambda: list(listed)


GROUPS = {
    "limits": limits, "refusals": refusals, "files": files, "written": written.written, "plans": plans, "program": program,
    "winding": winding.winding,
    "ties": floors_of(
        (TIES, ["hall 10 10 1", "built", "route 0 9999", "route 9999 0", "route 900 99"]),
    ),
    "scaling": floors_of(
        ("the walk stops at the first blocked cell or the end of the floor", ["hall 1 1 2", "blocked 51", "build"]),
        ("the walk stops at the first blocked cell or the end of the floor", ["hall 1 1 2", "blocked 52", "build"]),
        ("and always in the sector the walk began in, even for cells reached over a border", ["hall 2 1 2", "blocked 59 151", "build"]),
    ),
    "changes": floors_of(
        ("skipping a change to the same cost (rescaling order differs)", ["hall 2 1 2", "blocked 18 130", "built", "change 130 255"]),
    ),
    "stale_borders": floors_of(
        (ORDER_22, ["hall 3 1 2", "blocked 48 150", "built", "change 68 255"]),
        (ORDER_22, ["hall 3 1 2", "blocked 48 68 150", "build"]),
        (ORDER_22, ["hall 3 1 2", "blocked 109 129 211", "built", "change 211 255"]),
        (ORDER_22, ["hall 3 1 2", "blocked 179 222 281", "built", "change 222 1"]),
        (ORDER_22, ["hall 3 1 1", "built", "lend mark 2W:0", "change 0 1"]),
        (ORDER_22, ["hall 3 1 1", "built", "lend mark 2W:5", "change 0 1"]),
        ("Other sectors keep theirs, stale or not.", ["hall 3 1 2", "blocked 100", "built", "change 17 255", "windows 2 room 20"]),
    ),
    "lent_stores": floors_of(
        ("a cell is joined to itself, blocked or not.", [*CORNER, "lend scaled 300:255", "route 300 109 room 3"]),
        ("The i-th windows of facing sides have an edge of weight 1, for i below the smaller count.", [*ALONE, "lend mark 1W:1", "route 29 150 room 3"]),
        ("The i-th windows of facing sides have an edge of weight 1, for i below the smaller count.", [*ALONE, "lend mark 1W:21", "route 29 150 room 3"]),
    ),
    "windows": floors_of(
        ("Windows are the longest open runs, in order.", ["hall 2 1 1", "blocked 29 49 59 69 79 89 99", "build", "windows 0 room 20", "windows 1 room 20"]),
        ("Midpoint = (first + last) / 2, cut down.", ["hall 3 3 1", "build", "windows 4 room 4", "route 0 300"]),
    ),
    "moves": floors_of(
        (ONE, ["hall 2 1 1", "blocked 0", "built", "route 0 0"]),
        (ONE, ["hall 2 1 1", "blocked 11-19", "built", "route 9 29"]),
    ),
    "corner_gates": floors_of(
        (STEPS, [*CORNER, "route 300 109"]),
    ),
    "pairs": floors_of(
        (LEG, ["hall 2 2 1", "built", "route 294 96"]),
        (RUN, ["hall 2 1 1", "built", "route 0 100"]),
    ),
}
