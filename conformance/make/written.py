"""Cases of floors that are written back as hall files."""
from calls import file_of
from rules import BACK, OUTPUT, TOO_SHORT, WRITE

# One blocked cell: a file of 8 bytes.
ONE = ["hall 1 1 1", "blocked 5", "built"]
# Two sectors with some costs: a file of 14 bytes.
SOME = ["hall 2 1 3", "cost 0 199", "blocked 7", "cost 40 100", "built"]
# A file of 30,005 bytes.
ALL = ["hall 10 10 1", "blocked 0-9999", "built"]


def written():
    return [*floors(), *changed(), *lent(), *read_back(), *outputs(), *short_outputs(), *refused_stores()]


def floors():
    """Costs, sizes and scales; none of the cells that scaling closes is in the file."""
    costs = [["cost 0 0", "cost 2 99"], ["cost 1 5-9", "cost 254 7"], ["cost 255 9", "cost 40 3", "cost 2 6", "cost 0 4"]]
    found = [["hall 1 1 1", "built"], ONE, *(["hall 1 1 1", *listed, "built"] for listed in costs)]
    found += [["hall 3 1 9", "cost 7 255-258 299 0", "built"], ["hall 3 1 1", "cost 3 99 100 199 200", "built"]]
    found += [[f"hall {sizes}", "cost 9 105 599", "built"] for sizes in ("2 3 4", "3 2 4", "6 1 4", "1 6 4")]
    found += [["hall 1 1 2", "blocked 51", "built"], ["hall 2 1 2", "blocked 59 151", "built"], ["hall 1 1 9", "blocked 4 44", "built"]]
    found = [[*floor, "write room 40"] for floor in found]
    found += [["hall 3 1 1", f"cost 40 0-{last}", "built", "write room 800"] for last in (254, 255, 256)]
    found += [["hall 10 10 9", "cost 0 0-9999", "built", "write room 30010"], ["hall 10 10 1", "blocked 0-4999 5001-9999", "built", "write room 30010"]]
    return [(WRITE, calls) for calls in found]


def changed():
    """Files after changes, accepted and refused ones."""
    found = [[*ONE, "change 6 255"], [*ONE, "change 5 1"], [*ONE, "change 5 0", "change 99 2"], [*ONE, "change 7 1"]]
    found += [[*ONE, "change 100 255"], ["hall 3 1 2", "blocked 48 150", "built", "change 68 255"]]
    found += [["hall 2 1 2", "blocked 59", "built", "change 151 255"], ["hall 2 1 2", "blocked 18 130", "built", "change 130 255"]]
    return [(WRITE, [*calls, "write room 30"]) for calls in found]


def lent():
    """Scaled costs and marks that fit nothing have no part, and base costs are as they are lent."""
    others = [["scaled 5:1 6:255 199:0"], ["mark 0E:0 1W:3ff"], ["mark 0E:155"], ["base 7:1 8:255"], ["base 0:0 199:1", "scaled 0:255"]]
    return [(WRITE, [*SOME, *(f"lend {part}" for part in parts), "write room 30"]) for parts in others]


def read_back():
    """A written file is read, and two stores are written one after the other: with equal files, and with others."""
    entries = [(7, 255), (100, 40), (199, 0)]
    found = [[*SOME, "write room 14", f"file {file_of((2, 1, 3), entries)} list 200"]]
    found.append(["hall 1 1 1", "built", "write room 5", f"file {file_of((1, 1, 1), [])} list 100"])
    same = ["lend scaled 7:1 8:255", "lend mark 0E:1 1W:0", "lend length 500"]
    other = ["lend base 8:255", "lend base 100:1", "lend base 7:254", "lend byte 2:4"]
    found += [[*SOME, "write room 20", again, "write room 20"] for again in same + other]
    turned = ["lend mark 0E:0 1W:0", "lend byte 0:1 1:2"]
    return [(BACK, calls) for calls in [*found, [*SOME, "write room 20", *turned, "write room 20"]]]


def outputs():
    """Outputs that the file fills, and longer ones."""
    found = [[*ONE, f"write room {room}"] for room in (8, 9, 10, 11, 13, 100)]
    found += [["hall 1 1 1", "built", f"write room {room}"] for room in (5, 6, 8)]
    found += [[*SOME, f"write room {room}"] for room in (14, 15, 65536)] + [[*ALL, f"write room {room}"] for room in (30005, 30008)]
    return [(OUTPUT, calls) for calls in found]


def short_outputs():
    """Outputs that are too short, by one byte and by more, and ones that are just long enough."""
    found = [[*ONE, f"write room {room}"] for room in (0, 1, 4, 5, 7)]
    found += [["hall 1 1 1", "built", f"write room {room}"] for room in (0, 4)]
    found += [[*SOME, f"write room {room}"] for room in (11, 13)] + [[*ALL, f"write room {room}"] for room in (29999, 30004)]
    found += [[*ONE, "change 6 255", f"write room {room}"] for room in (8, 10, 11)]
    return [(TOO_SHORT, calls) for calls in found]


def refused_stores():
    """Each defect of a store with outputs that are too short, and some with one that is not."""
    defects = ["length 0", "length 3", "byte 0:0", "byte 1:11", "byte 2:0", "byte 2:10", "byte 3:1", "length 419", "byte 0:3"]
    defects += ["mark 0E:400", "mark 0N:1"]
    found = [(f"lend {defect}", room) for defect in defects for room in (0, 13)]
    found += [("lend length 419", 14), ("lend mark 1E:200", 14), ("lend byte 3:255", 30)]
    return [(TOO_SHORT, [*SOME, defect, f"write room {room}"]) for defect, room in found]
