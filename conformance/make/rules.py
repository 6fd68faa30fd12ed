"""Sentences of documents 01 and 02 that listed cases are about."""
READ = (
    "Read file into a lent base list: 10 under 5 bytes; 11 columns or rows outside 1 to 10; 12 scale outside 1 to 9; 13 count above "
    "10,000; 14 length not 5 + 3 × count; 15 a floor number too large; 16 list length not 100 × sectors. An accepted file gives its "
    "columns, rows and scale and fills the list."
)
FILE = (
    "File: bytes columns, rows, scale; u16 count, low byte first; then two parallel arrays, u16 floor numbers and byte costs. "
    "Unnamed cells cost 1;"
)
REPEAT = "28 when a floor number stands twice in the file, after 15 and before 16."
WRITE = (
    "Add a writer from the store's sizes, scale and base costs: ascending floor numbers, no entry with cost 1, no other bytes."
)
BACK = "Reading the written file gives these back, and two stores have the same file if and only if these are equal."
OUTPUT = "Only the file's own bytes of the lent output are touched, and the file's length is given."
TOO_SHORT = "29 when the output is shorter than the file, after the store check."
BUILD = "Build: 11; 12; 17 base list length not 100 × sectors; 18 store too short. Bytes past the size stay."
CHECK = (
    "Store check, opening each call below: 18 under 4 bytes; 11; 12; 19 fourth byte not 0; 18 below its size; 20 a mark above 1,023, "
    "or not 0 on a side without neighbour."
)
CHANGE = "Change: 21 floor number too large;"
ROUTE = (
    "Route: 23 source, 24 goal too large; 25 more steps than the lent list holds. \"None\" leaves the list alone; a route writes only "
    "its steps."
)
WINDOWS = "Windows of a sector, N, E, S, W: 26 sector number too large; 27 list too short."
ORDER_22 = (
    "22 a sector marked afresh has more windows on a side than the facing side of a sector not marked afresh (the Rust panics)."
)
NUMBER = "Sector number = column × rows + row; floor number = sector number × 100 + index. North lowers the row."
SIZES = "11 columns or rows outside 1 to 10; 12 scale outside 1 to 9;"
PROGRAM = (
    "Program `hallroute` reads at most 65,536 bytes: a hall file (the first 5 + 3 × count bytes, or all if fewer), then pairs of u16 "
    "source, goal, low byte first."
)
LINES = "Else `S G none`, `S G no N`, `hall refused N` and no further line, a last line `cut` for 1 to 3 spare bytes, or only `too long`."
PLAN = (
    "Plan: 1 a value not finite; 2 a size ≤ 0; 3 radius ≤ 0; 4 unit ≤ 0; 5 columns or rows below 1 before the cut; 6 radius ≥ sector "
    "length; 7 scale ≥ 10; 8 scale 0 (the quotient rounds to 0); 9 columns or rows above 10."
)
LISTING = (
    "Its step list holds 1,001. Input hex `02 01 01 00 00 00 00 64 00` prints just `0 100 2 13 5 0,0:49E9-99 1,0:0-`: source, goal, "
    "steps, leg, run, then per step column,row:goal index, side letter and first-last index, or `-`."
)
TIES = (
    "Among least-cost portal paths: fewest edges, then, at the first difference, the portal first in `PortalNode` order (sector, first "
    "cell, last cell, boundary N, E, S, W; cells by column, then row)."
)
COLUMNS = "Columns and rows are each size over sector length, cut down."
SCALE = "Scale is the radius over the unit, divided once in f32, then rounded up."
LEG = "Leg = moves from source to the start midpoint, not counted in the choice."
RUN = "Run = portal path cost + moves from the end midpoint to the goal."
STEPS = "Of the path, steps are position 0, each even position, and the last, which has the goal and no window."
NONE = "No pair: none."
JOINED = "Two cells of a sector are joined if moves lead from one to the other;"
WEIGHT = "Two portals of a sector whose midpoints are joined inside it have an edge, weight the fewest moves (0 if equal)."
PORTAL = "A portal is a sector and a window."
ONE = "if the goal is joined to the source in its sector, one step, leg 0, run the fewest moves."
