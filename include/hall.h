/*
 * hall.h: portal routes over a sectored trolley floor, for C99 and C++11 and later.
 *
 * The calls are those of document 01, docs/01-scope.md, with requests 1 and 2 of document 02,
 * docs/02-change-requests.md, and hall_version; what each of them answers and leaves in lent memory is
 * proved equal to these documents. Link with libhall.a (x86-64, System V calling convention).
 *
 * THE FLOOR
 *
 * A hall has 1 to 10 columns and 1 to 10 rows of sectors, a sector 10 columns and 10 rows of cells.
 * Columns and rows are counted from 0, from the north-west corner; north lowers the row.
 *
 *   index of a cell        = row x 10 + column, in its sector: 0 to 99
 *   sector number          = sector column x rows of the hall + sector row
 *   floor number of a cell = sector number x 100 + index
 *
 * A cell's base cost is 0 to 254 where it is open and 255 where it is blocked. Scaled costs are the
 * base costs with 255 in the cells that scaling closes; scale is 1 to 9. Moves go between cells that
 * are open by their scaled costs and share a side, at 1 each: other costs weigh nothing.
 *
 * Scaling closes gaps of fewer than scale cells between walls, seen along eight directions from a
 * blocked cell, up to the next cell that is blocked or already closed, or to the end of the floor. It
 * can leave open: gaps of scale cells or more, cells beside a wall, and cells of a narrow gap behind a
 * cell already closed or over a sector border. Scale is radius over unit, rounded up, but a trolley is
 * two radii wide: with radius 2 and unit 1 it is 4 cells wide, and gaps of 2 cells stay open to it.
 * Whoever plans the hall has to choose unit and radius so that every gap that stays open is wide
 * enough.
 *
 * A window is a run of open places on the border of two sectors that cannot be made longer. It is
 * named by its side and the indices of its first and last cell, from the west on N and S, from the
 * north on E and W.
 *
 * WHAT IS LENT
 *
 * A lent list is two arguments: where it begins, and how many bytes it has. A call reads and writes
 * those bytes alone, whatever is in them, and keeps no pointer. A list of length 0 may begin anywhere:
 * its pointer may be null, as that of an empty std::vector. The caller sees to two things:
 *
 *   - the bytes are there, as many as the length says;
 *   - what is lent for writing overlaps nothing else that is lent to the same call.
 *
 * NUMBERS
 *
 * Every call but hall_version answers a number: 0, or that of the first refusal that applies, 1 to 29,
 * in the order that stands at the call. A refusal alters nothing that was lent, and the other values of
 * its answer are 0. hall_refusal_text, at the end, says what each number means.
 *
 * THREADS AND MEMORY
 *
 * The library has no state of its own, allocates nothing, and calls only memcpy, memmove and memset.
 * Calls may run in several threads at a time, as long as none writes memory that another reads or
 * writes. hall_route needs about 190 kB of stack, hall_change about 40 kB, the other calls up to
 * 30 kB: a thread with HALL_STACK_BYTES is enough for each.
 */
#ifndef HALL_H
#define HALL_H

#include <stddef.h>
#include <stdint.h>

#ifdef __cplusplus
extern "C" {
#endif

/* The version of this header: one more whenever a call, an answer, a number, or a form of lent bytes
 * changes, so that a caller has something to do; docs/CHANGES.md says what. hall_version answers that
 * of the library: where the two differ, header and library do not belong together. */
#define HALL_VERSION 3u
uint32_t hall_version(void);

/* Sizes in bytes, from a hall's columns and rows: a list of base costs (one byte each, by floor
 * number), and a store. Both are constants where columns and rows are. */
#define HALL_CELLS(columns, rows) (100u * (columns) * (rows))
#define HALL_STORE_SIZE(columns, rows) (4u + 208u * (columns) * (rows))

/* Bytes of an entry in a list of steps, and in one of windows. */
#define HALL_STEP_BYTES 6
#define HALL_WINDOW_BYTES 3

/* No route has more steps, no sector more windows, and no hall file more bytes: lists with this room
 * are never refused. */
#define HALL_MOST_STEPS 1001
#define HALL_MOST_WINDOWS 20
#define HALL_MOST_FILE_BYTES 30005

/* A stack of this size is enough for a thread that makes any of the calls. */
#define HALL_STACK_BYTES (512u * 1024u)

/* The cost of a blocked cell. */
#define HALL_BLOCKED 255

/* Sides of a sector; a step without window has HALL_NO_WINDOW. */
enum { HALL_NORTH = 0, HALL_EAST = 1, HALL_SOUTH = 2, HALL_WEST = 3, HALL_NO_WINDOW = 4 };

/* What plan and read file answer: number, and the hall's measures. */
typedef struct hall_measures_answer {
    uint8_t number;
    uint8_t columns;
    uint8_t rows;
    uint8_t scale;
} hall_measures_answer;

/* What route answers: number, how many steps were written, leg and run. "None", no route from source
 * to goal, is number 0 with 0 steps. Leg is the moves from the source to the midpoint of the first
 * window, run those from there to the goal; a route inside one sector has leg 0. */
typedef struct hall_route_answer {
    uint8_t number;
    uint32_t steps;
    uint32_t leg;
    uint32_t run;
} hall_route_answer;

/* What windows answers: number, and how many windows were written. */
typedef struct hall_windows_answer {
    uint8_t number;
    uint8_t count;
} hall_windows_answer;

/* What write file answers: number, and how many bytes the file has. */
typedef struct hall_file_answer {
    uint8_t number;
    uint32_t length;
} hall_file_answer;

/* An entry of a list of steps, for reading the list by name: a hall_step may be lent as its
 * HALL_STEP_BYTES bytes, and an array of them as a list.
 *
 * The step leads to the cell with index goal in sector column,row: the midpoint of the window on that
 * side from cell first to cell last. The last step has no window: its goal is the route's, its side is
 * HALL_NO_WINDOW, first and last are 0.
 *
 * Go by the sectors: the next step's sector says which border the route crosses, and mostly the step's
 * window lies on it. But where the first step's cell is a corner, the midpoint of two windows of its
 * sector, the step may name the other one; the steps after it then name the window by which their
 * sector is entered. */
typedef struct hall_step {
    uint8_t column;
    uint8_t row;
    uint8_t goal;
    uint8_t side;
    uint8_t first;
    uint8_t last;
} hall_step;

/* The same for a list of windows: an entry is HALL_WINDOW_BYTES bytes. */
typedef struct hall_window {
    uint8_t first;
    uint8_t last;
    uint8_t side;
} hall_window;

/* Plan: a hall's columns, rows and scale from its sizes along x (columns) and y (rows), the unit,
 * which is the length of a cell, and the trolley's radius, all in one measure of length. A sector's
 * length is unit x 10; columns and rows are each size over that, cut down; scale is radius over unit,
 * rounded up.
 *
 * All is reckoned in float, rounded to nearest, with subnormals: leave the processor so (in a program
 * linked with -ffast-math it is not).
 *
 * Refusals: 1 to 9. */
hall_measures_answer hall_plan(float size_x, float size_y, float unit, float radius);

/* Read file: fills a lent list of base costs from the bytes of a hall file, and answers the file's
 * columns, rows and scale. base_length is HALL_CELLS(columns, rows), by the file's first two bytes.
 *
 * The file: bytes columns, rows, scale; a count, two bytes, low byte first; then count floor numbers,
 * two bytes each, low byte first; then count costs, one byte each. Floor numbers stand in any order,
 * each at most once: one that stands twice is refused, with equal costs too. Unnamed cells cost 1.
 *
 * Refusals: 10 to 15, 28, 16. */
hall_measures_answer hall_read_file(const uint8_t *file, size_t file_length,
                                    uint8_t *base, size_t base_length);

/* Build: makes a hall in a lent store, from its measures and base costs. base_length is
 * HALL_CELLS(columns, rows), store_length at least HALL_STORE_SIZE(columns, rows); bytes of the store
 * past that stay as they are.
 *
 * A store is plain bytes and may be copied, saved and sent: columns, rows, scale, 0; the base costs
 * and then the scaled costs, each by floor number; then for each sector four marks N, E, S, W, two
 * bytes each, low byte first, in which bit i is set where place i of that side is open.
 *
 * Refusals: 11, 12, 17, 18. */
uint8_t hall_build(uint8_t columns, uint8_t rows, uint8_t scale,
                   const uint8_t *base, size_t base_length,
                   uint8_t *store, size_t store_length);

/* Store check: whether the calls below take a store. Each of them makes it first, so a store that
 * comes from elsewhere does no harm.
 *
 * Refusals: 18 (under 4 bytes), 11, 12, 19, 18 (below its size), 20. */
uint8_t hall_check_store(const uint8_t *store, size_t store_length);

/* Change: gives the cell with this floor number a base cost, and scales and marks its sector and the
 * up to 8 around it afresh. Other sectors keep their scaled costs and marks, stale or not, and a change
 * to the cost that the cell has may alter the store too. So a changed store may differ from one built
 * anew from the same base costs: two routers agree if they are given the same changes in the same
 * order. At scale 1 the two are the same, and 22 cannot occur in a hall that was built and changed.
 *
 * Refusals: those of the store check, 21, 22. */
uint8_t hall_change(uint8_t *store, size_t store_length, size_t floor_number, uint8_t cost);

/* Route: the route from one cell to another, both by floor number. Its steps are written to the front
 * of the lent list, HALL_STEP_BYTES bytes each: column, row, goal, side, first, last, as in hall_step.
 * The list has room for list_length / HALL_STEP_BYTES steps; what is behind the steps stays as it is,
 * and all of it where there is no route.
 *
 * Refusals: those of the store check, 23, 24, 25. */
hall_route_answer hall_route(const uint8_t *store, size_t store_length,
                             size_t source, size_t goal,
                             uint8_t *list, size_t list_length);

/* Windows: the windows of the sector with this number, sides N, E, S, W, on each side in order. They
 * are written to the front of the lent list, HALL_WINDOW_BYTES bytes each: first, last, side, as in
 * hall_window. The list has room for list_length / HALL_WINDOW_BYTES windows; what is behind them
 * stays as it is.
 *
 * Refusals: those of the store check, 26, 27. */
hall_windows_answer hall_windows(const uint8_t *store, size_t store_length, size_t sector,
                                 uint8_t *list, size_t list_length);

/* Write file: the hall file of a store's columns, rows, scale and base costs, in the form that
 * hall_read_file reads. It names each cell that does not cost 1, in ascending order of floor numbers.
 * So reading it gives these four back, and two stores have the same file exactly where these four are
 * equal; scaled costs and marks have no part in it. A hall that was changed at a scale above 1 may
 * differ from one built from its file, as hall_change says.
 *
 * The file is written to the front of the lent output, at most 5 + 3 x HALL_CELLS(columns, rows)
 * bytes of it; what is behind it stays as it is.
 *
 * Refusals: those of the store check, 29. */
hall_file_answer hall_write_file(const uint8_t *store, size_t store_length,
                                 uint8_t *output, size_t output_length);

/* What a number means, in the words of documents 01 and 02; before the colon the call that refuses,
 * where it is one alone. */
static inline const char *hall_refusal_text(uint8_t number)
{
    switch (number) {
    case 0: return "accepted";
    case 1: return "plan: a value not finite";
    case 2: return "plan: a size <= 0";
    case 3: return "plan: radius <= 0";
    case 4: return "plan: unit <= 0";
    case 5: return "plan: columns or rows below 1 before the cut";
    case 6: return "plan: radius >= sector length";
    case 7: return "plan: scale >= 10";
    case 8: return "plan: scale 0 (the quotient rounds to 0)";
    case 9: return "plan: columns or rows above 10";
    case 10: return "read file: under 5 bytes";
    case 11: return "columns or rows outside 1 to 10";
    case 12: return "scale outside 1 to 9";
    case 13: return "read file: count above 10,000";
    case 14: return "read file: length not 5 + 3 x count";
    case 15: return "read file: a floor number too large";
    case 16: return "read file: list length not 100 x sectors";
    case 17: return "build: base list length not 100 x sectors";
    case 18: return "store too short";
    case 19: return "store check: fourth byte not 0";
    case 20: return "store check: a mark above 1,023, or not 0 on a side without neighbour";
    case 21: return "change: floor number too large";
    case 22: return "change: a sector marked afresh has more windows on a side "
                    "than the facing side of a sector not marked afresh";
    case 23: return "route: source too large";
    case 24: return "route: goal too large";
    case 25: return "route: more steps than the lent list holds";
    case 26: return "windows: sector number too large";
    case 27: return "windows: list too short";
    case 28: return "read file: a floor number stands twice in the file";
    case 29: return "write file: the output is shorter than the file";
    default: return "no refusal has this number";
    }
}

#ifdef __cplusplus
}
#endif

#endif
