/* Every call of hall.h: document 01's example of a route, then refusals, changes, the changed floor as
 * a file, and "none". Lines about routes are as the program hallroute prints them. */
#include <hall.h>
#include <stdio.h>

#define COLUMNS 2
#define ROWS 1

/* A hall file of 2 by 1 sectors, scale 1, with no entries: all cells cost 1. */
static const uint8_t file[] = {COLUMNS, ROWS, 1, 0, 0};

/* The same with two entries for cell 49, as where two files are merged. */
static const uint8_t merged[] = {COLUMNS, ROWS, 1, 2, 0, 49, 0, 49, 0, 5, HALL_BLOCKED};

static uint8_t base[HALL_CELLS(COLUMNS, ROWS)];
static uint8_t store[HALL_STORE_SIZE(COLUMNS, ROWS)];
static hall_step steps[HALL_MOST_STEPS];
static hall_window windows[HALL_MOST_WINDOWS];
static uint8_t written[HALL_MOST_FILE_BYTES];

static void print_window(unsigned side, unsigned first, unsigned last)
{
    printf("%c%u-%u", "NESW"[side], first, last);
}

static void print_step(const hall_step *step)
{
    printf(" %u,%u:%u", step->column, step->row, step->goal);
    if (step->side == HALL_NO_WINDOW)
        printf("-");
    else
        print_window(step->side, step->first, step->last);
}

static void plan(float size_x, float size_y, float unit, float radius)
{
    hall_measures_answer answer = hall_plan(size_x, size_y, unit, radius);
    if (answer.number != 0)
        printf("plan no %u\n", answer.number);
    else
        printf("plan %u %u %u\n", answer.columns, answer.rows, answer.scale);
}

/* Builds the hall of a file; 0, or the number of the refusal, which is printed. */
static uint8_t build(const uint8_t *bytes, size_t length)
{
    hall_measures_answer read = hall_read_file(bytes, length, base, sizeof base);
    uint8_t number = read.number;
    if (number == 0)
        number = hall_build(read.columns, read.rows, read.scale, base, sizeof base, store,
                            sizeof store);
    if (number != 0)
        printf("hall refused %u\n", number);
    return number;
}

/* Whether so many bytes of the store are one. */
static void check(size_t length)
{
    uint8_t number = hall_check_store(store, length);
    printf("store of %zu bytes", length);
    if (number != 0)
        printf(" no %u", number);
    printf("\n");
}

static void list_windows(size_t sector)
{
    hall_windows_answer answer =
        hall_windows(store, sizeof store, sector, (uint8_t *)windows, sizeof windows);
    printf("windows %zu", sector);
    if (answer.number != 0)
        printf(" no %u", answer.number);
    for (unsigned i = 0; i < answer.count; i++) {
        printf(" ");
        print_window(windows[i].side, windows[i].first, windows[i].last);
    }
    printf("\n");
}

static void change(size_t floor_number, uint8_t cost)
{
    uint8_t number = hall_change(store, sizeof store, floor_number, cost);
    printf("change %zu %u", floor_number, cost);
    if (number != 0)
        printf(" no %u", number);
    printf("\n");
}

/* Routes with a list that holds so many steps. */
static void route(size_t source, size_t goal, size_t room)
{
    hall_route_answer answer = hall_route(store, sizeof store, source, goal, (uint8_t *)steps,
                                          room * HALL_STEP_BYTES);
    printf("%zu %zu ", source, goal);
    if (answer.number != 0)
        printf("no %u", answer.number);
    else if (answer.steps == 0)
        printf("none");
    else
        printf("%u %u %u", (unsigned)answer.steps, (unsigned)answer.leg, (unsigned)answer.run);
    for (uint32_t i = 0; i < answer.steps; i++)
        print_step(&steps[i]);
    printf("\n");
}

/* Writes the hall file of the store with so much room, and prints its bytes; its length, or 0. */
static size_t write_file(size_t room)
{
    hall_file_answer answer = hall_write_file(store, sizeof store, written, room);
    printf("file");
    if (answer.number != 0)
        printf(" no %u", answer.number);
    for (uint32_t i = 0; i < answer.length; i++)
        printf(" %u", written[i]);
    printf("\n");
    return answer.length;
}

int main(void)
{
    if (hall_version() != HALL_VERSION) {
        fprintf(stderr, "hall.h and the library do not belong together\n");
        return 1;
    }
    plan(20, 10, 1, 1);
    plan(20, 10, 1, 10);

    build(merged, sizeof merged);
    if (build(file, sizeof file) != 0)
        return 1;
    check(sizeof store);
    check(sizeof store - 1);
    list_windows(0);
    list_windows(2);
    route(0, 100, HALL_MOST_STEPS);
    route(0, 100, 1);
    route(0, 200, HALL_MOST_STEPS);

    change(200, HALL_BLOCKED);
    change(49, HALL_BLOCKED);
    list_windows(0);
    route(0, 100, HALL_MOST_STEPS);

    /* The changed floor goes home as a file, and is read back. */
    write_file(7);
    if (build(written, write_file(sizeof written)) != 0)
        return 1;
    route(0, 100, HALL_MOST_STEPS);
    change(100, HALL_BLOCKED);
    route(0, 100, HALL_MOST_STEPS);
    return 0;
}
