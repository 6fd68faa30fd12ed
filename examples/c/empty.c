/* A lent list of length 0 may begin at a null pointer: each list of each call, refused and accepted. C99 and C++11. */
#include <hall.h>
#include <stdio.h>

static uint8_t base[HALL_CELLS(1, 1)];
static uint8_t store[HALL_STORE_SIZE(1, 1)];
static uint8_t list[HALL_STEP_BYTES];
static int differences;

static void same(const char *what, unsigned given, unsigned owed)
{
    if (given != owed) {
        printf("%s: %u and not %u\n", what, given, owed);
        differences++;
    }
}

static void refused(void)
{
    const uint8_t file[] = {1, 1, 1, 0, 0};
    same("no file", hall_read_file(NULL, 0, base, sizeof base).number, 10);
    same("no file, no list", hall_read_file(NULL, 0, NULL, 0).number, 10);
    same("a file, no list", hall_read_file(file, sizeof file, NULL, 0).number, 16);
    same("no base costs", hall_build(1, 1, 1, NULL, 0, store, sizeof store), 17);
    same("neither", hall_build(1, 1, 1, NULL, 0, NULL, 0), 17);
    same("no store to build in", hall_build(1, 1, 1, base, sizeof base, NULL, 0), 18);
    same("no store to check", hall_check_store(NULL, 0), 18);
    same("no store to change", hall_change(NULL, 0, 0, HALL_BLOCKED), 18);
    same("no store to route in", hall_route(NULL, 0, 0, 0, list, sizeof list).number, 18);
    same("no store, no list of steps", hall_route(NULL, 0, 0, 0, NULL, 0).number, 18);
    same("no store of windows", hall_windows(NULL, 0, 0, list, sizeof list).number, 18);
    same("no store, no list of windows", hall_windows(NULL, 0, 0, NULL, 0).number, 18);
    same("no store to write from", hall_write_file(NULL, 0, list, sizeof list).number, 18);
    same("no store, no file to write", hall_write_file(NULL, 0, NULL, 0).number, 18);
}

/* In a hall of one sector whose first cell is blocked. */
static void answered(void)
{
    base[0] = HALL_BLOCKED;
    same("build", hall_build(1, 1, 1, base, sizeof base, store, sizeof store), 0);
    same("a route, no list", hall_route(store, sizeof store, 1, 2, NULL, 0).number, 25);
    same("no route, no list", hall_route(store, sizeof store, 0, 1, NULL, 0).number, 0);
    same("no windows, no list", hall_windows(store, sizeof store, 0, NULL, 0).number, 0);
    same("no file to write", hall_write_file(store, sizeof store, NULL, 0).number, 29);
}

int main(void)
{
    refused();
    answered();
    return differences == 0 ? 0 : 1;
}
