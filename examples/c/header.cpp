// hall.h in C++: its structs lie as the library has them (rust/src/declared.rs holds the same numbers), and its calls
// link under their C names. An empty std::vector may be lent.
#include <hall.h>
#include <vector>

static_assert(sizeof(hall_measures_answer) == 4, "measures");
static_assert(offsetof(hall_measures_answer, columns) == 1, "measures");
static_assert(offsetof(hall_measures_answer, rows) == 2, "measures");
static_assert(offsetof(hall_measures_answer, scale) == 3, "measures");

static_assert(sizeof(hall_route_answer) == 16, "route");
static_assert(offsetof(hall_route_answer, steps) == 4, "route");
static_assert(offsetof(hall_route_answer, leg) == 8, "route");
static_assert(offsetof(hall_route_answer, run) == 12, "route");

static_assert(sizeof(hall_windows_answer) == 2, "windows");
static_assert(offsetof(hall_windows_answer, count) == 1, "windows");

static_assert(sizeof(hall_file_answer) == 8, "file");
static_assert(offsetof(hall_file_answer, length) == 4, "file");

static_assert(sizeof(hall_step) == HALL_STEP_BYTES, "step");
static_assert(sizeof(hall_window) == HALL_WINDOW_BYTES, "window");

int main()
{
    uint8_t base[HALL_CELLS(1, 1)] = {};
    uint8_t store[HALL_STORE_SIZE(1, 1)] = {};
    uint8_t list[HALL_STEP_BYTES] = {};
    uint8_t written[HALL_MOST_FILE_BYTES] = {};
    const hall_measures_answer measures = hall_plan(10, 10, 1, 1);
    const uint8_t file[] = {measures.columns, measures.rows, measures.scale, 0, 0};
    std::vector<uint8_t> none;
    const bool accepted =
        hall_version() == HALL_VERSION
        && hall_read_file(file, sizeof file, base, sizeof base).number == 0
        && hall_build(1, 1, 1, base, sizeof base, store, sizeof store) == 0
        && hall_change(store, sizeof store, 50, HALL_BLOCKED) == 0
        && hall_check_store(store, sizeof store) == 0
        && hall_windows(store, sizeof store, 0, none.data(), none.size()).number == 0
        && hall_route(store, sizeof store, 0, 99, list, sizeof list).run == 18
        && hall_write_file(store, sizeof store, written, sizeof written).length == 8;
    return accepted ? 0 : 1;
}
