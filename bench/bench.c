/* bench.c - measures the library beside plain C, a read-only pass and GDAL, in one process and one run. A ratio is the median of the
 * ratios of the single rounds. bench/draw reads what is printed. */
#include "laps.h"
#include "others.h"
#include "same.h"

#include <stdio.h>

/* Every set answers as the library does. */
static size_t compare_all(void) {
    const struct cell *large = &cells[LEVELS - 1];
    size_t compared = 0;
    sets[0].compared = true;
    for (size_t i = 1; i < set_count; i++) {
        compared += compare(&sets[0], &sets[i], large->bytes, large->out, large->length);
        sets[i].compared = true;
    }
    return compared;
}

static void print_heading(size_t compared) {
    for (int level = 0; level < LEVELS; level++)
        printf("cell of level %d: %zu columns of %zu posts, %zu bytes\n", level, cells[level].columns, cells[level].posts,
               cells[level].length);
    printf("compared before anything was timed: %zu answers and outputs, all equal; sets beside the library: %zu\n", compared, set_count - 1);
    printf("rounds: %d, shuffled; each lap run untimed directly before; processor time of one thread; medians\n", ROUNDS);
    printf("posts, edits and headers alone: %d in each round, the same for all, columns and posts by a fixed seed\n", PICKS);
    print_compilers();
}

int main(void) {
    find_sets();
    make_cells();
    print_heading(compare_all());
    start_gdal();
    plan_acts();
    struct use before = machine_use();
    run_rounds();
    struct use after = machine_use();
    print_acts();
    print_levels();
    print_parts();
    print_throughput();
    print_others(before, after);
    return 0;
}
