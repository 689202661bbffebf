/* Which frame a page is in, where runs of pages are mapped at once: the map has the first page of each run.
 *
 *     cc -Iinclude examples/c/extents.c out/c-library/libcongee.a -o extents */
#include "congee.h"
#include <inttypes.h>
#include <stdio.h>

enum { MOST = 100 };

struct run {
    uint64_t first, pages, frame;
};

static struct run runs[MOST];
static uint64_t count;

/* Maps a run of at least one page. Whether no run overlaps it, and there is room. */
static bool map_run(struct congee *table, uint64_t first, uint64_t pages, uint64_t frame) {
    struct congee_pair before;
    if (congee_floor(table, first + (pages - 1), &before)) {
        const struct run *run = &runs[before.value];
        if (run->first >= first || first - run->first < run->pages)
            return false;
    }
    if (count == MOST || congee_insert(table, first, count, NULL) == CONGEE_OOM)
        return false;
    runs[count++] = (struct run){first, pages, frame};
    return true;
}

static void show(struct congee *table, uint64_t page) {
    struct congee_pair before;
    if (congee_floor(table, page, &before)) {
        const struct run *run = &runs[before.value];
        if (page - run->first < run->pages) {
            printf("page %" PRIu64 " is in frame %" PRIu64 "\n", page, run->frame + (page - run->first));
            return;
        }
    }
    printf("page %" PRIu64 " isn't mapped\n", page);
}

int main(void) {
    struct congee *table;
    if (congee_new(&table) == CONGEE_OOM)
        return 1;
    if (!map_run(table, 100, 50, 1000) || !map_run(table, 200, 10, 5000))
        return 1;
    printf("a run that overlaps another is %s\n", map_run(table, 149, 3, 7000) ? "mapped" : "refused");
    show(table, 149);
    show(table, 150);
    show(table, 99);
    /* All runs that begin from page 150 on, at once. */
    printf("%" PRIu64 " unmapped\n", congee_remove_range_inclusive(table, 150, UINT64_MAX));
    show(table, 200);
    congee_free(table);
    return 0;
}
