/* A page table: it takes the pages of an address space to frames of memory.
 *
 *     cc -Iinclude examples/c/page_table.c out/c-library/libcongee.a -o page_table */
#include "congee.h"
#include <inttypes.h>
#include <stdio.h>

enum { PAGE_SIZE = 4096, BATCH = 4 };

/* Maps so many pages, from the first on, to frames from the first on. Where memory is missing, nothing stays mapped. */
static bool map_pages(struct congee *table, uint64_t page, uint64_t frame, uint64_t count) {
    for (uint64_t i = 0; i < count; i++) {
        if (congee_insert(table, page + i, frame + i, NULL) == CONGEE_OOM) {
            while (i-- > 0)
                congee_remove(table, page + i, NULL);
            return false;
        }
    }
    return true;
}

/* Unmaps the pages from the first on and below the last, and returns how many were mapped. */
static uint64_t unmap_pages(struct congee *table, uint64_t first, uint64_t last) {
    struct congee_pair mapped[BATCH] = {{0, 0}};
    uint64_t count = 0;
    size_t n;
    while ((n = congee_range(table, first, last, mapped, BATCH)) > 0) {
        for (size_t i = 0; i < n; i++)
            count += (uint64_t)congee_remove(table, mapped[i].key, NULL);
        first = mapped[n - 1].key + 1;
    }
    return count;
}

static void show(struct congee *table, uint64_t address) {
    uint64_t frame;
    if (congee_get(table, address / PAGE_SIZE, &frame))
        printf("%#" PRIx64 " is at %#" PRIx64 "\n", address, frame * PAGE_SIZE + address % PAGE_SIZE);
    else
        printf("%#" PRIx64 " is not mapped\n", address);
}

int main(void) {
    struct congee *table;
    if (congee_new(&table) == CONGEE_OOM)
        return 1;
    if (!map_pages(table, 0x400, 7, 20) || !map_pages(table, 0x7fffffff0, 100, 16)) {
        congee_free(table);
        return 1;
    }
    printf("%" PRIu64 " pages are mapped, by nodes of %" PRIu64 " bytes\n", congee_count(table), congee_charged(table));
    show(table, 0x401234);
    show(table, 0x7fffffff8abc);
    show(table, 0x500000);
    printf("%" PRIu64 " pages are unmapped\n", unmap_pages(table, 0x400, 0x410));
    show(table, 0x401234);
    printf("%" PRIu64 " pages stay\n", congee_count(table));
    congee_free(table);
    return 0;
}
