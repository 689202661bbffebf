/* An index from the ids of records to their places in a file, within a limit of memory.
 *
 *     cc -Iinclude examples/c/id_index.c out/c-library/libcongee.a -o id_index */
#include "congee.h"
#include <inttypes.h>
#include <stdio.h>

/* Enters a record, and prints the outcome. */
static void enter(struct congee *index, uint64_t id, uint64_t place) {
    uint64_t before;
    switch (congee_insert(index, id, place, &before)) {
    case 0:
        printf("record %" PRIu64 " is at %" PRIu64 "\n", id, place);
        break;
    case 1:
        printf("record %" PRIu64 " was at %" PRIu64 " and is at %" PRIu64 "\n", id, before, place);
        break;
    default:
        printf("record %" PRIu64 " finds no room, and the index is as it was\n", id);
    }
}

/* Moves a record unless another move came first, and prints the outcome. */
static void move(struct congee *index, uint64_t id, uint64_t from, uint64_t to) {
    uint64_t found;
    switch (congee_compare_exchange(index, id, from, to, &found)) {
    case 0:
        printf("record %" PRIu64 " is gone\n", id);
        break;
    case 1:
        printf("record %" PRIu64 " moved to %" PRIu64 "\n", id, to);
        break;
    default:
        printf("record %" PRIu64 " is already at %" PRIu64 "\n", id, found);
    }
}

/* Lists the records from an id on and below another, two to a line. */
static void list(struct congee *index, uint64_t start, uint64_t end) {
    struct congee_pair page[2] = {{0, 0}, {0, 0}};
    size_t n;
    while ((n = congee_range(index, start, end, page, 2)) > 0) {
        for (size_t i = 0; i < n; i++)
            printf("%s%" PRIu64 " at %" PRIu64, i > 0 ? ", " : "", page[i].key, page[i].value);
        printf("\n");
        start = page[n - 1].key + 1;
    }
}

int main(void) {
    struct congee *index;
    /* (the first node, and one leaf of four) */
    if (congee_new_with_limit(&index, 2104 + 64) == CONGEE_OOM)
        return 1;
    for (uint64_t i = 0; i < 6; i++)
        enter(index, 1000 + 3 * i, 512 * i);
    enter(index, 1006, 4096);
    enter(index, 70000, 8192);
    move(index, 1003, 512, 5120);
    move(index, 1003, 512, 6144);
    printf("%s\n", congee_remove(index, 1009, NULL) ? "record 1009 is taken out" : "there is no record 1009");
    move(index, 1009, 1536, 7168);
    list(index, 1000, 2000);
    printf("%" PRIu64 " records, %" PRIu64 " bytes charged\n", congee_count(index), congee_charged(index));
    congee_free(index);
    return 0;
}
