/* Answers of the library that come seldom, or never: a map of owners is busy, a refused owner is kept for a while, an owner that
 * left the map can't be lent, the ticket of a search is retired. A function in the library's place gives each of them, by each
 * call, once. Whatever the answer, an object has as many references in the end as there are holders of it. */
#include "congee_exports.h"

/* What the next call that changes a key answers, how often it does, and the owner that the library keeps then. */
static int32_t answer;
static int answers;
static uint64_t kept;

/* How often the next look-up and the next call of `drain` are busy. */
static int busy_looks, busy_drains;

/* How often the next page or count is busy, how often the next tickets are retired, and how many searches were made. */
static int busy_pages, retired_tickets, searches;

/* Whether a call is answered here. The library keeps the owner, but where it is busy. */
static bool is_answered(uint64_t owner) {
    if (answers == 0)
        return false;
    answers--;
    if (answer != -1 && answer != -2)
        kept = owner;
    return true;
}

static int32_t given_get(struct congee_live_owners_handle *map, uint64_t key, struct congee_lent *lent) {
    return busy_looks > 0 && busy_looks-- ? -2 : congee_c_live_owners_get(map, key, lent);
}

static int32_t given_lend(struct congee_live_owners_handle *map, uint64_t ticket, uint64_t *owner) {
    return retired_tickets > 0 && retired_tickets-- ? 0 : congee_c_live_owners_lend(map, ticket, owner);
}

static int32_t given_ceiling(struct congee_live_owners_handle *map, uint64_t key, struct congee_pair *pair) {
    searches++;
    return busy_looks > 0 && busy_looks-- ? -2 : congee_c_live_owners_ceiling(map, key, pair);
}

static int32_t given_floor(struct congee_live_owners_handle *map, uint64_t key, struct congee_pair *pair) {
    searches++;
    return busy_looks > 0 && busy_looks-- ? -2 : congee_c_live_owners_floor(map, key, pair);
}

static int32_t given_page(struct congee_live_owners_handle *map, uint64_t start, uint64_t last, struct congee_pair *page, size_t n,
                          uint64_t *out) {
    return busy_pages > 0 && busy_pages-- ? -2 : congee_c_live_owners_range_inclusive(map, start, last, page, n, out);
}

static int32_t given_page_down(struct congee_live_owners_handle *map, uint64_t start, uint64_t last, struct congee_pair *page,
                               size_t n, uint64_t *out) {
    return busy_pages > 0 && busy_pages-- ? -2 : congee_c_live_owners_range_descending(map, start, last, page, n, out);
}

static int32_t given_count(struct congee_live_owners_handle *map, uint64_t *out) {
    return busy_pages > 0 && busy_pages-- ? -2 : congee_c_live_owners_count(map, out);
}

static int32_t given_insert(struct congee_live_owners_handle *map, uint64_t key, uint64_t owner, struct congee_lent *before) {
    if (answer == 2 && answers > 0 && answers--) {
        int32_t code = congee_c_live_owners_insert(map, key, owner, before);
        before->owner = 0;
        congee_c_live_owners_end(map);
        return code == 1 ? 2 : code;
    }
    return is_answered(owner) ? answer : congee_c_live_owners_insert(map, key, owner, before);
}

static int32_t given_remove(struct congee_live_owners_handle *map, uint64_t key, struct congee_lent *before) {
    if (answer == 2 && answers > 0 && answers--) {
        int32_t code = congee_c_live_owners_remove(map, key, before);
        before->owner = 0;
        congee_c_live_owners_end(map);
        return code == 1 ? 2 : code;
    }
    return is_answered(0) ? answer : congee_c_live_owners_remove(map, key, before);
}

static int32_t given_take(struct congee_live_owners_handle *map, uint64_t key, uint64_t ticket, struct congee_lent *before) {
    if (answer == 2 && answers > 0 && answers--) {
        int32_t code = congee_c_live_owners_compare_remove(map, key, ticket, before);
        before->owner = 0;
        congee_c_live_owners_end(map);
        return code == 1 ? 2 : code;
    }
    return is_answered(0) ? answer : congee_c_live_owners_compare_remove(map, key, ticket, before);
}

static int32_t given_exchange(struct congee_live_owners_handle *map, uint64_t key, uint64_t ticket, uint64_t owner,
                              struct congee_lent *before) {
    if (answer == 2 && answers > 0 && answers--) {
        int32_t code = congee_c_live_owners_compare_exchange(map, key, ticket, owner, before);
        before->owner = 0;
        congee_c_live_owners_end(map);
        return code == 1 ? 2 : code;
    }
    return is_answered(owner) ? answer : congee_c_live_owners_compare_exchange(map, key, ticket, owner, before);
}

static int32_t given_get_or_insert(struct congee_live_owners_handle *map, uint64_t key, uint64_t owner,
                                   struct congee_lent *found) {
    return is_answered(owner) ? answer : congee_c_live_owners_get_or_insert(map, key, owner, found);
}

static int32_t given_reclaim(struct congee_live_owners_handle *map, struct congee_lent *back) {
    if (kept == 0)
        return congee_c_live_owners_reclaim(map, back);
    back->owner = kept;
    kept = 0;
    return 1;
}

static int32_t given_drain(struct congee_live_owners_handle *map, struct congee_lent *back) {
    if (busy_drains > 0 && busy_drains--)
        return -2;
    return kept != 0 ? given_reclaim(map, back) : congee_c_live_owners_drain(map, back);
}

#define congee_c_live_owners_get given_get
#define congee_c_live_owners_lend given_lend
#define congee_c_live_owners_ceiling given_ceiling
#define congee_c_live_owners_floor given_floor
#define congee_c_live_owners_range_inclusive given_page
#define congee_c_live_owners_range_descending given_page_down
#define congee_c_live_owners_count given_count
#define congee_c_live_owners_insert given_insert
#define congee_c_live_owners_remove given_remove
#define congee_c_live_owners_compare_exchange given_exchange
#define congee_c_live_owners_compare_remove given_take
#define congee_c_live_owners_get_or_insert given_get_or_insert
#define congee_c_live_owners_reclaim given_reclaim
#define congee_c_live_owners_drain given_drain
#include "congee.h"
#include <stdio.h>
#include <stdlib.h>

enum { OOM_KEPT = -4, BUSY_KEPT = -5, OTHER_KEPT = 3 };

struct object {
    long references;
};

static struct object objects[3];

static void need(bool holds, const char *what) {
    if (!holds) {
        fprintf(stderr, "live_owner_answers: wrong: %s (the library answers %d)\n", what, answer);
        exit(1);
    }
}

static void retain(void *owner, void *with) {
    (void)with;
    need(((struct object *)owner)->references++ > 0, "an object that is retained has a reference");
}

static void release(void *owner, void *with) {
    (void)with;
    need(((struct object *)owner)->references-- > 0, "an object that is released has a reference");
}

static void answers_next(int32_t code, int times) {
    answer = code;
    answers = times;
}

enum kind { INSERT, EXCHANGE, KEEP, KINDS };

static int call(struct congee_live_owners *map, enum kind kind, bool waits, uint64_t ticket, void *owner, void **place) {
    switch (kind) {
    case INSERT:
        return (waits ? congee_live_owners_insert : congee_live_owners_try_insert)(map, 7, owner, place);
    case EXCHANGE:
        return (waits ? congee_live_owners_compare_exchange : congee_live_owners_try_compare_exchange)(map, 7, ticket, owner);
    default:
        return (waits ? congee_live_owners_get_or_insert : congee_live_owners_try_get_or_insert)(map, 7, owner, place);
    }
}

/* The answer once, or three times of a call that waits: what the call returns, with `retain` and without. A call that waits and
 * stores has CONGEE_PRESENT, by the answer of the library itself. */
static const struct row {
    int32_t answer;
    bool waits;
    int code, alone;
} rows[] = {
    {CONGEE_OOM, false, CONGEE_OOM, CONGEE_OOM},     {CONGEE_OOM, true, CONGEE_OOM, CONGEE_OOM},
    {CONGEE_BUSY, false, CONGEE_BUSY, CONGEE_BUSY},  {CONGEE_BUSY, true, CONGEE_PRESENT, CONGEE_PRESENT},
    {OOM_KEPT, false, CONGEE_OOM, CONGEE_KEPT},      {OOM_KEPT, true, CONGEE_OOM, CONGEE_KEPT},
    {BUSY_KEPT, false, CONGEE_BUSY, CONGEE_KEPT},    {OTHER_KEPT, false, CONGEE_OTHER, CONGEE_KEPT},
    {OTHER_KEPT, true, CONGEE_OTHER, CONGEE_KEPT},   {BUSY_KEPT, true, CONGEE_PRESENT, CONGEE_KEPT},
};

/* A key has object 0. A call hands object 1 in, for which the library gives the answer. */
static void call_answer(const struct row *row, enum kind kind, bool has_retain) {
    struct congee_live_owners *map;
    uint64_t ticket = 99;
    void *place = NULL;
    need(congee_live_owners_new(&map, has_retain ? retain : NULL, release, NULL) == CONGEE_DONE, "a map");
    objects[0].references = objects[1].references = 1;
    need(congee_live_owners_insert(map, 7, &objects[0], NULL) == CONGEE_ABSENT, "a key");
    need(congee_live_owners_borrow(map, 7, NULL, &ticket) == CONGEE_PRESENT, "its ticket");
    congee_live_owners_return(map);
    /* (the library keeps one owner at a time here) */
    answers_next(row->answer, row->waits && row->answer == CONGEE_BUSY ? 3 : 1);
    int code = call(map, kind, row->waits, ticket, &objects[1], &place);
    need(code == (has_retain ? row->code : row->alone) && answers == 0, "what a call returns");
    bool is_stored = code == CONGEE_PRESENT && kind != KEEP;
    need(place == (code == CONGEE_PRESENT && kind != EXCHANGE ? &objects[0] : NULL), "what a call writes");
    /* (a reference of the map's own may come back) */
    long held = code == CONGEE_KEPT ? 0 : !is_stored;
    need(objects[1].references == held + is_stored + (kept != 0), "the references before others come back");
    congee_live_owners_return(map);
    congee_live_owners_reclaim(map);
    need(kept == 0 && objects[1].references == held + is_stored, "the references afterwards");
    need(objects[0].references == !is_stored, "the references of the owner before");
    if (held)
        release(&objects[1], NULL);
    congee_live_owners_free(map);
    need(objects[0].references == 0 && objects[1].references == 0, "no reference is left");
}

/* An owner that was kept, while the map ends. */
static void call_kept_at_the_end(bool has_retain) {
    struct congee_live_owners *map;
    need(congee_live_owners_new(&map, has_retain ? retain : NULL, release, NULL) == CONGEE_DONE, "a map");
    objects[0].references = 1;
    answers_next(OOM_KEPT, 1);
    need(congee_live_owners_insert(map, 7, &objects[0], NULL) == (has_retain ? CONGEE_OOM : CONGEE_KEPT), "a refused owner");
    congee_live_owners_free(map);
    need(objects[0].references == has_retain, "what the map kept is released with it");
    objects[0].references = 0;
}

/* An owner that can't be lent, though the key had it. */
static void call_not_lent(void) {
    struct congee_live_owners *map;
    uint64_t ticket = 0;
    void *old = &objects[2];
    need(congee_live_owners_new(&map, retain, release, NULL) == CONGEE_DONE, "a map");
    objects[0].references = objects[1].references = 1;
    need(congee_live_owners_insert(map, 7, &objects[0], NULL) == CONGEE_ABSENT, "a key");
    answers_next(2, 1);
    need(congee_live_owners_insert(map, 7, &objects[1], &old) == CONGEE_PRESENT && !old, "a replacement that lends nothing");
    need(congee_live_owners_borrow(map, 7, NULL, &ticket) == CONGEE_PRESENT, "its ticket");
    need(congee_live_owners_reclaim(map) == 1 && objects[0].references == 0, "the owner before comes back");
    objects[0].references = 1;
    answers_next(2, 1);
    need(congee_live_owners_compare_exchange(map, 7, ticket, &objects[0]) == CONGEE_PRESENT, "an exchange");
    need(congee_live_owners_reclaim(map) == 1 && objects[1].references == 0, "the exchanged owner comes back");
    answers_next(2, 1);
    old = &objects[2];
    need(congee_live_owners_remove(map, 7, &old) == CONGEE_PRESENT && !old, "a removal that lends nothing");
    answers_next(2, 1);
    need(congee_live_owners_remove(map, 7, NULL) == CONGEE_ABSENT && answers == 0, "no key");
    objects[1].references = 1;
    need(congee_live_owners_insert(map, 7, &objects[1], NULL) == CONGEE_ABSENT, "a key again");
    need(congee_live_owners_borrow(map, 7, NULL, &ticket) == CONGEE_PRESENT, "its ticket");
    answers_next(2, 1);
    old = &objects[2];
    need(congee_live_owners_compare_remove(map, 7, ticket, &old) == CONGEE_PRESENT && !old, "one by ticket that lends nothing");
    congee_live_owners_free(map);
    need(objects[0].references == 0 && objects[1].references == 0, "the removed owners come back");
}

/* Look-ups, removals and the end of a map, which are busy for a while. */
static void call_busy(void) {
    struct congee_live_owners *map;
    void *owner = NULL;
    uint64_t ticket = 99;
    need(congee_live_owners_new(&map, retain, release, NULL) == CONGEE_DONE, "a map");
    objects[0].references = 1;
    need(congee_live_owners_insert(map, 7, &objects[0], NULL) == CONGEE_ABSENT, "a key");
    busy_looks = 2;
    need(congee_live_owners_try_get(map, 7, &owner) == CONGEE_BUSY && !owner && objects[0].references == 1, "a busy look-up");
    need(congee_live_owners_try_borrow(map, 7, &owner, &ticket) == CONGEE_BUSY && !owner && ticket == 99, "a busy loan");
    busy_looks = 3;
    need(congee_live_owners_get(map, 7, &owner) == CONGEE_PRESENT && owner == &objects[0] && busy_looks == 0, "a look-up waits");
    release(owner, NULL);
    busy_looks = 3;
    need(congee_live_owners_borrow(map, 7, &owner, &ticket) == CONGEE_PRESENT && ticket != 99 && busy_looks == 0, "a loan waits");
    answers_next(CONGEE_BUSY, 1);
    owner = NULL;
    need(congee_live_owners_try_remove(map, 7, &owner) == CONGEE_BUSY && !owner, "a busy removal");
    answers_next(CONGEE_BUSY, 3);
    need(congee_live_owners_remove(map, 7, &owner) == CONGEE_PRESENT && owner == &objects[0] && answers == 0, "a removal waits");
    need(congee_live_owners_insert(map, 8, (objects[1].references = 1, &objects[1]), NULL) == CONGEE_ABSENT, "another key");
    need(congee_live_owners_borrow(map, 8, NULL, &ticket) == CONGEE_PRESENT, "its ticket");
    answers_next(CONGEE_BUSY, 1);
    owner = NULL;
    need(congee_live_owners_try_compare_remove(map, 8, ticket, &owner) == CONGEE_BUSY && !owner, "a busy removal by ticket");
    answers_next(CONGEE_BUSY, 3);
    need(congee_live_owners_compare_remove(map, 8, ticket, &owner) == CONGEE_PRESENT && owner == &objects[1] && answers == 0,
         "a removal by ticket waits");
    congee_live_owners_reclaim(map);
    congee_live_owners_return(map);
    need(congee_live_owners_reclaim(map) == 1 && objects[1].references == 0, "its owner comes back");
    need(congee_live_owners_insert(map, 8, (objects[1].references = 1, &objects[1]), NULL) == CONGEE_ABSENT, "the key again");
    busy_drains = 3;
    congee_live_owners_clear(map);
    need(busy_drains == 0 && objects[0].references == 0 && objects[1].references == 0, "a clear waits");
    objects[1].references = 1;
    need(congee_live_owners_insert(map, 8, &objects[1], NULL) == CONGEE_ABSENT, "a key again");
    busy_drains = 3;
    congee_live_owners_free(map);
    need(busy_drains == 0 && objects[1].references == 0, "the end of a map waits");
}

/* -- Keys in order -- */

static int counts(uint64_t key, void *owner, void *with) {
    need(key == 7 && owner == &objects[0] && objects[0].references == 1, "the key and its owner");
    ++*(int *)with;
    return 0;
}

/* Searches upwards and downwards, whose tickets are retired for a while, or which are busy. */
static void call_searches(struct congee_live_owners *map, bool up) {
    int (*tries)(struct congee_live_owners *, uint64_t *, void **, uint64_t *) =
        up ? congee_live_owners_try_first : congee_live_owners_try_last;
    int (*waits)(struct congee_live_owners *, uint64_t *, void **, uint64_t *) =
        up ? congee_live_owners_first : congee_live_owners_last;
    uint64_t key = 99, ticket = 99;
    void *owner = NULL;
    searches = 0;
    retired_tickets = 2;
    need(tries(map, &key, &owner, &ticket) == CONGEE_PRESENT && key == 7 && owner == &objects[0], "a search that is made again");
    need(searches == 3 && retired_tickets == 0, "after each ticket that is retired");
    key = ticket = 99;
    owner = NULL;
    retired_tickets = 1000;
    need(tries(map, &key, &owner, &ticket) == CONGEE_BUSY && key == 99 && !owner && ticket == 99, "a search that gives up");
    need(retired_tickets == 0 && searches == 1003, "after a thousand tickets");
    retired_tickets = 1001;
    need(waits(map, &key, &owner, NULL) == CONGEE_PRESENT && key == 7 && owner == &objects[0], "a search that goes on");
    need(searches == 2005 && retired_tickets == 0, "after more of them");
    retired_tickets = 1;
    need(tries(map, &key, NULL, &ticket) == CONGEE_PRESENT && retired_tickets == 1, "a search that lends nothing");
    retired_tickets = 0;
    key = ticket = 99;
    owner = NULL;
    busy_looks = 1;
    need(tries(map, &key, &owner, &ticket) == CONGEE_BUSY && key == 99 && !owner && ticket == 99, "a busy search");
    busy_looks = 3;
    need(waits(map, &key, &owner, &ticket) == CONGEE_PRESENT && busy_looks == 0 && key == 7, "a search waits");
    congee_live_owners_return(map);
}

static void call_pages(struct congee_live_owners *map) {
    int (*each[])(struct congee_live_owners *, uint64_t, uint64_t, congee_owner_visitor *, void *) = {
        congee_live_owners_each, congee_live_owners_each_descending};
    uint64_t number = 99;
    for (int i = 0; i < 2; i++) {
        int visited = 0;
        busy_pages = 3;
        need(each[i](map, 0, UINT64_MAX, counts, &visited) == 0 && visited == 1 && busy_pages == 0, "a page waits");
        retired_tickets = 1;
        need(each[i](map, 0, UINT64_MAX, counts, &visited) == 0 && visited == 2, "a key of a retired ticket is looked up");
        retired_tickets = 1;
        busy_looks = 3;
        need(each[i](map, 0, UINT64_MAX, counts, &visited) == 0 && visited == 3 && busy_looks == 0, "and the look-up waits");
    }
    busy_pages = 1;
    need(congee_live_owners_try_count(map, &number) == CONGEE_BUSY && number == 99, "a busy count");
    busy_pages = 3;
    need(congee_live_owners_count(map) == 1 && busy_pages == 0, "a count waits");
    busy_looks = 3;
    need(!congee_live_owners_is_empty(map) && busy_looks == 0, "is_empty waits");
}

static void call_in_order(void) {
    struct congee_live_owners *map;
    need(congee_live_owners_new(&map, retain, release, NULL) == CONGEE_DONE, "a map");
    objects[0].references = 1;
    need(congee_live_owners_insert(map, 7, &objects[0], NULL) == CONGEE_ABSENT, "a key");
    call_searches(map, true);
    call_searches(map, false);
    call_pages(map);
    congee_live_owners_free(map);
    need(objects[0].references == 0, "no reference is left");
}

int main(void) {
    int tried = 0;
    for (size_t i = 0; i < sizeof rows / sizeof *rows; i++)
        for (enum kind kind = INSERT; kind < KINDS; kind++)
            if (rows[i].answer != OTHER_KEPT || kind == EXCHANGE) {
                call_answer(&rows[i], kind, true);
                call_answer(&rows[i], kind, false);
                tried += 2;
            }
    call_kept_at_the_end(true);
    call_kept_at_the_end(false);
    call_not_lent();
    call_busy();
    call_in_order();
    printf("%d answers, each object with its references\n", tried);
    return 0;
}
