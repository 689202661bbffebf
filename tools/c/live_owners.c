/* Each call of a map of owners, by one thread, over objects that count their references:
 *   - a table of calls and answers, by the forms that wait and by those that give up, with places and without, by two handles in
 *     turn. After each call an object has as many references as the table has for it
 *   - a loan lasts until it is returned, or until the handle's next call, whoever removes the key and looks for what comes back
 *   - owners that left the map wait until there are 64 of them
 *   - a map has 64 handles at most, and room again after one was freed
 *   - the last handle, whichever it is, releases all that is left
 *   - a table of searches in both forms, with places and without, whose owner is lent
 *   - keys are visited in both directions. A key that is removed before its turn is passed over, and one that is replaced before
 *     has its new owner
 *   - a map within a limit refuses owners, which are still the caller's
 *   - a map without `retain` lends alone */
#include "congee.h"
#include <inttypes.h>
#include <stdio.h>
#include <stdlib.h>

enum { OBJECTS = 8, MANY = 5000, WAIT = 64, HANDLES = 64, NONE = -1 };

static void need(bool holds, const char *what) {
    if (!holds) {
        fprintf(stderr, "live_owners: wrong: %s\n", what);
        exit(1);
    }
}

/* An object, whose references are counted. What the map was made with counts the calls of the two functions. */
struct object {
    long references;
    uint64_t number;
};

static struct object objects[MANY];

struct calls {
    uint64_t retained, released;
};

static void retain(void *owner, void *with) {
    struct object *object = owner;
    need(object->references > 0, "an object that is retained has a reference");
    object->references++;
    ((struct calls *)with)->retained++;
}

static void release(void *owner, void *with) {
    struct object *object = owner;
    need(object->references > 0, "an object that is released has a reference");
    object->references--;
    ((struct calls *)with)->released++;
}

/* A reference of the caller's own, for an insertion. */
static void *fresh(uint64_t i) {
    objects[i].references++;
    objects[i].number = i;
    return &objects[i];
}

static void give_up(void *owner) {
    struct object *object = owner;
    need(object->references > 0, "a caller's reference");
    object->references--;
}

static void none_is_left(const char *what) {
    for (uint64_t i = 0; i < MANY; i++)
        if (objects[i].references != 0) {
            fprintf(stderr, "live_owners: wrong: %s: object %" PRIu64 " has %ld references\n", what, i, objects[i].references);
            exit(1);
        }
}

static struct congee_live_owners *made(struct calls *calls) {
    struct congee_live_owners *map;
    need(congee_live_owners_new(&map, retain, release, calls) == CONGEE_DONE && map, "a map");
    return map;
}

/* -- A table of calls -- */

enum kind { GET, BORROW, INSERT, REMOVE, EXCHANGE, TAKE, KEEP };

/* A call: with which key and object, what it returns, and the object that it writes, or NONE. An exchange and a removal by ticket
 * take the ticket of the last loan. Afterwards, once loans are returned and owners have come back, an object has so many references. */
static const struct row {
    enum kind kind;
    uint64_t key;
    int object, code, written, counted;
    long references;
} rows[] = {
    {GET, 7, NONE, CONGEE_ABSENT, NONE, 0, 0},
    {BORROW, 7, NONE, CONGEE_ABSENT, NONE, 0, 0},
    {REMOVE, 7, NONE, CONGEE_ABSENT, NONE, 0, 0},
    {EXCHANGE, 7, 0, CONGEE_OTHER, NONE, 0, 0},
    {INSERT, 7, 0, CONGEE_ABSENT, NONE, 0, 1},
    {GET, 7, NONE, CONGEE_PRESENT, 0, 0, 1},
    {BORROW, 7, NONE, CONGEE_PRESENT, 0, 0, 1},
    {INSERT, 7, 1, CONGEE_PRESENT, 0, 0, 0},
    /* (the ticket of an owner that is gone) */
    {EXCHANGE, 7, 2, CONGEE_OTHER, NONE, 2, 0},
    {GET, 7, NONE, CONGEE_PRESENT, 1, 1, 1},
    {BORROW, 7, NONE, CONGEE_PRESENT, 1, 1, 1},
    {EXCHANGE, 6, 2, CONGEE_OTHER, NONE, 2, 0},
    {EXCHANGE, 7, 2, CONGEE_PRESENT, NONE, 1, 0},
    {EXCHANGE, 7, 3, CONGEE_OTHER, NONE, 3, 0},
    {GET, 7, NONE, CONGEE_PRESENT, 2, 2, 1},
    {KEEP, 7, 3, CONGEE_PRESENT, 2, 3, 0},
    {KEEP, 8, 3, CONGEE_ABSENT, NONE, 3, 1},
    {GET, 8, NONE, CONGEE_PRESENT, 3, 3, 1},
    /* one object at several keys, once for each insertion */
    {INSERT, 9, 3, CONGEE_ABSENT, NONE, 3, 2},
    {INSERT, UINT64_MAX, 3, CONGEE_ABSENT, NONE, 3, 3},
    {INSERT, 8, 3, CONGEE_PRESENT, 3, 3, 3},
    {REMOVE, 8, NONE, CONGEE_PRESENT, 3, 3, 2},
    {REMOVE, 8, NONE, CONGEE_ABSENT, NONE, 3, 2},
    {REMOVE, UINT64_MAX, NONE, CONGEE_PRESENT, 3, 3, 1},
    /* a ticket is of one insertion: not of the same object's next one */
    {BORROW, 9, NONE, CONGEE_PRESENT, 3, 3, 1},
    {REMOVE, 9, NONE, CONGEE_PRESENT, 3, 3, 0},
    {INSERT, 9, 3, CONGEE_ABSENT, NONE, 3, 1},
    {EXCHANGE, 9, 4, CONGEE_OTHER, NONE, 4, 0},
    {BORROW, 9, NONE, CONGEE_PRESENT, 3, 3, 1},
    {EXCHANGE, 9, 3, CONGEE_PRESENT, NONE, 3, 1},
    {REMOVE, 9, NONE, CONGEE_PRESENT, 3, 3, 0},
    {INSERT, 9, 4, CONGEE_ABSENT, NONE, 4, 1},
    {TAKE, 9, NONE, CONGEE_OTHER, NONE, 4, 1},
    {BORROW, 9, NONE, CONGEE_PRESENT, 4, 4, 1},
    {TAKE, 7, NONE, CONGEE_OTHER, NONE, 4, 1},
    {TAKE, 6, NONE, CONGEE_OTHER, NONE, 4, 1},
    {TAKE, 9, NONE, CONGEE_PRESENT, 4, 4, 0},
    {TAKE, 9, NONE, CONGEE_OTHER, NONE, 4, 0},
    {REMOVE, 7, NONE, CONGEE_PRESENT, 2, 2, 0},
    {GET, 7, NONE, CONGEE_ABSENT, NONE, 2, 0},
};

static int waits(struct congee_live_owners *map, const struct row *row, void *owner, void **place, uint64_t *ticket) {
    switch (row->kind) {
    case GET:
        return congee_live_owners_get(map, row->key, place);
    case BORROW:
        return congee_live_owners_borrow(map, row->key, place, ticket);
    case INSERT:
        return congee_live_owners_insert(map, row->key, owner, place);
    case REMOVE:
        return congee_live_owners_remove(map, row->key, place);
    case EXCHANGE:
        return congee_live_owners_compare_exchange(map, row->key, *ticket, owner);
    case TAKE:
        return congee_live_owners_compare_remove(map, row->key, *ticket, place);
    default:
        return congee_live_owners_get_or_insert(map, row->key, owner, place);
    }
}

static int tries(struct congee_live_owners *map, const struct row *row, void *owner, void **place, uint64_t *ticket) {
    switch (row->kind) {
    case GET:
        return congee_live_owners_try_get(map, row->key, place);
    case BORROW:
        return congee_live_owners_try_borrow(map, row->key, place, ticket);
    case INSERT:
        return congee_live_owners_try_insert(map, row->key, owner, place);
    case REMOVE:
        return congee_live_owners_try_remove(map, row->key, place);
    case EXCHANGE:
        return congee_live_owners_try_compare_exchange(map, row->key, *ticket, owner);
    case TAKE:
        return congee_live_owners_try_compare_remove(map, row->key, *ticket, place);
    default:
        return congee_live_owners_try_get_or_insert(map, row->key, owner, place);
    }
}

/* Whether a call of this kind that returned this code has stored the owner that it was handed. */
static bool stores(const struct row *row) {
    return row->kind == INSERT || (row->kind == EXCHANGE && row->code == CONGEE_PRESENT) ||
           (row->kind == KEEP && row->code == CONGEE_ABSENT);
}

static void call_rows(int (*call)(struct congee_live_owners *, const struct row *, void *, void **, uint64_t *), bool has_place) {
    struct calls calls = {0, 0};
    struct congee_live_owners *handles[2] = {made(&calls), NULL};
    uint64_t ticket = 12345678;
    need(congee_live_owners_another(handles[0], &handles[1]) == CONGEE_DONE && handles[1] != handles[0], "another handle");
    for (size_t i = 0; i < sizeof rows / sizeof *rows; i++) {
        const struct row *row = &rows[i];
        void *owner = row->object == NONE ? NULL : fresh((uint64_t)row->object), *place = NULL;
        int code = call(handles[i % 2], row, owner, has_place ? &place : NULL, &ticket);
        void *written = row->written == NONE || !has_place ? NULL : &objects[row->written];
        if (owner && !stores(row))
            give_up(owner);
        if (row->kind == GET && place)
            give_up(place);
        for (int j = 0; j < 2; j++) {
            congee_live_owners_return(handles[j]);
            congee_live_owners_reclaim(handles[j]);
        }
        if (code != row->code || place != written || objects[row->counted].references != row->references) {
            fprintf(stderr, "live_owners: wrong: row %zu returns %d, and leaves %ld references\n", i, code,
                    objects[row->counted].references);
            exit(1);
        }
    }
    none_is_left("a table of calls");
    congee_live_owners_free(handles[0]);
    congee_live_owners_free(handles[1]);
    none_is_left("a map without keys");
}

/* -- Loans -- */

/* Each way in which a loan ends, after another handle has removed the key. */
enum end { RETURNS, LOOKS_UP, INSERTS, REMOVES, IS_FREED, ENDS };

static void call_loan(enum end end) {
    struct calls calls = {0, 0};
    struct congee_live_owners *one = made(&calls), *other;
    void *lent = NULL, *old = NULL;
    need(congee_live_owners_another(one, &other) == CONGEE_DONE, "another handle");
    need(congee_live_owners_insert(one, 7, fresh(0), NULL) == CONGEE_ABSENT, "a key");
    need(congee_live_owners_insert(one, 8, fresh(1), NULL) == CONGEE_ABSENT, "another key");
    need(congee_live_owners_borrow(one, 7, &lent, NULL) == CONGEE_PRESENT && lent == &objects[0], "a loan");
    need(congee_live_owners_remove(other, 7, &old) == CONGEE_PRESENT && old == lent, "a removal beside a loan");
    congee_live_owners_return(other);
    for (int i = 0; i < 3; i++)
        need(congee_live_owners_reclaim(other) == 0 && objects[0].references == 1, "a lent owner isn't released");
    need(congee_live_owners_get(other, 7, NULL) == CONGEE_ABSENT, "the key is gone");
    switch (end) {
    case RETURNS:
        congee_live_owners_return(one);
        break;
    case LOOKS_UP:
        need(congee_live_owners_borrow(one, 8, &old, NULL) == CONGEE_PRESENT && old == &objects[1], "the next loan");
        break;
    case INSERTS:
        need(congee_live_owners_insert(one, 8, fresh(2), &old) == CONGEE_PRESENT && old == &objects[1], "the next insertion");
        break;
    case REMOVES:
        need(congee_live_owners_remove(one, 8, NULL) == CONGEE_PRESENT, "the next removal");
        break;
    default:
        congee_live_owners_free(one);
    }
    /* (what the handle itself has removed comes back to it) */
    need(congee_live_owners_reclaim(other) >= 1 && objects[0].references == 0, "an owner comes back once its loan has ended");
    need(congee_live_owners_reclaim(other) == 0, "an owner comes back once");
    if (end != IS_FREED)
        congee_live_owners_free(one);
    congee_live_owners_free(other);
    none_is_left("loans");
}

/* What a removal, a replacement and get_or_insert lend. */
static void call_lent_by_changes(void) {
    struct calls calls = {0, 0};
    struct congee_live_owners *map = made(&calls);
    void *old = NULL;
    need(congee_live_owners_insert(map, 1, fresh(0), &old) == CONGEE_ABSENT && !old, "a key");
    need(congee_live_owners_insert(map, 1, fresh(1), &old) == CONGEE_PRESENT && old == &objects[0], "a replacement");
    need(congee_live_owners_reclaim(map) == 0 && objects[0].references == 1, "a replaced owner is lent");
    need(congee_live_owners_get_or_insert(map, 1, fresh(2), &old) == CONGEE_PRESENT && old == &objects[1], "a present key");
    give_up(&objects[2]);
    need(congee_live_owners_reclaim(map) == 1 && objects[0].references == 0, "the loan before has ended");
    need(congee_live_owners_remove(map, 1, &old) == CONGEE_PRESENT && old == &objects[1], "a removal");
    need(congee_live_owners_reclaim(map) == 0 && objects[1].references == 1, "a removed owner is lent");
    congee_live_owners_return(map);
    need(congee_live_owners_reclaim(map) == 1 && objects[1].references == 0, "and comes back");
    /* (without a place nothing is lent) */
    need(congee_live_owners_insert(map, 1, fresh(0), NULL) == CONGEE_ABSENT, "a key");
    need(congee_live_owners_insert(map, 1, fresh(1), NULL) == CONGEE_PRESENT, "a replacement");
    need(congee_live_owners_reclaim(map) == 1 && objects[0].references == 0, "a replaced owner isn't lent without a place");
    need(congee_live_owners_get_or_insert(map, 1, fresh(0), NULL) == CONGEE_PRESENT, "a present key");
    give_up(&objects[0]);
    need(congee_live_owners_remove(map, 1, NULL) == CONGEE_PRESENT, "a removal");
    need(congee_live_owners_reclaim(map) == 1 && objects[1].references == 0, "a removed owner isn't lent without a place");
    /* (nor is an exchanged one, nor one of which there is a further reference) */
    uint64_t ticket = 0;
    need(congee_live_owners_insert(map, 1, fresh(0), NULL) == CONGEE_ABSENT, "a key");
    need(congee_live_owners_borrow(map, 1, NULL, &ticket) == CONGEE_PRESENT, "its ticket");
    need(congee_live_owners_compare_exchange(map, 1, ticket, fresh(1)) == CONGEE_PRESENT, "an exchange");
    need(congee_live_owners_reclaim(map) == 1 && objects[0].references == 0, "an exchanged owner isn't lent");
    struct congee_live_owners *other;
    need(congee_live_owners_another(map, &other) == CONGEE_DONE, "another handle");
    need(congee_live_owners_get(other, 1, &old) == CONGEE_PRESENT && old == &objects[1], "a further reference");
    need(congee_live_owners_remove(map, 1, NULL) == CONGEE_PRESENT, "a removal");
    need(congee_live_owners_reclaim(map) == 1 && objects[1].references == 1, "a look-up leaves no loan");
    give_up(old);
    congee_live_owners_free(other);
    congee_live_owners_free(map);
    none_is_left("what changes lend");
}

/* -- Keys in order -- */

/* A search: what it returns, and the place of the key that it finds. */
enum search { FIRST, CEILING, ABOVE, LAST, FLOOR, BELOW };

static const uint64_t stored[] = {5, 255, 256, 70000, UINT64_MAX};

static const struct find {
    enum search search;
    uint64_t key;
    int found;
} finds[] = {
    {FIRST, 0, 0},       {LAST, 0, 4},        {CEILING, 0, 0},     {CEILING, 5, 0},          {CEILING, 6, 1},
    {CEILING, 255, 1},   {CEILING, 257, 3},   {CEILING, 70001, 4}, {CEILING, UINT64_MAX, 4}, {ABOVE, 0, 0},
    {ABOVE, 5, 1},       {ABOVE, 255, 2},     {ABOVE, 256, 3},     {ABOVE, 70000, 4},        {ABOVE, UINT64_MAX, NONE},
    {FLOOR, 0, NONE},    {FLOOR, 4, NONE},    {FLOOR, 5, 0},       {FLOOR, 254, 0},          {FLOOR, 69999, 2},
    {FLOOR, 1ull << 40, 3}, {FLOOR, UINT64_MAX, 4}, {BELOW, 0, NONE}, {BELOW, 5, NONE},      {BELOW, 6, 0},
    {BELOW, 256, 1},     {BELOW, 70000, 2},   {BELOW, UINT64_MAX, 3},
};

static int search(struct congee_live_owners *map, const struct find *row, bool waits, uint64_t *key, void **owner,
                  uint64_t *ticket) {
    switch (row->search) {
    case FIRST:
        return (waits ? congee_live_owners_first : congee_live_owners_try_first)(map, key, owner, ticket);
    case LAST:
        return (waits ? congee_live_owners_last : congee_live_owners_try_last)(map, key, owner, ticket);
    case CEILING:
        return (waits ? congee_live_owners_ceiling : congee_live_owners_try_ceiling)(map, row->key, key, owner, ticket);
    case ABOVE:
        return (waits ? congee_live_owners_above : congee_live_owners_try_above)(map, row->key, key, owner, ticket);
    case FLOOR:
        return (waits ? congee_live_owners_floor : congee_live_owners_try_floor)(map, row->key, key, owner, ticket);
    default:
        return (waits ? congee_live_owners_below : congee_live_owners_try_below)(map, row->key, key, owner, ticket);
    }
}

static void call_searches(bool waits) {
    struct calls calls = {0, 0};
    struct congee_live_owners *map = made(&calls), *other;
    uint64_t key = 77, ticket = 88, its = 0, count = 99;
    void *owner = &calls;
    need(congee_live_owners_another(map, &other) == CONGEE_DONE, "another handle");
    need(search(map, &finds[0], waits, &key, &owner, &ticket) == CONGEE_ABSENT && key == 77 && owner == &calls && ticket == 88,
         "the first key of an empty map");
    need(search(map, &finds[1], waits, &key, &owner, &ticket) == CONGEE_ABSENT && key == 77 && owner == &calls && ticket == 88,
         "the last key of an empty map");
    need(congee_live_owners_is_empty(map) && congee_live_owners_count(map) == 0, "an empty map");
    for (uint64_t i = 0; i < sizeof stored / sizeof *stored; i++)
        need(congee_live_owners_insert(map, stored[i], fresh(i), NULL) == CONGEE_ABSENT, "a key");
    need(!congee_live_owners_is_empty(map) && congee_live_owners_count(map) == 5, "five keys");
    need(congee_live_owners_try_count(map, &count) == CONGEE_DONE && count == 5, "five keys at once");
    for (size_t i = 0; i < sizeof finds / sizeof *finds; i++) {
        const struct find *row = &finds[i];
        key = 77, ticket = 88, owner = &calls;
        need(search(map, row, waits, NULL, NULL, NULL) == (row->found != NONE), "a search without places");
        int code = search(map, row, waits, &key, &owner, &ticket);
        if (row->found == NONE) {
            need(code == CONGEE_ABSENT && key == 77 && owner == &calls && ticket == 88, "a search that finds none");
            continue;
        }
        if (code != CONGEE_PRESENT || key != stored[row->found] || owner != &objects[row->found]) {
            fprintf(stderr, "live_owners: wrong: search %zu returns %d, with key %" PRIu64 "\n", i, code, key);
            exit(1);
        }
        need(congee_live_owners_borrow(other, key, NULL, &its) == CONGEE_PRESENT && its == ticket, "the key's ticket");
        /* (its owner is lent: another handle removes the key) */
        need(congee_live_owners_remove(other, key, NULL) == CONGEE_PRESENT, "a removal beside a loan");
        need(congee_live_owners_reclaim(other) == 0 && objects[row->found].references == 1, "a lent owner isn't released");
        congee_live_owners_return(map);
        need(congee_live_owners_reclaim(other) == 1 && objects[row->found].references == 0, "and comes back");
        need(congee_live_owners_insert(map, key, fresh((uint64_t)row->found), NULL) == CONGEE_ABSENT, "the key again");
        /* (nothing is lent without a place for it) */
        need(search(map, row, waits, &key, NULL, &ticket) == CONGEE_PRESENT && ticket != its, "another ticket");
        need(congee_live_owners_remove(other, key, NULL) == CONGEE_PRESENT && congee_live_owners_reclaim(other) == 1,
             "an owner without a loan");
        need(congee_live_owners_insert(map, key, fresh((uint64_t)row->found), NULL) == CONGEE_ABSENT, "the key once more");
    }
    congee_live_owners_free(other);
    congee_live_owners_free(map);
    none_is_left("searches");
}

/* What a visitor has been called with, and what it does. */
struct visit {
    struct congee_live_owners *map, *other;
    uint64_t keys[MANY], visited, ends_at;
    bool changes;
};

static int visits(uint64_t key, void *owner, void *with) {
    struct visit *visit = with;
    struct object *object = owner;
    need(object->references > 0 && object->number == key / 3 % 1000, "a key's owner");
    visit->keys[visit->visited++] = key;
    if (visit->changes && key % 30 == 0) {
        /* the next key goes, the one after it has another owner, and this one goes while its owner is lent */
        need(congee_live_owners_remove(visit->other, key + 3, NULL) == CONGEE_PRESENT, "the next key goes");
        need(congee_live_owners_insert(visit->other, key + 6, fresh((key + 6) / 3), NULL) == CONGEE_PRESENT, "a replacement");
        need(congee_live_owners_remove(visit->other, key, NULL) == CONGEE_PRESENT, "this key goes");
        congee_live_owners_reclaim(visit->other);
        need(object->references == 1, "a lent owner isn't released");
    }
    return key == visit->ends_at ? 41 : 0;
}

static void call_visits(void) {
    enum { COUNT = 300 };
    static struct visit visit;
    struct calls calls = {0, 0};
    struct congee_live_owners *map = made(&calls), *other;
    need(congee_live_owners_another(map, &other) == CONGEE_DONE, "another handle");
    visit = (struct visit){.map = map, .other = other, .ends_at = UINT64_MAX};
    need(congee_live_owners_each(map, 0, UINT64_MAX, visits, &visit) == 0 && visit.visited == 0, "no key upwards");
    need(congee_live_owners_each_descending(map, 0, UINT64_MAX, visits, &visit) == 0 && visit.visited == 0, "no key downwards");
    for (uint64_t i = 0; i < COUNT; i++)
        need(congee_live_owners_insert(map, 3 * i, fresh(i), NULL) == CONGEE_ABSENT, "a key");
    need(congee_live_owners_each(map, 0, UINT64_MAX, visits, &visit) == 0 && visit.visited == COUNT, "all keys upwards");
    for (uint64_t i = 0; i < COUNT; i++)
        need(visit.keys[i] == 3 * i, "keys ascend");
    visit.visited = 0;
    need(congee_live_owners_each_descending(map, 0, UINT64_MAX, visits, &visit) == 0 && visit.visited == COUNT,
         "all keys downwards");
    for (uint64_t i = 0; i < COUNT; i++)
        need(visit.keys[i] == 3 * (COUNT - 1 - i), "keys descend");
    /* both ends are included, and a page may end at one */
    for (uint64_t n = 1; n < COUNT; n += n % 16 ? 15 : 16) {
        visit.visited = 0;
        need(congee_live_owners_each(map, 6, 6 + 3 * (n - 1), visits, &visit) == 0 && visit.visited == n &&
                 visit.keys[n - 1] == 6 + 3 * (n - 1), "a range upwards");
        visit.visited = 0;
        need(congee_live_owners_each_descending(map, 6, 6 + 3 * (n - 1), visits, &visit) == 0 && visit.visited == n &&
                 visit.keys[n - 1] == 6, "a range downwards");
    }
    visit.visited = 0;
    need(congee_live_owners_each(map, 7, 6, visits, &visit) == 0 &&
             congee_live_owners_each_descending(map, 7, 6, visits, &visit) == 0 && visit.visited == 0, "no range");
    visit.ends_at = 210;
    need(congee_live_owners_each(map, 3, 897, visits, &visit) == 41 && visit.visited == 70, "an end upwards");
    visit.visited = 0;
    need(congee_live_owners_each_descending(map, 3, 897, visits, &visit) == 41 && visit.visited == 230, "an end downwards");
    need(congee_live_owners_remove(other, 210, NULL) == CONGEE_PRESENT && congee_live_owners_reclaim(other) == 1,
         "a visit leaves no loan");
    need(congee_live_owners_insert(other, 210, fresh(70), NULL) == CONGEE_ABSENT, "the key again");
    visit = (struct visit){.map = map, .other = other, .ends_at = UINT64_MAX, .changes = true};
    need(congee_live_owners_each(map, 0, UINT64_MAX, visits, &visit) == 0 && visit.visited == COUNT - COUNT / 10, "keys that go");
    need(congee_live_owners_count(map) == COUNT - 2 * COUNT / 10, "those that are left");
    congee_live_owners_free(map);
    congee_live_owners_free(other);
    none_is_left("visits");
}

/* -- Owners that wait -- */

static void call_many(void) {
    struct calls calls = {0, 0};
    struct congee_live_owners *map = made(&calls);
    for (uint64_t i = 0; i < MANY; i++)
        need(congee_live_owners_insert(map, i << 20, fresh(i), NULL) == CONGEE_ABSENT, "many keys");
    need(calls.retained == MANY && calls.released == MANY, "an insertion calls both functions once");
    for (uint64_t i = 0; i < WAIT; i++)
        need(congee_live_owners_remove(map, i << 20, NULL) == CONGEE_PRESENT && calls.released == MANY, "owners wait");
    need(congee_live_owners_remove(map, (uint64_t)WAIT << 20, NULL) == CONGEE_PRESENT && calls.released == MANY + WAIT,
         "the next removal releases them");
    for (uint64_t i = WAIT + 1; i < MANY; i++)
        need(congee_live_owners_insert(map, i << 20, fresh(i % 8), NULL) == CONGEE_PRESENT, "many replacements");
    need(calls.released - calls.retained >= MANY - WAIT - 1, "replacements release, too");
    congee_live_owners_clear(map);
    none_is_left("a clear");
    need(congee_live_owners_get(map, (uint64_t)(MANY - 1) << 20, NULL) == CONGEE_ABSENT, "a key of a map that was cleared");
    for (uint64_t i = 0; i < MANY; i++)
        need(congee_live_owners_insert(map, i, fresh(i), NULL) == CONGEE_ABSENT, "many keys again");
    congee_live_owners_free(map);
    none_is_left("the end of a map");
    need(calls.released == calls.retained + 2 * MANY + MANY - WAIT - 1, "each stored owner is released once");
}

/* A clear beside another handle's loan. */
static void call_clear(void) {
    struct calls calls = {0, 0};
    struct congee_live_owners *one = made(&calls), *other;
    void *lent = NULL;
    need(congee_live_owners_another(one, &other) == CONGEE_DONE, "another handle");
    for (uint64_t i = 0; i < OBJECTS; i++)
        need(congee_live_owners_insert(one, i, fresh(i), NULL) == CONGEE_ABSENT, "a key");
    need(congee_live_owners_borrow(other, 5, &lent, NULL) == CONGEE_PRESENT, "a loan");
    congee_live_owners_clear(one);
    for (uint64_t i = 0; i < OBJECTS; i++)
        need(objects[i].references == (i == 5) && congee_live_owners_get(one, i, NULL) == CONGEE_ABSENT, "what a clear leaves");
    congee_live_owners_clear(other);
    none_is_left("a clear by the handle that had an owner lent");
    congee_live_owners_clear(other);
    congee_live_owners_free(other);
    congee_live_owners_free(one);
}

/* -- Handles -- */

static void call_handles(void) {
    struct calls calls = {0, 0};
    struct congee_live_owners *handles[HANDLES] = {made(&calls)}, *more = handles[0];
    void *owner;
    for (int i = 1; i < HANDLES; i++)
        need(congee_live_owners_another(handles[i / 2], &handles[i]) == CONGEE_DONE, "so many handles");
    need(congee_live_owners_another(handles[7], &more) == CONGEE_FULL && !more, "and no more");
    for (uint64_t i = 0; i < HANDLES; i++)
        need(congee_live_owners_insert(handles[i], i, fresh(i), NULL) == CONGEE_ABSENT, "each inserts");
    for (uint64_t i = 0; i < HANDLES; i++)
        need(congee_live_owners_borrow(handles[i], i * 7 % HANDLES, &owner, NULL) == CONGEE_PRESENT &&
                 owner == &objects[i * 7 % HANDLES], "each has an owner lent");
    for (uint64_t i = 0; i < HANDLES; i += 2)
        need(congee_live_owners_remove(handles[3], i, NULL) == CONGEE_PRESENT, "a removal beside loans");
    /* (its own loan has ended, of key 21) */
    need(congee_live_owners_reclaim(handles[3]) == 0, "what is lent doesn't come back");
    congee_live_owners_meet(handles[3], handles[4]);
    congee_live_owners_meet(handles[3], handles[3]);
    congee_live_owners_free(handles[9]);
    handles[9] = NULL;
    need(congee_live_owners_another(handles[1], &handles[9]) == CONGEE_DONE, "room again");
    need(congee_live_owners_another(handles[1], &more) == CONGEE_FULL && !more, "for one");
    for (int i = 0; i < HANDLES; i++)
        congee_live_owners_free(handles[i * 5 % HANDLES]);
    none_is_left("many handles");
    congee_live_owners_free(NULL);
}

/* -- Limits -- */

static void call_limit(void) {
    enum { LIMIT = 100000 };
    struct calls calls = {0, 0};
    struct congee_live_owners *map = (void *)&calls;
    uint64_t charged = 0, limit = 0, stored = 0;
    void *old = NULL, *owner;
    need(congee_live_owners_new_with_limit(&map, 4095, retain, release, &calls) == CONGEE_OOM && !map, "too low a limit");
    need(congee_live_owners_new_with_limit(&map, LIMIT, retain, release, &calls) == CONGEE_DONE, "a map within a limit");
    need(congee_live_owners_limit(map) == LIMIT, "its limit");
    int code;
    while (stored < MANY - 2 && (code = congee_live_owners_insert(map, stored << 40, fresh(stored), &old)) == CONGEE_ABSENT)
        stored++;
    need(code == CONGEE_OOM && !old && objects[stored].references == 1, "a refused owner is the caller's");
    need(stored > 10 && stored < MANY - 2, "how many keys fit");
    need(congee_live_owners_get_or_insert(map, stored << 40, &objects[stored], &old) == CONGEE_OOM && !old &&
             objects[stored].references == 1, "and so by get_or_insert");
    congee_live_owners_usage(map, &charged, &limit);
    need(charged <= LIMIT && charged > LIMIT / 4 && limit == LIMIT, "what is charged");
    /* (a present key needs no node) */
    need(congee_live_owners_insert(map, 0, &objects[stored], &old) == CONGEE_PRESENT && old == &objects[0], "a replacement");
    need(congee_live_owners_remove(map, 1ull << 40, NULL) == CONGEE_PRESENT, "a removal");
    need(congee_live_owners_insert(map, 1ull << 40, fresh(1), NULL) == CONGEE_ABSENT, "which makes room");
    need(congee_live_owners_get(map, 0, &owner) == CONGEE_PRESENT && owner == &objects[stored], "a further reference");
    congee_live_owners_free(map);
    need(objects[stored].references == 1, "outlives the map");
    give_up(owner);
    none_is_left("a map within a limit");
    need(congee_live_owners_new(&map, retain, release, &calls) == CONGEE_DONE && congee_live_owners_limit(map) == UINT64_MAX,
         "no limit");
    congee_live_owners_free(map);
}

/* -- No `retain` -- */

static void call_lends_alone(void) {
    struct calls calls = {0, 0};
    struct congee_live_owners *map;
    void *owner = NULL;
    uint64_t ticket = 0, other = 0;
    need(congee_live_owners_new(&map, NULL, release, &calls) == CONGEE_DONE, "a map without `retain`");
    need(congee_live_owners_insert(map, 1, fresh(1), NULL) == CONGEE_ABSENT && calls.released == 0, "an insertion calls nothing");
    need(congee_live_owners_borrow(map, 1, &owner, &ticket) == CONGEE_PRESENT && owner == &objects[1], "a loan");
    need(congee_live_owners_compare_exchange(map, 1, ticket, fresh(2)) == CONGEE_PRESENT, "an exchange");
    need(congee_live_owners_borrow(map, 1, NULL, &other) == CONGEE_PRESENT && other != ticket, "another ticket");
    need(congee_live_owners_compare_exchange(map, 1, ticket, fresh(3)) == CONGEE_OTHER, "an exchange that is lost");
    need(congee_live_owners_get_or_insert(map, 1, &objects[3], &owner) == CONGEE_PRESENT && owner == &objects[2], "a present key");
    give_up(&objects[3]);
    need(congee_live_owners_get(map, 1, NULL) == CONGEE_PRESENT && congee_live_owners_try_get(map, 2, NULL) == CONGEE_ABSENT,
         "a look-up without a reference");
    need(congee_live_owners_reclaim(map) == 1 && calls.released == 1 && objects[1].references == 0, "the exchanged owner");
    congee_live_owners_free(map);
    none_is_left("a map that lends alone");
    need(calls.retained == 0 && calls.released == 2, "each owner is released once");
}

int main(void) {
    call_rows(waits, true);
    call_rows(waits, false);
    call_rows(tries, true);
    call_rows(tries, false);
    for (enum end end = RETURNS; end < ENDS; end++)
        call_loan(end);
    call_lent_by_changes();
    call_searches(true);
    call_searches(false);
    call_visits();
    call_many();
    call_clear();
    call_handles();
    call_limit();
    call_lends_alone();
    printf("%zu calls, %d ways in which a loan ends, %zu searches, %d handles\n", sizeof rows / sizeof *rows, ENDS,
           sizeof finds / sizeof *finds, HANDLES);
    return 0;
}
