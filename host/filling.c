#include "filling.h"

/* As many series as fit. */
enum { SERIES = 254, APART = 14 };

static void count(tally *t, performed p) {
    t->steps += p.steps;
    if (p.number == 1)
        t->done++;
    else if (p.number == 9)
        t->no_room++;
    else
        t->other++;
}

/* The key of the n-th series; every other one is below zero. */
static int32_t key(int n) { return n % 2 == 0 ? n : -n; }

tally on_series(catalogue *c, pallaymi_workers *table, uint32_t code, int first, int by) {
    tally t = {0, 0, 0, 0};
    for (int n = first; n < SERIES; n += by)
        count(&t, perform(c, table, code, key(n), 0));
    return t;
}

tally on_derivations(catalogue *c, pallaymi_workers *table, uint32_t code, int by) {
    tally t = {0, 0, 0, 0};
    for (int n = 0; n < SERIES; n += by)
        for (int target = n - APART; target >= 0; target -= APART)
            count(&t, perform(c, table, code, key(n), key(target)));
    return t;
}
