/* Adds three series and a derivation. A loop and some wrong calls are refused. Then removes a series, and makes room
 * by a sweep. */
#include <stdio.h>
#include <stdlib.h>

#include "lent.h"

static catalogue first, second;
static pallaymi_workers table;

static void ask(const char *what, uint32_t code, int32_t k, int32_t l) {
    performed p = perform(&first, &table, code, k, l);
    printf("%s: %u after %u steps\n", what, p.number, p.steps);
}

static void tell(const char *what, uint64_t told) {
    printf("%s: %u\n", what, pallaymi_number(told));
}

/* Each call is refused with its number and changes nothing. */
static void go_wrong(void) {
    ask("code 7", 7, 10, 20);
    ask("add the least key", PALLAYMI_ADD_SERIES, INT32_MIN, 0);
    tell("a step of worker 1, who is idle", pallaymi_step(LENT(&first), &table, 1));
    tell("a step of worker 2, of two", pallaymi_step(LENT(&first), &table, 2));
    tell("a table of 9 workers", pallaymi_table(&table, 9));
    tell("keys of another size", pallaymi_fresh(first.keys, KEYS - 1, first.words, WORDS));
}

int main(void) {
    check_sizes();
    tell("a fresh catalogue", pallaymi_fresh(LENT(&first)));
    tell("a table of 2 workers", pallaymi_table(&table, 2));
    ask("add 10", PALLAYMI_ADD_SERIES, 10, 0);
    ask("add 20", PALLAYMI_ADD_SERIES, 20, 0);
    ask("add 30", PALLAYMI_ADD_SERIES, 30, 0);
    ask("derive 20 from 10", PALLAYMI_ADD_DERIVATION, 10, 20);
    ask("derive 10 from 20", PALLAYMI_ADD_DERIVATION, 20, 10);
    go_wrong();
    ask("remove 30", PALLAYMI_REMOVE_SERIES, 30, 0);
    tell("sweep into a second catalogue", pallaymi_sweep(LENT(&first), LENT(&second), &table));
    print_listing(&second);
    return EXIT_SUCCESS;
}
