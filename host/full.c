/* Does what the program crates/full does, through the library. Fills a catalogue until neither pool has a node left.
 * Then lists it, sweeps it, thins it out, sweeps it again and fills it again. */
#include <stdio.h>
#include <stdlib.h>

#include "filling.h"

static pallaymi_workers table;

static void print_tally(tally t) { printf("%u %u %u %u\n", t.done, t.no_room, t.other, t.steps); }

static void fill(catalogue *c) {
    print_tally(on_series(c, &table, PALLAYMI_ADD_SERIES, 0, 1));
    print_tally(on_derivations(c, &table, PALLAYMI_ADD_DERIVATION, 1));
    print_listing(c);
}

static void thin_out(catalogue *c) {
    print_tally(on_series(c, &table, PALLAYMI_REMOVE_SERIES, 5, 10));
    print_tally(on_derivations(c, &table, PALLAYMI_REMOVE_DERIVATION, 8));
}

static void sweep_and_list(const catalogue *c, catalogue *swept) {
    printf("%u\n", pallaymi_number(pallaymi_sweep(LENT(c), LENT(swept), &table)));
    print_listing(swept);
}

int main(void) {
    static catalogue c, swept;
    if (pallaymi_fresh(LENT(&c)) != 0 || pallaymi_table(&table, 1) != 0)
        fail("no fresh catalogue or no table");
    fill(&c);
    sweep_and_list(&c, &swept);
    thin_out(&c);
    sweep_and_list(&c, &swept);
    fill(&swept);
    return EXIT_SUCCESS;
}
