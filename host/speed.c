/* Prints how many steps a second the library makes. Fills a fresh catalogue as often as the argument says. */
#define _POSIX_C_SOURCE 199309L
#include <stdio.h>
#include <stdlib.h>
#include <time.h>

#include "filling.h"

static double now(void) {
    struct timespec t;
    clock_gettime(CLOCK_MONOTONIC, &t);
    return (double)t.tv_sec + (double)t.tv_nsec / 1e9;
}

/* Returns the steps of one filling. Fails if a pool is not full in the end: that would be other work to time. */
static uint32_t fill(catalogue *c, pallaymi_workers *table) {
    if (pallaymi_fresh(LENT(c)) != 0)
        fail("no fresh catalogue");
    tally series = on_series(c, table, PALLAYMI_ADD_SERIES, 0, 1);
    tally derivations = on_derivations(c, table, PALLAYMI_ADD_DERIVATION, 1);
    if (series.done != 254 || derivations.done != 2047)
        fail("the pools are not full");
    return series.steps + derivations.steps;
}

int main(int count, char **words) {
    static catalogue c;
    static pallaymi_workers table;
    int rounds = count == 2 ? atoi(words[1]) : 0;
    if (rounds < 1 || pallaymi_table(&table, 1) != 0)
        fail("the argument is how often the catalogue is filled");
    uint64_t steps = 0;
    double start = now();
    for (int round = 0; round < rounds; round++)
        steps += fill(&c, &table);
    double seconds = now() - start;
    printf("%llu steps in %.2f s, %.1f million a second\n", (unsigned long long)steps, seconds, (double)steps / seconds / 1e6);
    return EXIT_SUCCESS;
}
