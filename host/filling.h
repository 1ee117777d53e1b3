/* Requests on all series and all derivations, for the programs that fill a catalogue. */
#ifndef FILLING_H
#define FILLING_H

#include "lent.h"

/* How many requests were answered 1, 9 or otherwise, and the steps of all of them. */
typedef struct {
    uint32_t done;
    uint32_t no_room;
    uint32_t other;
    uint32_t steps;
} tally;

/* Makes the request on every by-th series from the first on. */
tally on_series(catalogue *c, pallaymi_workers *table, uint32_t code, int first, int by);

/* Makes the request on the derivations of every by-th series: one from it to each fourteenth series below it. That is
 * more than fit. */
tally on_derivations(catalogue *c, pallaymi_workers *table, uint32_t code, int by);

#endif
