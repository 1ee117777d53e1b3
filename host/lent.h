/* Shared by the programs here: memory to lend, and a request by a lone worker. */
#ifndef LENT_H
#define LENT_H

#include "pallaymi.h"

/* The sizes that the library returns, as constants, so that a catalogue can be a plain struct. */
enum { KEYS = 2304, WORDS = 4610, OUTPUT = 65536 };

typedef struct {
    int32_t keys[KEYS];
    uint32_t words[WORDS];
} catalogue;

/* A catalogue as the calls take it. */
#define LENT(c) (c)->keys, KEYS, (c)->words, WORDS

/* The reply or the refusal of a request, and how many steps it took. */
typedef struct {
    uint32_t number;
    uint32_t steps;
} performed;

/* Ends the program with a message. */
void fail(const char *what);

/* Fails unless the library returns the sizes here, and that of a table in the header. */
void check_sizes(void);

/* Worker 0 takes up a request and steps to its reply. */
performed perform(catalogue *c, pallaymi_workers *table, uint32_t code, int32_t k, int32_t l);

/* Fails if the catalogue cannot be listed. */
void print_listing(const catalogue *c);

#endif
