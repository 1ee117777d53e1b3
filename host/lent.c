#include "lent.h"

#include <stdio.h>
#include <stdlib.h>

void fail(const char *what) {
    fprintf(stderr, "failed: %s\n", what);
    exit(EXIT_FAILURE);
}

void check_sizes(void) {
    if (pallaymi_keys_size() != KEYS || pallaymi_words_size() != WORDS || pallaymi_output_size() != OUTPUT)
        fail("the library tells other sizes of a catalogue or an output");
    if (pallaymi_table_size() != sizeof(pallaymi_workers))
        fail("the library tells another size of a table than the header");
}

performed perform(catalogue *c, pallaymi_workers *table, uint32_t code, int32_t k, int32_t l) {
    performed p = {0, 0};
    p.number = pallaymi_number(pallaymi_take_up(LENT(c), table, 0, code, k, l));
    while (p.number == 0) {
        p.number = pallaymi_number(pallaymi_step(LENT(c), table, 0));
        p.steps++;
    }
    return p;
}

void print_listing(const catalogue *c) {
    static uint8_t output[OUTPUT];
    uint64_t told = pallaymi_listing(LENT(c), output, OUTPUT);
    if (pallaymi_number(told) != 0)
        fail("a listing is refused");
    fwrite(output, 1, (size_t)pallaymi_more(told), stdout);
}
