/* The drill in C: a script from standard input, its result to standard output. */
#include <stdio.h>
#include <stdlib.h>

#include "lent.h"

/* A longer script is refused, so one byte more is enough to read. */
enum { LONGEST = 49152 };

int main(void) {
    static uint8_t script[LONGEST + 1];
    static uint8_t output[OUTPUT];
    static catalogue c;
    size_t count = fread(script, 1, sizeof script, stdin);
    uint64_t told = pallaymi_run(script, count, LENT(&c), output, OUTPUT);
    switch (pallaymi_number(told)) {
    case 0:
        fwrite(output, 1, (size_t)pallaymi_more(told), stdout);
        break;
    case 27:
        printf("refused 27 %llu\n", (unsigned long long)pallaymi_more(told));
        break;
    default:
        fail("the lent memory is refused");
    }
    return EXIT_SUCCESS;
}
