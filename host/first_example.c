/* The first example of the drill, through the library in two ways: turn by turn, and as a script. Both must make the
 * same text and the same catalogue. Prints the text. */
#include <stdio.h>
#include <stdlib.h>
#include <string.h>

#include "lent.h"

enum { REQUESTS = 4, TURNS = 22 };

static const struct {
    uint32_t code;
    int32_t k;
    int32_t l;
} requests[REQUESTS] = {
    {PALLAYMI_ADD_SERIES, 5, 0},
    {PALLAYMI_ADD_SERIES, 7, 0},
    {PALLAYMI_ADD_DERIVATION, 5, 7},
    {PALLAYMI_ADD_DERIVATION, 7, 5},
};

static const char script[] = "1 4 22\n"
                             "1 5\n"
                             "1 7\n"
                             "4 5 7\n"
                             "4 7 5\n"
                             "0 0 0 0 0 0 0 0 0 0 0 0 0 0 0 0 0 0 0 0 0 0\n";

/* The result of one way. */
typedef struct {
    catalogue c;
    char text[OUTPUT + 1];
} result;

/* Returns the lines of a listing after the first one, which has the counts. A listing counts no replies. */
static const char *listed(const catalogue *c, unsigned *series, unsigned *derivations) {
    static char text[OUTPUT + 1];
    uint64_t told = pallaymi_listing(LENT(c), (uint8_t *)text, OUTPUT);
    if (pallaymi_number(told) != 0)
        fail("the listing is refused");
    text[pallaymi_more(told)] = '\0';
    if (sscanf(text, "0 %u %u", series, derivations) != 2)
        fail("the listing has no counts");
    return strchr(text, '\n') + 1;
}

/* Worker 0 has every turn: idle, it takes up its next request; busy, it steps. Writes a line for each reply: turn,
 * worker, code, reply. Returns how many there are. */
static int play(catalogue *c, char *lines) {
    pallaymi_workers table;
    int taken = 0, replies = 0, busy = 0;
    if (pallaymi_fresh(LENT(c)) != 0 || pallaymi_table(&table, 1) != 0)
        fail("no fresh catalogue or no table");
    for (int turn = 1; turn <= TURNS; turn++) {
        if (busy) {
            uint32_t number = pallaymi_number(pallaymi_step(LENT(c), &table, 0));
            if (number != 0) {
                lines += sprintf(lines, "%d 0 %u %u\n", turn, requests[taken - 1].code, number);
                replies++;
                busy = 0;
            }
        } else if (taken < REQUESTS) {
            if (pallaymi_take_up(LENT(c), &table, 0, requests[taken].code, requests[taken].k, requests[taken].l) != 0)
                fail("a request is not taken up");
            taken++;
            busy = 1;
        }
    }
    return replies;
}

static void turn_by_turn(result *r) {
    char lines[TURNS * 64] = "";
    unsigned series, derivations;
    int replies = play(&r->c, lines);
    const char *rest = listed(&r->c, &series, &derivations);
    snprintf(r->text, sizeof r->text, "%d %u %u\n%s%s", replies, series, derivations, lines, rest);
}

static void as_script(result *r) {
    uint64_t told = pallaymi_run((const uint8_t *)script, strlen(script), LENT(&r->c), (uint8_t *)r->text, OUTPUT);
    if (pallaymi_number(told) != 0)
        fail("the script is refused");
    r->text[pallaymi_more(told)] = '\0';
}

static void compare(const result *turns, const result *run) {
    if (strcmp(turns->text, run->text) != 0) {
        fprintf(stderr, "turn by turn:\n%sas a script:\n%s", turns->text, run->text);
        fail("the two texts differ");
    }
    if (memcmp(&turns->c, &run->c, sizeof turns->c) != 0)
        fail("the texts are the same, the catalogues differ");
}

int main(void) {
    static result turns, run;
    check_sizes();
    turn_by_turn(&turns);
    as_script(&run);
    compare(&turns, &run);
    fputs(run.text, stdout);
    return EXIT_SUCCESS;
}
