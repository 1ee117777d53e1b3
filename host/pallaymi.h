/* The calls of the catalogue of series. Link with libhost.a, which `tools/build host` writes.
 *
 * The library keeps no state: the host lends all memory. Two calls that are lent the same memory may not run at the
 * same time. The pieces of memory that one call is lent may not overlap. Every call ends and accesses only what it is
 * lent, whatever that holds. Each pointer must be to as many numbers or bytes as stated here.
 *
 * A call returns NUMBER + 256 * MORE; see pallaymi_number and pallaymi_more. NUMBER is 0 (done, or going on), a reply
 * (1 to 9) or a refusal (20 to 27). A refusal changes nothing, and its MORE is 0, except with 27.
 *
 *  1 done, or present                                 20 lent memory not of the stated size, or too little output
 *  2 the series is there already, or is not there     21 no such worker, or a count of workers that is not 1 to 8
 *  3 a series is not present                          22 the worker is busy; with a sweep, any worker
 *  4 the derivation is there already                  23 the worker is idle
 *  5 the derivation is not present                    24 no call has this code
 *  6 the derivation would close a loop                25 a key of the request is reserved
 *  7 the same derivation is on trial                  26 memory or a record that is not sound
 *  8 a series or the derivation is not present        27 the text is no script; MORE is its first bad line
 *  9 no room
 */
#ifndef PALLAYMI_H
#define PALLAYMI_H

#include <stddef.h>
#include <stdint.h>

#ifdef __cplusplus
extern "C" {
#endif

/* A table of up to eight workers: memory that the library fills and the host only keeps. It holds no pointer, and may
 * be copied. */
typedef struct {
    uint64_t memory[313];
} pallaymi_workers;

/* The codes of requests. k is a series; l is the series derived from it, which the first three do not use. */
enum pallaymi_code {
    PALLAYMI_ADD_SERIES = 1,
    PALLAYMI_REMOVE_SERIES = 2,
    PALLAYMI_HAS_SERIES = 3,
    PALLAYMI_ADD_DERIVATION = 4,
    PALLAYMI_REMOVE_DERIVATION = 5,
    PALLAYMI_HAS_DERIVATION = 6
};

/* The sizes. The keys and the words of a catalogue have so many 32-bit numbers. An output has at least so many bytes,
 * and a table exactly so many. */
size_t pallaymi_keys_size(void);
size_t pallaymi_words_size(void);
size_t pallaymi_output_size(void);
size_t pallaymi_table_size(void);

/* Makes the lent memory an empty catalogue. Returns 0 or 20. */
uint64_t pallaymi_fresh(int32_t *keys, size_t keys_count, uint32_t *words, size_t words_count);

/* Makes the table one of `count` idle workers, numbered from 0. Returns 0 or 21. */
uint64_t pallaymi_table(pallaymi_workers *table, uint32_t count);

/* An idle worker takes up a request. Returns 0 or 20, 21, 22, 24, 25, 26. */
uint64_t pallaymi_take_up(const int32_t *keys, size_t keys_count, const uint32_t *words, size_t words_count,
                          pallaymi_workers *table, uint32_t worker, uint32_t code, int32_t k, int32_t l);

/* A busy worker makes one step. Returns 0 while it goes on, with MORE the number of series that its trial has met.
 * Returns a reply at the end, and the worker is idle again. Refusals: 20, 21, 23, 26. */
uint64_t pallaymi_step(int32_t *keys, size_t keys_count, uint32_t *words, size_t words_count, pallaymi_workers *table,
                       uint32_t worker);

/* Writes the text of the catalogue at the start of the output. Returns 0, with MORE the number of bytes written, or
 * 20, 26. */
uint64_t pallaymi_listing(const int32_t *keys, size_t keys_count, const uint32_t *words, size_t words_count,
                          uint8_t *output, size_t output_count);

/* Makes the new memory a catalogue of what is live in the old one, so that what was removed takes no room there. The
 * table is that of the old catalogue's workers; all of them must be idle. The old memory and the table are only read.
 * A call without an answer, in a script or with a table that is no longer used, keeps its derivation on trial. Such a
 * catalogue can be listed, and not swept (26). Returns 0 or 20, 21, 22, 26. */
uint64_t pallaymi_sweep(const int32_t *keys, size_t keys_count, const uint32_t *words, size_t words_count,
                        int32_t *new_keys, size_t new_keys_count, uint32_t *new_words, size_t new_words_count,
                        const pallaymi_workers *table);

/* Makes the lent memory an empty catalogue, runs the script on it, and writes the result at the start of the output.
 * Returns 0, with MORE the number of bytes written; 20; or 27, with MORE the first bad or missing line. Lines count
 * from 1; MORE is 0 for a text that is too long. */
uint64_t pallaymi_run(const uint8_t *script, size_t script_count, int32_t *keys, size_t keys_count, uint32_t *words,
                      size_t words_count, uint8_t *output, size_t output_count);

static inline uint32_t pallaymi_number(uint64_t told) { return (uint32_t)(told % 256); }
static inline uint64_t pallaymi_more(uint64_t told) { return told / 256; }

#ifdef __cplusplus
}
#endif

#endif
