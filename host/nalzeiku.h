/* The store for a host that is written in C. docs/FORMATS.md has the lines of a script and of its answers. */
#ifndef NALZEIKU_H
#define NALZEIKU_H

#include <stddef.h>
#include <stdint.h>

/* The most bytes of a script, and the room that is asked for the answer to each of its lines. */
enum { NALZEIKU_SCRIPT = 4096, NALZEIKU_LINE = 64 };

/* What is answered in place of a length. */
enum {
    NALZEIKU_SIZES = -13, /* the script is longer than NALZEIKU_SCRIPT */
    NALZEIKU_SHORT = -16  /* the memory has not NALZEIKU_LINE bytes for each line */
};

/*
 * Runs a script on a new store of two letters (entries 0 and 1), a mark (2) and a pair (3), over a keeper with places
 * for eight versions, and writes the answers to its lines to the front of `answers`. Gives their length, or one of the
 * numbers above. The bytes behind the answers stay as they are; where a number above is given, all of them do. No memory
 * is asked for, and nothing is kept from one call to the next.
 *
 * Neither pointer is null, even where its length is 0; the two stretches of memory do not overlap, and each length is
 * that of its stretch, below 2^63. Nothing checks this.
 */
int64_t nalzeiku_run(const uint8_t *script, size_t script_len, uint8_t *answers, size_t answers_len);

#endif
