/* How far an upload is, in words: for one row of a terminal, or a line of a log. */
#ifndef PROGRESS_H
#define PROGRESS_H

#include <stddef.h>
#include <stdint.h>

/* The longest text, with its end. */
#define PROGRESS_ROOM 512

/* How far an upload is: bytes acknowledged of all, those that were there when it began, its time, its repetitions. */
struct progress {
    size_t done;
    size_t length;
    size_t begun_at;
    uint64_t elapsed_ms;
    unsigned long retries;
};

/* Writes the words to out, which has PROGRESS_ROOM characters: as many of them as columns take. */
void progress_words(char *out, size_t columns, const struct progress *p);

/* Writes a row of exactly as many columns (PROGRESS_ROOM - 1 at most): a bar where there is room, the words, and
 * spaces. */
void progress_row(char *out, size_t columns, const struct progress *p);

#endif
