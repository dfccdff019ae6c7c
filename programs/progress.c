/* How far an upload is, in words: for one row of a terminal, or a line of a log. */
#include "progress.h"

#include <stdio.h>
#include <string.h>

/* The shortest and the longest bar, without its brackets; the speed is said after so many milliseconds. */
enum { BAR_LEAST = 8, BAR_MOST = 40, SPEED_AFTER_MS = 500 };

/* Writes the speed and the time left; nothing where they are not known yet. */
static void speed_words(char *speed, char *left, size_t room, const struct progress *p)
{
    uint64_t come = p->done > p->begun_at ? p->done - p->begun_at : 0;
    uint64_t seconds;

    speed[0] = '\0';
    left[0] = '\0';
    if (come == 0 || p->elapsed_ms < SPEED_AFTER_MS) {
        return;
    }
    snprintf(speed, room, ", %.1f kB/s", (double)come / (double)p->elapsed_ms);
    seconds = ((uint64_t)(p->length - p->done) * p->elapsed_ms / come + 999) / 1000;
    if (seconds < 3600) {
        snprintf(left, room, ", %u:%02u left", (unsigned)(seconds / 60), (unsigned)(seconds % 60));
    } else {
        snprintf(left, room, ", %llu:%02u:%02u left", (unsigned long long)(seconds / 3600),
                 (unsigned)(seconds / 60 % 60), (unsigned)(seconds % 60));
    }
}

/* Writes the words to out, which has PROGRESS_ROOM characters: as many of them as columns take. */
void progress_words(char *out, size_t columns, const struct progress *p)
{
    unsigned percent = (unsigned)((uint64_t)p->done * 100 / p->length);
    char bytes[64];
    char retries[32];
    char speed[40];
    char left[40];

    snprintf(bytes, sizeof bytes, ", %zu of %zu bytes", p->done, p->length);
    snprintf(retries, sizeof retries, ", %lu retries", p->retries);
    speed_words(speed, left, sizeof speed, p);
    /* The least important words go first: bit 0 stands for the retries, then the bytes, the speed, the time left. */
    for (unsigned without = 0; without < 16; without = without * 2 + 1) {
        int len = snprintf(out, PROGRESS_ROOM, "%u%%%s%s%s%s", percent, without & 2 ? "" : bytes,
                           without & 4 ? "" : speed, without & 8 ? "" : left, without & 1 ? "" : retries);
        if ((size_t)len <= columns) {
            return;
        }
    }
    out[columns < strlen(out) ? columns : strlen(out)] = '\0';
}

/* Writes a row of exactly as many columns (PROGRESS_ROOM - 1 at most): a bar where there is room, the words, and
 * spaces. */
void progress_row(char *out, size_t columns, const struct progress *p)
{
    char words[PROGRESS_ROOM];
    size_t bar = 0;
    size_t at = 0;

    progress_words(words, columns, p);
    if (columns >= strlen(words) + 3 + BAR_LEAST) {
        bar = columns - strlen(words) - 3;
        bar = bar < BAR_MOST ? bar : BAR_MOST;
        out[at++] = '[';
        for (size_t i = 0; i < bar; i++) {
            out[at++] = i < p->done * (uint64_t)bar / p->length ? '#' : '.';
        }
        out[at++] = ']';
        out[at++] = ' ';
    }
    memcpy(out + at, words, strlen(words));
    at += strlen(words);
    memset(out + at, ' ', columns - at);
    out[columns] = '\0';
}
