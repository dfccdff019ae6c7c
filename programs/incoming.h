/* What comes on a serial line: the lumps that are read from it, and the lines that the collector finds in them. */
#ifndef INCOMING_H
#define INCOMING_H

#include <stddef.h>
#include <stdint.h>
#include <sys/types.h>

#include "belagunthi.h"

/* The lump that was read last and how far it was gone through; the collector's record and bytes, and how many bytes
 * came of the line that has begun; the line that ended last, and its length. All 0 is where nothing came yet. */
struct incoming {
    uint8_t lump[BG_LUMP];
    size_t lump_len;
    size_t at;
    uint32_t collector[BG_COLLECTOR];
    uint8_t held[BG_HELD];
    size_t begun;
    uint8_t line[BG_LINE];
    size_t line_len;
};

/* Reads the next lump, of at most so many bytes; gives what read gives, and the lump is empty where nothing came. */
ssize_t read_lump(struct incoming *in, int fd, size_t most);

/* Goes on in the lump to the end of a line, whose length line_len then is, or to the lump's own end, with line_len 0.
 * Gives what bg_collect gives: at 0 the line that ended stands in line, at a refusal its bytes were thrown away. */
uint32_t next_line(struct incoming *in);

#endif
