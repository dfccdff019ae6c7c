/* What comes on a serial line: the lumps that are read from it, and the lines that the collector finds in them. */
#include "incoming.h"

#include <unistd.h>

/* Reads the next lump, of at most so many bytes; gives what read gives, and the lump is empty where nothing came. */
ssize_t read_lump(struct incoming *in, int fd, size_t most)
{
    ssize_t come = read(fd, in->lump, most);

    in->lump_len = come > 0 ? (size_t)come : 0;
    in->at = 0;
    return come;
}

/* Goes on in the lump to the end of a line, whose length line_len then is, or to the lump's own end, with line_len 0.
 * Gives what bg_collect gives: at 0 the line that ended stands in line, at a refusal its bytes were thrown away. */
uint32_t next_line(struct incoming *in)
{
    uint32_t got[2] = {0, (uint32_t)in->lump_len};
    uint32_t refusal = bg_collect(in->collector, in->held, in->lump, in->lump_len, in->at, in->line, got);

    in->begun += got[1] - in->at;
    in->at = got[1];
    in->line_len = refusal != 0 ? in->begun : got[0];
    if (in->line_len > 0) {
        in->begun = 0;
    }
    return refusal;
}
