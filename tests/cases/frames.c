/* Runs the cases of a data file, whose head says how they are written, through bg_send_frame: the frame count, each
 * line's length and bytes, and what is refused. All lines of a body also go through bg_take_line, which gives the body
 * back. */
#include <stdio.h>
#include <stdlib.h>
#include <string.h>

#include "belagunthi.h"
#include "data.h"
#include "sha256.h"

enum { LONGEST_BODY = 70000, MOST_FRAMES = 705, MOST_ROOM = 512, DIGEST = 32, PAINT = 0xEE };

static uint8_t body[LONGEST_BODY], bytes[ROOM];
static char name[48];
static unsigned cases, wrong;

/* Says what is wrong with a case where it is. */
static void want(int holds, const char *what)
{
    if (!holds) {
        printf("%s: %s\n", name, what);
        wrong++;
    }
}

/* Reads the lengths of a body's lines, LENGTHxTIMES with commas between; gives how many they are. */
static uint32_t lengths_of(char *text, uint32_t lengths[MOST_FRAMES])
{
    uint32_t count = 0;

    for (;;) {
        char *end;
        uint32_t length = (uint32_t)strtoul(text, &end, 10);
        unsigned long times = *end == 'x' ? strtoul(end + 1, &end, 10) : 0;
        if (times == 0 || times > MOST_FRAMES - count) {
            malformed("these are no lengths");
        }
        while (times-- > 0) {
            lengths[count++] = length;
        }
        if (*end == '\0') {
            return count;
        }
        if (*end != ',') {
            malformed("these are no lengths");
        }
        text = end + 1;
    }
}

/* Asks for one frame in an output of some room; says whether it is a line of this length, of so many, and the bytes
 * after it stay. */
static int sends(size_t len, size_t k, size_t room, uint8_t out[MOST_ROOM], size_t length, uint32_t count)
{
    uint32_t sent[2] = {0, 0};

    memset(out, PAINT, MOST_ROOM);
    return bg_send_frame(body, len, k, out, room, sent) == BG_DONE && sent[0] == length && sent[1] == count
           && all(out + length, MOST_ROOM - length, PAINT);
}

/* Asks for one frame that is refused; says whether it is, and all stays. */
static int refuses(size_t len, size_t k, size_t room, uint32_t refusal)
{
    uint8_t out[MOST_ROOM];
    uint32_t sent[2] = {7, 7};

    memset(out, PAINT, sizeof out);
    return bg_send_frame(body, len, k, out, room, sent) == refusal && sent[0] == 7 && sent[1] == 7
           && all(out, sizeof out, PAINT);
}

/* Sends a whole body and reads it back: its frame count, its lines' lengths, and the SHA-256 of all lines joined. */
static void run_count(char *rest)
{
    static uint8_t lines[MOST_FRAMES * BG_LINE], packet[BG_PACKET];
    uint32_t lengths[MOST_FRAMES], reader[BG_READER] = {0};
    uint8_t digest[DIGEST];
    size_t len = number(&rest, BG_PACKET), written = 0;
    uint32_t count = (uint32_t)number(&rest, MOST_FRAMES);

    if (lengths_of(word(&rest), lengths) != count || bytes_of(rest, bytes) != DIGEST) {
        malformed("a length for each line, and a SHA-256, are wanted");
    }
    memset(packet, PAINT, sizeof packet);
    for (uint32_t k = 0; k < count; k++) {
        uint8_t out[MOST_ROOM];
        uint32_t came = 0, place = 0;
        want(sends(len, k, BG_LINE, out, lengths[k], count), "the sender gives another length or count");
        want(bg_take_line(reader, out, lengths[k], packet, sizeof packet, &came, &place) == BG_DONE
                 && came == (k + 1 == count ? len : 0),
             "the reader says something else");
        memcpy(lines + written, out, lengths[k]);
        written += lengths[k];
    }
    want(refuses(len, count, BG_LINE, BG_NO_SUCH_FRAME), "there is a frame more");
    want(memcmp(packet, body, len) == 0 && all(packet + len, sizeof packet - len, PAINT),
         "the reader gives another packet");
    sha256(lines, written, digest);
    want(memcmp(digest, bytes, DIGEST) == 0, "the lines have another SHA-256");
}

/* Sends one frame, and looks at the whole line. */
static void run_frame(char *rest)
{
    uint8_t out[MOST_ROOM];
    uint32_t sent[2] = {0, 0};
    size_t len = number(&rest, BG_PACKET), k = number(&rest, MOST_FRAMES), length = bytes_of(rest, bytes);

    if (length == 0 || length > BG_LINE) {
        malformed("this is no line");
    }
    memset(out, PAINT, sizeof out);
    want(bg_send_frame(body, len, k, out, BG_LINE, sent) == BG_DONE && sent[0] == length
             && memcmp(out, bytes, length) == 0 && all(out + length, sizeof out - length, PAINT),
         "the sender gives another line");
}

/* Asks for one frame of any number in an output of any room. */
static void run_send(char *rest)
{
    uint8_t out[MOST_ROOM];
    char *refused;
    size_t len = number(&rest, LONGEST_BODY), k = number(&rest, SIZE_MAX), room = number(&rest, MOST_ROOM);

    if (begins(rest, "refused", &refused)) {
        want(refuses(len, k, room, (uint32_t)last_number(refused, BG_NO_SUCH_FRAME)),
             "it is not refused so, or something changed");
        return;
    }
    size_t length = number(&rest, BG_LINE);
    want(sends(len, k, room, out, length, (uint32_t)last_number(rest, MOST_FRAMES)),
         "the sender gives another length or count");
}

/* Runs a case of one line of the data file. */
static void read_line(char *line)
{
    char *rest;

    snprintf(name, sizeof name, "%s", line);
    cases++;
    if (begins(line, "count", &rest)) {
        run_count(rest);
    } else if (begins(line, "frame", &rest)) {
        run_frame(rest);
    } else if (begins(line, "send", &rest)) {
        run_send(rest);
    } else {
        malformed("this line is no case");
    }
}

/* Reads the data file on standard input, and runs its cases. */
int main(void)
{
    by_rule(body, sizeof body);
    read_file(read_line);
    printf("%u cases, %u wrong\n", cases, wrong);
    return cases == 0 || wrong > 0;
}
