/* Runs the cases of a data file, whose head says how they are written, through bg_send_frame and bg_take_line: the last
 * frame of the bytes has the checksum that the file wants, and the reader, which computes it again, gives the bytes back.
 * A body has at least 8 bytes; shorter bytes get zeros in front, over which a checksum that starts from 0 stays 0. */
#include <inttypes.h>
#include <stdio.h>
#include <stdlib.h>
#include <string.h>

#include "belagunthi.h"
#include "data.h"

enum { LEAST_BODY = 8, PAINT = 0xEE, LEAD = 2 };

static unsigned cases, wrong;

/* The value of a Base64 character, 0 for what fills the last group. */
static unsigned value(uint8_t c)
{
    static const char digits[] = "ABCDEFGHIJKLMNOPQRSTUVWXYZabcdefghijklmnopqrstuvwxyz0123456789+/";
    const char *at = strchr(digits, c);

    return c == '=' || at == NULL ? 0 : (unsigned)(at - digits);
}

/* The last two of the bytes that a line stands for. */
static unsigned last_two(const uint8_t *line, size_t len)
{
    uint8_t raw[BG_LINE];
    size_t n = 0;

    for (size_t i = LEAD; i + 4 < len; i += 4) {
        unsigned group = value(line[i]) << 18 | value(line[i + 1]) << 12 | value(line[i + 2]) << 6 | value(line[i + 3]);
        raw[n++] = (uint8_t)(group >> 16);
        raw[n++] = (uint8_t)(group >> 8);
        raw[n++] = (uint8_t)group;
    }
    n -= (line[len - 2] == '=') + (line[len - 3] == '=');
    return (unsigned)raw[n - 2] << 8 | raw[n - 1];
}

/* Says what is wrong with a case. */
static void fault(const char *name, const char *what, unsigned long given)
{
    printf("%.40s: %s 0x%lx\n", name, what, given);
    wrong++;
}

/* Sends and reads a body, and looks at the checksum on the line. */
static void run(const char *name, const uint8_t *body, size_t len, unsigned wanted)
{
    static uint8_t packet[BG_PACKET];
    uint32_t reader[BG_READER] = {0};
    uint32_t sent[2] = {0, 1};
    uint32_t came = 0, place = 0;

    cases++;
    memset(packet, PAINT, sizeof packet);
    for (size_t k = 0; k < sent[1]; k++) {
        uint8_t line[BG_LINE];
        uint32_t returned = bg_send_frame(body, len, k, line, sizeof line, sent);
        if (returned != BG_DONE) {
            fault(name, "the sender refuses", returned);
            return;
        }
        if (k + 1 == sent[1] && last_two(line, sent[0]) != wanted) {
            fault(name, "the sender's checksum is", last_two(line, sent[0]));
        }
        returned = bg_take_line(reader, line, sent[0], packet, sizeof packet, &came, &place);
        if (returned != BG_DONE || (came > 0) != (k + 1 == sent[1])) {
            fault(name, "the reader says", returned);
            return;
        }
    }
    if (came != len || memcmp(packet, body, len) != 0 || !all(packet + len, sizeof packet - len, PAINT)) {
        fault(name, "the reader gives another packet, of the length", came);
    }
}

/* Runs a case of one line of the data file. */
static void read_line(char *line)
{
    static uint8_t bytes[ROOM], body[LEAST_BODY + ROOM];
    char *rest;
    char *end;
    char name[48];
    size_t len, zeros;
    unsigned long wanted;

    snprintf(name, sizeof name, "%s", line);
    if (begins(line, "crc-rule", &rest)) {
        len = number(&rest, BG_PACKET);
        by_rule(bytes, len);
    } else if (begins(line, "crc", &rest)) {
        len = bytes_of(word(&rest), bytes);
    } else {
        malformed("this line is no case");
    }
    wanted = strtoul(rest, &end, 16);
    if (strlen(rest) != 4 || *end != '\0') {
        malformed("a checksum has four digits");
    }
    zeros = len < LEAST_BODY ? LEAST_BODY - len : 0;
    memset(body, 0, zeros);
    memcpy(body + zeros, bytes, len);
    run(name, body, zeros + len, (unsigned)wanted);
}

/* Reads the data file on standard input, and runs its cases. */
int main(void)
{
    read_file(read_line);
    printf("%u cases, %u wrong\n", cases, wrong);
    return cases == 0 || wrong > 0;
}
