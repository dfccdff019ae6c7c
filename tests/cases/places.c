/* Runs the cases of a data file, whose head says how they are written: lines through bg_take_line, for the refusal and the
 * place of bad text, and requests through bg_configure and bg_handle. */
#include <inttypes.h>
#include <stdio.h>
#include <string.h>

#include "belagunthi.h"
#include "data.h"
#include "requests.h"

enum { PACKET = 1024, SPARE = 64, PAINT = 0xEE };

/* A number that no call gives here. */
static const uint32_t untouched = UINT32_MAX;

static const uint32_t idle[BG_READER] = {0, 0, 0, 0};
static const uint32_t begun[BG_READER] = {1, 1000, 91, 0};

/* What a line is lent, the line itself apart; the packet buffer is painted, and longer than what is lent of it. */
struct lent {
    uint32_t reader[BG_READER];
    uint8_t packet[PACKET + SPARE];
    uint32_t body;
    uint32_t place;
};

/* What a case wants of its line. */
struct wanted {
    uint32_t refusal;
    uint32_t place;
    uint32_t body;
};

static char name[ROOM];
static unsigned lines, bad_texts, wrong;

/* Says what is wrong with a line's case where it is. */
static void want(int holds, const char *what)
{
    if (!holds) {
        printf("%s: %s\n", name, what);
        wrong++;
    }
}

/* Gives a line to a reader with this record; says what the call gives, and lends all else painted. */
static uint32_t take(struct lent *lent, const uint32_t reader[BG_READER], const uint8_t *line, size_t len)
{
    memset(lent, PAINT, sizeof *lent);
    memcpy(lent->reader, reader, sizeof lent->reader);
    lent->body = untouched;
    lent->place = untouched;
    return bg_take_line(lent->reader, line, len, lent->packet, PACKET, &lent->body, &lent->place);
}

/* Compares what a refused line leaves: packet buffer and body stay, the record is as wanted, and so is the place. */
static void want_refused(const struct lent *given, const struct wanted *wanted, const uint32_t reader[BG_READER])
{
    want(given->place == wanted->place, "another place, or one that should stay");
    want(memcmp(given->reader, reader, sizeof given->reader) == 0, "another record");
    want(given->body == untouched && all(given->packet, sizeof given->packet, PAINT), "body or packet buffer changed");
}

/* Compares what a line that is taken leaves: with a body it is the packet's only line, so that sending the packet gives it
 * again; else a packet is open, and what has not come of it stays. */
static void want_taken(const struct lent *given, const struct wanted *wanted, const uint8_t *line, size_t len)
{
    uint32_t come = wanted->body > 0 ? wanted->body : given->reader[2];
    uint8_t out[BG_LINE];
    uint32_t sent[2] = {0, 0};

    want(given->place == untouched, "the place changed");
    want(given->body == wanted->body, "another body");
    want(come <= PACKET && all(given->packet + come, sizeof given->packet - come, PAINT), "more than the body is written");
    if (wanted->body == 0) {
        want(given->reader[0] == 1 && given->reader[1] >= 10 && given->reader[2] < given->reader[1], "no packet is open");
        return;
    }
    want(memcmp(given->reader, idle, sizeof idle) == 0, "the record is not idle");
    want(bg_send_frame(given->packet, given->body, 0, out, sizeof out, sent) == BG_DONE && sent[0] == len && sent[1] == 1
             && memcmp(out, line, len) == 0,
         "another packet");
}

/* Gives a line to an idle reader and, where its text is bad, to one with an open packet, which is dropped. */
static void run_line(const uint8_t *line, size_t len, const struct wanted *wanted)
{
    struct lent given;

    if (take(&given, idle, line, len) != wanted->refusal) {
        want(0, "another answer");
        return;
    }
    if (wanted->refusal == BG_DONE) {
        want_taken(&given, wanted, line, len);
        return;
    }
    want_refused(&given, wanted, idle);
    if (wanted->refusal == BG_BAD_TEXT) {
        bad_texts++;
        want(take(&given, begun, line, len) == BG_BAD_TEXT, "another answer where a packet is open");
        want_refused(&given, wanted, idle);
    }
}

/* Reads what the case of a line wants: its refusal, that of bad text with a place, 'more', or a body. */
static struct wanted wanted_of(char *text)
{
    struct wanted wanted = {BG_DONE, untouched, 0};
    char *rest;

    if (begins(text, "refused", &rest)) {
        wanted.refusal = (uint32_t)number(&rest, BG_CRC_DIFFERS);
        if (wanted.refusal == BG_BAD_TEXT) {
            wanted.place = (uint32_t)number(&rest, BG_LINE - 1);
        }
    } else if (begins(text, "body", &rest)) {
        wanted.body = (uint32_t)number(&rest, PACKET);
    } else if (!begins(text, "more", &rest)) {
        malformed("a line is refused, gives a body, or wants more");
    }
    if (*rest != '\0' && *rest != '?') {
        malformed("there is more behind what is wanted");
    }
    return wanted;
}

/* Reads one line of the data file: a case by itself, or one line of a request's. */
static void read_line(char *text)
{
    static uint8_t line[ROOM];
    struct wanted wanted;
    char *rest;
    size_t len;

    if (!begins(text, "line", &rest)) {
        read_request_line(text);
        return;
    }
    snprintf(name, sizeof name, "%s", text);
    len = bytes_of(word(&rest), line);
    wanted = wanted_of(rest);
    run_line(line, len, &wanted);
    lines++;
}

/* Reads the data file on standard input, and runs its cases. */
int main(void)
{
    struct counts counts;

    read_file(read_line);
    counts = finish_requests();
    wrong += counts.wrong;
    printf("%u lines, %u of them with bad text, and %u requests, %u of which write, %u wrong\n", lines, bad_texts,
           counts.cases, counts.written, wrong);
    return lines == 0 || wrong > 0;
}
