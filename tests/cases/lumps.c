/* Runs the cases of a data file, whose head says how they are written, through bg_collect: a stream once for each way to
 * lump it, a single call once. What a run gives is noted as the file notes what it wants, and the two are compared. */
#include <inttypes.h>
#include <stdarg.h>
#include <stdio.h>
#include <stdlib.h>
#include <string.h>

#include "belagunthi.h"
#include "data.h"

enum { MOST_WAYS = 64, PAINT = 0xEE, UNTOUCHED = 77 };

/* What a run gives, or a case wants, line by line. */
struct notes {
    char text[ROOM];
    size_t len;
};

/* A collector's record and its bytes. */
struct collector {
    uint32_t record[BG_COLLECTOR];
    uint8_t held[BG_HELD];
};

/* The case at hand: a stream with the ways to lump it, or a record and a lump for it; and what is wanted. */
static struct {
    char name[16];
    int has_stream, has_record, has_lump, ended;
    struct collector begin;
    uint8_t bytes[ROOM];
    size_t len;
    char *ways[MOST_WAYS];
    size_t way_count;
    struct notes wanted;
} test;

static unsigned cases, ways, calls, wrong;

/* Adds to notes. */
static void note(struct notes *notes, const char *form, ...)
{
    va_list list;
    int more;

    va_start(list, form);
    more = vsnprintf(notes->text + notes->len, ROOM - notes->len, form, list);
    va_end(list);
    if (more < 0 || (size_t)more >= ROOM - notes->len) {
        malformed("the case is too long");
    }
    notes->len += (size_t)more;
}

/* Adds bytes in hex to notes, or - for none. */
static void note_bytes(struct notes *notes, const uint8_t *bytes, size_t len)
{
    for (size_t i = 0; i < len; i++) {
        note(notes, "%02x", bytes[i]);
    }
    if (len == 0) {
        note(notes, "-");
    }
}

/* Goes through a lump to its end, and notes what it gives; says whether it came there. */
static int through(struct collector *collector, const uint8_t *lump, size_t len, struct notes *given)
{
    size_t at = 0;

    for (;;) {
        const struct collector before = *collector;
        uint32_t got[2] = {UNTOUCHED, UNTOUCHED};
        uint8_t line[BG_LINE];
        uint32_t returned, length;

        memset(line, PAINT, sizeof line);
        returned = bg_collect(collector->record, collector->held, lump, len, at, line, got);
        if (returned != BG_DONE && returned != BG_LINE_TOO_LONG) {
            int stays = memcmp(collector, &before, sizeof before) == 0 && all(line, sizeof line, PAINT)
                        && got[0] == UNTOUCHED && got[1] == UNTOUCHED;
            note(given, "refused %" PRIu32 "%s\n", returned, stays ? "" : ", and not all stays");
            return 0;
        }
        length = got[0];
        if (length > BG_LINE || !all(line + length, sizeof line - length, PAINT)) {
            note(given, "the line array changed behind its %" PRIu32 " bytes\n", length);
            return 0;
        }
        if (returned == BG_DONE && length == 0 && got[1] == len) {
            return 1;
        }
        if (got[1] <= at || got[1] > len || (returned == BG_DONE) != (length > 0)) {
            note(given, "%" PRIu32 " with %" PRIu32 " bytes, from %zu to %" PRIu32 "\n", returned, length, at, got[1]);
            return 0;
        }
        if (returned == BG_DONE) {
            note(given, "L ");
            note_bytes(given, line, length);
            note(given, "\n");
        } else {
            note(given, "R %" PRIu32 "\n", returned);
        }
        at = got[1];
    }
}

/* Notes the record at the end. The bytes behind those held are 0 where a line ended or the skipping began, else as they
 * were. */
static void note_end(const struct collector *collector, struct notes *given)
{
    uint32_t count = collector->record[BG_COLLECTOR_COUNT];
    uint32_t skipping = collector->record[BG_COLLECTOR_SKIPPING];
    int cleared = given->len > 0 || (skipping != 0 && test.begin.record[BG_COLLECTOR_SKIPPING] == 0);
    const uint8_t zeros[BG_HELD] = {0};

    if (count > BG_HELD) {
        note(given, "end with %" PRIu32 " bytes\n", count);
        return;
    }
    note(given, "end ");
    note_bytes(given, collector->held, count);
    note(given, " %" PRIu32, skipping);
    if (memcmp(collector->held + count, (cleared ? zeros : test.begin.held) + count, BG_HELD - count) != 0) {
        note(given, ", and other bytes behind them");
    }
    note(given, "\n");
}

/* Reads a way to lump the case's stream, to the places where its lumps end; gives how many they are. */
static size_t lump_ends(char *way, size_t ends[ROOM])
{
    size_t count = 0;
    size_t last = 0;
    char *text;

    if (begins(way, "every", &text)) {
        size_t step = last_number(text, ROOM);
        if (step == 0) {
            malformed("lumps of 0 bytes have no end");
        }
        for (; last < test.len; last = ends[count++]) {
            ends[count] = test.len - last < step ? test.len : last + step;
        }
        return count;
    }
    if (!begins(way, "at", &text)) {
        malformed("lumps are 'every' or 'at'");
    }
    for (; *text != '\0'; last = ends[count++]) {
        ends[count] = number(&text, ROOM);
        if (ends[count] < last || ends[count] > test.len) {
            malformed("a place that is not behind the last one, or not in the stream");
        }
    }
    ends[count] = test.len;
    return count + 1;
}

/* Runs the case in lumps that end at these places, and says where what it gives begins to differ from what is wanted. */
static void run(const char *way, const size_t *ends, size_t count)
{
    static struct notes given;
    struct collector collector = test.begin;
    size_t from = 0;
    size_t line = 0;
    int fine = 1;

    memset(&given, 0, sizeof given);
    for (size_t i = 0; i < count && fine; from = ends[i++]) {
        fine = through(&collector, test.bytes + from, ends[i] - from, &given);
    }
    if (fine) {
        note_end(&collector, &given);
    }
    if (strcmp(given.text, test.wanted.text) == 0) {
        return;
    }
    for (size_t i = 0; given.text[i] == test.wanted.text[i]; i++) {
        line = given.text[i] == '\n' ? i + 1 : line;
    }
    printf("case %s, %s: given '%.*s', wanted '%.*s'\n", test.name, way, (int)strcspn(given.text + line, "\n"),
           given.text + line, (int)strcspn(test.wanted.text + line, "\n"), test.wanted.text + line);
    wrong++;
}

/* Runs the case that was read, in each of its ways, and makes ready for the next. */
static void run_case(void)
{
    static size_t ends[ROOM];

    if (!test.ended || test.has_record != test.has_lump || test.has_stream == test.has_record
        || test.has_stream != (test.way_count > 0)) {
        malformed("the case before this line is not whole");
    }
    if (test.has_record) {
        ends[0] = test.len;
        run("the call", ends, 1);
        calls++;
    }
    for (size_t i = 0; i < test.way_count; i++) {
        run(test.ways[i], ends, lump_ends(test.ways[i], ends));
        free(test.ways[i]);
        ways++;
    }
    cases++;
    memset(&test, 0, sizeof test);
}

/* Reads the record of a single call: its count may be higher than the bytes that there is room for. */
static void read_record(char *text)
{
    static uint8_t held[ROOM];
    size_t count = bytes_of(word(&text), held);

    memset(test.begin.held, PAINT, BG_HELD);
    memcpy(test.begin.held, held, count < BG_HELD ? count : BG_HELD);
    test.begin.record[BG_COLLECTOR_COUNT] = (uint32_t)count;
    test.begin.record[BG_COLLECTOR_SKIPPING] = (uint32_t)last_number(text, UINT32_MAX);
    test.has_record = 1;
}

/* Reads one line of the data file. */
static void read_line(char *line)
{
    char *rest;

    if (begins(line, "case", &rest)) {
        if (test.name[0] != '\0') {
            run_case();
        }
        snprintf(test.name, sizeof test.name, "%s", rest);
    } else if (test.name[0] == '\0' || test.ended) {
        malformed("this line belongs to no case");
    } else if (begins(line, "L", &rest) || begins(line, "R", &rest)) {
        note(&test.wanted, "%s\n", line);
    } else if (begins(line, "end", &rest) || (begins(line, "refused", &rest) && test.wanted.len == 0)) {
        note(&test.wanted, "%s\n", line);
        test.ended = 1;
    } else if (test.wanted.len > 0) {
        malformed("what is given comes last in a case");
    } else if (begins(line, "stream", &rest) && !test.has_stream) {
        test.len = bytes_of(rest, test.bytes);
        test.has_stream = 1;
    } else if (begins(line, "lumps", &rest) && test.way_count < MOST_WAYS) {
        test.ways[test.way_count++] = strdup(rest);
    } else if (begins(line, "record", &rest) && !test.has_record) {
        read_record(rest);
    } else if (begins(line, "lump", &rest) && !test.has_lump) {
        test.len = bytes_of(rest, test.bytes);
        test.has_lump = 1;
    } else {
        malformed("this line is none that a case has here");
    }
}

/* Reads the data file on standard input, and runs its cases. */
int main(void)
{
    read_file(read_line);
    if (test.name[0] == '\0') {
        malformed("there is no case");
    }
    run_case();
    printf("%u cases, %u ways to lump a stream and %u single calls, %u wrong\n", cases, ways, calls, wrong);
    return wrong == 0 ? 0 : 1;
}
