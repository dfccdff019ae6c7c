/* Everything that is lent is compared after the calls, in every byte, with what the case wants of it. */
#include "requests.h"

#include <stdio.h>
#include <string.h>

#include "belagunthi.h"
#include "data.h"

enum { MEMORY = 1060000, SPARE = 64, PAINT = 0xEE, UNTOUCHED = 77 };

/* A session record and its tag. */
struct session {
    uint32_t record[BG_SESSION];
    uint8_t tag[BG_TAG];
};

/* What a request is lent. Memory, packet and reply buffer are the first bytes of these arrays; the others are painted. */
struct lent {
    size_t layout[BG_LAYOUT];
    uint8_t memory[MEMORY];
    struct session session;
    uint8_t packet[ROOM];
    uint8_t reply[ROOM];
    uint32_t answer[2];
};

/* Before the request, as wanted after it, and as it is after it. */
static struct lent before, wanted, given;

/* How much of a case has been read; from WHOLE on it can be run. */
enum stage { NOTHING, ITS_MEMORY, ITS_SLOT0, ITS_SLOT1, ITS_SESSION, ITS_PACKET, ITS_ROOM, ITS_REPLY, WHOLE, NO_MORE };

/* The case at hand: its name, how much of it has been read, the lengths of what is lent, and the answer that is wanted. */
static struct {
    char name[32];
    enum stage stage;
    size_t memory_len, packet_len, room;
    uint32_t returned;
} test;

static struct counts counts;

/* Says that a call did other than the case wants. */
static void differs(const char *call, const char *what)
{
    printf("case %s: %s: %s\n", test.name, call, what);
    counts.wrong++;
}

/* Configures the case's regions: refused 1 exactly where the request is, since no case has an impossible session. */
static void configure(void)
{
    struct session session, then;
    uint32_t returned;

    memset(&session, PAINT, sizeof session);
    memset(&then, test.returned == BG_IMPOSSIBLE ? PAINT : 0, sizeof then);
    returned = bg_configure(given.layout, test.memory_len, session.record, session.tag);
    if (returned != (test.returned == BG_IMPOSSIBLE ? BG_IMPOSSIBLE : BG_DONE)) {
        differs("bg_configure", "another answer");
    } else if (memcmp(&session, &then, sizeof then) != 0) {
        differs("bg_configure", "another session");
    }
    if (memcmp(given.layout, before.layout, sizeof before.layout) != 0) {
        differs("bg_configure", "another layout");
    }
}

/* Handles the case's request. */
static void handle(void)
{
    uint32_t returned = bg_handle(given.layout, given.memory, test.memory_len, given.session.record, given.session.tag,
                                  given.packet, test.packet_len, given.reply, test.room, given.answer);

    if (returned != test.returned) {
        differs("bg_handle", "another answer");
    }
    if (memcmp(given.answer, wanted.answer, sizeof wanted.answer) != 0) {
        differs("bg_handle", "another reply length, or a reset");
    }
    if (memcmp(given.reply, wanted.reply, sizeof wanted.reply) != 0) {
        differs("bg_handle", "another reply, or more written than that");
    }
    if (memcmp(&given.session, &wanted.session, sizeof wanted.session) != 0) {
        differs("bg_handle", "another session");
    }
    if (memcmp(given.memory, wanted.memory, sizeof wanted.memory) != 0) {
        differs("bg_handle", "another memory");
    }
    if (memcmp(given.layout, before.layout, sizeof before.layout) != 0
        || memcmp(given.packet, before.packet, sizeof before.packet) != 0) {
        differs("bg_handle", "layout or packet was written");
    }
}

/* Reads a part of a memory, of at most so many bytes: its length, the byte that it is filled with, and places with other
 * bytes; gives the length. */
static size_t read_part(char *text, uint8_t *part, size_t most)
{
    static uint8_t bytes[ROOM];
    size_t part_len = number(&text, most);

    if (bytes_of(word(&text), bytes) != 1) {
        malformed("a memory is filled with one byte");
    }
    memset(part, bytes[0], part_len);
    while (*text != '\0') {
        size_t at = number(&text, part_len);
        size_t len = bytes_of(word(&text), bytes);
        if (len > part_len - at) {
            malformed("bytes outside the memory");
        }
        memcpy(part + at, bytes, len);
    }
    return part_len;
}

/* Reads the memory. */
static void read_memory(char *text)
{
    memset(before.memory, PAINT, MEMORY);
    test.memory_len = read_part(text, before.memory, MEMORY - SPARE);
}

/* Reads a region: its start and its size. */
static void read_region(char *text, size_t region[2])
{
    region[0] = number(&text, SIZE_MAX);
    region[1] = last_number(text, SIZE_MAX);
}

/* Reads where slot 0 is. */
static void read_slot0(char *text)
{
    read_region(text, before.layout);
}

/* Reads where the upload slot is. */
static void read_slot1(char *text)
{
    read_region(text, before.layout + 2);
}

/* Reads a session: closed, or open with its length, its place and its tag. */
static void read_session(char *text, struct session *session)
{
    static uint8_t tag[ROOM];

    memset(session, 0, sizeof *session);
    if (strcmp(text, "closed") == 0) {
        return;
    }
    if (strcmp(word(&text), "open") != 0) {
        malformed("a session is 'closed' or 'open'");
    }
    session->record[BG_SESSION_OPEN] = 1;
    session->record[BG_SESSION_LENGTH] = (uint32_t)number(&text, UINT32_MAX);
    session->record[BG_SESSION_PLACE] = (uint32_t)number(&text, UINT32_MAX);
    if (strcmp(text, "none") != 0) {
        if (bytes_of(text, tag) != BG_TAG) {
            malformed("a tag has 32 bytes");
        }
        session->record[BG_SESSION_TAGGED] = 1;
        memcpy(session->tag, tag, BG_TAG);
    }
}

/* Reads the session before the request. */
static void read_before(char *text)
{
    read_session(text, &before.session);
}

/* Reads the request. */
static void read_packet(char *text)
{
    memset(before.packet, PAINT, ROOM);
    test.packet_len = bytes_of(text, before.packet);
}

/* Reads the reply buffer's length; what is lent is then whole, and none of it is wanted otherwise. */
static void read_room(char *text)
{
    test.room = last_number(text, ROOM - SPARE);
    memset(before.reply, PAINT, ROOM);
    before.answer[0] = UNTOUCHED;
    before.answer[1] = UNTOUCHED;
    wanted = before;
}

/* Reads the refusal that is wanted, which leaves everything. */
static void read_refused(char *text)
{
    test.returned = (uint32_t)last_number(text, UINT32_MAX);
    counts.refused++;
}

/* Reads the reply that is wanted; none of the cases asks for a reset. */
static void read_reply(char *text)
{
    wanted.answer[0] = (uint32_t)bytes_of(text, wanted.reply);
    wanted.answer[1] = 0;
}

/* Reads the session that is wanted. */
static void read_after(char *text)
{
    read_session(text, &wanted.session);
}

/* Reads the upload slot that is wanted; all else of the memory stays. */
static void read_slot_after(char *text)
{
    size_t start = before.layout[BG_LAYOUT_SLOT_START], size = before.layout[BG_LAYOUT_SLOT_SIZE];

    if (start > test.memory_len || size > test.memory_len - start
        || read_part(text, wanted.memory + start, size) != size) {
        malformed("this is not the upload slot");
    }
    counts.written++;
}

/* The lines of a case: the first word, what reads the others, and how much has been read before and after it. */
static const struct {
    const char *word;
    void (*read)(char *text);
    enum stage before, after;
} forms[] = {
    {"memory", read_memory, NOTHING, ITS_MEMORY},
    {"slot0", read_slot0, ITS_MEMORY, ITS_SLOT0},
    {"slot1", read_slot1, ITS_SLOT0, ITS_SLOT1},
    {"session", read_before, ITS_SLOT1, ITS_SESSION},
    {"packet", read_packet, ITS_SESSION, ITS_PACKET},
    {"room", read_room, ITS_PACKET, ITS_ROOM},
    {"refused", read_refused, ITS_ROOM, NO_MORE},
    {"reply", read_reply, ITS_ROOM, ITS_REPLY},
    {"after", read_after, ITS_REPLY, WHOLE},
    {"slot-after", read_slot_after, WHOLE, NO_MORE},
};

/* Runs the case that was read, and makes ready for the next. */
static void run_case(void)
{
    if (test.stage < WHOLE) {
        malformed("the case before this line is not whole");
    }
    given = before;
    configure();
    handle();
    counts.cases++;
    memset(&test, 0, sizeof test);
}

void read_request_line(char *line)
{
    char *rest;

    if (begins(line, "case", &rest)) {
        if (test.name[0] != '\0') {
            run_case();
        }
        snprintf(test.name, sizeof test.name, "%s", rest);
        return;
    }
    if (begins(line, "until", &rest) && test.stage >= WHOLE) {
        return;
    }
    for (size_t i = 0; i < sizeof forms / sizeof forms[0]; i++) {
        if (test.name[0] != '\0' && begins(line, forms[i].word, &rest) && test.stage == forms[i].before) {
            forms[i].read(rest);
            test.stage = forms[i].after;
            return;
        }
    }
    malformed("this line is none that a case has here");
}

struct counts finish_requests(void)
{
    if (test.name[0] == '\0') {
        malformed("there is no case");
    }
    run_case();
    return counts;
}
