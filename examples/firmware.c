/*
 * A controller's firmware: takes uploads into a slot of its memory over a serial line, and lists the images there and in
 * slot 0. All its buffers are static. On a board, get and put are the board's own; here the line is descriptors 0 and 1,
 * and at a reset the memory is shown on descriptor 2.
 */
#include <string.h>
#include <unistd.h>

#include "belagunthi.h"

enum { MEMORY = 65536, SLOT0 = 16384, SLOT_START = 16384, SLOT = 32768, PACKET = 1024 };

static const size_t layout[BG_LAYOUT] = {0, SLOT0, SLOT_START, SLOT};

static uint8_t memory[MEMORY], packet[PACKET], reply[PACKET], frame[BG_LINE], tag[BG_TAG];
static uint8_t lump[BG_LUMP], held[BG_HELD], line[BG_LINE];
static uint32_t collector[BG_COLLECTOR], reader[BG_READER], session[BG_SESSION];

/* Waits for a lump of bytes and gives how many there are; 0 where no more will come. */
static size_t get(void)
{
    ssize_t come = read(0, lump, sizeof lump);

    return come > 0 ? (size_t)come : 0;
}

/* Sends bytes. */
static void put(int descriptor, const uint8_t *bytes, size_t len)
{
    ssize_t done = 0;

    for (size_t sent = 0; sent < len && done >= 0; sent += done > 0 ? (size_t)done : 0) {
        done = write(descriptor, bytes + sent, len - sent);
    }
}

/* Takes a line: where it completes a request, does it and sends the reply's frames; 1 for a reset. */
static int take_line(size_t len)
{
    uint32_t body = 0, place = 0, answer[2] = {0, 0}, sent[2] = {0, 1};

    if (bg_take_line(reader, line, len, packet, PACKET, &body, &place) != 0 || body == 0 ||
        bg_handle(layout, memory, MEMORY, session, tag, packet, body, reply, PACKET, answer) != 0) {
        return 0;
    }
    for (size_t k = 0; k < sent[1] && bg_send_frame(reply, answer[0], k, frame, sizeof frame, sent) == 0; k++) {
        put(1, frame, sent[0]);
    }
    return answer[1] != 0;
}

/* Takes each line that a lump completes, until the lump is used up; 1 for a reset. */
static int take_lump(size_t len)
{
    uint32_t said, got[2] = {0, 0};

    do {
        said = bg_collect(collector, held, lump, len, got[1], line, got);
        if (said == BG_DONE && got[0] == 0) {
            return 0;
        }
        if (said == BG_DONE && take_line(got[0])) {
            return 1;
        }
    } while (said == BG_DONE || said == BG_LINE_TOO_LONG);
    return 0;
}

/* Serves until a reset. */
int main(void)
{
    size_t len;

    memset(memory, 255, MEMORY);
    if (bg_configure(layout, MEMORY, session, tag) != 0) {
        return 1;
    }
    while ((len = get()) > 0) {
        if (take_lump(len)) {
            put(2, memory, MEMORY);
            return 0;
        }
    }
    return 1;
}
