/*
 * A controller that misbehaves in one way, on a pseudo-terminal, to try the uploader with.
 * fake MODE PORT_FILE MEMORY_FILE: writes its port's path to PORT_FILE, and its memory to MEMORY_FILE after each
 * packet.
 */
#include <poll.h>
#include <stdio.h>
#include <stdlib.h>
#include <string.h>
#include <unistd.h>

#include "belagunthi.h"
#include "incoming.h"
#include "line.h"

const char program[] = "fake";

/* The memory, its slot, the packet buffer, how long the fake lives, and the packet at which some modes strike. */
enum { MEMORY = 262144, START = 65536, SLOT = 131072, PACKET = 1024, LIFE_MS = 20000, STRIKE = 20 };

/* The places of bad text in the lines of the first reply and of the others. */
enum { FIRST_PLACE = 17, OTHER_PLACE = 5 };

/* Slot 0 is all that stands before the slot. */
static const size_t layout[BG_LAYOUT] = {0, START, START, SLOT};

/* The fake's memory, buffers and records. */
struct fake {
    int master;
    const char *memory_file;
    uint8_t memory[MEMORY];
    uint8_t packet[PACKET];
    uint8_t reply[PACKET];
    uint32_t session[BG_SESSION];
    uint8_t tag[BG_TAG];
    unsigned packets;
    uint8_t kept[PACKET];
    uint32_t kept_len;
};

static struct fake fake;

/* Ends the fake with one line. */
static void __attribute__((noreturn)) fail(const char *what)
{
    fprintf(stderr, "fake: %s\n", what);
    exit(1);
}

/* Sends a packet's frames. */
static void send_packet(struct fake *f, const uint8_t *packet, size_t len)
{
    uint32_t sent[2] = {0, 1};

    for (size_t k = 0; k < sent[1]; k++) {
        uint8_t line[BG_LINE];
        if (bg_send_frame(packet, len, k, line, sizeof line, sent) != 0) {
            fail("a frame was refused");
        }
        if (write_all(f->master, line, sent[0], 200) == WRITE_FAILED) {
            fail("cannot write");
        }
    }
}

/* Sends a reply to the packet, with its header and the map given. */
static void send_map(struct fake *f, const uint8_t *map, size_t len)
{
    uint8_t reply[64] = {3, 0, 0, (uint8_t)len, f->packet[4], f->packet[5], f->packet[6], f->packet[7]};

    memcpy(reply + 8, map, len);
    send_packet(f, reply, 8 + len);
}

/* Writes the memory to its file. */
static void save(const struct fake *f)
{
    FILE *file = fopen(f->memory_file, "wb");

    if (file == NULL || fwrite(f->memory, 1, MEMORY, file) != MEMORY || fclose(file) != 0) {
        fail("cannot write the memory");
    }
}

/* Handles a packet as a controller does; gives the length of the reply. */
static uint32_t handle(struct fake *f, const uint8_t *packet, size_t len)
{
    uint32_t answer[2] = {0, 0};

    if (bg_handle(layout, f->memory, MEMORY, f->session, f->tag, packet, len, f->reply, PACKET, answer) != 0) {
        fail("a packet was refused");
    }
    save(f);
    return answer[0];
}

/* Begins with a closed session, as a controller that was started anew; the memory stays. */
static void configure(struct fake *f)
{
    if (bg_configure(layout, MEMORY, f->session, f->tag) != 0) {
        fail("the slot was refused");
    }
}

/* Begins another host's session, of an image of 5,000 bytes, with a tag or without. */
static void begin_other_session(struct fake *f, const uint8_t *tag, size_t tag_len)
{
    static const uint8_t data[100] = {1, 2, 3};
    uint8_t request[PACKET];
    uint32_t len = 0;

    if (bg_write_upload(9, data, sizeof data, 0, 5000, tag, tag_len, request, sizeof request, &len) != 0) {
        fail("the other session was refused");
    }
    handle(f, request, len);
}

/* Answers a packet by a map that a mode always gives; false where the mode gives none. */
static bool answer_fixed(struct fake *f, const char *mode)
{
    static const struct {
        const char *mode;
        uint8_t map[16];
        size_t len;
        unsigned from;
    } fixed[] = {
        {"far-offset", {0xA2, 0x62, 'r', 'c', 0, 0x63, 'o', 'f', 'f', 0x1A, 0xFF, 0xFF, 0xFF, 0xFF}, 14, 1},
        {"same-offset", {0xA2, 0x62, 'r', 'c', 0, 0x63, 'o', 'f', 'f', 1}, 10, 1},
        {"zero-offset", {0xA2, 0x62, 'r', 'c', 0, 0x63, 'o', 'f', 'f', 0}, 10, 1},
        {"no-offset", {0xA1, 0x62, 'r', 'c', 0}, 5, 1},
        {"invalid", {0xA1, 0x62, 'r', 'c', 3}, 5, 1},
        {"busy", {0xA1, 0x62, 'r', 'c', 10}, 5, STRIKE},
        {"other-text", {0xA1, 0x61, 'r', 0x65, 0x1B, '[', '2', 'J', 0x07}, 9, 1},
    };

    for (size_t i = 0; i < sizeof fixed / sizeof fixed[0]; i++) {
        if (strcmp(mode, fixed[i].mode) == 0 && f->packets >= fixed[i].from) {
            send_map(f, fixed[i].map, fixed[i].len);
            return true;
        }
    }
    return false;
}

/* Keeps the reply to the first packet, loses the second, and sends the kept reply in its place: late, and in one mode
 * with the second's sequence number. False where the packet is to be answered as it should be. */
static bool answer_late(struct fake *f, const char *mode, size_t len)
{
    if (f->packets == 1) {
        f->kept_len = handle(f, f->packet, len);
        memcpy(f->kept, f->reply, f->kept_len);
        return true;
    }
    if (f->packets == 2) {
        f->kept[6] = strcmp(mode, "late-same-sequence") == 0 ? f->packet[6] : f->kept[6];
        send_packet(f, f->kept, f->kept_len);
        return true;
    }
    return false;
}

/* Sends a reply of one frame in one piece with a console line before it, which is too long by a byte. */
static void send_after_long_line(struct fake *f, uint32_t len)
{
    uint8_t piece[BG_LINE + 1 + BG_LINE];
    uint32_t sent[2] = {0, 1};

    memset(piece, 'x', BG_LINE);
    piece[BG_LINE] = 0x0A;
    if (bg_send_frame(f->reply, len, 0, piece + BG_LINE + 1, BG_LINE, sent) != 0 || sent[1] != 1) {
        fail("the reply is not one frame");
    }
    write_all(f->master, piece, BG_LINE + 1 + sent[0], 200);
}

/* Sends a reply of one frame with a character of its text changed, or with the text's last character left out. */
static void send_bad_text(struct fake *f, uint32_t len, bool cut)
{
    uint8_t line[BG_LINE];
    uint32_t sent[2] = {0, 1};

    if (bg_send_frame(f->reply, len, 0, line, sizeof line, sent) != 0 || sent[1] != 1) {
        fail("the reply is not one frame");
    }
    if (cut) {
        line[--sent[0] - 1] = 0x0A;
    } else {
        line[f->packets == 1 ? FIRST_PLACE : OTHER_PLACE] = '-';
    }
    write_all(f->master, line, sent[0], 200);
}

/* Sends a right reply, after others or changed as the mode says. */
static void send_reply(struct fake *f, const char *mode, uint32_t len)
{
    uint8_t right = f->reply[6];

    if (strcmp(mode, "long-line") == 0) {
        send_after_long_line(f, len);
        return;
    }
    if (strcmp(mode, "bad-text") == 0 || strcmp(mode, "cut-text") == 0) {
        send_bad_text(f, len, strcmp(mode, "cut-text") == 0);
        return;
    }
    if (strcmp(mode, "other-sequence") == 0) {
        f->reply[6] = bg_next_sequence(right);
    }
    if (strcmp(mode, "stray-replies") == 0) {
        f->reply[6] = (uint8_t)(right - 1);
        send_packet(f, f->reply, len);
        f->reply[6] = right;
        f->reply[7] = 5;
        send_packet(f, f->reply, len);
        f->reply[7] = 1;
    }
    if (strcmp(mode, "no-rc") == 0) {
        /* A2 62 r c 00 63 o f f ...: the map without its first pair. */
        f->reply[12] = 0xA1;
        send_map(f, f->reply + 12, len - 12);
        return;
    }
    send_packet(f, f->reply, len);
}

/* Answers one packet in the fake's mode; false where the fake hangs up. */
static bool answer(struct fake *f, const char *mode, size_t len)
{
    uint32_t reply_len;

    f->packets++;
    fprintf(stderr, "fake: packet %u, sequence %u\n", f->packets, f->packet[6]);
    if (strcmp(mode, "hang-up") == 0 && f->packets == STRIKE) {
        return false;
    }
    if (strcmp(mode, "silent") == 0 || answer_fixed(f, mode) ||
        (strncmp(mode, "late-", 5) == 0 && answer_late(f, mode, len))) {
        return true;
    }
    if (strcmp(mode, "loop") == 0) {
        send_packet(f, f->packet, len);
        return true;
    }
    if (strcmp(mode, "half-lines") == 0) {
        write_all(f->master, (const uint8_t *)"rack>", 5, 200);
        return true;
    }
    if (strcmp(mode, "loses-session") == 0 && f->packets == STRIKE) {
        configure(f);
    }
    if (strcmp(mode, "reboots") == 0 && f->packets % STRIKE >= STRIKE - 3) {
        configure(f);
        return true;
    }
    if (strcmp(mode, "other-session") == 0 && f->packets == STRIKE) {
        begin_other_session(f, NULL, 0);
    }
    if (strcmp(mode, "other-length") == 0 && f->packets == 1) {
        /* The tag ends the packet of an upload at offset 0. */
        begin_other_session(f, f->packet + len - BG_TAG, BG_TAG);
    }
    reply_len = handle(f, f->packet, len);
    if (strcmp(mode, "never-proves") == 0 && f->session[1] == f->session[2]) {
        configure(f);
    }
    send_reply(f, mode, reply_len);
    return true;
}

/* Serves in one mode until the fake's life is over or it hangs up. */
int main(int argc, char **argv)
{
    static struct incoming in;
    static uint32_t reader[BG_READER];
    uint64_t until = now_ms() + LIFE_MS;
    struct fake *f = &fake;
    const char *path;
    int slave;

    if (argc != 4) {
        fail("usage: fake MODE PORT_FILE MEMORY_FILE");
    }
    f->memory_file = argv[3];
    memset(f->memory, 255, MEMORY);
    configure(f);
    path = open_pty(&f->master, &slave, 0);
    if (path == NULL || !write_port_file(argv[2], path)) {
        fail("cannot open a port");
    }
    while (now_ms() < until) {
        struct pollfd wait = {.fd = f->master, .events = POLLIN};
        if (strcmp(argv[1], "deaf") == 0) {
            poll(NULL, 0, 100);
            continue;
        }
        if (strcmp(argv[1], "babbling") == 0) {
            write_all(f->master, (const uint8_t *)"babble babble babble\n", 21, 1);
        }
        poll(&wait, 1, 1);
        read_lump(&in, f->master, BG_LUMP);
        while (in.at < in.lump_len) {
            uint32_t body = 0;
            uint32_t place = 0;
            if (next_line(&in) != 0 || in.line_len == 0 ||
                bg_take_line(reader, in.line, in.line_len, f->packet, PACKET, &body, &place) != 0 || body == 0) {
                continue;
            }
            if (strcmp(argv[1], "babbling") != 0 && !answer(f, argv[1], body)) {
                return 0;
            }
        }
    }
    return 0;
}
