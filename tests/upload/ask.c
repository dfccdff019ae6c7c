/*
 * Asks a controller for its images, and prints the reply's bytes in hexadecimal on one line.
 * ask PORT SEQUENCE: the state read has this sequence number.
 */
#include <fcntl.h>
#include <poll.h>
#include <stdio.h>

#include "belagunthi.h"
#include "incoming.h"
#include "line.h"

const char program[] = "ask";

/* The longest reply, and how long it may take. */
enum { REPLY = 1024, LIMIT_MS = 3000 };

/* Sends a packet's frames; false where they do not go. */
static bool send_packet(int port, const uint8_t *packet, size_t len)
{
    uint32_t sent[2] = {0, 1};

    for (size_t k = 0; k < sent[1]; k++) {
        uint8_t line[BG_LINE];
        if (bg_send_frame(packet, len, k, line, sizeof line, sent) != 0 ||
            write_all(port, line, sent[0], LIMIT_MS) != WRITTEN) {
            return false;
        }
    }
    return true;
}

/* Waits for a packet; gives its length, or 0 where none comes in time. */
static uint32_t take_packet(int port, uint8_t *packet, size_t room)
{
    static struct incoming in;
    uint32_t reader[BG_READER] = {0, 0, 0, 0};
    uint32_t body = 0;
    uint32_t place = 0;

    for (uint64_t until = now_ms() + LIMIT_MS; body == 0 && now_ms() < until;) {
        struct pollfd wait = {.fd = port, .events = POLLIN};
        poll(&wait, 1, SLICE_MS);
        read_lump(&in, port, BG_LUMP);
        while (body == 0 && in.at < in.lump_len) {
            if (next_line(&in) == 0 && in.line_len > 0) {
                bg_take_line(reader, in.line, in.line_len, packet, room, &body, &place);
            }
        }
    }
    return body;
}

/* Sends the state read, and prints the reply. */
int main(int argc, char **argv)
{
    uint8_t request[8] = {[5] = 1};
    uint8_t reply[REPLY];
    struct termios found;
    uint32_t len;
    int port;

    if (argc != 3) {
        end_usage("usage: ask PORT SEQUENCE");
    }
    request[6] = (uint8_t)number_of("sequence", argv[2], 0, 255);
    port = open(argv[1], O_RDWR | O_NOCTTY | O_NONBLOCK);
    if (port < 0 || make_raw(port, 0, &found) != 0 || !send_packet(port, request, sizeof request)) {
        perror(program);
        return 1;
    }
    len = take_packet(port, reply, sizeof reply);
    for (uint32_t i = 0; i < len; i++) {
        printf("%02x", reply[i]);
    }
    printf("\n");
    return len > 0 ? 0 : 1;
}
