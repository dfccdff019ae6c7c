/*
 * A line between an uploader and a controller that brings every byte by itself, both ways, and on which something
 * else prints console lines.
 * relay PORT_FILE PORT LENGTH: writes the path of the uploader's end to PORT_FILE; PORT is the controller's. Before
 * each line that goes to the controller comes a console line of LENGTH bytes with its 0A; none where that is 0.
 */
#include <fcntl.h>
#include <poll.h>
#include <stdio.h>
#include <stdlib.h>
#include <time.h>
#include <unistd.h>

#include "line.h"

const char program[] = "relay";

/* The bytes that are read at once, the longest console line, how long a byte may wait for room, and the time between
 * two bytes. */
enum { ROOM = 256, LENGTH_MAX = 65536, LIMIT_MS = 1000, PAUSE_NS = 50000 };

/* Sends a byte, and gives it time to be fetched alone. */
static void send_byte(int fd, uint8_t byte)
{
    static const struct timespec pause = {.tv_nsec = PAUSE_NS};

    if (write_all(fd, &byte, 1, LIMIT_MS) != WRITTEN) {
        perror(program);
        exit(1);
    }
    nanosleep(&pause, NULL);
}

/* Sends a console line of so many bytes. */
static void send_console_line(int fd, uint64_t length)
{
    for (uint64_t i = 1; i < length; i++) {
        send_byte(fd, 'x');
    }
    send_byte(fd, 0x0A);
}

/* Passes bytes both ways until the controller's port is closed. */
int main(int argc, char **argv)
{
    bool line_begins = true;
    const char *path;
    uint64_t length;
    int controller;
    int master;
    int slave;

    if (argc != 4) {
        end_usage("usage: relay PORT_FILE PORT LENGTH");
    }
    length = number_of("length", argv[3], 0, LENGTH_MAX);
    controller = open(argv[2], O_RDWR | O_NOCTTY | O_NONBLOCK);
    path = open_pty(&master, &slave, 0);
    if (controller < 0 || path == NULL || !write_port_file(argv[1], path)) {
        perror(program);
        return 1;
    }
    for (;;) {
        struct pollfd wait[] = {{.fd = master, .events = POLLIN}, {.fd = controller, .events = POLLIN}};
        uint8_t bytes[ROOM];
        poll(wait, 2, -1);
        if ((wait[1].revents & POLLHUP) != 0) {
            return 0;
        }
        ssize_t come = read(master, bytes, sizeof bytes);
        for (ssize_t i = 0; i < come; i++) {
            if (line_begins && length > 0) {
                send_console_line(controller, length);
            }
            send_byte(controller, bytes[i]);
            line_begins = bytes[i] == 0x0A;
        }
        come = read(controller, bytes, sizeof bytes);
        for (ssize_t i = 0; i < come; i++) {
            send_byte(master, bytes[i]);
        }
    }
}
