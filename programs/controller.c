/*
 * A rack controller on a pseudo-terminal: gives the lumps that come to the collector, its lines to the reader, its
 * packets to the request call on the controller's memory, and sends the replies' frames. Faults of the line can be
 * injected. All protocol work is done by the calls of belagunthi.h.
 */
#define _GNU_SOURCE
#include <errno.h>
#include <fcntl.h>
#include <getopt.h>
#include <poll.h>
#include <stdarg.h>
#include <stdio.h>
#include <stdlib.h>
#include <string.h>
#include <sys/file.h>
#include <sys/ioctl.h>
#include <sys/stat.h>
#include <unistd.h>

#include "belagunthi.h"
#include "incoming.h"
#include "line.h"

const char program[] = "controller";

/* How long a byte that goes may wait for room on the line, and a last reply to be fetched; the packets that can be
 * taken; the bytes that are taken at once on a line that has a speed. */
enum { SEND_LIMIT_MS = 500, LINGER_MS = 500, PACKET_LEAST = 8, SLOW_LUMP = 64 };

/* What the command line says. */
struct options {
    uint64_t memory_size;
    uint64_t slot_start;
    uint64_t slot_size;
    uint64_t slot0_start;
    uint64_t slot0_size;
    bool slot0_sized;
    uint64_t packet_buffer;
    uint64_t idle_ms;
    uint64_t baud;
    uint64_t seed;
    uint64_t drop;
    uint64_t damage;
    uint64_t chatter;
    uint64_t outage_every;
    uint64_t outage_ms;
    const char *memory_file;
    const char *running_file;
    const char *port_file;
    bool once;
    bool quiet;
};

/* The controller: its port, its memory, the records of its calls, and counts of what happened. */
struct controller {
    struct options options;
    int master;
    int slave;
    int file;
    size_t layout[BG_LAYOUT];
    uint8_t *memory;
    uint8_t *saved;
    uint8_t *packet;
    uint8_t *reply;
    size_t reply_room;
    struct incoming in;
    uint32_t reader[BG_READER];
    uint32_t session[BG_SESSION];
    uint8_t tag[BG_TAG];
    uint64_t random;
    uint64_t deaf_until;
    uint64_t line_free;
    bool port_told;
    unsigned long lines;
    unsigned long packets;
    unsigned long refused;
    unsigned long dropped;
    unsigned long damaged;
    unsigned long chatted;
    unsigned long outages;
    bool ended;
};

static struct controller controller;

/* Removes the file with the port's path, if there is one. */
static void untell_port(const struct controller *c)
{
    if (c->port_told) {
        unlink(c->options.port_file);
    }
}

/* Ends the program with one line on standard error. */
static void __attribute__((format(printf, 2, 3), noreturn)) fail(int code, const char *format, ...)
{
    va_list words;

    untell_port(&controller);
    va_start(words, format);
    fprintf(stderr, "%s: ", program);
    vfprintf(stderr, format, words);
    fprintf(stderr, "\n");
    va_end(words);
    exit(code);
}

/* Counts the refusal of something of so many bytes, and logs it by number and words, bad text with its place. */
static void log_refusal(struct controller *c, const char *what, size_t len, uint32_t refusal, uint32_t place)
{
    c->refused++;
    if (!c->options.quiet) {
        fprintf(stderr, "controller: refused %u (%s): a %s of %zu bytes\n", refusal,
                line_refusal_words(refusal, place, len), what, len);
    }
}

/* The next number of the fixed row that the seed begins (splitmix64). */
static uint64_t next_random(struct controller *c)
{
    uint64_t z;

    c->random += 0x9e3779b97f4a7c15u;
    z = c->random;
    z = (z ^ z >> 30) * 0xbf58476d1ce4e5b9u;
    z = (z ^ z >> 27) * 0x94d049bb133111ebu;
    return z ^ z >> 31;
}

/* Says whether a fault of so many in a thousand strikes now. */
static bool strikes(struct controller *c, uint64_t permille)
{
    return permille > 0 && next_random(c) % 1000 < permille;
}

/* Changes one byte of a line to another where the fault of damage strikes. */
static void damage(struct controller *c, uint8_t *line, size_t len)
{
    if (strikes(c, c->options.damage)) {
        line[next_random(c) % len] ^= (uint8_t)(1 + next_random(c) % 255);
        c->damaged++;
    }
}

/* Writes bytes at a place of the memory's file. */
static void write_file(struct controller *c, const uint8_t *bytes, size_t len, size_t place)
{
    while (len > 0) {
        ssize_t done = pwrite(c->file, bytes, len, (off_t)place);
        if (done < 0 && errno == EINTR) {
            continue;
        }
        if (done <= 0) {
            fail(END_FILE, "cannot write the memory to %s: %s", c->options.memory_file, strerror(errno));
        }
        bytes += done;
        place += (size_t)done;
        len -= (size_t)done;
    }
}

/* Writes what changed in the memory since the last time to its file, if it has one. */
static void save_memory(struct controller *c)
{
    size_t from = 0;
    size_t to = c->options.memory_size;

    if (c->file < 0 || memcmp(c->memory, c->saved, to) == 0) {
        return;
    }
    while (c->memory[from] == c->saved[from]) {
        from++;
    }
    while (c->memory[to - 1] == c->saved[to - 1]) {
        to--;
    }
    write_file(c, c->memory + from, to - from, from);
    memcpy(c->saved + from, c->memory + from, to - from);
}

/* Reads so many bytes from a file's start; false where they do not come. */
static bool read_file(int file, uint8_t *bytes, size_t len)
{
    size_t have = 0;

    while (have < len) {
        ssize_t done = pread(file, bytes + have, len - have, (off_t)have);
        if (done < 0 && errno == EINTR) {
            continue;
        }
        if (done <= 0) {
            return false;
        }
        have += (size_t)done;
    }
    return true;
}

/* Loads the memory from its file, or makes both all 255; a file of another size is not touched. */
static void load_memory(struct controller *c)
{
    size_t size = c->options.memory_size;
    struct stat state;

    memset(c->memory, 255, size);
    memset(c->saved, 255, size);
    c->file = -1;
    if (c->options.memory_file == NULL) {
        return;
    }
    c->file = open(c->options.memory_file, O_RDWR | O_CREAT | O_CLOEXEC | O_NONBLOCK, 0666);
    if (c->file < 0 || fstat(c->file, &state) != 0) {
        fail(END_FILE, "cannot open the memory file %s: %s", c->options.memory_file, strerror(errno));
    }
    if (!S_ISREG(state.st_mode)) {
        fail(END_FILE, "the memory file %s is not a plain file", c->options.memory_file);
    }
    if (state.st_size == 0) {
        write_file(c, c->memory, size, 0);
        return;
    }
    if ((uint64_t)state.st_size != size) {
        fail(END_FILE, "the memory file %s has %lld bytes, not %zu", c->options.memory_file,
             (long long)state.st_size, size);
    }
    if (!read_file(c->file, c->memory, size)) {
        fail(END_FILE, "cannot read the memory file %s", c->options.memory_file);
    }
    memcpy(c->saved, c->memory, size);
}

/* Puts the running image, if one was given, into slot 0, and 255 behind it. */
static void load_running(struct controller *c)
{
    const char *path = c->options.running_file;
    uint8_t *slot0 = c->memory + c->layout[BG_LAYOUT_SLOT0_START];
    size_t size = c->layout[BG_LAYOUT_SLOT0_SIZE];
    struct stat state;
    int file;

    if (path == NULL) {
        return;
    }
    file = open(path, O_RDONLY | O_NONBLOCK | O_CLOEXEC);
    if (file < 0 || fstat(file, &state) != 0) {
        fail(END_FILE, "cannot open the running image %s: %s", path, strerror(errno));
    }
    if (!S_ISREG(state.st_mode)) {
        fail(END_FILE, "the running image %s is not a plain file", path);
    }
    if (state.st_size == 0) {
        fail(END_FILE, "the running image %s is empty", path);
    }
    if ((uint64_t)state.st_size > size) {
        fail(END_FILE, "the running image %s has %lld bytes, more than slot 0's %zu", path, (long long)state.st_size,
             size);
    }
    memset(slot0, 255, size);
    if (!read_file(file, slot0, (size_t)state.st_size)) {
        fail(END_FILE, "cannot read the running image %s", path);
    }
    close(file);
    save_memory(c);
}

/* Waits as long as bytes take on a line of the speed that was asked for. */
static void pace(struct controller *c, size_t bytes)
{
    uint64_t now = now_ms();

    c->line_free = (c->line_free > now ? c->line_free : now) + line_ms(c->options.baud, bytes);
    while (now < c->line_free && stop_signal == 0) {
        poll(NULL, 0, (int)(c->line_free - now));
        now = now_ms();
    }
}

/* Sends bytes; what finds no room in time is lost, as on a line that no one reads. */
static void send_bytes(struct controller *c, const uint8_t *bytes, size_t len)
{
    pace(c, len);
    if (write_all(c->master, bytes, len, SEND_LIMIT_MS) == WRITE_FAILED) {
        fail(END_PORT, "cannot write to the port: %s", strerror(errno));
    }
}

/* Prints a console line on the line where the fault of chatter strikes; some are over 127 bytes, some are empty.
 */
static void chatter(struct controller *c)
{
    char text[256];
    int len;

    if (!strikes(c, c->options.chatter)) {
        return;
    }
    uint64_t number = next_random(c);
    switch (number % 4) {
    case 0:
        len = snprintf(text, sizeof text, "[%05lu] relay %u closed\r\n", c->lines % 100000,
                       (unsigned)(number >> 8) % 48);
        break;
    case 1:
        len = snprintf(text, sizeof text, "rack> \n");
        break;
    case 2:
        len = snprintf(text, sizeof text, "\n");
        break;
    default:
        len = snprintf(text, sizeof text, "[%05lu] temperatures:%0150u\n", c->lines % 100000,
                       (unsigned)(number >> 8));
        break;
    }
    c->chatted++;
    send_bytes(c, (const uint8_t *)text, (size_t)len);
}

/* Sends a reply as frames, with chatter before and between them and damage on them where these faults strike. */
static void send_reply(struct controller *c, size_t len)
{
    uint32_t sent[2] = {0, 1};

    for (size_t k = 0; k < sent[1]; k++) {
        uint8_t line[BG_LINE];
        uint32_t refusal = bg_send_frame(c->reply, len, k, line, sizeof line, sent);
        if (refusal != 0) {
            log_refusal(c, "reply", len, refusal, 0);
            return;
        }
        chatter(c);
        damage(c, line, sent[0]);
        send_bytes(c, line, sent[0]);
    }
}

/* Waits until the last reply was fetched from the port, or for the limit: the port's end would throw it away. */
static void linger(struct controller *c)
{
    uint64_t until = now_ms() + LINGER_MS;
    int unread = 1;

    while (unread > 0 && now_ms() < until) {
        poll(NULL, 0, 20);
        if (ioctl(c->slave, FIONREAD, &unread) != 0) {
            return;
        }
    }
}

/* Handles one packet: memory, session, reply, and an outage where one is due, which swallows the reply. */
static void take_packet(struct controller *c, size_t len)
{
    const struct options *o = &c->options;
    uint32_t answer[2] = {0, 0};
    uint32_t refusal = bg_handle(c->layout, c->memory, o->memory_size, c->session, c->tag, c->packet, len, c->reply,
                                 c->reply_room, answer);

    if (refusal != 0) {
        log_refusal(c, "packet", len, refusal, 0);
        return;
    }
    c->packets++;
    save_memory(c);
    if (o->outage_every > 0 && c->packets % o->outage_every == 0) {
        c->outages++;
        c->deaf_until = now_ms() + o->outage_ms;
    } else {
        send_reply(c, answer[0]);
    }
    if (answer[1] != 0 && o->once) {
        linger(c);
        c->ended = true;
    }
}

/* Takes one line that ended, with what the collector said to it, unless a fault loses it; one that was thrown away
 * has no bytes to damage. */
static void take_line(struct controller *c, uint32_t refusal)
{
    uint32_t body = 0;
    uint32_t place = 0;

    c->lines++;
    if (strikes(c, c->options.drop)) {
        c->dropped++;
        return;
    }
    if (refusal == 0) {
        damage(c, c->in.line, c->in.line_len);
        refusal = bg_take_line(c->reader, c->in.line, c->in.line_len, c->packet, c->options.packet_buffer, &body,
                               &place);
    }
    if (refusal != 0) {
        log_refusal(c, "line", c->in.line_len, refusal, place);
    } else if (body > 0) {
        take_packet(c, body);
    }
}

/* Lets other users open the port again where a host that had it alone was killed. */
static void free_port(const struct controller *c)
{
    if (flock(c->slave, LOCK_EX | LOCK_NB) == 0) {
        ioctl(c->slave, TIOCNXCL);
        flock(c->slave, LOCK_UN);
    }
}

/* Takes the lump that came; an outage swallows it, or what is left of it where the outage begins inside. */
static void take_lump(struct controller *c)
{
    while (c->in.at < c->in.lump_len && !c->ended && now_ms() >= c->deaf_until) {
        uint32_t refusal = next_line(&c->in);
        if (c->in.line_len > 0) {
            take_line(c, refusal);
        }
    }
}

/* Serves until the idle time is over, a signal asks for the end, or a reset does under --once. */
static void serve(struct controller *c)
{
    uint64_t last = now_ms();

    while (!c->ended && stop_signal == 0) {
        struct pollfd wait = {.fd = c->master, .events = POLLIN};
        uint64_t idle = now_ms() - last;
        if (c->options.idle_ms > 0 && idle >= c->options.idle_ms) {
            return;
        }
        uint64_t left = c->options.idle_ms > 0 ? c->options.idle_ms - idle : SLICE_MS;
        int ready = poll(&wait, 1, left < SLICE_MS ? (int)left : SLICE_MS);
        if (ready < 0 && errno != EINTR) {
            fail(END_PORT, "cannot wait for the port: %s", strerror(errno));
        }
        if (ready <= 0) {
            free_port(c);
            continue;
        }
        ssize_t come = read_lump(&c->in, c->master, c->options.baud > 0 ? SLOW_LUMP : BG_LUMP);
        if (come < 0 && (errno == EAGAIN || errno == EINTR)) {
            continue;
        }
        if (come <= 0) {
            fail(END_PORT, "cannot read from the port: %s", come == 0 ? "it was closed" : strerror(errno));
        }
        last = now_ms();
        pace(c, (size_t)come);
        take_lump(c);
    }
}

/* Opens the pseudo-terminal and tells its path. */
static void open_port(struct controller *c)
{
    const char *path = open_pty(&c->master, &c->slave, c->options.baud);

    if (path == NULL) {
        fail(END_PORT, "cannot open a pseudo-terminal: %s", strerror(errno));
    }
    if (c->options.port_file == NULL) {
        printf("%s\n", path);
        fflush(stdout);
        return;
    }
    if (!write_port_file(c->options.port_file, path)) {
        fail(END_FILE, "cannot write the port's path to %s: %s", c->options.port_file, strerror(errno));
    }
    c->port_told = true;
}

/* Prints the help. */
static void help(void)
{
    printf("Usage: controller [OPTION...]\n"
           "A rack controller on a pseudo-terminal, whose path it prints on one line. It\n"
           "takes image uploads into a slot of its memory, and lists the images there and\n"
           "in slot 0, that of the running image.\n"
           "\n"
           "Options:\n"
           "  --port-file F       write the path to F instead of standard output; F is\n"
           "                      removed at the end, and one of an earlier run first\n"
           "  --memory-size N     bytes of memory (default 262144)\n"
           "  --slot-start N      where the slot starts in it (default 65536)\n"
           "  --slot-size N       bytes of the slot, at most 1048576 (default 131072)\n"
           "  --slot0-start N     where slot 0 starts in the memory (default 0)\n"
           "  --slot0-size N      bytes of slot 0 (default: up to the slot, or up to the\n"
           "                      memory's end where slot 0 starts behind the slot)\n"
           "  --running FILE      put FILE into slot 0 at the start, and 255 behind it\n"
           "  --memory FILE       load the memory from FILE if it exists, and write it back\n"
           "                      after each change; else it is RAM, at first all 255\n"
           "  --packet-buffer N   longest packet taken, 8 to 65533 bytes (default 1024)\n"
           "  --baud N            as slow as a line of so many bits a second (default: as\n"
           "                      fast as the machine is)\n"
           "  --idle MS           end after so long without a byte (default 10000; 0: never)\n"
           "  --once              end after a reset was asked\n"
           "  --quiet             no log of refusals on standard error\n"
           "  -h, --help          this text\n"
           "  --version           the version\n"
           "\n"
           "Injected faults:\n"
           "  --seed N            begins their fixed row of chances (default 1)\n"
           "  --drop PERMILLE     a line that came is lost\n"
           "  --damage PERMILLE   a byte of a line that came or goes is changed\n"
           "  --chatter PERMILLE  a console line is printed before a frame that goes\n"
           "  --outage EVERY,MS   after every so many packets deaf and dumb for MS\n"
           "                      milliseconds; the packet's reply is lost\n"
           "\n"
           "Exit codes:\n"
           "  0  ended as asked, also by a signal\n"
           "  2  bad usage\n"
           "  3  file trouble\n"
           "  4  port trouble\n"
           "  7  the slots are impossible\n");
}

/* Reads the two numbers of an outage, or ends for bad usage. */
static void read_outage(struct options *o, const char *text)
{
    const char *comma = strchr(text, ',');
    char every[24];

    if (comma == NULL || (size_t)(comma - text) >= sizeof every) {
        end_usage("--outage wants EVERY,MS, not '%s'", text);
    }
    memcpy(every, text, (size_t)(comma - text));
    every[comma - text] = '\0';
    o->outage_every = number_of("outage", every, 0, 1000000000);
    o->outage_ms = number_of("outage", comma + 1, 0, 600000);
}

/* Reads the command line. */
static void read_options(struct options *o, int argc, char **argv)
{
    static const struct option known[] = {
        {"memory-size", required_argument, NULL, 'm'},
        {"slot-start", required_argument, NULL, 's'},
        {"slot-size", required_argument, NULL, 'S'},
        {"slot0-start", required_argument, NULL, 'z'},
        {"slot0-size", required_argument, NULL, 'Z'},
        {"running", required_argument, NULL, 'R'},
        {"memory", required_argument, NULL, 'f'},
        {"packet-buffer", required_argument, NULL, 'p'},
        {"baud", required_argument, NULL, 'b'},
        {"idle", required_argument, NULL, 'i'},
        {"seed", required_argument, NULL, 'r'},
        {"drop", required_argument, NULL, 'd'},
        {"damage", required_argument, NULL, 'D'},
        {"chatter", required_argument, NULL, 'c'},
        {"outage", required_argument, NULL, 'O'},
        {"port-file", required_argument, NULL, 'P'},
        {"once", no_argument, NULL, 'o'},
        {"quiet", no_argument, NULL, 'q'},
        {"help", no_argument, NULL, 'h'},
        {"version", no_argument, NULL, 'v'},
        {NULL, 0, NULL, 0},
    };
    int which = 0;
    int found;

    *o = (struct options){.memory_size = 262144,
                          .slot_start = 65536,
                          .slot_size = 131072,
                          .packet_buffer = 1024,
                          .idle_ms = 10000,
                          .seed = 1};
    opterr = 0;
    while ((found = getopt_long(argc, argv, "h", known, &which)) != -1) {
        const char *name = known[which].name;
        switch (found) {
        case 'm':
            o->memory_size = number_of(name, optarg, 0, 1u << 30);
            break;
        case 's':
            o->slot_start = number_of(name, optarg, 0, 1u << 30);
            break;
        case 'S':
            o->slot_size = number_of(name, optarg, 0, 1u << 30);
            break;
        case 'z':
            o->slot0_start = number_of(name, optarg, 0, 1u << 30);
            break;
        case 'Z':
            o->slot0_size = number_of(name, optarg, 0, 1u << 30);
            o->slot0_sized = true;
            break;
        case 'R':
            o->running_file = optarg;
            break;
        case 'f':
            o->memory_file = optarg;
            break;
        case 'p':
            o->packet_buffer = number_of(name, optarg, PACKET_LEAST, BG_PACKET);
            break;
        case 'b':
            o->baud = speed_given(name, optarg);
            break;
        case 'i':
            o->idle_ms = number_of(name, optarg, 0, 86400000);
            break;
        case 'r':
            o->seed = number_of(name, optarg, 0, UINT64_MAX);
            break;
        case 'd':
            o->drop = number_of(name, optarg, 0, 1000);
            break;
        case 'D':
            o->damage = number_of(name, optarg, 0, 1000);
            break;
        case 'c':
            o->chatter = number_of(name, optarg, 0, 1000);
            break;
        case 'O':
            read_outage(o, optarg);
            break;
        case 'P':
            o->port_file = optarg;
            break;
        case 'o':
            o->once = true;
            break;
        case 'q':
            o->quiet = true;
            break;
        case 'h':
            help();
            end_printed(END_DONE);
        case 'v':
            end_version();
        default:
            end_usage("unknown or incomplete option '%s'; see --help", argv[optind - 1]);
        }
    }
    if (optind < argc) {
        end_usage("unknown word '%s'; see --help", argv[optind]);
    }
}

/* Gives the controller its layout; a slot 0 without a size ends where the slot starts, or with the memory. */
static void make_layout(struct controller *c)
{
    const struct options *o = &c->options;
    uint64_t end = o->slot0_start <= o->slot_start ? o->slot_start : o->memory_size;
    uint64_t size = end > o->slot0_start ? end - o->slot0_start : 0;

    c->layout[BG_LAYOUT_SLOT0_START] = o->slot0_start;
    c->layout[BG_LAYOUT_SLOT0_SIZE] = o->slot0_sized ? o->slot0_size : size;
    c->layout[BG_LAYOUT_SLOT_START] = o->slot_start;
    c->layout[BG_LAYOUT_SLOT_SIZE] = o->slot_size;
}

/* Gives the controller its memory and buffers. */
static void make_buffers(struct controller *c)
{
    c->reply_room = c->options.packet_buffer < BG_REPLY_ROOM ? BG_REPLY_ROOM : c->options.packet_buffer;
    c->memory = malloc(c->options.memory_size);
    c->saved = malloc(c->options.memory_size);
    c->packet = malloc(c->options.packet_buffer);
    c->reply = malloc(c->reply_room);
    if (c->memory == NULL || c->saved == NULL || c->packet == NULL || c->reply == NULL) {
        fail(END_FILE, "no memory");
    }
}

/* Sets the controller up, serves, and says at the end what happened. */
int main(int argc, char **argv)
{
    struct controller *c = &controller;
    uint32_t refusal;

    keep_standard();
    read_options(&c->options, argc, argv);
    c->random = c->options.seed;
    make_layout(c);
    refusal = bg_configure(c->layout, c->options.memory_size, c->session, c->tag);
    if (refusal != 0) {
        fail(END_REFUSED, "refused %u (%s)", refusal, refusal_words(refusal));
    }
    if (c->options.port_file != NULL) {
        unlink(c->options.port_file);
    }
    make_buffers(c);
    catch_stops();
    load_memory(c);
    load_running(c);
    open_port(c);
    serve(c);
    save_memory(c);
    untell_port(c);
    if (!c->options.quiet) {
        fprintf(stderr,
                "controller: ended; %lu lines, %lu packets, %lu refusals; injected: %lu lines lost, %lu damaged, "
                "%lu console lines, %lu outages\n",
                c->lines, c->packets, c->refused, c->dropped, c->damaged, c->chatted, c->outages);
    }
    free(c->memory);
    free(c->saved);
    free(c->packet);
    free(c->reply);
    return END_DONE;
}
