/* A host on a serial port: takes the port for itself, sends a request and waits for its reply, shows that something
 * goes on, and ends the program with one true line. All protocol work is done by the calls of belagunthi.h. */
#define _GNU_SOURCE
#include "host.h"

#include <errno.h>
#include <fcntl.h>
#include <poll.h>
#include <stdarg.h>
#include <stdio.h>
#include <stdlib.h>
#include <string.h>
#include <sys/file.h>
#include <sys/ioctl.h>
#include <sys/random.h>
#include <unistd.h>

#include "progress.h"

/* So many bytes the kernel may hold for the line. */
enum { KERNEL_ROOM = 4096 };

/* So long is old input thrown away before the first request; so often is the port tried before it counts as in use,
 * and so long between; so far apart are the rows of a terminal, and the lines elsewhere where nothing moves. */
enum { SETTLE_MS = 30, TAKE_TRIES = 3, TAKE_MS = 20, ROW_MS = 100, LINE_MS = 5000 };

/* The columns of a terminal that does not say them. */
enum { COLUMNS = 80 };

/* The op of replies to writes, and the groups and commands that are asked for. */
enum { WRITE_REPLY = 3, OS = 0, OS_ECHO = 0, OS_RESET = 5, IMAGE = 1, IMAGE_UPLOAD = 1, IMAGE_ERASE = 5 };

const struct request echo_request = {OS, OS_ECHO, "echo"};
const struct request reset_request = {OS, OS_RESET, "reset"};
const struct request erase_request = {IMAGE, IMAGE_ERASE, "erase"};
const struct request upload_request = {IMAGE, IMAGE_UPLOAD, "upload"};

struct host host;

/* Gives the port back as it was found. */
static void close_port(struct host *h)
{
    if (h->raw) {
        tcflush(h->port, TCIOFLUSH);
        tcsetattr(h->port, TCSANOW, &h->found);
    }
    if (h->taken) {
        ioctl(h->port, TIOCNXCL);
    }
    if (h->port >= 0) {
        close(h->port);
    }
    h->port = -1;
    h->raw = false;
    h->taken = false;
}

/* Says the last line, on standard output where all is done, else on standard error, and gives everything back. */
static void __attribute__((format(printf, 2, 0))) say_last(int code, const char *format, va_list words)
{
    FILE *out = code == END_DONE ? stdout : stderr;

    close_port(&host);
    free(host.image);
    if (host.row_shown) {
        fputc('\n', stderr);
    }
    fprintf(out, "%s: ", program);
    vfprintf(out, format, words);
    fprintf(out, "\n");
}

/* Ends the program with one line, on standard output where all is done, else on standard error, and gives the port back
 * as it was found. */
void finish(int code, const char *format, ...)
{
    va_list words;

    va_start(words, format);
    say_last(code, format, words);
    va_end(words);
    exit(code);
}

/* Ends the program by the signal that asked for it, after one line. */
static void __attribute__((format(printf, 1, 2), noreturn)) finish_stopped(const char *format, ...)
{
    int number = stop_signal;
    va_list words;

    va_start(words, format);
    say_last(128 + number, format, words);
    va_end(words);
    fflush(NULL);
    signal(number, SIG_DFL);
    raise(number);
    exit(128 + number);
}

/* Ends the program where a signal asked for that. */
static void look_for_stop(const struct host *h)
{
    if (stop_signal == 0) {
        return;
    }
    if (h->began == 0) {
        finish_stopped("ended by signal %d", (int)stop_signal);
    }
    finish_stopped("ended by signal %d with %zu of %zu bytes acknowledged; %s", (int)stop_signal, h->acknowledged,
                   h->length,
                   h->tag_len > 0 ? "the same command goes on from there" : "without a tag the next one begins anew");
}

/* Ends the program for the refusal of a call. */
void finish_refused(const char *what, uint32_t refusal)
{
    finish(END_REFUSED, "%s was refused: %u (%s)", what, refusal, refusal_words(refusal));
}

/* What was done before the request at hand, for the messages that end the program. */
static const char *done_before(const struct host *h)
{
    return h->asked == &reset_request && h->options.file != NULL ? "; the upload before the reset is done" : "";
}

/* Shows a row that takes exactly the terminal's width but one column, over the row before. */
static void show_row(struct host *h, const struct progress *p)
{
    struct winsize size = {.ws_col = 0};
    char row[PROGRESS_ROOM];
    size_t columns;

    if (ioctl(STDERR_FILENO, TIOCGWINSZ, &size) != 0 || size.ws_col == 0) {
        size.ws_col = COLUMNS;
    }
    columns = size.ws_col - 1u < PROGRESS_ROOM - 1 ? size.ws_col - 1u : PROGRESS_ROOM - 1;
    progress_row(row, columns, p);
    fprintf(stderr, "\r%s", row);
    fflush(stderr);
    h->row_shown = true;
}

/* Shows how far the upload is: a row on a terminal, else a line for each tenth that is reached, and now and then where
 * none is. */
static void show_upload(struct host *h)
{
    struct progress p = {.done = h->acknowledged,
                         .length = h->length,
                         .begun_at = h->resumed_at,
                         .elapsed_ms = now_ms() - h->began,
                         .retries = h->retries};
    unsigned tenths = (unsigned)((uint64_t)p.done * 10 / p.length);
    uint64_t quiet_ms = now_ms() - h->shown;
    char words[PROGRESS_ROOM];

    if (h->terminal && (quiet_ms >= ROW_MS || p.done == p.length)) {
        show_row(h, &p);
        h->shown = now_ms();
    } else if (!h->terminal && (tenths > h->tenths || quiet_ms >= LINE_MS)) {
        progress_words(words, PROGRESS_ROOM - 1, &p);
        fprintf(stderr, "%s: %s\n", program, words);
        h->tenths = tenths > h->tenths ? tenths : h->tenths;
        h->shown = now_ms();
    }
}

/* Shows that something goes on, unless nothing is to be shown. */
void show_progress(struct host *h)
{
    if (h->options.quiet) {
        return;
    }
    if (h->asked == &upload_request) {
        show_upload(h);
    } else if (h->asked != NULL && now_ms() - h->shown >= LINE_MS) {
        fprintf(stderr, "%s: waiting for the answer to the %s, %lu retries\n", program, h->asked->name, h->retries);
        h->shown = now_ms();
    }
}

/* Reads what has come, waiting at most until then; false where nothing came in time, and the end where the port
 * fails or a signal asks for it. */
static bool read_port(struct host *h, uint64_t until)
{
    for (;;) {
        uint64_t now = now_ms();
        struct pollfd wait = {.fd = h->port, .events = POLLIN};
        look_for_stop(h);
        if (now >= until) {
            return false;
        }
        if (poll(&wait, 1, until - now < SLICE_MS ? (int)(until - now) : SLICE_MS) < 0 && errno != EINTR) {
            finish(END_PORT, "cannot wait for the port %s: %s", h->options.port, strerror(errno));
        }
        if (wait.revents == 0) {
            show_progress(h);
            continue;
        }
        ssize_t come = read_lump(&h->in, h->port, BG_LUMP);
        if (come > 0) {
            return true;
        }
        if (come == 0 || (errno != EAGAIN && errno != EINTR)) {
            finish(END_PORT, "the port %s was closed: %s%s", h->options.port,
                   come == 0 ? "hung up" : strerror(errno), done_before(h));
        }
    }
}

/* Draws a sequence number by chance, so that no late reply to another run of this program is likely to have it. */
void draw_sequence(struct host *h)
{
    if (getrandom(&h->sequence, 1, GRND_NONBLOCK) != 1) {
        h->sequence = (uint8_t)((uint64_t)getpid() * 31 + now_ms());
    }
}

/* Notes that bytes went to the line since a moment: when it has sent them it is free again. */
static void note_sent(struct host *h, uint64_t since, size_t bytes)
{
    uint64_t now = now_ms();

    h->line_free = (h->line_free > since ? h->line_free : since) + line_ms(h->baud, bytes);
    h->line_free = h->line_free > now ? h->line_free : now;
}

/* Sends the request's frames and gives their bytes; 0 where the port took no byte for too long. */
static size_t send_request(struct host *h, bool after_silence)
{
    static const uint8_t line_end = 0x0A;
    uint64_t limit_ms = h->options.timeout_ms + line_ms(h->baud, KERNEL_ROOM);
    uint64_t since = now_ms();
    uint32_t sent[2] = {0, 1};
    enum written written = WRITTEN;
    size_t bytes = 0;

    if (after_silence) {
        /* Ends whatever half line the controller may still hold; an empty line is no frame. */
        written = write_all(h->port, &line_end, 1, limit_ms);
        bytes++;
    }
    for (size_t k = 0; written == WRITTEN && k < sent[1]; k++) {
        uint8_t line[BG_LINE];
        uint32_t refusal = bg_send_frame(h->packet, h->packet_len, k, line, sizeof line, sent);
        if (refusal != 0) {
            finish_refused("a frame", refusal);
        }
        written = write_all(h->port, line, sent[0], limit_ms);
        bytes += sent[0];
    }
    look_for_stop(h);
    if (written == WRITE_FAILED) {
        finish(END_PORT, "cannot write to the port %s: %s", h->options.port, strerror(errno));
    }
    if (written == WRITE_TIME_UP) {
        tcflush(h->port, TCOFLUSH);
        return 0;
    }
    note_sent(h, since, bytes);
    return bytes;
}

/* Notes a line or a packet that is no reply, with the place of bad text. */
static void note_no_reply(struct host *h, uint32_t refusal, uint32_t place)
{
    h->bad_lines++;
    if (refusal == BG_LINE_TOO_LONG || refusal == BG_NO_FRAME) {
        h->heard.lines++;
        return;
    }
    if (h->heard.not_replies == 0) {
        h->heard.first_refusal = refusal;
        h->heard.first_place = place;
        h->heard.first_len = h->in.line_len;
    }
    h->heard.not_replies++;
}

/* Takes one line that ended, with what the collector said to it; true where it completes the reply that is waited
 * for. */
static bool take_line(struct host *h, uint32_t refusal)
{
    uint32_t body = 0;
    uint32_t place = 0;
    bool same;

    if (refusal == 0) {
        refusal = bg_take_line(h->reader, h->in.line, h->in.line_len, h->answer, sizeof h->answer, &body, &place);
    }
    if (refusal == 0 && body > 0) {
        refusal = bg_read_reply(h->answer, body, h->reply);
    }
    if (refusal != 0) {
        note_no_reply(h, refusal, place);
        return false;
    }
    if (body == 0) {
        return false;
    }
    same = h->reply[BG_REPLY_OP] == WRITE_REPLY && h->reply[BG_REPLY_GROUP] == h->asked->group &&
           h->reply[BG_REPLY_COMMAND] == h->asked->command;
    if (same && h->reply[BG_REPLY_SEQUENCE] == h->sequence) {
        return true;
    }
    h->ignored++;
    h->heard.late += same;
    h->heard.others += !same;
    return false;
}

/* Waits for the reply to the request that was sent; false where none came in time. */
static bool wait_reply(struct host *h, uint64_t until)
{
    for (;;) {
        while (h->in.at < h->in.lump_len) {
            size_t from = h->in.at;
            uint32_t refusal = next_line(&h->in);
            h->heard.bytes += h->in.at - from;
            if (h->in.line_len > 0 && take_line(h, refusal)) {
                return true;
            }
        }
        if (!read_port(h, until)) {
            return false;
        }
    }
}

/* Sends the request that stands in the packet and waits for its reply, from when the line has sent it, and as much
 * longer as the reply takes on the line. */
enum outcome exchange(struct host *h, unsigned silences)
{
    size_t bytes;

    h->requests++;
    bytes = send_request(h, silences > 0);
    if (bytes == 0) {
        return UNANSWERED;
    }
    bytes = h->asked == &echo_request ? bytes : BG_LINE;
    if (!wait_reply(h, h->line_free + line_ms(h->baud, bytes) + h->options.timeout_ms)) {
        return UNANSWERED;
    }
    h->heard = (struct heard){.bytes = 0};
    return h->reply[BG_REPLY_RC] == 0 ? ANSWERED : ANSWERED_RC;
}

/* Ends the program for an rc other than 0. */
void finish_rc(const struct host *h, const char *advice)
{
    finish(END_RC, "the controller answered the %s with rc %u (%s)%s", h->asked->name, h->reply[BG_REPLY_RC],
           rc_name(h->reply[BG_REPLY_RC]), advice);
}

/* Adds words to a text of so much room; what does not fit is left out. */
void add_words(char *text, size_t room, const char *format, ...)
{
    size_t len = strlen(text);
    va_list words;

    va_start(words, format);
    vsnprintf(text + len, room - len, format, words);
    va_end(words);
}

/* Ends the program where a request stays unanswered, with what came instead of an answer. */
void finish_unanswered(const struct host *h, unsigned tries, const char *advice)
{
    const struct heard *heard = &h->heard;
    unsigned long long ms = (unsigned long long)h->options.timeout_ms;
    char text[1024] = "";

    if (heard->bytes == 0) {
        finish(END_SILENCE, "the controller did not answer the %s: %u times silent for %llu ms%s", h->asked->name,
               tries, ms, advice);
    }
    if (heard->late > 0) {
        add_words(text, sizeof text,
                  "; %lu replies of other sequence numbers came, so answers come late: give --baud the line's speed, "
                  "or a longer --timeout",
                  heard->late);
    }
    if (heard->not_replies > 0) {
        add_words(text, sizeof text, "; it answered %lu times with what is not a reply (the first: refusal %u, %s)",
                  heard->not_replies, heard->first_refusal,
                  line_refusal_words(heard->first_refusal, heard->first_place, heard->first_len));
    }
    if (heard->others > 0) {
        add_words(text, sizeof text, "; %lu replies to what was not asked came", heard->others);
    }
    if (heard->lines > 0) {
        add_words(text, sizeof text, "; %lu lines came that are no frames", heard->lines);
    }
    if (text[0] == '\0') {
        add_words(text, sizeof text, "; %lu bytes came, and no line", heard->bytes);
    }
    finish(END_SILENCE, "no answer to the %s in %u tries of %llu ms%s%s", h->asked->name, tries, ms, text, advice);
}

/* Writes an echo of a text, an erase or a reset, as asked is, to the packet, with the next sequence number. */
void write_request(struct host *h, const char *text)
{
    uint32_t refusal;

    h->sequence = bg_next_sequence(h->sequence);
    if (h->asked == &erase_request) {
        refusal = bg_write_erase(h->sequence, h->packet, sizeof h->packet, &h->packet_len);
    } else if (h->asked == &reset_request) {
        refusal = bg_write_reset(h->sequence, h->packet, sizeof h->packet, &h->packet_len);
    } else {
        refusal = bg_write_echo(h->sequence, (const uint8_t *)text, strlen(text), h->packet, sizeof h->packet,
                                &h->packet_len);
    }
    if (refusal != 0) {
        finish_refused("the request", refusal);
    }
}

/* Asks for an echo, an erase or a reset, again on silence, until it is answered. */
void ask(struct host *h, const struct request *request)
{
    unsigned silences = 0;

    h->asked = request;
    h->shown = now_ms();
    for (;;) {
        write_request(h, h->options.echo);
        enum outcome outcome = exchange(h, silences);
        if (outcome == ANSWERED) {
            return;
        }
        if (outcome == ANSWERED_RC) {
            finish_rc(h, done_before(h));
        }
        if (silences >= h->options.retries) {
            finish_unanswered(h, silences + 1, done_before(h));
        }
        silences++;
        h->retries++;
    }
}

/* Takes the port for this process alone, or ends where another has it. */
static void take_port(struct host *h)
{
    for (unsigned i = 0; flock(h->port, LOCK_EX | LOCK_NB) != 0; i++) {
        if (errno != EWOULDBLOCK && errno != EINTR) {
            finish(END_PORT, "cannot take the port %s alone: %s", h->options.port, strerror(errno));
        }
        if (i + 1 >= TAKE_TRIES) {
            finish(END_PORT, "the port is in use: %s", h->options.port);
        }
        poll(NULL, 0, TAKE_MS);
    }
    h->taken = ioctl(h->port, TIOCEXCL) == 0;
}

/* Opens the port, for this process alone, raw and not blocking, and throws away what older requests were answered. */
void open_port(struct host *h)
{
    uint64_t until;

    h->port = open(h->options.port, O_RDWR | O_NOCTTY | O_NONBLOCK | O_CLOEXEC);
    if (h->port < 0 && errno == EBUSY) {
        finish(END_PORT, "the port is in use: %s", h->options.port);
    }
    if (h->port < 0) {
        finish(END_PORT, "cannot open the port %s: %s", h->options.port, strerror(errno));
    }
    if (tcgetattr(h->port, &h->found) != 0) {
        finish(END_PORT, "the port %s is no serial port: %s", h->options.port, strerror(errno));
    }
    take_port(h);
    h->raw = true;
    if (make_raw(h->port, h->options.baud, &h->found) != 0) {
        finish(END_PORT, "cannot set up the port %s: %s", h->options.port, strerror(errno));
    }
    h->baud = speed_of(h->port);
    tcflush(h->port, TCIFLUSH);
    until = now_ms() + SETTLE_MS + line_ms(h->baud, BG_LINE);
    while (read_port(h, until)) {
        h->in.at = h->in.lump_len;
    }
}
