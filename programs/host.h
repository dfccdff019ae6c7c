/* A host on a serial port: takes the port for itself, sends a request and waits for its reply, shows that something
 * goes on, and ends the program with one true line. All protocol work is done by the calls of belagunthi.h. */
#ifndef HOST_H
#define HOST_H

#include <termios.h>

#include "belagunthi.h"
#include "incoming.h"
#include "line.h"

/* The exit codes besides those of line.h. */
enum { END_SILENCE = 5, END_RC = 6, END_ANSWER = 8 };

/* What can be asked of a controller: its group and command, and its name in messages. */
struct request {
    uint32_t group;
    uint32_t command;
    const char *name;
};
extern const struct request echo_request;
extern const struct request reset_request;
extern const struct request erase_request;
extern const struct request upload_request;

/* What became of a request. */
enum outcome { UNANSWERED, ANSWERED_RC, ANSWERED };

/* What the command line says. */
struct options {
    const char *port;
    const char *file;
    const char *echo;
    uint64_t baud;
    uint64_t chunk;
    uint64_t timeout_ms;
    uint64_t retries;
    uint64_t slot_size;
    bool no_tag;
    bool erase;
    bool reset;
    bool quiet;
};

/* What came since the last answer: bytes, lines that are no frames, frames and packets that are no reply and the first
 * one's refusal with the place of bad text and the line's length, replies of other sequence numbers, and other
 * replies. */
struct heard {
    unsigned long bytes;
    unsigned long lines;
    unsigned long not_replies;
    uint32_t first_refusal;
    uint32_t first_place;
    size_t first_len;
    unsigned long late;
    unsigned long others;
};

/* The host: its port and the line's speed, the records of its calls, the image and what is known of its upload, and
 * counts. */
struct host {
    struct options options;
    int port;
    bool taken;
    bool raw;
    struct termios found;
    uint64_t baud;
    uint64_t line_free;
    uint8_t sequence;
    struct incoming in;
    uint32_t reader[BG_READER];
    uint8_t packet[BG_PACKET];
    uint32_t packet_len;
    uint8_t answer[BG_PACKET];
    uint32_t reply[BG_REPLY];
    uint8_t *image;
    size_t length;
    uint8_t tag[BG_TAG];
    size_t tag_len;
    const struct request *asked;
    struct heard heard;
    bool upload_answered;
    bool checked;
    unsigned long requests;
    unsigned long retries;
    unsigned long ignored;
    unsigned long bad_lines;
    unsigned long long data_sent;
    size_t acknowledged;
    size_t resumed_at;
    uint64_t began;
    uint64_t shown;
    unsigned tenths;
    bool terminal;
    bool row_shown;
};

extern struct host host;

/* Ends the program with one line, on standard output where all is done, else on standard error, and gives the port back
 * as it was found. */
void finish(int code, const char *format, ...) __attribute__((format(printf, 2, 3), noreturn));

/* Ends the program for the refusal of a call. */
void finish_refused(const char *what, uint32_t refusal) __attribute__((noreturn));

/* Ends the program for an rc other than 0. */
void finish_rc(const struct host *h, const char *advice) __attribute__((noreturn));

/* Ends the program where a request stays unanswered, with what came instead of an answer. */
void finish_unanswered(const struct host *h, unsigned tries, const char *advice) __attribute__((noreturn));

/* Adds words to a text of so much room; what does not fit is left out. */
void add_words(char *text, size_t room, const char *format, ...) __attribute__((format(printf, 3, 4)));

/* Shows that something goes on, unless nothing is to be shown. */
void show_progress(struct host *h);

/* Opens the port, for this process alone, raw and not blocking, and throws away what older requests were answered. */
void open_port(struct host *h);

/* Draws a sequence number by chance, so that no late reply to another run of this program is likely to have it. */
void draw_sequence(struct host *h);

/* Writes an echo of a text, an erase or a reset, as asked is, to the packet, with the next sequence number. */
void write_request(struct host *h, const char *text);

/* Sends the request that stands in the packet and waits for its reply, from when the line has sent it, and as much
 * longer as the reply takes on the line. */
enum outcome exchange(struct host *h, unsigned silences);

/* Asks for an echo, an erase or a reset, again on silence, until it is answered. */
void ask(struct host *h, const struct request *request);

#endif
