/*
 * Uploads an image to a rack controller over a serial port: follows the offset that the controller answers, and asks at
 * the end whether the slot is this image's. All protocol work is done by the calls of belagunthi.h.
 */
#include <errno.h>
#include <fcntl.h>
#include <getopt.h>
#include <stdio.h>
#include <stdlib.h>
#include <string.h>
#include <sys/stat.h>
#include <unistd.h>

#include "host.h"
#include "sha256.h"

const char program[] = "upload";

/* The longest packet of a request whose size is not given, and the largest slot that there is. */
enum { REQUEST_MOST = 512, SLOT_MOST = 1048576 };

/* After so many silences in a row the tag is asked for; so often is an echo tried where uploads stay unanswered; the
 * largest chunk that is then advised. */
enum { SILENCES_TO_ASK = 3, ECHO_TRIES = 3, CHUNK_ADVISED = 64 };

/* The rcs that a request at offset 0 may meet: for an image larger than the slot, for a request that cannot be, and for
 * the open session's tag with another length. Older controllers answer all three with the second. */
enum { RC_ABOVE_SLOT = 2, RC_INVALID = 3, RC_OTHER_LENGTH = 6 };

/* Where an upload is: the next request's offset, whether it is the check at the end, the most bytes ever acknowledged,
 * silences in a row, and returns to offset 0 since the most grew. */
struct course {
    size_t at;
    bool checking;
    size_t best;
    unsigned silences;
    unsigned returns;
};

/* The most data bytes that an upload request at an offset takes in a packet of room bytes; 0 where none. */
static size_t most_data(const struct host *h, size_t room, size_t off)
{
    return bg_most_data(room, off, h->length, h->tag_len);
}

/* Writes the upload request at an offset, with as many bytes as asked for or as the packet takes, one for the check;
 * gives their number. */
static size_t write_chunk(struct host *h, size_t off, bool checking)
{
    size_t left = h->length - off;
    size_t len = h->options.chunk > 0 ? h->options.chunk : most_data(h, REQUEST_MOST, off);
    uint32_t refusal;

    len = checking ? 1 : len < left ? len : left;
    h->sequence = bg_next_sequence(h->sequence);
    refusal = bg_write_upload(h->sequence, h->image + off, len, off, h->length, h->tag, h->tag_len, h->packet,
                              sizeof h->packet, &h->packet_len);
    if (refusal != 0) {
        finish_refused("the upload request", refusal);
    }
    h->data_sent += checking ? 0 : len;
    return len;
}

/* Ends for a chunk that no packet can carry, with the largest that one can. */
static void check_chunk(struct host *h)
{
    size_t most = h->options.chunk > 0 ? most_data(h, BG_PACKET, 0) : 0;

    if (h->options.chunk > most && most < h->length) {
        finish(END_USAGE, "--chunk %llu: a request takes at most %zu data bytes", (unsigned long long)h->options.chunk,
               most);
    }
}

/* Ends the program where uploads stay unanswered; where the controller answers an echo, its packet buffer may be too
 * small, and the advice says so. */
static void __attribute__((noreturn)) finish_upload_unanswered(struct host *h, unsigned tries)
{
    size_t chunk = h->options.chunk > 0 ? h->options.chunk : REQUEST_MOST;
    uint32_t upload_len = h->packet_len;
    struct heard heard = h->heard;
    char advice[256] = "";

    h->asked = &echo_request;
    for (unsigned i = 0; i < ECHO_TRIES && !h->upload_answered && heard.late == 0 && advice[0] == '\0'; i++) {
        write_request(h, "");
        if (exchange(h, 1) != UNANSWERED) {
            size_t less = chunk / 2 < CHUNK_ADVISED ? chunk / 2 : CHUNK_ADVISED;
            add_words(advice, sizeof advice, "; it answers an echo, so perhaps its packet buffer is under %u bytes",
                      upload_len);
            add_words(advice, sizeof advice, ": try --chunk %zu", less > 0 ? less : 1);
        }
    }
    h->asked = &upload_request;
    h->heard = heard;
    finish_unanswered(h, tries, advice);
}

/* Counts one more silence in a row, and ends where the retries are used up; asks at offset 0, where there is a tag,
 * after some. */
static void after_silence(struct host *h, struct course *c)
{
    if (c->silences >= h->options.retries) {
        finish_upload_unanswered(h, c->silences + 1);
    }
    c->silences++;
    h->retries++;
    if (h->tag_len > 0 && c->at > 0 && c->silences % SILENCES_TO_ASK == 0 && c->returns < h->options.retries) {
        c->returns++;
        c->at = 0;
    }
}

/* Counts one more return to offset 0, and ends where there were as many as retries and no byte more was
 * acknowledged. */
static void count_return(struct host *h, struct course *c, size_t off, size_t len)
{
    if (c->returns >= h->options.retries && c->checking) {
        finish(END_ANSWER,
               "the controller acknowledged every byte, but at the check its slot was not this image's: %u of %zu, and "
               "the upload had returned to 0 %u times",
               h->reply[BG_REPLY_OFF], h->length, c->returns);
    }
    if (c->returns >= h->options.retries) {
        finish(END_ANSWER,
               "the controller's offset makes no sense: %u after %zu bytes at %zu, and the upload had returned to 0 %u "
               "times",
               h->reply[BG_REPLY_OFF], len, off, c->returns);
    }
    c->returns++;
    h->retries++;
}

/* Ends where the offset in a reply is missing, or none that an upload of this image can have. */
static void check_offset(struct host *h, size_t off, size_t len)
{
    uint32_t answered = h->reply[BG_REPLY_OFF];

    if (h->reply[BG_REPLY_HAS_OFF] == 0) {
        finish(END_ANSWER, "the controller answered the upload at %zu without an offset", off);
    }
    if (answered > h->length || (off == 0 && (answered == 0 || (h->tag_len == 0 && answered != len)))) {
        finish(END_ANSWER, "the controller's offset makes no sense: %u after %zu bytes at %zu of %zu", answered, len,
               off, h->length);
    }
}

/* Goes on at the offset that the controller answered; at the image's end the check is next, where there is a tag. */
static void go_on(struct host *h, struct course *c)
{
    size_t answered = h->reply[BG_REPLY_OFF];

    h->acknowledged = answered;
    if (c->checking) {
        h->checked = answered == h->length;
        if (!h->checked) {
            count_return(h, c, 0, 1);
        }
        c->checking = false;
    } else if (answered == h->length && h->tag_len > 0) {
        c->checking = true;
        draw_sequence(h);
    }
    c->at = c->checking ? 0 : answered;
    if (answered > c->best) {
        c->best = answered;
        c->returns = 0;
    }
}

/* What an rc at offset 0 says of the image, and what helps; nothing where that is not known. */
static const char *advice_at_start(uint32_t rc)
{
    switch (rc) {
    case RC_ABOVE_SLOT:
        return ": the image is larger than the controller's slot";
    case RC_INVALID:
        return ": is the image larger than the controller's slot?";
    case RC_OTHER_LENGTH:
        return ": another session with the same tag and another length is open; --erase ends it, and so does a reset";
    default:
        return "";
    }
}

/* Follows the answer to a request at an offset with so many bytes. */
static void follow(struct host *h, struct course *c, size_t len, enum outcome outcome)
{
    size_t off = c->at;

    c->silences = 0;
    if (outcome == ANSWERED_RC &&
        (off == 0 || h->reply[BG_REPLY_RC] != RC_INVALID || c->returns >= h->options.retries)) {
        finish_rc(h, off == 0 ? advice_at_start(h->reply[BG_REPLY_RC]) : "");
    }
    if (outcome == ANSWERED) {
        check_offset(h, off, len);
        h->resumed_at = !h->upload_answered && h->reply[BG_REPLY_OFF] != len ? h->reply[BG_REPLY_OFF] : h->resumed_at;
        h->upload_answered = true;
    }
    if (off > 0 && (outcome == ANSWERED_RC || h->reply[BG_REPLY_OFF] != off + len)) {
        count_return(h, c, off, len);
        c->at = 0;
        return;
    }
    go_on(h, c);
}

/*
 * Uploads the image, following the offsets that the controller answers, until it has acknowledged every byte and, where
 * there is a tag, has said at offset 0 that its slot is this image's and complete.
 *
 * An answer at an offset above 0 that is not the end of the chunk, or is rc 3, is not of the session that this upload
 * began: the controller lost it, or another host began one. The upload then asks again at offset 0, where the
 * controller says by the tag how far this very image is, or begins anew. The same is asked where silence lasts long.
 * Where that brings no byte more than was acknowledged before, as many times in a row as there are retries, the upload
 * ends.
 */
static void upload_image(struct host *h)
{
    struct course c = {.at = 0};

    h->asked = &upload_request;
    h->began = now_ms();
    h->shown = h->began;
    while (c.at < h->length) {
        size_t len = write_chunk(h, c.at, c.checking);
        enum outcome outcome = exchange(h, c.silences);
        if (outcome == UNANSWERED) {
            after_silence(h, &c);
        } else {
            follow(h, &c, len, outcome);
        }
        show_progress(h);
    }
}

/* Reads the image's file, which must have 1 byte to as many as the slot. */
static void read_image(struct host *h)
{
    const char *path = h->options.file;
    int file = open(path, O_RDONLY | O_NONBLOCK | O_CLOEXEC);
    struct stat state;

    if (file < 0 || fstat(file, &state) != 0) {
        finish(END_FILE, "cannot open the file %s: %s", path, strerror(errno));
    }
    if (!S_ISREG(state.st_mode)) {
        finish(END_FILE, "%s is not a plain file", path);
    }
    if (state.st_size == 0) {
        finish(END_FILE, "the file %s is empty", path);
    }
    if ((uint64_t)state.st_size > h->options.slot_size) {
        finish(END_FILE, "the file %s has %lld bytes, more than the slot's %llu", path, (long long)state.st_size,
               (unsigned long long)h->options.slot_size);
    }
    h->image = malloc((size_t)state.st_size);
    if (h->image == NULL) {
        finish(END_FILE, "no memory for the file %s", path);
    }
    while (h->length < (size_t)state.st_size) {
        ssize_t come = read(file, h->image + h->length, (size_t)state.st_size - h->length);
        if (come < 0 && errno == EINTR) {
            continue;
        }
        if (come <= 0) {
            finish(END_FILE, "cannot read the file %s: %s", path,
                   come == 0 ? "it became shorter" : strerror(errno));
        }
        h->length += (size_t)come;
    }
    close(file);
    if (!h->options.no_tag) {
        sha256(h->image, h->length, h->tag);
        h->tag_len = sizeof h->tag;
    }
}

/* Prints the help. */
static void help(void)
{
    printf("Usage: upload --port PATH [OPTION...] FILE\n"
           "       upload --port PATH [OPTION...] [--echo TEXT] [--erase] [--reset]\n"
           "Uploads an image to the controller on a serial port. No other upload can use\n"
           "the port meanwhile, and its settings are put back at the end. An upload that\n"
           "was broken off goes on where it was. At the end the controller is asked\n"
           "whether its slot is this image's.\n"
           "\n"
           "Options:\n"
           "  --port PATH      the serial port\n"
           "  --baud N         the line's speed in bits a second (default: as the port is\n"
           "                   set)\n"
           "  --chunk BYTES    data bytes a request (default: as many as a packet of 512\n"
           "                   bytes takes)\n"
           "  --timeout MS     how long a reply is waited for when the line has sent the\n"
           "                   request, 1 to 600000 (default 500)\n"
           "  --retries N      how often in a row a request is sent again (default 10)\n"
           "  --slot-size N    refuse a file larger than that (default 1048576, the\n"
           "                   largest slot)\n"
           "  --no-tag         without the image's SHA-256: an upload broken off begins\n"
           "                   anew, and the slot cannot be checked at the end\n"
           "  --echo TEXT      ask the controller to echo the text; before all else\n"
           "  --erase          erase the slot; before the upload\n"
           "  --reset          ask for a reset; after the upload\n"
           "  --quiet          no progress on standard error\n"
           "  -h, --help       this text\n"
           "  --version        the version\n"
           "\n"
           "Exit codes:\n"
           "  0  done, every byte acknowledged\n"
           "  2  bad usage\n"
           "  3  the file is missing, unreadable, empty or larger than the slot\n"
           "  4  port trouble; also a port in use\n"
           "  5  the controller did not answer in time\n"
           "  6  the controller answered an rc other than 0\n"
           "  7  a call refused\n"
           "  8  the controller's offset, or its echo, makes no sense\n"
           "A signal ends it as signals do: 130 in a shell after an interrupt.\n");
}

/* Reads the command line. */
static void read_options(struct options *o, int argc, char **argv)
{
    static const struct option known[] = {
        {"port", required_argument, NULL, 'p'},
        {"baud", required_argument, NULL, 'b'},
        {"chunk", required_argument, NULL, 'c'},
        {"timeout", required_argument, NULL, 't'},
        {"retries", required_argument, NULL, 'r'},
        {"slot-size", required_argument, NULL, 's'},
        {"no-tag", no_argument, NULL, 'n'},
        {"erase", no_argument, NULL, 'e'},
        {"echo", required_argument, NULL, 'E'},
        {"reset", no_argument, NULL, 'R'},
        {"quiet", no_argument, NULL, 'q'},
        {"help", no_argument, NULL, 'h'},
        {"version", no_argument, NULL, 'v'},
        {NULL, 0, NULL, 0},
    };
    int which = 0;
    int found;

    *o = (struct options){.timeout_ms = 500, .retries = 10, .slot_size = SLOT_MOST};
    opterr = 0;
    while ((found = getopt_long(argc, argv, "h", known, &which)) != -1) {
        const char *name = known[which].name;
        switch (found) {
        case 'p':
            o->port = optarg;
            break;
        case 'b':
            o->baud = speed_given(name, optarg);
            break;
        case 'c':
            o->chunk = number_of(name, optarg, 1, BG_PACKET);
            break;
        case 't':
            o->timeout_ms = number_of(name, optarg, 1, 600000);
            break;
        case 'r':
            o->retries = number_of(name, optarg, 0, 1000000);
            break;
        case 's':
            o->slot_size = number_of(name, optarg, 1, SLOT_MOST);
            break;
        case 'n':
            o->no_tag = true;
            break;
        case 'e':
            o->erase = true;
            break;
        case 'E':
            o->echo = optarg;
            break;
        case 'R':
            o->reset = true;
            break;
        case 'q':
            o->quiet = true;
            break;
        case 'h':
            help();
            end_printed(END_DONE);
        case 'v':
            end_version();
        default:
            end_usage("unknown or incomplete option '%s'; see --help", argv[optind - 1]);
        }
    }
    if (o->port == NULL) {
        end_usage("no --port PATH; see --help");
    }
    if (optind + 1 < argc) {
        end_usage("more than one FILE; see --help");
    }
    o->file = argv[optind];
    if (o->file == NULL && o->echo == NULL && !o->erase && !o->reset) {
        end_usage("no FILE, and neither --echo, --erase nor --reset; see --help");
    }
}

/* Asks for the echo and compares the text that comes back; gives it as it can be shown. */
static const char *ask_echo(struct host *h)
{
    static char shown[4 * BG_PACKET + 1];
    size_t len = strlen(h->options.echo);

    ask(h, &echo_request);
    escape(shown, h->answer + h->reply[BG_REPLY_TEXT_START], h->reply[BG_REPLY_TEXT_LENGTH]);
    if (h->reply[BG_REPLY_HAS_TEXT] == 0) {
        finish(END_ANSWER, "the controller answered the echo without a text");
    }
    if (h->reply[BG_REPLY_TEXT_LENGTH] != len ||
        memcmp(h->answer + h->reply[BG_REPLY_TEXT_START], h->options.echo, len) != 0) {
        finish(END_ANSWER, "the controller echoed another text: '%s'", shown);
    }
    return shown;
}

/* Ends the program after all was done, with what was done. */
static void __attribute__((noreturn)) finish_done(const struct host *h, const char *echoed)
{
    const char *reset = h->options.reset ? " and reset asked" : "";

    if (h->options.file != NULL) {
        finish(END_DONE,
               "done%s, %zu of %zu bytes acknowledged%s: %lu retries, %llu data bytes sent, resumed at %zu "
               "(%lu requests, %lu other replies, %lu other lines)",
               reset, h->length, h->length,
               h->checked ? ", and the slot is this image's by its tag"
                          : "; without a tag it could not be checked that the slot is this image's",
               h->retries, h->data_sent, h->resumed_at, h->requests, h->ignored, h->bad_lines);
    }
    if (h->options.erase) {
        finish(END_DONE, "the slot is erased%s (%lu retries)", reset, h->retries);
    }
    if (h->options.reset) {
        finish(END_DONE, "reset asked (%lu retries)", h->retries);
    }
    finish(END_DONE, "the controller echoed '%s' (%lu retries)", echoed, h->retries);
}

/* Does what the command line asks for. */
int main(int argc, char **argv)
{
    struct host *h = &host;
    const char *echoed = "";

    keep_standard();
    h->port = -1;
    read_options(&h->options, argc, argv);
    h->terminal = isatty(STDERR_FILENO) == 1;
    if (h->options.file != NULL) {
        read_image(h);
        check_chunk(h);
    }
    catch_stops();
    draw_sequence(h);
    open_port(h);
    if (h->options.echo != NULL) {
        echoed = ask_echo(h);
    }
    if (h->options.echo != NULL && (h->options.file != NULL || h->options.erase || h->options.reset)) {
        printf("%s: the controller echoed '%s'\n", program, echoed);
    }
    if (h->options.erase) {
        ask(h, &erase_request);
    }
    if (h->options.file != NULL) {
        upload_image(h);
    }
    if (h->options.reset) {
        ask(h, &reset_request);
    }
    finish_done(h, echoed);
}
