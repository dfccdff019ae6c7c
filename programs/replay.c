/*
 * Replays a recording of the line on a fresh controller, and prints what the controller answered to each line. All
 * protocol work is done by the calls of belagunthi.h.
 */
#include <errno.h>
#include <getopt.h>
#include <signal.h>
#include <stdio.h>
#include <stdlib.h>
#include <string.h>
#include <unistd.h>

#include "belagunthi.h"
#include "line.h"

const char program[] = "replay";

/* The longest recording; its trailer and its shortest record; and the longest line of a transcript. */
enum { RECORDING_MOST = 49152, TRAILER = 8, RECORD_LEAST = 3, TRANSCRIPT_LINE = 43 };

/* The most records of a recording, and the longest transcript: a line for each of them, and the last one. */
enum { RECORDS_MOST = (RECORDING_MOST - TRAILER) / RECORD_LEAST };
enum { TRANSCRIPT_MOST = (RECORDS_MOST + 1) * TRANSCRIPT_LINE };

/* The exit code for what is no recording, or too long a one. */
enum { END_BAD = 1 };

/* The recording, with room for the byte by which it is too long. */
static uint8_t recording[RECORDING_MOST + 1];
static size_t recording_len;

/* The controller, and what it answered. */
static struct {
    uint8_t memory[BG_BENCH_MEMORY];
    uint32_t session[BG_SESSION];
    uint8_t tag[BG_TAG];
    uint32_t reader[BG_READER];
    uint8_t packet[BG_BENCH_BUFFER];
    uint8_t reply[BG_BENCH_BUFFER];
    uint32_t answers[BG_ANSWER * RECORDS_MOST];
    size_t count;
} bench;

static uint8_t transcript[TRANSCRIPT_MOST];

/* Reads standard input to its end, or as far as it can be seen that it is too long. */
static void read_recording(void)
{
    while (recording_len < sizeof recording) {
        ssize_t come = read(STDIN_FILENO, recording + recording_len, sizeof recording - recording_len);
        if (come < 0 && errno == EINTR) {
            continue;
        }
        if (come < 0) {
            fprintf(stderr, "replay: standard input could not be read: %s\n", strerror(errno));
            exit(END_FILE);
        }
        if (come == 0) {
            return;
        }
        recording_len += (size_t)come;
    }
}

/* Replays the recording; false where it is none, or too long a one. */
static bool replay(void)
{
    return recording_len <= RECORDING_MOST &&
           bg_replay(recording, recording_len, bench.memory, bench.session, bench.tag, bench.reader, bench.packet,
                     bench.reply, bench.answers, sizeof bench.answers / sizeof bench.answers[0], &bench.count) == 0;
}

/* Prints the transcript of the replay. */
static void print_transcript(void)
{
    size_t len = 0;
    uint32_t refusal = bg_write_transcript(bench.answers, sizeof bench.answers / sizeof bench.answers[0], bench.count,
                                           bench.session, transcript, sizeof transcript, &len);

    if (refusal != 0) {
        fprintf(stderr, "replay: the transcript was refused: %u (%s)\n", refusal, refusal_words(refusal));
        exit(END_REFUSED);
    }
    fwrite(transcript, 1, len, stdout);
}

/* Prints the help. */
static void help(void)
{
    printf("Usage: replay <RECORDING\n"
           "Replays a recording of the line on a fresh controller. It takes at most 49152\n"
           "bytes. The controller's memory has 8192 bytes, all 255: slot 0 is the first\n"
           "half, the slot of uploads the second; its packet and reply buffers have 1024\n"
           "bytes each. For each line to the controller one line is printed: its number,\n"
           "from 0; the number of the refusal, or 0; and the rc of the reply, or '-' where\n"
           "there is none. The last line is 'end' and how many bytes the open upload has,\n"
           "or 'end none'. For a longer file, or one that is no recording, 'bad recording'\n"
           "is printed alone.\n"
           "\n"
           "Options:\n"
           "  -h, --help  this text\n"
           "  --version   the version\n"
           "\n"
           "Exit codes:\n"
           "  0  the recording was replayed\n"
           "  1  a bad recording\n"
           "  2  bad usage\n"
           "  3  standard input or output failed\n"
           "  7  a call refused\n");
}

/* Reads the command line. */
static void read_options(int argc, char **argv)
{
    static const struct option known[] = {
        {"help", no_argument, NULL, 'h'},
        {"version", no_argument, NULL, 'v'},
        {NULL, 0, NULL, 0},
    };
    int found;

    opterr = 0;
    while ((found = getopt_long(argc, argv, "h", known, NULL)) != -1) {
        switch (found) {
        case 'h':
            help();
            end_printed(END_DONE);
        case 'v':
            end_version();
        default:
            end_usage("unknown option '%s'; see --help", argv[optind - 1]);
        }
    }
    if (optind < argc) {
        end_usage("unknown word '%s'; see --help", argv[optind]);
    }
}

/* Replays what stands on standard input, and prints the transcript or that it is no recording. */
int main(int argc, char **argv)
{
    signal(SIGPIPE, SIG_IGN);
    read_options(argc, argv);
    read_recording();
    if (!replay()) {
        printf("bad recording\n");
        end_printed(END_BAD);
    }
    print_transcript();
    end_printed(END_DONE);
}
