/* Measures how much stack each call of the archive uses: the call runs on a painted stack of its own, and the paint that is gone is counted. */
#define _GNU_SOURCE
#include <stdio.h>
#include <stdlib.h>
#include <string.h>
#include <ucontext.h>

#include "belagunthi.h"

enum { STACK = 65536, PAINT = 0xA5 };

static unsigned char stack[STACK];
static ucontext_t here, there;
static void (*job)(void);

static const size_t layout[BG_LAYOUT] = {4096, 4096, 0, 4096};

/* A state read, and the head of an image and of its TLV area with a SHA-256 entry, whose bytes follow. */
static const uint8_t state_read[8] = {0, 0, 0, 0, 0, 1};
static const uint8_t image[40] = {0x3D, 0xB8, 0xF3, 0x96, [8] = 32, [20] = 255, 255, 255, 255, [32] = 0x07, 0x69, 40, 0, 0x10, 0, 32};

static uint8_t memory[8192], packet[1024], reply[1024], line[128], body[900], out[1024], tag[32];
static uint8_t held[BG_HELD], lump[BG_LUMP];
static uint32_t collector[BG_COLLECTOR], reader[4], session[4], numbers[12], size, place;
static size_t lump_len, line_len, packet_len, reply_len;
static uint8_t recording[16384];
static uint32_t answers[BG_ANSWER * 200];
static size_t recording_len, recorded, places[3], text_len;

/* Texts that are not well formed, each of another kind: only too short; a character of no value, in each place of four; '=' too early; a character
 * behind '='; bits that are not zero; more behind a padded group; a line end inside. */
static const char *const bad_texts[] = {
    "", "A", "AA", "AAA", "AA=", "-AAA", "A-AA", "AA-A", "AAA-", "=AAA", "A=AA", "====", "A===", "AA=A", "AA=\n", "AB==", "AB=A", "AAB=",
    "AA==A", "AA==AAAA", "AAA=A", "AAA==", "A\nAA", "AA\rA",
};
enum { BAD_TEXTS = sizeof bad_texts / sizeof bad_texts[0], GROUP = 4, TEXT = BG_LINE - 3 };

/* Runs the job on the painted stack. */
static void enter(void) {
    job();
}

/* Does nothing: what entering and leaving the painted stack costs by itself. */
static void nothing(void) {
}

/* The calls, each on an input that it answers: a lump that is held, a first frame, a last frame, an upload that starts a session, and so on. */
static void collect(void) {
    bg_collect(collector, held, lump, lump_len, 0, line, numbers);
}

static void take_line(void) {
    bg_take_line(reader, line, line_len, packet, sizeof packet, &size, &place);
}

static void send_frame(void) {
    bg_send_frame(body, sizeof body, 9, out, sizeof out, numbers);
}

static void configure(void) {
    bg_configure(layout, sizeof memory, session, tag);
}

static void handle(void) {
    bg_handle(layout, memory, sizeof memory, session, tag, packet, packet_len, reply, sizeof reply, numbers);
}

static void handle_list(void) {
    bg_handle(layout, memory, sizeof memory, session, tag, state_read, sizeof state_read, reply, sizeof reply, numbers);
}

static void write_echo(void) {
    bg_write_echo(1, body, sizeof body, out, sizeof out, &size);
}

static void write_upload(void) {
    bg_write_upload(1, body, 500, 0, 900, tag, 32, out, sizeof out, &size);
}

static void write_reset(void) {
    bg_write_reset(1, out, sizeof out, &size);
}

static void write_erase(void) {
    bg_write_erase(1, out, sizeof out, &size);
}

static void next_sequence(void) {
    numbers[0] = bg_next_sequence(1);
}

static void most_data(void) {
    numbers[0] = bg_most_data(sizeof out, 0, 900, 32);
}

static void read_reply(void) {
    bg_read_reply(reply, reply_len, numbers);
}

static void first_record(void) {
    bg_first_record(recording, recording_len, places);
}

static void next_record(void) {
    bg_next_record(recording, recording_len, 0, places);
}

static void replay(void) {
    bg_replay(recording, recording_len, memory, session, tag, reader, packet, reply, answers, sizeof answers / sizeof answers[0], &text_len);
}

static void write_transcript(void) {
    bg_write_transcript(answers, sizeof answers / sizeof answers[0], 100, session, out, sizeof out, &text_len);
}

/* Makes a line with a bad text behind so many good groups, or as many as there is room for; the empty text is bad behind none only. */
static void make_bad_line(const char *text, size_t groups) {
    size_t len = strlen(text);
    if (len == 0) {
        groups = 0;
    } else if (groups > (TEXT - len) / GROUP) {
        groups = (TEXT - len) / GROUP;
    }
    line[0] = 6;
    line[1] = 9;
    memset(line + 2, 'A', GROUP * groups);
    memcpy(line + 2 + GROUP * groups, text, len);
    line_len = 2 + GROUP * groups + len;
    line[line_len++] = '\n';
}

/* Adds the line that stands in the line array to the recording. */
static void record_line(enum bg_record_kind kind) {
    uint8_t *to = recording + recording_len;
    to[0] = (uint8_t)kind;
    to[1] = 0;
    to[2] = (uint8_t)line_len;
    memcpy(to + 3, line, line_len);
    recording_len += 3 + line_len;
    recorded++;
}

/* Adds the lines of a packet to the recording. */
static void record_packet(const uint8_t *bytes, size_t len) {
    uint32_t sent[2] = {0, 1};
    for (uint32_t k = 0; k < sent[1]; k++) {
        if (bg_send_frame(bytes, len, k, line, sizeof line, sent) != 0) {
            exit(2);
        }
        line_len = sent[0];
        record_line(BG_TO_CONTROLLER);
    }
}

/* Makes a recording of an upload of an image, an echo, a reset, a state read, and lines with every bad text. */
static void make_recording(void) {
    uint8_t uploaded[72] = {0};
    uint8_t request[1024];
    memcpy(uploaded, image, sizeof image);
    if (bg_write_upload(1, uploaded, 72, 0, 72, tag, 32, request, sizeof request, &size) != 0) {
        exit(2);
    }
    record_packet(request, size);
    record_packet(state_read, sizeof state_read);
    if (bg_write_echo(1, body, 900, request, sizeof request, &size) != 0) {
        exit(2);
    }
    record_packet(request, size);
    if (bg_write_reset(1, request, sizeof request, &size) != 0) {
        exit(2);
    }
    record_packet(request, size);
    line_len = 0;
    record_line(BG_FROM_CONTROLLER);
    for (size_t i = 0; i < BAD_TEXTS; i++) {
        make_bad_line(bad_texts[i], TEXT);
        record_line(BG_TO_CONTROLLER);
    }
    for (int i = 0; i < 4; i++) {
        recording[recording_len + i] = (uint8_t)(recording_len >> (24 - 8 * i));
        recording[recording_len + 4 + i] = (uint8_t)(recorded >> (24 - 8 * i));
    }
    recording_len += 8;
}

/* How many bytes of stack a job uses, beyond what is there without it. */
static size_t used(void (*what)(void)) {
    size_t i = 0;
    memset(stack, PAINT, sizeof stack);
    getcontext(&there);
    there.uc_stack.ss_sp = stack;
    there.uc_stack.ss_size = sizeof stack;
    there.uc_link = &here;
    job = what;
    makecontext(&there, enter, 0);
    swapcontext(&here, &there);
    while (i < sizeof stack && stack[i] == PAINT) {
        i++;
    }
    return sizeof stack - i;
}

/* Prints what a call took, and says whether it is within its limit. */
static int kept(const char *name, size_t n, size_t limit) {
    printf("stack: %-22s %5zu bytes\n", name, n);
    return n <= limit;
}

/* Measures one call, prints it, and says whether it is within its limit. */
static int within(const char *name, void (*what)(void), size_t base) {
    size_t n = used(what);
    return kept(name, n > base ? n - base : 0, what == replay ? BG_BENCH_STACK : BG_STACK);
}

/* Measures bg_take_line over lines with every bad text, as their first group, behind one group and at the end of a full line, for an idle and an
 * open record; prints the most that one took, and says whether it is within its limit. */
static int within_bad_text(size_t base) {
    static const size_t groups[] = {0, 1, TEXT};
    size_t most = 0;
    for (size_t i = 0; i < 2 * 3 * BAD_TEXTS; i++) {
        size_t n;
        make_bad_line(bad_texts[i / 6], groups[i / 2 % 3]);
        reader[0] = i % 2;
        reader[1] = 1000;
        reader[2] = 91;
        reader[3] = 0;
        place = 0;
        n = used(take_line);
        most = n > most ? n : most;
        if (reader[0] != 0 || place < 2 || place >= line_len) {
            exit(2);
        }
    }
    return kept("bg_take_line, bad text", most > base ? most - base : 0, BG_STACK);
}

int main(void) {
    size_t base = used(nothing);
    int fine = 1;
    memset(body, 7, sizeof body);
    memset(tag, 9, sizeof tag);
    bg_configure(layout, sizeof memory, session, tag);
    memset(tag, 9, sizeof tag);
    if (bg_send_frame(body, sizeof body, 0, line, sizeof line, numbers) != 0) {
        return 2;
    }
    line_len = numbers[0];
    fine &= within("bg_take_line", take_line, base);
    for (uint32_t k = 1; bg_send_frame(body, sizeof body, k, line, sizeof line, numbers) == 0; k++) {
        line_len = numbers[0];
        fine &= k + 1 < numbers[1] ? (take_line(), 1) : within("bg_take_line, last", take_line, base);
    }
    if (size != sizeof body) {
        return 2;
    }
    fine &= within_bad_text(base);
    /* Behind calls that use memcpy: finding it for the first time takes stack of its own. */
    memset(lump, 7, sizeof lump);
    lump_len = BG_HELD;
    fine &= within("bg_collect, held", collect, base);
    lump[0] = '\n';
    fine &= within("bg_collect, line", collect, base);
    if (numbers[0] != BG_LINE) {
        return 2;
    }
    lump[0] = 7;
    lump_len = BG_LUMP;
    fine &= within("bg_collect, skips", collect, base);
    if (collector[BG_COLLECTOR_SKIPPING] != 1) {
        return 2;
    }
    fine &= within("bg_send_frame", send_frame, base);
    if (bg_write_upload(1, body, 500, 0, 900, tag, 32, packet, sizeof packet, &size) != 0) {
        return 2;
    }
    packet_len = size;
    memset(tag, 0, sizeof tag);
    fine &= within("bg_handle", handle, base);
    reply_len = numbers[0];
    if (session[0] != 1 || bg_read_reply(reply, reply_len, numbers) != 0 || numbers[8] != 500) {
        return 2;
    }
    fine &= within("bg_read_reply", read_reply, base);
    memcpy(memory, image, sizeof image);
    memcpy(memory + 4096, image, sizeof image);
    fine &= within("bg_handle, list", handle_list, base);
    if (numbers[0] != 153) {
        return 2;
    }
    fine &= within("bg_configure", configure, base);
    fine &= within("bg_write_echo", write_echo, base);
    fine &= within("bg_write_upload", write_upload, base);
    fine &= within("bg_write_reset", write_reset, base);
    fine &= within("bg_write_erase", write_erase, base);
    fine &= within("bg_most_data", most_data, base);
    fine &= within("bg_next_sequence", next_sequence, base);
    make_recording();
    fine &= within("bg_first_record", first_record, base);
    fine &= within("bg_next_record", next_record, base);
    if (places[0] != BG_TO_CONTROLLER) {
        return 2;
    }
    fine &= within("bg_replay", replay, base);
    if (text_len + 1 != recorded || answers[BG_ANSWER * (text_len - 1)] != BG_BAD_TEXT || answers[BG_ANSWER * text_len - 1] != line_len - 3) {
        return 2;
    }
    fine &= within("bg_write_transcript", write_transcript, base);
    if (text_len < 100) {
        return 2;
    }
    printf("stack: the limits are %d bytes, of bg_replay %d: %s\n", BG_STACK, BG_BENCH_STACK, fine ? "kept" : "BROKEN");
    return fine ? 0 : 1;
}
