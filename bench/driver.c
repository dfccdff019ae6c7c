/*
 * Measures the proved archive or the plain C calls:
 *
 *   driver archive|plain PATH KIB ROUNDS    prints a digest of all that the path produced, the bytes and the calls of one round, the bytes
 *                                           of the packets that went over the line, and the nanoseconds of the best round
 *   driver archive|plain search LENGTH      reads families COMMAND-PAIR, one to a line, handles one request of each, of at most LENGTH
 *                                           bytes, and prints the family and the request's bytes
 *
 * PATH is one of the table at the end, or a family: fill-COMMAND-PAIR, requests of the longest length with one pair, given in hexadecimal,
 * again and again. bench/rust/src/main.rs has the same paths, sizes and buffers; its digests have to be the same.
 */
#define _POSIX_C_SOURCE 200809L
#include "../include/belagunthi.h"
#include "plain.h"

#include <stdbool.h>
#include <stdio.h>
#include <stdlib.h>
#include <string.h>
#include <time.h>

enum { STRIDE = 128, PACKET = 1024, BODY = 512, LONGEST = 65533, BEFORE_LAST = 65000 };
enum { DATA = 480, CHUNK = 512, TEXT = 256, PAIRS = 24, MAPS = 2000, ERASES = 4 };
enum { RECORDING = 49152, RECORDS = RECORDING / 3, TRAILER = 8, BENCH_SLOT = BG_BENCH_MEMORY / 2 };

/* The calls of one program. */
struct port {
    __typeof__(bg_collect) *collect;
    __typeof__(bg_take_line) *take_line;
    __typeof__(bg_send_frame) *send_frame;
    __typeof__(bg_configure) *configure;
    __typeof__(bg_handle) *handle;
    __typeof__(bg_write_echo) *write_echo;
    __typeof__(bg_write_upload) *write_upload;
    __typeof__(bg_read_reply) *read_reply;
    __typeof__(bg_next_sequence) *next_sequence;
    __typeof__(bg_replay) *replay;
    __typeof__(bg_write_transcript) *write_transcript;
};

static const struct port archive = {
    bg_collect, bg_take_line, bg_send_frame, bg_configure, bg_handle, bg_write_echo, bg_write_upload, bg_read_reply, bg_next_sequence,
    bg_replay, bg_write_transcript,
};
static const struct port plain = {
    plain_collect, plain_take_line, plain_send_frame, plain_configure, plain_handle, plain_write_echo, plain_write_upload, plain_read_reply,
    plain_next_sequence, plain_replay, plain_write_transcript,
};
static const struct port *port;

/* What a path produced: its digest, and for one round the bytes and the calls. */
struct result {
    uint64_t digest, bytes, calls;
};

static const uint64_t no_bytes = 14695981039346656037u;

static size_t image_len, layout[BG_LAYOUT], body_size, leave_last, lump_size, line_count, step_count, out_len, request_count, reply_count;
static size_t request_stride = PACKET;
static uint8_t *image, *lines, *out, *memory, *requests, *replies;
static uint32_t *line_lens, *line_places, *request_lens, *reply_lens, *numbers_read;
static uint64_t sum;
static const char *family;

/* The session that the requests find, and the first request that is measured. */
static uint32_t begun[4];
static uint8_t begun_tag[32];
static size_t first_request;

/* The bench that a recording is replayed on, and the answers. */
static struct {
    uint8_t memory[BG_BENCH_MEMORY], tag[BG_TAG], packet[BG_BENCH_BUFFER], reply[BG_BENCH_BUFFER];
    uint32_t session[BG_SESSION], reader[BG_READER], answers[BG_ANSWER * RECORDS];
    size_t count;
} bench;
static uint8_t recording[RECORDING];

/* Ends with one line where a call was refused or a result is wrong. */
static void fail(const char *what)
{
    fprintf(stderr, "driver: %s\n", what);
    exit(1);
}

/* Lent memory, all 0, that is touched before it is measured. */
static void *room(size_t bytes)
{
    void *at = malloc(bytes);
    if (at == NULL)
        fail("no memory");
    memset(at, 0, bytes);
    return at;
}

/* The length of the body that starts at a place of the image: 0 where under 8 bytes are left. */
static size_t body_at(size_t at)
{
    size_t left = image_len - at;
    if (left < 8)
        return 0;
    return left < body_size ? left : body_size;
}

/* Sends every frame of every body of the image; but for the last of each, with the CRC, where that is left out. */
static void run_send(void)
{
    size_t at = 0, length;
    line_count = 0;
    while ((length = body_at(at)) > 0) {
        uint32_t sent[2] = {0, 2};
        for (size_t k = 0; k == 0 || k + leave_last < sent[1]; k++) {
            if (port->send_frame(image + at, length, k, lines + line_count * STRIDE, BG_LINE, sent) != 0)
                fail("a frame was refused");
            line_lens[line_count++] = sent[0];
        }
        at += length;
    }
}

/* Goes through every lump of the stream, and keeps each line. */
static void run_collect(void)
{
    uint32_t collector[BG_COLLECTOR] = {0, 0}, got[2];
    uint8_t held[BG_HELD] = {0};
    line_count = step_count = 0;
    for (size_t from = 0; from < out_len; from += lump_size) {
        size_t length = out_len - from < lump_size ? out_len - from : lump_size;
        for (size_t at = 0; at < length; at = got[1]) {
            if (port->collect(collector, held, out + from, length, at, lines + line_count * STRIDE, got) != 0)
                fail("a lump was refused");
            line_lens[line_count] = got[0];
            line_count += got[0] > 0;
            step_count++;
        }
    }
}

/* Reads every line of every body. */
static void run_read(void)
{
    uint32_t reader[4] = {0, 0, 0, 0}, body = 0, place = 0;
    out_len = 0;
    for (size_t i = 0; i < line_count; i++) {
        if (port->take_line(reader, lines + i * STRIDE, line_lens[i], out + out_len, LONGEST, &body, &place) != 0)
            fail("a line was refused");
        out_len += body;
    }
}

/* Reads every line, each of which has a bad text. */
static void run_bad(void)
{
    uint32_t reader[4] = {0, 0, 0, 0}, body = 0;
    for (size_t i = 0; i < line_count; i++)
        if (port->take_line(reader, lines + i * STRIDE, line_lens[i], out, LONGEST, &body, &line_places[i]) != BG_BAD_TEXT)
            fail("a bad text was not refused");
}

/* The CRC alone of every body. */
static void run_crc(void)
{
    size_t at = 0, length;
    sum = 0;
    while ((length = body_at(at)) > 0) {
        sum += plain_crc(0, image + at, length);
        at += length;
    }
}

/* Reads every reply. */
static void run_reply(void)
{
    for (size_t i = 0; i < reply_count; i++)
        if (port->read_reply(replies + i * PACKET, reply_lens[i], numbers_read + i * BG_REPLY) != 0)
            fail("a reply was refused");
}

/* Handles every request from the first on. */
static void run_handle(void)
{
    uint32_t session[4], answer[2];
    uint8_t tag[32];
    memcpy(session, begun, sizeof session);
    memcpy(tag, begun_tag, sizeof tag);
    for (size_t i = first_request; i < request_count; i++) {
        if (port->handle(layout, memory, image_len, session, tag, requests + i * request_stride, request_lens[i], replies + i * PACKET,
                         PACKET, answer) != 0)
            fail("a request was refused");
        reply_lens[i] = answer[0];
    }
    reply_count = request_count;
}

/* Sends a packet's frames and reads each; the packet comes to the output. */
static uint32_t pass(const uint8_t *packet, size_t length, uint8_t *to)
{
    uint32_t reader[4] = {0, 0, 0, 0}, sent[2] = {0, 1}, body = 0, place = 0;
    uint8_t line[STRIDE];
    for (size_t k = 0; k < sent[1]; k++) {
        if (port->send_frame(packet, length, k, line, BG_LINE, sent) != 0)
            fail("a frame was refused");
        if (port->take_line(reader, line, sent[0], to, LONGEST, &body, &place) != 0)
            fail("a line was refused");
    }
    return body;
}

/* Passes every recorded request and reply over the line. */
static void run_frames(void)
{
    out_len = 0;
    for (size_t i = 0; i < request_count; i++) {
        out_len += pass(requests + i * PACKET, request_lens[i], out + out_len);
        out_len += pass(replies + i * PACKET, reply_lens[i], out + out_len);
    }
}

/* Uploads the image: write, send, read, handle, send, read, read the reply; without the line it records requests and replies. */
static void upload(bool framed)
{
    static uint8_t request[PACKET], come[65536], reply[PACKET], back[65536];
    uint32_t session[4], answer[2], numbers[12], length;
    uint8_t tag[32], image_tag[32], sequence = 0;
    memset(image_tag, 7, sizeof image_tag);
    if (port->configure(layout, image_len, session, tag) != 0)
        fail("the layout was refused");
    request_count = 0;
    for (size_t off = 0; off < image_len; off = numbers[8]) {
        size_t data = image_len - off < DATA ? image_len - off : DATA;
        if (port->write_upload(sequence, image + off, data, off, image_len, image_tag, 32, request, PACKET, &length) != 0)
            fail("an upload was refused");
        const uint8_t *got = request, *read = reply;
        uint32_t got_len = length;
        if (framed) {
            got_len = pass(request, length, come);
            got = come;
        }
        if (port->handle(layout, memory, image_len, session, tag, got, got_len, reply, PACKET, answer) != 0)
            fail("a request was refused");
        uint32_t read_len = answer[0];
        if (framed) {
            read_len = pass(reply, answer[0], back);
            read = back;
        } else {
            memcpy(requests + request_count * PACKET, request, length);
            memcpy(replies + request_count * PACKET, reply, read_len);
        }
        if (port->read_reply(read, read_len, numbers) != 0 || numbers[6] != 0 || numbers[8] <= off)
            fail("a reply is not as it has to be");
        request_lens[request_count] = length;
        reply_lens[request_count] = read_len;
        sequence = port->next_sequence(sequence);
        request_count++;
    }
    reply_count = request_count;
}

/* One whole upload over the line. */
static void run_upload(void)
{
    upload(true);
}

/* Replays the recording, and writes the transcript. */
static void run_replay(void)
{
    if (port->replay(recording, RECORDING, bench.memory, bench.session, bench.tag, bench.reader, bench.packet, bench.reply, bench.answers,
                     BG_ANSWER * RECORDS, &bench.count) != 0)
        fail("a recording was refused");
    if (port->write_transcript(bench.answers, BG_ANSWER * RECORDS, bench.count, bench.session, out, RECORDING, &out_len) != 0)
        fail("a transcript was refused");
}

/* Nothing has to be there before. */
static void make_nothing(void)
{
}

/* Sends the bodies, and spoils a character in the last group of each full line, in each of its four places in turn; other lines are left out. */
static void make_bad(void)
{
    size_t kept = 0;
    run_send();
    for (size_t i = 0; i < line_count; i++) {
        uint8_t *to = lines + kept * STRIDE;
        if (line_lens[i] != BG_LINE)
            continue;
        memmove(to, lines + i * STRIDE, BG_LINE);
        to[BG_LINE - 2 - kept % 4] = '-';
        line_lens[kept++] = BG_LINE;
    }
    line_count = kept;
}

/* Joins the lines of every body to one stream in the output, and clears them. */
static void make_stream(void)
{
    run_send();
    out_len = 0;
    for (size_t i = 0; i < line_count; i++) {
        memcpy(out + out_len, lines + i * STRIDE, line_lens[i]);
        out_len += line_lens[i];
        memset(lines + i * STRIDE, 0, STRIDE);
    }
}

/* Records the requests and replies of an upload. */
static void make_upload(void)
{
    upload(false);
}

/* Writes a number in four bytes, the high one first. */
static void put_number(uint8_t *to, size_t number)
{
    const uint8_t bytes[] = {(uint8_t)(number >> 24), (uint8_t)(number >> 16), (uint8_t)(number >> 8), (uint8_t)number};
    memcpy(to, bytes, sizeof bytes);
}

/* Records the lines of uploads that fill the bench's slot, one after the other, until no line more has room; zeros stand before them. */
static void make_recording(void)
{
    uint8_t request[PACKET], line[BG_LINE];
    size_t at = 0, number = 0, off = 0;
    for (bool full = false; !full;) {
        size_t data = BENCH_SLOT - off < DATA ? BENCH_SLOT - off : DATA;
        uint32_t length, sent[2] = {0, 1};
        if (port->write_upload(0, image + off, data, off, BENCH_SLOT, NULL, 0, request, PACKET, &length) != 0)
            fail("an upload was refused");
        for (size_t k = 0; k < sent[1] && !full; k++) {
            if (port->send_frame(request, length, k, line, BG_LINE, sent) != 0)
                fail("a frame was refused");
            full = at + 3 + sent[0] > RECORDING - TRAILER;
            if (!full) {
                memcpy(out + at, (uint8_t[]){BG_TO_CONTROLLER, 0, (uint8_t)sent[0]}, 3);
                memcpy(out + at + 3, line, sent[0]);
                at += 3 + sent[0];
                number++;
            }
        }
        off = (off + data) % BENCH_SLOT;
    }
    memcpy(recording + RECORDING - TRAILER - at, out, at);
    put_number(recording + RECORDING - 8, at);
    put_number(recording + RECORDING - 4, number);
}

/* Writes the echo requests. */
static void make_echoes(void)
{
    uint8_t text[TEXT];
    for (size_t i = 0; i < MAPS; i++) {
        for (size_t j = 0; j < TEXT; j++)
            text[j] = (uint8_t)('a' + (i + j) % 26);
        if (port->write_echo((uint8_t)i, text, TEXT, requests + i * PACKET, PACKET, &request_lens[i]) != 0)
            fail("an echo was refused");
    }
    request_count = MAPS;
}

/* Writes the echo replies. */
static void make_echo_replies(void)
{
    make_echoes();
    run_handle();
}

/* Writes an upload's requests, each with as much data as a packet of 512 bytes takes, and handles the first, which sets the slot to 255. */
static void make_chunks(void)
{
    uint32_t answer[2];
    uint8_t tag[32];
    memset(tag, 7, sizeof tag);
    request_count = 0;
    for (size_t off = 0, data; off < image_len; off += data) {
        uint8_t *to = requests + request_count * PACKET;
        data = image_len - off < CHUNK ? image_len - off : CHUNK;
        while (data > 0 && port->write_upload((uint8_t)request_count, image + off, data, off, image_len, tag, 32, to, CHUNK,
                                              &request_lens[request_count]) != 0)
            data--;
        if (data == 0)
            fail("an upload was refused");
        request_count++;
    }
    if (port->handle(layout, memory, image_len, begun, begun_tag, requests, request_lens[0], replies, PACKET, answer) != 0)
        fail("a request was refused");
    reply_lens[0] = answer[0];
    first_request = 1;
}

/* Writes unknown pairs; gives the place after them. */
static uint8_t *put_unknown(uint8_t *to, size_t i)
{
    for (size_t j = 0; j < PAIRS; j++) {
        const uint8_t pair[] = {0x63, 'k', (uint8_t)('a' + j), 'x', 0x19, (uint8_t)(i >> 8 | 1), (uint8_t)i};
        memcpy(to, pair, sizeof pair);
        to += sizeof pair;
    }
    return to;
}

/* Writes a header over the payload that ends at a place; gives the packet's length. */
static uint32_t put_header(uint8_t *packet, const uint8_t *end, uint8_t op, uint8_t group, size_t sequence, uint8_t command)
{
    size_t length = (size_t)(end - packet), payload = length - 8;
    const uint8_t header[] = {op, 0, (uint8_t)(payload >> 8), (uint8_t)payload, 0, group, (uint8_t)sequence, command};
    memcpy(packet, header, sizeof header);
    return (uint32_t)length;
}

/* Writes replies whose map has unknown pairs before its rc. */
static void make_pairs(void)
{
    for (size_t i = 0; i < MAPS; i++) {
        uint8_t *at = replies + i * PACKET;
        memcpy(at + 8, (uint8_t[]){0xB8, PAIRS + 1}, 2);
        uint8_t *to = put_unknown(at + 10, i);
        memcpy(to, (uint8_t[]){0x62, 'r', 'c', (uint8_t)(i % 20)}, 4);
        reply_lens[i] = put_header(at, to + 4, 3, 1, i, 1);
    }
    reply_count = MAPS;
}

/* Writes requests whose map has unknown pairs: in turn an echo, with its text after them, and a reset. */
static void make_unknown(void)
{
    for (size_t i = 0; i < MAPS; i++) {
        bool echo = i % 2 == 0;
        uint8_t *at = requests + i * PACKET;
        memcpy(at + 8, (uint8_t[]){0xB8, (uint8_t)(PAIRS + echo)}, 2);
        uint8_t *to = put_unknown(at + 10, i);
        memcpy(to, (uint8_t[]){0x61, 'd', 0x61, (uint8_t)('a' + i % 26)}, 4);
        request_lens[i] = put_header(at, echo ? to + 4 : to, 2, 0, i, echo ? 0 : 5);
    }
    request_count = MAPS;
}

/* Writes erase requests. */
static void make_erases(void)
{
    for (size_t i = 0; i < ERASES; i++) {
        uint8_t *at = requests + i * PACKET;
        at[8] = 0xA0;
        request_lens[i] = put_header(at, at + 9, 2, 1, i, 5);
    }
    request_count = ERASES;
}

/* Writes an image at a place: a header of 32 bytes, a body, and a TLV area of one entry, the hash. */
static void put_image(uint8_t *to, size_t body)
{
    const uint8_t header[32] = {
        0x3D, 0xB8, 0xF3, 0x96, [8] = 32, [12] = (uint8_t)body, (uint8_t)(body >> 8), (uint8_t)(body >> 16), [20] = 1, 20, 0x39, 0x30,
    };
    const uint8_t area[8] = {0x07, 0x69, 40, 0, 0x10, 0, 32, 0};
    memcpy(to, header, sizeof header);
    memcpy(to + 32, image, body);
    memcpy(to + 32 + body, area, sizeof area);
    memcpy(to + 40 + body, image, 32);
}

/* Writes state reads, to a memory whose halves are the two slots, each with an image. */
static void make_list(void)
{
    size_t half = image_len / 2;
    memcpy(layout, (size_t[]){0, half, half, half}, sizeof layout);
    put_image(memory, body_size);
    put_image(memory + half, body_size);
    for (size_t i = 0; i < MAPS; i++) {
        uint8_t *at = requests + i * PACKET;
        request_lens[i] = put_header(at, at + 8, 0, 1, i, 0);
    }
    request_count = MAPS;
}

/* The bytes of a family's pair; gives the family's header. */
static const uint8_t *read_family(const char *from, uint8_t pair[STRIDE], size_t *length)
{
    static const struct command {
        const char *name;
        uint8_t header[8];
    } commands[] = {
        {"echo-", {2, 0, 0, 0}}, {"reset-", {2, 0, 0, 5}}, {"list-", {0, 0, 1, 0}}, {"upload-", {2, 0, 1, 1}}, {"erase-", {2, 0, 1, 5}},
    };
    for (size_t i = 0; i < sizeof commands / sizeof *commands; i++) {
        size_t name = strlen(commands[i].name);
        unsigned byte;
        if (strncmp(from, commands[i].name, name) != 0)
            continue;
        for (*length = 0; *length < STRIDE && sscanf(from + name + 2 * *length, "%2x", &byte) == 1; (*length)++)
            pair[*length] = (uint8_t)byte;
        return commands[i].header;
    }
    fail("no such command");
    return NULL;
}

/* Writes one request of a family, of at most so many bytes; it is handled again and again, with a slot of one byte, so that none is filled. */
static void make_family(size_t most)
{
    uint8_t pair[STRIDE], *to = requests + 11;
    size_t length, count = 0;
    const uint8_t *command = read_family(family, pair, &length);
    if (length < 2)
        fail("a pair has two bytes or more");
    for (; 11 + (count + 1) * length <= most; count++, to += length)
        memcpy(to, pair, length);
    memcpy(requests + 8, (uint8_t[]){0xB9, (uint8_t)(count >> 8), (uint8_t)count}, 3);
    request_lens[0] = put_header(requests, to, command[0], command[2], 0, command[3]);
    request_count = image_len / 65536;
    for (size_t i = 0; i < request_count; i++)
        request_lens[i] = request_lens[0];
    request_stride = 0;
    layout[BG_LAYOUT_SLOT_SIZE] = 1;
}

/* Writes one request of a family, as long as a request may be. */
static void make_fill(void)
{
    make_family(LONGEST);
}

/* Adds bytes to a digest (FNV-1a). */
static uint64_t digest(uint64_t value, const uint8_t *bytes, size_t length)
{
    for (size_t i = 0; i < length; i++)
        value = (value ^ bytes[i]) * 1099511628211u;
    return value;
}

/* A digest of packets or lines of a stride. */
static uint64_t digest_all(const uint8_t *bytes, const uint32_t *lens, size_t count, size_t stride)
{
    uint64_t value = no_bytes;
    for (size_t i = 0; i < count; i++)
        value = digest(value, bytes + i * stride, lens[i]);
    return value;
}

/* The lengths' sum. */
static uint64_t total(const uint32_t *lens, size_t count)
{
    uint64_t bytes = 0;
    for (size_t i = 0; i < count; i++)
        bytes += lens[i];
    return bytes;
}

/* What was sent: the lines. */
static struct result sent_lines(void)
{
    return (struct result){digest_all(lines, line_lens, line_count, STRIDE), image_len, line_count};
}

/* What was collected: the lines again. */
static struct result collected_lines(void)
{
    return (struct result){digest_all(lines, line_lens, line_count, STRIDE), out_len, step_count};
}

/* What was read: the bodies; or, without the last frames, what stands of the last long one. */
static struct result read_bodies(void)
{
    uint64_t value = digest(no_bytes, out, leave_last ? BEFORE_LAST : out_len);
    return (struct result){value, image_len, line_count};
}

/* The places of the bad texts. */
static struct result found_places(void)
{
    uint64_t value = 0;
    for (size_t i = 0; i < line_count; i++)
        value = value * 31 + line_places[i];
    return (struct result){value, total(line_lens, line_count), line_count};
}

/* The CRCs. */
static struct result computed_crcs(void)
{
    return (struct result){sum, image_len, (image_len + body_size - 1) / body_size};
}

/* What was read in the replies. */
static struct result read_replies(void)
{
    uint64_t value = 0;
    for (size_t i = 0; i < reply_count * BG_REPLY; i++)
        value = value * 31 + numbers_read[i];
    value ^= digest_all(replies, reply_lens, reply_count, PACKET);
    return (struct result){value, total(reply_lens, reply_count), reply_count};
}

/* The replies to the requests, and the slot. */
static struct result answered(void)
{
    uint64_t value = digest(digest_all(replies, reply_lens, reply_count, PACKET), memory, image_len);
    size_t count = request_count - first_request;
    return (struct result){value, total(request_lens + first_request, count), count};
}

/* The replies to the erases, and the slot, whose bytes are counted. */
static struct result erased(void)
{
    struct result result = answered();
    result.bytes = result.calls * layout[BG_LAYOUT_SLOT_SIZE];
    return result;
}

/* The lists, whose bytes are counted, and the memory. */
static struct result listed(void)
{
    struct result result = answered();
    result.bytes = total(reply_lens, reply_count);
    return result;
}

/* The packets that came over the line. */
static struct result passed(void)
{
    return (struct result){digest(no_bytes, out, out_len), image_len, request_count};
}

/* The slot, which has to hold the image. */
static struct result uploaded(void)
{
    if (memcmp(memory, image, image_len) != 0)
        fail("the slot does not hold the image");
    return (struct result){digest(no_bytes, memory, image_len), image_len, request_count};
}

/* The transcript, and the bench's memory. */
static struct result replayed(void)
{
    uint64_t value = digest(digest(no_bytes, out, out_len), bench.memory, BG_BENCH_MEMORY);
    return (struct result){value, RECORDING, bench.count};
}

/* A path: what is made before, one round, and what it produced. */
static const struct path {
    const char *name;
    void (*make)(void), (*run)(void);
    struct result (*produced)(void);
    size_t body_size, leave_last, lump_size;
} paths[] = {
    {"send", make_nothing, run_send, sent_lines, BODY, 0, 0},
    {"sendlong", make_nothing, run_send, sent_lines, LONGEST, 0, 0},
    {"sendlong-open", make_nothing, run_send, sent_lines, LONGEST, 1, 0},
    {"collect256", make_stream, run_collect, collected_lines, BODY, 0, 256},
    {"collect64", make_stream, run_collect, collected_lines, BODY, 0, 64},
    {"collect16", make_stream, run_collect, collected_lines, BODY, 0, 16},
    {"collect1", make_stream, run_collect, collected_lines, BODY, 0, 1},
    {"read", run_send, run_read, read_bodies, BODY, 0, 0},
    {"readlong", run_send, run_read, read_bodies, LONGEST, 0, 0},
    {"readlong-open", run_send, run_read, read_bodies, LONGEST, 1, 0},
    {"readbad", make_bad, run_bad, found_places, LONGEST, 0, 0},
    {"crc", make_nothing, run_crc, computed_crcs, BODY, 0, 0},
    {"reply", make_upload, run_reply, read_replies, 0, 0, 0},
    {"echo", make_echo_replies, run_reply, read_replies, 0, 0, 0},
    {"pairs", make_pairs, run_reply, read_replies, 0, 0, 0},
    {"handle", make_echoes, run_handle, answered, 0, 0, 0},
    {"chunks", make_chunks, run_handle, answered, 0, 0, 0},
    {"unknown", make_unknown, run_handle, answered, 0, 0, 0},
    {"erase", make_erases, run_handle, erased, 0, 0, 0},
    {"list0", make_list, run_handle, listed, 0, 0, 0},
    {"list60000", make_list, run_handle, listed, 60000, 0, 0},
    {"frames", make_upload, run_frames, passed, 0, 0, 0},
    {"upload", make_nothing, run_upload, uploaded, 0, 0, 0},
    {"replay", make_recording, run_replay, replayed, 0, 0, 0},
    {"fill", make_fill, run_handle, answered, 0, 0, 0},
};

/* The path of this name; of a family's name the rest is kept. */
static const struct path *path_of(const char *name)
{
    bool is_family = strncmp(name, "fill-", 5) == 0;
    if (is_family)
        family = name + 5;
    for (size_t i = 0; i < sizeof paths / sizeof *paths; i++)
        if (strcmp(paths[i].name, is_family ? "fill" : name) == 0)
            return &paths[i];
    fail("no such path");
    return NULL;
}

/* One round: what is counted (bench/count.c). */
__attribute__((noipa)) void measured(void (*run)(void))
{
    run();
    __asm__ volatile("" ::: "memory");
}

/* The time in nanoseconds. */
static uint64_t now(void)
{
    struct timespec t;
    clock_gettime(CLOCK_MONOTONIC, &t);
    return (uint64_t)t.tv_sec * 1000000000u + (uint64_t)t.tv_nsec;
}

/* Allocates the buffers, and fills the image with the bytes of a fixed seed. */
static void set_up(size_t bytes)
{
    size_t packets = bytes / DATA + MAPS + 1;
    uint64_t state = 88172645463325252u;
    image_len = layout[BG_LAYOUT_SLOT_SIZE] = bytes;
    image = room(bytes);
    memory = room(bytes);
    lines = room((bytes / 64 + 16) * STRIDE);
    line_lens = room((bytes / 64 + 16) * sizeof *line_lens);
    line_places = room((bytes / 64 + 16) * sizeof *line_places);
    out = room(2 * bytes + 2 * 65536);
    requests = room(packets * PACKET);
    replies = room(packets * PACKET);
    request_lens = room(packets * sizeof *request_lens);
    reply_lens = room(packets * sizeof *reply_lens);
    numbers_read = room(packets * BG_REPLY * sizeof *numbers_read);
    for (size_t i = 0; i < bytes; i++) {
        state ^= state << 13;
        state ^= state >> 7;
        state ^= state << 17;
        image[i] = (uint8_t)(state >> 32);
    }
}

/* Runs a path's rounds and prints what came of it. */
static void measure(const char *name, size_t kib, unsigned long rounds)
{
    const struct path *path = path_of(name);
    uint64_t best = UINT64_MAX;
    set_up(kib * 1024);
    body_size = path->body_size;
    leave_last = path->leave_last;
    lump_size = path->lump_size;
    path->make();
    for (unsigned long i = 0; i < rounds; i++) {
        uint64_t from = now();
        measured(path->run);
        uint64_t took = now() - from;
        best = took < best ? took : best;
    }
    struct result result = path->produced();
    printf("%016llx %llu %llu %llu\n", (unsigned long long)result.digest, (unsigned long long)result.bytes,
           (unsigned long long)result.calls, (unsigned long long)best);
}

/* Handles a request of each family that is read. */
static void search(size_t most)
{
    char line[2 * STRIDE];
    set_up(65536);
    while (scanf("%255s", line) == 1) {
        family = line;
        make_family(most);
        measured(run_handle);
        printf("%s %u\n", family, request_lens[0]);
    }
}

/* Measures one path, or searches among families. */
int main(int argc, char **argv)
{
    if (argc < 4 || argc > 5 || (argc == 4) != (strcmp(argv[2], "search") == 0))
        fail("usage: driver archive|plain PATH KIB ROUNDS, or driver archive|plain search LENGTH");
    port = strcmp(argv[1], "archive") == 0 ? &archive : &plain;
    if (argc == 4)
        search(strtoul(argv[3], NULL, 10));
    else
        measure(argv[2], strtoul(argv[3], NULL, 10), strtoul(argv[4], NULL, 10));
    return 0;
}
