/*
 * Compares the plain C calls with the archive's on generated inputs: peer SEED ROUNDS.
 * Each call is made by both on equal copies of what is lent; the answer and every lent byte and number, with some bytes after each buffer,
 * have to be equal afterwards. It prints how often each kind of outcome was met, and fails at a difference or where one was never met.
 */
#include "../include/belagunthi.h"
#include "inputs.h"
#include "plain.h"

#include <stdbool.h>
#include <stdio.h>
#include <stdlib.h>
#include <string.h>

enum { GUARD = 32, MEMORY_MAX = 1048576 + 4096, LONGEST = 65533, FILE_MAX = 8192, REQUEST_MOST = 400, ANSWERS_MAX = 64 };

/* The kinds of outcome, each with its name. */
#define OUTCOMES(is)                                                                                                                    \
    is(LUMP_1_COUNT, "lump: refused 1, over 126 bytes held") is(LUMP_1_END, "lump: refused 1, an 0A held")                              \
    is(LUMP_12, "lump: refused 12") is(LUMP_2, "lump: refused 2") is(LUMP_LINE, "lump: a line")                                         \
    is(LUMP_LONGEST, "lump: a line of 127 bytes") is(LUMP_BEYOND, "lump: used up, from a place beyond it")                              \
    is(LUMP_HELD, "lump: used up, bytes held") is(LUMP_FULL, "lump: used up, 126 bytes held")                                           \
    is(LUMP_SKIPS, "lump: used up, a line too long begins") is(LUMP_SKIPPED, "lump: used up in a line too long")                        \
    is(LINE_2, "line: refused 2") is(LINE_3, "line: refused 3") is(LINE_4, "line: refused 4 at a character")                            \
    is(LINE_5, "line: refused 5")                                                                                                       \
    is(LINE_6, "line: refused 6") is(LINE_7, "line: refused 7") is(LINE_8, "line: refused 8") is(LINE_9, "line: refused 9")             \
    is(LINE_4_SHORT, "line: refused 4 at the 0A") is(LINE_4_PADDING, "line: refused 4 at an =")                                         \
    is(LINE_MORE, "line: more is wanted") is(LINE_CRC, "line: more, the first CRC byte kept") is(LINE_BODY, "line: a packet")           \
    is(SEND_12, "frame: refused 12") is(SEND_13, "frame: refused 13") is(SEND_ONLY, "frame: the only one")                              \
    is(SEND_FIRST, "frame: the first") is(SEND_MIDDLE, "frame: in the middle") is(SEND_LAST, "frame: the last")                         \
    is(SLOT_1, "configure: refused 1, the slot") is(SLOT_1_SLOT0, "configure: refused 1, slot 0")                                       \
    is(SLOT_1_BOTH, "configure: refused 1, a byte in both") is(SLOT_FIXED, "configure: fixed")                                          \
    is(ASK_1_SLOT, "request: refused 1, the slot") is(ASK_1_SLOT0, "request: refused 1, slot 0")                                        \
    is(ASK_1_BOTH, "request: refused 1, a byte in both") is(ASK_1_SESSION, "request: refused 1, the session")                           \
    is(ASK_11, "request: refused 11") is(ASK_10_SHORT, "request: refused 10, under 8 bytes")                                            \
    is(ASK_10_LENGTH, "request: refused 10, another length") is(ASK_10_LONG, "request: refused 10, over 65,533 bytes")                  \
    is(ASK_10_OP, "request: refused 10, the op") is(ASK_UNKNOWN, "unknown command: rc 8") is(ECHO_TEXT, "echo: the text")               \
    is(ECHO_3, "echo: rc 3") is(ECHO_7, "echo: rc 7") is(RESET_DONE, "reset: asked") is(RESET_3, "reset: rc 3")                         \
    is(LIST_NONE, "list: no image") is(LIST_0, "list: slot 0's image") is(LIST_1, "list: slot 1's image")                               \
    is(LIST_BOTH, "list: both images") is(LIST_3, "list: rc 3") is(LIST_7, "list: rc 7")                                                \
    is(ERASE_DONE, "erase: done") is(ERASE_3, "erase: rc 3") is(UPLOAD_3, "upload: rc 3") is(UPLOAD_8, "upload: rc 8")                  \
    is(UPLOAD_2, "upload: rc 2") is(UPLOAD_6, "upload: rc 6")                                                                           \
    is(UPLOAD_NONE, "upload: told 0, no session") is(UPLOAD_TOLD, "upload: told n, another offset") is(UPLOAD_ADDED, "upload: added")   \
    is(UPLOAD_END, "upload: added to the end") is(UPLOAD_RESUMED, "upload: resumed") is(UPLOAD_TAGGED, "upload: started, with a tag")   \
    is(UPLOAD_BARE, "upload: started, without") is(ECHO_WRITTEN, "echo written") is(ECHO_12_LONG, "echo refused 12, over 65,533 bytes") \
    is(ECHO_12_ROOM, "echo refused 12, the output") is(CHUNK_TAGGED, "upload written, at 0 with a tag")                                 \
    is(CHUNK_BARE, "upload written, at 0 without") is(CHUNK_LATER, "upload written, past 0") is(CHUNK_12_OFF, "upload refused 12, the offset") \
    is(CHUNK_12_EMPTY, "upload refused 12, empty data") is(CHUNK_12_NONE, "upload refused 12, length 0")                                \
    is(CHUNK_12_ABOVE, "upload refused 12, length above 32 bits") is(CHUNK_12_DATA, "upload refused 12, data over the length")          \
    is(CHUNK_12_TAG, "upload refused 12, the tag") is(CHUNK_12_LONG, "upload refused 12, over 65,533 bytes")                            \
    is(CHUNK_12_ROOM, "upload refused 12, the output") is(READ_10_SHORT, "reply: refused 10, under 8 bytes")                            \
    is(READ_10_LENGTH, "reply: refused 10, another length") is(READ_10_LONG, "reply: refused 10, over 65,533 bytes")                    \
    is(READ_10_OP, "reply: refused 10, the op") is(READ_10_MAP, "reply: refused 10, the map") is(READ_NOTHING, "reply: none of the keys") \
    is(READ_RC, "reply: rc alone") is(READ_OFF, "reply: off") is(READ_TEXT, "reply: text") is(SEQUENCE, "next sequence")                \
    is(REPLAY_12_FILE, "replay: refused 12, no recording") is(REPLAY_12_ANSWERS, "replay: refused 12, the answers")                     \
    is(REPLAY_NONE, "replay: no lines") is(REPLAY_OPEN, "replay: a session at the end") is(REPLAY_CLOSED, "replay: none at the end")    \
    is(TEXT_12_ANSWERS, "transcript: refused 12, the answers") is(TEXT_12_ROOM, "transcript: refused 12, the output")                   \
    is(TEXT_NONE, "transcript: end none") is(TEXT_PLACE, "transcript: end and a place")

#define AS_NUMBER(outcome, name) outcome,
#define AS_NAME(outcome, name) name,
enum outcome { OUTCOMES(AS_NUMBER) OUTCOME_COUNT };
static const char *const outcome_name[] = {OUTCOMES(AS_NAME)};

static unsigned long times_met[OUTCOME_COUNT], compared;
static uint64_t seed, round_number;
static struct rng rng;

/* A buffer lent twice: one to each program, with bytes after it that have to stay. */
struct twin {
    uint8_t *of[2];
    size_t length, room;
};

/* The records and numbers lent to one call. */
struct numbers {
    uint32_t record[4], answer[2], reply[12], one, place;
    uint8_t tag[32];
    size_t count;
};

static struct twin memory, packet_buffer, reply_buffer, out_buffer, held_buffer, answer_buffer;
static struct numbers lent[2];
static uint8_t packet[PACKET_MAX], line[LINE_MAX], lump[LUMP_MAX], body[PACKET_MAX], file[FILE_MAX];

/* Ends with what differs. */
static void differ(const char *call, const char *what)
{
    printf("peer: %s: %s differs: seed %llu, round %llu\n", call, what, (unsigned long long)seed, (unsigned long long)round_number);
    exit(1);
}

/* A buffer of so many bytes for each program. */
static struct twin twin_of(size_t room)
{
    struct twin twin = {{malloc(room + GUARD), malloc(room + GUARD)}, 0, room};
    if (twin.of[0] == NULL || twin.of[1] == NULL) {
        puts("peer: no memory");
        exit(1);
    }
    return twin;
}

/* Lends a buffer of this length: the same bytes to both. */
static void lend(struct twin *twin, size_t length)
{
    twin->length = length;
    fill(&rng, twin->of[0], length + GUARD);
    memcpy(twin->of[1], twin->of[0], length + GUARD);
}

/* Lends the same numbers to both. */
static void lend_numbers(void)
{
    fill(&rng, &lent[0], sizeof lent[0]);
    lent[1] = lent[0];
}

/* Holds a buffer of one program to the other's. */
static void hold(const char *call, const struct twin *twin)
{
    if (memcmp(twin->of[0], twin->of[1], twin->length + GUARD) != 0)
        differ(call, "a lent byte");
}

/* Holds answer and numbers of one program to the other's, and counts the comparison. */
static void hold_numbers(const char *call, uint32_t archive, uint32_t plain)
{
    if (archive != plain)
        differ(call, "the answer");
    if (memcmp(&lent[0], &lent[1], sizeof lent[0]) != 0)
        differ(call, "a lent number");
    compared++;
}

/* Counts an outcome. */
static void met(enum outcome outcome)
{
    times_met[outcome]++;
}

/* Bytes that are lent to be read: none at all may be null. */
static const uint8_t *or_null(const uint8_t *bytes, size_t length)
{
    return length == 0 && once_in(&rng, 2) ? NULL : bytes;
}

/* The outcome of a step that was not refused and completed no line, by the record before and after. */
static enum outcome used_up_outcome(uint32_t skipping, size_t length, size_t at)
{
    if (at > length)
        return LUMP_BEYOND;
    if (lent[0].record[1] != 0)
        return skipping != 0 ? LUMP_SKIPPED : LUMP_SKIPS;
    return lent[0].record[0] == BG_HELD ? LUMP_FULL : LUMP_HELD;
}

/* Goes a step through the lump with both, and counts what came of it. */
static uint32_t compare_step(size_t length, size_t at)
{
    const uint8_t *from = or_null(lump, length);
    uint32_t count = lent[0].record[0], skipping = lent[0].record[1], *got = lent[0].answer;
    uint32_t said = bg_collect(lent[0].record, held_buffer.of[0], from, length, at, out_buffer.of[0], got);
    hold_numbers("collect", said,
                 plain_collect(lent[1].record, held_buffer.of[1], from, length, at, out_buffer.of[1], lent[1].answer));
    hold("collect", &held_buffer);
    hold("collect", &out_buffer);
    if (said == 1)
        met(count > BG_HELD ? LUMP_1_COUNT : LUMP_1_END);
    else if (said != 0)
        met(said == 12 ? LUMP_12 : LUMP_2);
    else if (got[0] > 0)
        met(got[0] == BG_LINE ? LUMP_LONGEST : LUMP_LINE);
    else
        met(used_up_outcome(skipping, length, at));
    return said;
}

/* Lends a record and bytes of the collector to both, and an array for its line. */
static void lend_collector(void)
{
    lend_numbers();
    lend(&held_buffer, BG_HELD);
    lend(&out_buffer, BG_LINE);
    make_collector(&rng, lent[0].record, held_buffer.of[0]);
    memcpy(lent[1].record, lent[0].record, sizeof lent[0].record);
    memcpy(held_buffer.of[1], held_buffer.of[0], BG_HELD);
}

/* One step for any record, from any place of a lump. */
static void check_step(void)
{
    lend_collector();
    size_t length = make_lump(&rng, lump);
    compare_step(length, once_in(&rng, 8) ? (size_t)number(&rng) : below(&rng, length + 2));
}

/* A row of lumps, each gone through until it is used up. */
static void check_lumps(void)
{
    lend_collector();
    for (size_t left = range(&rng, 2, 12); left > 0; left--) {
        size_t length = make_lump(&rng, lump), at = 0;
        uint32_t said;
        do {
            said = compare_step(length, at);
            at = lent[0].answer[1];
        } while (said != 1 && said != 12 && at < length);
    }
}

/* Takes a line with both, and counts what came of it. */
static uint32_t compare_line(size_t length)
{
    const uint8_t *from = or_null(line, length);
    struct twin *to = &packet_buffer;
    uint32_t said = bg_take_line(lent[0].record, from, length, to->of[0], to->length, &lent[0].one, &lent[0].place);
    hold_numbers("take_line", said,
                 plain_take_line(lent[1].record, from, length, to->of[1], to->length, &lent[1].one, &lent[1].place));
    hold("take_line", to);
    if (said == BG_BAD_TEXT && lent[0].place + 1 == length)
        met(LINE_4_SHORT);
    else if (said == BG_BAD_TEXT && line[lent[0].place] == '=')
        met(LINE_4_PADDING);
    else if (said != 0)
        met(LINE_2 + said - 2);
    else if (lent[0].one != 0)
        met(LINE_BODY);
    else
        met(lent[0].record[2] == lent[0].record[1] - 1 ? LINE_CRC : LINE_MORE);
    return said;
}

/* One line for any record and any packet buffer. */
static void check_line(void)
{
    lend_numbers();
    make_reader(&rng, lent[0].record);
    memcpy(lent[1].record, lent[0].record, sizeof lent[0].record);
    uint32_t total = lent[0].record[1];
    bool near = total >= 10 && total <= PACKET_MAX && !once_in(&rng, 4);
    lend(&packet_buffer, near ? total - below(&rng, 4) : below(&rng, 400));
    compare_line(make_line(&rng, line));
}

/* The CRC of a body, bit by bit. */
static uint16_t crc_of(const uint8_t *bytes, size_t length)
{
    uint16_t crc = 0;
    for (size_t bit = 0; bit < 8 * length; bit++) {
        bool high = (crc >> 15 ^ bytes[bit / 8] >> (7 - bit % 8)) & 1;
        crc = (uint16_t)(crc << 1 ^ (high ? 0x1021 : 0));
    }
    return crc;
}

/* The raw bytes of a packet, total and CRC with it; the CRC is now and then wrong. */
static size_t make_raw(uint8_t *raw, size_t body_len)
{
    fill(&rng, raw + 2, body_len);
    uint16_t crc = crc_of(raw + 2, body_len);
    if (once_in(&rng, 6))
        crc ^= (uint16_t)(1u << below(&rng, 16));
    raw[0] = (uint8_t)((body_len + 2) >> 8);
    raw[1] = (uint8_t)(body_len + 2);
    raw[2 + body_len] = (uint8_t)(crc >> 8);
    raw[3 + body_len] = (uint8_t)crc;
    return body_len + 4;
}

/* A packet cut into frames anywhere, its lines now and then damaged, lost, or with another between. */
static void check_packet(void)
{
    static uint8_t raw[PACKET_MAX + 4];
    size_t length = make_raw(raw, once_in(&rng, 3000) ? range(&rng, 60000, LONGEST) : range(&rng, 8, 300));
    lend_numbers();
    memset(lent[0].record, 0, sizeof lent[0].record);
    memset(lent[1].record, 0, sizeof lent[1].record);
    lend(&packet_buffer, length - 4 + (once_in(&rng, 2) ? 0 : below(&rng, 9)) - once_in(&rng, 30));
    for (size_t at = 0, some; at < length; at += some) {
        size_t left = length - at;
        some = once_in(&rng, 8) ? range(&rng, 1, 4) : range(&rng, 60, 93);
        if (at == 0 && some < 2 && !once_in(&rng, 8))
            some = 2;
        some = some < left ? some : left;
        size_t line_len = encode_line(at == 0, raw + at, some, line);
        if (once_in(&rng, 60))
            line_len = damage_line(&rng, line, line_len);
        if (once_in(&rng, 60))
            line_len = make_line(&rng, line);
        if (!once_in(&rng, 60))
            compare_line(line_len);
    }
}

/* A frame of a body. */
static void check_send(void)
{
    static const size_t lengths[] = {7, 8, 88, 89, 90, 91, 92, 93, 181, 182, 183, 184, 275, 276, LONGEST - 1, LONGEST, LONGEST + 1};
    size_t length = once_in(&rng, 40) ? lengths[below(&rng, 17)] : once_in(&rng, 2000) ? below(&rng, LONGEST + 2) : below(&rng, 700);
    size_t k = once_in(&rng, 4) ? (size_t)number(&rng) : below(&rng, length / 93 + 3);
    lend_numbers();
    lend(&out_buffer, once_in(&rng, 20) ? below(&rng, 128) : range(&rng, 127, 140));
    fill(&rng, body, length);
    uint32_t said = bg_send_frame(body, length, k, out_buffer.of[0], out_buffer.length, lent[0].answer);
    hold_numbers("send_frame", said, plain_send_frame(body, length, k, out_buffer.of[1], out_buffer.length, lent[1].answer));
    hold("send_frame", &out_buffer);
    uint32_t count = lent[0].answer[1];
    if (said != 0)
        met(said == 12 ? SEND_12 : SEND_13);
    else
        met(count == 1 ? SEND_ONLY : k == 0 ? SEND_FIRST : k == count - 1 ? SEND_LAST : SEND_MIDDLE);
}

/* Why a layout is impossible: 0 the slot, 1 slot 0, 2 a byte in both; 3 where it is possible. */
static unsigned why_1(const size_t layout[BG_LAYOUT], size_t room)
{
    size_t start0 = layout[0], size0 = layout[1], start = layout[2], size = layout[3];
    if (size == 0 || size > 1048576 || size > room || start > room - size)
        return 0;
    if (size0 > room || start0 > room - size0)
        return 1;
    return size0 > 0 && start0 < start + size && start < start0 + size0 ? 2 : 3;
}

/* A place of slot 0 beside another region, in it, or anywhere, that touches it or not. */
static uint64_t make_start0(uint64_t start, uint64_t size, uint64_t size0)
{
    switch (below(&rng, 4)) {
    case 0:
        return start - size0 + below(&rng, 3) - 1;
    case 1:
        return start + size + below(&rng, 3) - 1;
    case 2:
        return start + below(&rng, size < 100 ? (size_t)size + 1 : 100);
    default:
        return number(&rng);
    }
}

/* A layout, possible or not. */
static void check_configure(void)
{
    uint64_t size = once_in(&rng, 3) ? number(&rng) : range(&rng, 1, 1048576);
    uint64_t start = once_in(&rng, 3) ? number(&rng) : once_in(&rng, 3) ? 0 - size + below(&rng, 3) - 1 : below(&rng, 5000000);
    uint64_t size0 = once_in(&rng, 3) ? number(&rng) : once_in(&rng, 3) ? 0 : below(&rng, 3000000);
    uint64_t start0 = make_start0(start, size, size0), end0 = start0 + size0, end = start + size;
    uint64_t room = once_in(&rng, 4) ? number(&rng) : (end0 > end && once_in(&rng, 2) ? end0 : end) + below(&rng, 3) - 1;
    const size_t layout[BG_LAYOUT] = {start0, size0, start, size};
    lend_numbers();
    uint32_t said = bg_configure(layout, room, lent[0].record, lent[0].tag);
    hold_numbers("configure", said, plain_configure(layout, room, lent[1].record, lent[1].tag));
    met(said == 0 ? SLOT_FIXED : SLOT_1 + why_1(layout, room));
}

/* A controller with two slots somewhere in a memory, mostly small ones, often with images, and a closed session. */
static struct device make_device(void)
{
    struct device device = {.size = range(&rng, 1, once_in(&rng, 8) ? 2000 : once_in(&rng, 2) ? 240 : 80)};
    device.size0 = once_in(&rng, 6) ? 0 : below(&rng, once_in(&rng, 8) ? 2000 : 240);
    if (once_in(&rng, 20000))
        device.size = 1048576 - below(&rng, 3);
    bool before = once_in(&rng, 2);
    size_t *first = before ? &device.start0 : &device.start, *second = before ? &device.start : &device.start0;
    size_t first_size = before ? device.size0 : device.size, second_size = before ? device.size : device.size0;
    *first = once_in(&rng, 3) ? 0 : below(&rng, 30);
    *second = *first + first_size + (once_in(&rng, 3) ? 0 : below(&rng, 30));
    device.memory_len = *second + second_size + (once_in(&rng, 3) ? 0 : below(&rng, 30));
    if (device.size0 == 0)
        device.start0 = below(&rng, device.memory_len + 1);
    lend(&memory, device.memory_len);
    if (!once_in(&rng, 4))
        make_image(&rng, memory.of[0] + device.start0, device.size0);
    if (!once_in(&rng, 4))
        make_image(&rng, memory.of[0] + device.start, device.size);
    memcpy(memory.of[1], memory.of[0], device.memory_len);
    return device;
}

/* Opens a session in the slot, in normal form or not; or leaves numbers behind in a closed one. */
static void make_session(struct device *device)
{
    uint32_t length = (uint32_t)(once_in(&rng, 2) ? device->size : range(&rng, 1, device->size));
    uint32_t place = once_in(&rng, 5) ? length : (uint32_t)range(&rng, 1, length);
    bool tagged = once_in(&rng, 2);
    uint32_t session[4] = {1, length, place, tagged};
    if (once_in(&rng, 8)) {
        session[0] = (uint32_t)any(&rng) | 2;
        session[3] = tagged ? (uint32_t)any(&rng) | 2 : 0;
    }
    if (once_in(&rng, 4))
        session[0] = 0;
    memcpy(device->session, session, sizeof session);
    make_tag(&rng, device->tag);
    if (!tagged && !once_in(&rng, 4))
        memset(device->tag, 0, sizeof device->tag);
}

/* Makes a layout or a session record impossible, or nearly so. */
static void spoil_device(struct device *device)
{
    switch (below(&rng, 8)) {
    case 0:
        device->session[1] = once_in(&rng, 2) ? (uint32_t)device->size + 1 : (uint32_t)number(&rng);
        break;
    case 1:
        device->session[2] = once_in(&rng, 2) ? device->session[1] + 1 : (uint32_t)number(&rng);
        break;
    case 2:
        device->size = once_in(&rng, 2) ? device->size + 1 : (size_t)number(&rng);
        break;
    case 3:
        device->start = once_in(&rng, 2) ? (size_t)number(&rng) : 0 - device->size + below(&rng, 2);
        break;
    case 4:
        device->size0 = once_in(&rng, 2) ? (size_t)number(&rng) : 0 - device->start0 + below(&rng, 2);
        break;
    case 5:
        device->start0 = make_start0(device->start, device->size, device->size0);
        break;
    case 6:
        device->memory_len = below(&rng, device->memory_len + 1);
        lend(&memory, device->memory_len);
        break;
    default:
        for (size_t i = 0; i < 4; i++)
            device->session[i] = (uint32_t)number(&rng);
    }
}

/* Why a packet was refused 10: 0 for under 8 bytes, 1 for another length, 2 for over 65,533 bytes, 3 for what comes after these. */
static unsigned why_10(size_t length)
{
    if (length < 8)
        return 0;
    if (length != 8u + (packet[2] << 8 | packet[3]))
        return 1;
    return length > LONGEST ? 2 : 3;
}

/* The request has "off" with the number 0, in a head of any width. */
static bool at_zero(size_t length)
{
    static const uint8_t zeros[8];
    for (size_t at = 8; at + 4 <= length; at++) {
        if (memcmp(packet + at, "off", 3) != 0)
            continue;
        uint8_t head = packet[at + 3];
        size_t width = head >= 24 && head <= 27 ? (size_t)1 << (head - 24) : 0;
        return (head == 0 || width > 0) && at + 4 + width <= length && memcmp(packet + at + 4, zeros, width) == 0;
    }
    return false;
}

/* The outcome of an upload that was answered with success, by the session before and after. */
static enum outcome upload_outcome(const struct device *before, size_t length)
{
    const uint32_t *old = before->session, *new = lent[0].record;
    bool same = old[0] != 0 && old[1] == new[1] && old[2] == new[2];
    if (at_zero(length)) {
        if (same && old[3] != 0 && new[3] != 0 && memcmp(before->tag, lent[0].tag, sizeof before->tag) == 0)
            return UPLOAD_RESUMED;
        return new[3] != 0 ? UPLOAD_TAGGED : UPLOAD_BARE;
    }
    if (old[0] == 0)
        return UPLOAD_NONE;
    return same ? UPLOAD_TOLD : new[1] == new[2] ? UPLOAD_END : UPLOAD_ADDED;
}

/* The outcome of a state read, by its reply: an rc, or how many images it has, the first from which slot. */
static enum outcome list_outcome(const uint8_t *reply)
{
    if (reply[9] == 0x62)
        return reply[12] == 3 ? LIST_3 : LIST_7;
    if (reply[16] == 0x81)
        return reply[23] == 0 ? LIST_0 : LIST_1;
    return reply[16] == 0x80 ? LIST_NONE : LIST_BOTH;
}

/* The outcome of a request that was answered. */
static enum outcome answer_outcome(const struct device *before, size_t length)
{
    const uint8_t *reply = reply_buffer.of[0];
    uint32_t which = (uint32_t)packet[4] << 16 | (uint32_t)packet[5] << 8 | packet[7], rc = reply[12];
    if (which == 0)
        return reply[9] == 0x61 ? ECHO_TEXT : rc == 7 ? ECHO_7 : ECHO_3;
    if (packet[0] == 2 && which == 5)
        return rc == 0 ? RESET_DONE : RESET_3;
    if (packet[0] == 0 && which == 0x100)
        return list_outcome(reply);
    if (packet[0] == 2 && which == 0x105)
        return rc == 0 ? ERASE_DONE : ERASE_3;
    if (packet[0] != 2 || which != 0x101)
        return ASK_UNKNOWN;
    switch (rc) {
    case 2:
        return UPLOAD_2;
    case 3:
        return UPLOAD_3;
    case 6:
        return UPLOAD_6;
    case 8:
        return UPLOAD_8;
    default:
        return upload_outcome(before, length);
    }
}

/* Gives one request to both; the controller goes on with what it leaves. */
static void compare_request(struct device *device, size_t length)
{
    lend_numbers();
    for (int i = 0; i < 2; i++) {
        memcpy(lent[i].record, device->session, sizeof device->session);
        memcpy(lent[i].tag, device->tag, sizeof device->tag);
    }
    size_t room = once_in(&rng, 200) ? LONGEST + 9 : range(&rng, 32, once_in(&rng, 2) ? 60 : 400);
    lend(&reply_buffer, once_in(&rng, 16) ? below(&rng, 33) : room);
    const uint8_t *from = or_null(packet, length);
    const size_t layout[BG_LAYOUT] = {device->start0, device->size0, device->start, device->size};
    uint32_t said = bg_handle(layout, memory.of[0], memory.length, lent[0].record, lent[0].tag, from, length, reply_buffer.of[0],
                              reply_buffer.length, lent[0].answer);
    hold_numbers("handle", said,
                 plain_handle(layout, memory.of[1], memory.length, lent[1].record, lent[1].tag, from, length, reply_buffer.of[1],
                              reply_buffer.length, lent[1].answer));
    hold("handle", &memory);
    hold("handle", &reply_buffer);
    if (said == 0)
        met(answer_outcome(device, length));
    else if (said == 10)
        met(ASK_10_SHORT + why_10(length));
    else if (said == 11)
        met(ASK_11);
    else
        met(ASK_1_SLOT + why_1(layout, memory.length));
    if (said != 1) {
        memcpy(device->session, lent[0].record, sizeof device->session);
        memcpy(device->tag, lent[0].tag, sizeof device->tag);
    }
}

/* One request for any layout and session record, possible or not. */
static void check_request(void)
{
    struct device device = make_device();
    if (!once_in(&rng, 4))
        make_session(&device);
    size_t length = make_request(&rng, &device, packet);
    if (once_in(&rng, 8))
        spoil_device(&device);
    compare_request(&device, length);
}

/* A history of requests on one memory: chunks, repeats, resumes, restarts, erases, resets and damage. */
static void check_history(void)
{
    struct device device = make_device();
    size_t length = 0;
    for (size_t left = range(&rng, 4, 24); left > 0; left--) {
        if (length == 0 || !once_in(&rng, 5))
            length = make_request(&rng, &device, packet);
        compare_request(&device, length);
    }
}

/* An echo request written. */
static void check_echo(void)
{
    size_t length = once_in(&rng, 400) ? range(&rng, LONGEST - 20, LONGEST + 2) : once_in(&rng, 8) ? range(&rng, 250, 260) : below(&rng, 60);
    size_t head = length < 24 ? 1 : length <= 255 ? 2 : 3, whole = 8 + 3 + head + length;
    lend_numbers();
    lend(&out_buffer, once_in(&rng, 6) ? below(&rng, whole) : whole + below(&rng, 3));
    fill(&rng, body, length);
    const uint8_t *text = or_null(body, length);
    uint8_t sequence = (uint8_t)any(&rng);
    uint32_t said = bg_write_echo(sequence, text, length, out_buffer.of[0], out_buffer.length, &lent[0].one);
    hold_numbers("write_echo", said, plain_write_echo(sequence, text, length, out_buffer.of[1], out_buffer.length, &lent[1].one));
    hold("write_echo", &out_buffer);
    met(said == 0 ? ECHO_WRITTEN : whole > LONGEST ? ECHO_12_LONG : ECHO_12_ROOM);
}

/* Why an upload was not written, in the order of the refusals. */
static enum outcome why_12(size_t length, uint64_t off, uint64_t image, size_t tag_len)
{
    if (off > UINT32_MAX)
        return CHUNK_12_OFF;
    if (length == 0)
        return CHUNK_12_EMPTY;
    if (off == 0 && image == 0)
        return CHUNK_12_NONE;
    if (off == 0 && image > UINT32_MAX)
        return CHUNK_12_ABOVE;
    if (off == 0 && length > image)
        return CHUNK_12_DATA;
    if (off == 0 && tag_len != 0 && tag_len != 32)
        return CHUNK_12_TAG;
    return length > LONGEST - 90 ? CHUNK_12_LONG : CHUNK_12_ROOM;
}

/* An upload request written. */
static void check_upload(void)
{
    static const size_t tag_lens[] = {0, 0, 32, 32, 32, 1, 31, 33};
    uint8_t tag[33];
    size_t length = once_in(&rng, 400) ? range(&rng, LONGEST - 70, LONGEST + 2) : below(&rng, once_in(&rng, 4) ? 300 : 30);
    uint64_t off = once_in(&rng, 2) ? 0 : number(&rng), image = once_in(&rng, 3) ? number(&rng) : length + below(&rng, 100);
    size_t tag_len = tag_lens[below(&rng, 8)];
    lend_numbers();
    lend(&out_buffer, length + (once_in(&rng, 4) ? below(&rng, 90) : 90));
    fill(&rng, body, length);
    fill(&rng, tag, sizeof tag);
    const uint8_t *data = or_null(body, length), *mark = or_null(tag, tag_len);
    uint8_t sequence = (uint8_t)any(&rng);
    uint32_t said = bg_write_upload(sequence, data, length, off, image, mark, tag_len, out_buffer.of[0], out_buffer.length, &lent[0].one);
    hold_numbers("write_upload", said,
                 plain_write_upload(sequence, data, length, off, image, mark, tag_len, out_buffer.of[1], out_buffer.length, &lent[1].one));
    hold("write_upload", &out_buffer);
    met(said != 0 ? why_12(length, off, image, tag_len) : off != 0 ? CHUNK_LATER : tag_len != 0 ? CHUNK_TAGGED : CHUNK_BARE);
}

/* A packet read as a reply. */
static void check_reply(void)
{
    size_t length = make_reply(&rng, packet);
    const uint8_t *from = or_null(packet, length);
    lend_numbers();
    uint32_t said = bg_read_reply(from, length, lent[0].reply), *reply = lent[0].reply;
    hold_numbers("read_reply", said, plain_read_reply(from, length, lent[1].reply));
    if (said != 0)
        met(why_10(length) < 3 ? READ_10_SHORT + why_10(length) : packet[0] == 1 || packet[0] == 3 ? READ_10_MAP : READ_10_OP);
    else
        met(reply[9] ? READ_TEXT : reply[7] ? READ_OFF : reply[6] ? READ_RC : READ_NOTHING);
}

/* The sequence number after any. */
static void check_sequence(void)
{
    uint8_t sequence = (uint8_t)any(&rng);
    if (bg_next_sequence(sequence) != plain_next_sequence(sequence))
        differ("next_sequence", "the answer");
    compared++;
    met(SEQUENCE);
}

/* Adds a record of the line to the file, unless that is full; gives the file's length then. */
static size_t put_record(size_t at, size_t length)
{
    if (at + 3 + length + 8 > FILE_MAX)
        return at;
    file[at] = once_in(&rng, 6) ? BG_FROM_CONTROLLER : BG_TO_CONTROLLER;
    file[at + 1] = (uint8_t)(length >> 8);
    file[at + 2] = (uint8_t)length;
    memcpy(file + at + 3, line, length);
    return at + 3 + length;
}

/* Adds a record to the file for each frame of a request to the bench; gives the file's length then, and counts the records. */
static size_t put_request(size_t at, size_t *number)
{
    const struct device device = {BG_BENCH_MEMORY, 0, BG_BENCH_MEMORY / 2, BG_BENCH_MEMORY / 2, BG_BENCH_MEMORY / 2, {0}, {0}};
    size_t length = make_request(&rng, &device, packet);
    uint32_t sent[2] = {0, 1};
    if (length > REQUEST_MOST)
        return at;
    for (uint32_t k = 0; k < sent[1] && bg_send_frame(packet, length, k, line, BG_LINE, sent) == 0; k++) {
        size_t next = put_record(at, once_in(&rng, 12) ? damage_line(&rng, line, sent[0]) : sent[0]);
        *number += next > at;
        at = next;
    }
    return at;
}

/* Makes a recording of requests and of any lines, behind a preface, now and then spoilt; gives its length. */
static size_t make_recording(void)
{
    size_t first = once_in(&rng, 3) ? below(&rng, 30) : 0, at = first, number = 0;
    fill(&rng, file, first);
    for (size_t left = below(&rng, 6); left > 0; left--) {
        if (once_in(&rng, 2)) {
            at = put_request(at, &number);
        } else {
            size_t next = put_record(at, make_line(&rng, line));
            number += next > at;
            at = next;
        }
    }
    size_t distance = at - first + (once_in(&rng, 16) ? range(&rng, 0, 2) - 1 : 0);
    number += once_in(&rng, 16) ? range(&rng, 0, 2) - 1 : 0;
    for (int i = 0; i < 4; i++) {
        file[at + i] = (uint8_t)(distance >> (24 - 8 * i));
        file[at + 4 + i] = (uint8_t)(number >> (24 - 8 * i));
    }
    at += 8;
    if (once_in(&rng, 12))
        file[below(&rng, at)] ^= (uint8_t)(1 << below(&rng, 8));
    return once_in(&rng, 16) ? below(&rng, at) : at;
}

/* A recording replayed on a bench with anything on it, and its transcript. */
static void check_replay(void)
{
    size_t length = make_recording(), first[BG_FIRST] = {0, 0};
    bool whole = bg_first_record(file, length, first) == 0;
    size_t numbers = BG_ANSWER * first[BG_FIRST_NUMBER] + range(&rng, 0, 3);
    numbers -= once_in(&rng, 6) && numbers > 0;
    numbers = numbers < BG_ANSWER * ANSWERS_MAX ? numbers : BG_ANSWER * ANSWERS_MAX;
    lend_numbers();
    lend(&memory, BG_BENCH_MEMORY);
    lend(&packet_buffer, BG_BENCH_BUFFER);
    lend(&reply_buffer, BG_BENCH_BUFFER);
    lend(&answer_buffer, numbers * sizeof(uint32_t));
    uint32_t said[2];
    for (int i = 0; i < 2; i++)
        said[i] = (i == 0 ? bg_replay : plain_replay)(file, length, memory.of[i], lent[i].record, lent[i].tag, lent[i].reply,
                                                      packet_buffer.of[i], reply_buffer.of[i], (uint32_t *)answer_buffer.of[i], numbers,
                                                      &lent[i].count);
    hold_numbers("replay", said[0], said[1]);
    hold("replay", &memory);
    hold("replay", &packet_buffer);
    hold("replay", &reply_buffer);
    hold("replay", &answer_buffer);
    if (said[0] != 0)
        met(whole ? REPLAY_12_ANSWERS : REPLAY_12_FILE);
    else
        met(lent[0].count == 0 ? REPLAY_NONE : lent[0].record[0] != 0 ? REPLAY_OPEN : REPLAY_CLOSED);
}

/* The transcript of any numbers, with an output that may be too short. */
static void check_transcript(void)
{
    size_t count = below(&rng, 13), numbers = BG_ANSWER * count + range(&rng, 0, 2);
    lend_numbers();
    lend(&answer_buffer, numbers * sizeof(uint32_t));
    uint32_t *answers = (uint32_t *)answer_buffer.of[0];
    for (size_t i = 0; i < numbers; i++)
        answers[i] = i % BG_ANSWER == 1 ? (uint32_t)below(&rng, 3) : (uint32_t)number(&rng);
    memcpy(answer_buffer.of[1], answers, numbers * sizeof *answers);
    lent[0].record[0] = lent[1].record[0] = (uint32_t)below(&rng, 3);
    lent[0].record[2] = lent[1].record[2] = (uint32_t)number(&rng);
    bool few = once_in(&rng, 8);
    if (few)
        count = once_in(&rng, 2) ? count + 1 : (size_t)number(&rng) + numbers;
    lend(&out_buffer, below(&rng, 43 * (numbers / BG_ANSWER) + 20));
    uint32_t said[2];
    for (int i = 0; i < 2; i++)
        said[i] = (i == 0 ? bg_write_transcript : plain_write_transcript)((const uint32_t *)answer_buffer.of[i], numbers, count,
                                                                          lent[i].record, out_buffer.of[i], out_buffer.length,
                                                                          &lent[i].count);
    hold_numbers("write_transcript", said[0], said[1]);
    hold("write_transcript", &out_buffer);
    hold("write_transcript", &answer_buffer);
    if (said[0] != 0)
        met(few && numbers / BG_ANSWER < count ? TEXT_12_ANSWERS : TEXT_12_ROOM);
    else
        met(lent[0].record[0] == 0 ? TEXT_NONE : TEXT_PLACE);
}

/* The checks; one that stands more than once is made as often. */
static void (*const checks[])(void) = {
    check_step, check_lumps, check_line, check_line, check_packet, check_send, check_configure, check_request, check_request,
    check_request, check_history, check_echo, check_upload, check_upload, check_reply, check_reply, check_reply, check_sequence,
    check_replay, check_transcript,
};

/* Makes the rounds and prints what was met. */
int main(int argc, char **argv)
{
    if (argc != 3) {
        puts("usage: peer SEED ROUNDS");
        return 2;
    }
    seed = strtoull(argv[1], NULL, 10);
    uint64_t rounds = strtoull(argv[2], NULL, 10);
    memory = twin_of(MEMORY_MAX);
    packet_buffer = twin_of(PACKET_MAX + 16);
    reply_buffer = twin_of(PACKET_MAX);
    out_buffer = twin_of(PACKET_MAX + 128);
    held_buffer = twin_of(BG_HELD);
    answer_buffer = twin_of(BG_ANSWER * ANSWERS_MAX * sizeof(uint32_t));
    for (round_number = 0; round_number < rounds; round_number++) {
        rng = rng_of(seed * 1000003 + round_number);
        checks[below(&rng, sizeof checks / sizeof *checks)]();
    }
    int never = 0;
    for (int i = 0; i < OUTCOME_COUNT; i++) {
        printf("%12lu  %s\n", times_met[i], outcome_name[i]);
        never += times_met[i] == 0;
    }
    printf("peer: %lu comparisons, no difference, %d of %d kinds of outcome never met\n", compared, never, OUTCOME_COUNT);
    return never > 0;
}
