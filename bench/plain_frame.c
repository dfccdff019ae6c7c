/* The frame path in plain C: see plain.h. */
#include "plain.h"

#include <stdbool.h>
#include <string.h>

enum { LUMP = 256, HELD = 126, LINE = 127, RAW = 93, BODY_MIN = 8, BODY_MAX = 65533, ONE_FRAME = 89, FIRST = 91 };

static const uint16_t crc_table[256] = {
    0x0000, 0x1021, 0x2042, 0x3063, 0x4084, 0x50A5, 0x60C6, 0x70E7, 0x8108, 0x9129, 0xA14A, 0xB16B,
    0xC18C, 0xD1AD, 0xE1CE, 0xF1EF, 0x1231, 0x0210, 0x3273, 0x2252, 0x52B5, 0x4294, 0x72F7, 0x62D6,
    0x9339, 0x8318, 0xB37B, 0xA35A, 0xD3BD, 0xC39C, 0xF3FF, 0xE3DE, 0x2462, 0x3443, 0x0420, 0x1401,
    0x64E6, 0x74C7, 0x44A4, 0x5485, 0xA56A, 0xB54B, 0x8528, 0x9509, 0xE5EE, 0xF5CF, 0xC5AC, 0xD58D,
    0x3653, 0x2672, 0x1611, 0x0630, 0x76D7, 0x66F6, 0x5695, 0x46B4, 0xB75B, 0xA77A, 0x9719, 0x8738,
    0xF7DF, 0xE7FE, 0xD79D, 0xC7BC, 0x48C4, 0x58E5, 0x6886, 0x78A7, 0x0840, 0x1861, 0x2802, 0x3823,
    0xC9CC, 0xD9ED, 0xE98E, 0xF9AF, 0x8948, 0x9969, 0xA90A, 0xB92B, 0x5AF5, 0x4AD4, 0x7AB7, 0x6A96,
    0x1A71, 0x0A50, 0x3A33, 0x2A12, 0xDBFD, 0xCBDC, 0xFBBF, 0xEB9E, 0x9B79, 0x8B58, 0xBB3B, 0xAB1A,
    0x6CA6, 0x7C87, 0x4CE4, 0x5CC5, 0x2C22, 0x3C03, 0x0C60, 0x1C41, 0xEDAE, 0xFD8F, 0xCDEC, 0xDDCD,
    0xAD2A, 0xBD0B, 0x8D68, 0x9D49, 0x7E97, 0x6EB6, 0x5ED5, 0x4EF4, 0x3E13, 0x2E32, 0x1E51, 0x0E70,
    0xFF9F, 0xEFBE, 0xDFDD, 0xCFFC, 0xBF1B, 0xAF3A, 0x9F59, 0x8F78, 0x9188, 0x81A9, 0xB1CA, 0xA1EB,
    0xD10C, 0xC12D, 0xF14E, 0xE16F, 0x1080, 0x00A1, 0x30C2, 0x20E3, 0x5004, 0x4025, 0x7046, 0x6067,
    0x83B9, 0x9398, 0xA3FB, 0xB3DA, 0xC33D, 0xD31C, 0xE37F, 0xF35E, 0x02B1, 0x1290, 0x22F3, 0x32D2,
    0x4235, 0x5214, 0x6277, 0x7256, 0xB5EA, 0xA5CB, 0x95A8, 0x8589, 0xF56E, 0xE54F, 0xD52C, 0xC50D,
    0x34E2, 0x24C3, 0x14A0, 0x0481, 0x7466, 0x6447, 0x5424, 0x4405, 0xA7DB, 0xB7FA, 0x8799, 0x97B8,
    0xE75F, 0xF77E, 0xC71D, 0xD73C, 0x26D3, 0x36F2, 0x0691, 0x16B0, 0x6657, 0x7676, 0x4615, 0x5634,
    0xD94C, 0xC96D, 0xF90E, 0xE92F, 0x99C8, 0x89E9, 0xB98A, 0xA9AB, 0x5844, 0x4865, 0x7806, 0x6827,
    0x18C0, 0x08E1, 0x3882, 0x28A3, 0xCB7D, 0xDB5C, 0xEB3F, 0xFB1E, 0x8BF9, 0x9BD8, 0xABBB, 0xBB9A,
    0x4A75, 0x5A54, 0x6A37, 0x7A16, 0x0AF1, 0x1AD0, 0x2AB3, 0x3A92, 0xFD2E, 0xED0F, 0xDD6C, 0xCD4D,
    0xBDAA, 0xAD8B, 0x9DE8, 0x8DC9, 0x7C26, 0x6C07, 0x5C64, 0x4C45, 0x3CA2, 0x2C83, 0x1CE0, 0x0CC1,
    0xEF1F, 0xFF3E, 0xCF5D, 0xDF7C, 0xAF9B, 0xBFBA, 0x8FD9, 0x9FF8, 0x6E17, 0x7E36, 0x4E55, 0x5E74,
    0x2E93, 0x3EB2, 0x0ED1, 0x1EF0,
};

/* The value of each Base64 character; 64 for all other bytes. */
static const uint8_t base64_value[256] = {
    64, 64, 64, 64, 64, 64, 64, 64, 64, 64, 64, 64, 64, 64, 64, 64,
    64, 64, 64, 64, 64, 64, 64, 64, 64, 64, 64, 64, 64, 64, 64, 64,
    64, 64, 64, 64, 64, 64, 64, 64, 64, 64, 64, 62, 64, 64, 64, 63,
    52, 53, 54, 55, 56, 57, 58, 59, 60, 61, 64, 64, 64, 64, 64, 64,
    64,  0,  1,  2,  3,  4,  5,  6,  7,  8,  9, 10, 11, 12, 13, 14,
    15, 16, 17, 18, 19, 20, 21, 22, 23, 24, 25, 64, 64, 64, 64, 64,
    64, 26, 27, 28, 29, 30, 31, 32, 33, 34, 35, 36, 37, 38, 39, 40,
    41, 42, 43, 44, 45, 46, 47, 48, 49, 50, 51, 64, 64, 64, 64, 64,
    64, 64, 64, 64, 64, 64, 64, 64, 64, 64, 64, 64, 64, 64, 64, 64,
    64, 64, 64, 64, 64, 64, 64, 64, 64, 64, 64, 64, 64, 64, 64, 64,
    64, 64, 64, 64, 64, 64, 64, 64, 64, 64, 64, 64, 64, 64, 64, 64,
    64, 64, 64, 64, 64, 64, 64, 64, 64, 64, 64, 64, 64, 64, 64, 64,
    64, 64, 64, 64, 64, 64, 64, 64, 64, 64, 64, 64, 64, 64, 64, 64,
    64, 64, 64, 64, 64, 64, 64, 64, 64, 64, 64, 64, 64, 64, 64, 64,
    64, 64, 64, 64, 64, 64, 64, 64, 64, 64, 64, 64, 64, 64, 64, 64,
    64, 64, 64, 64, 64, 64, 64, 64, 64, 64, 64, 64, 64, 64, 64, 64,
};

static const char base64_character[] = "ABCDEFGHIJKLMNOPQRSTUVWXYZabcdefghijklmnopqrstuvwxyz0123456789+/";

/* The CRC after more bytes. */
uint16_t plain_crc(uint16_t crc, const uint8_t *bytes, size_t length)
{
    for (size_t i = 0; i < length; i++)
        crc = (uint16_t)(crc << 8 ^ crc_table[(crc >> 8 ^ bytes[i]) & 0xFF]);
    return crc;
}

/* Decodes a text to raw, which has room for three bytes to each four characters; returns their number, or where it is not well formed -1 less
 * a place before which all groups are good. */
int plain_decode(const uint8_t *text, size_t length, uint8_t *raw)
{
    uint8_t *to = raw;
    size_t at;

    if (length == 0 || length % 4 != 0)
        return -1;
    for (at = 0; at + 4 < length; at += 4) {
        uint8_t a = base64_value[text[at]], b = base64_value[text[at + 1]], c = base64_value[text[at + 2]], d = base64_value[text[at + 3]];
        if ((a | b | c | d) & 64)
            return -1 - (int)at;
        *to++ = (uint8_t)(a << 2 | b >> 4);
        *to++ = (uint8_t)(b << 4 | c >> 2);
        *to++ = (uint8_t)(c << 6 | d);
    }
    /* The last group may end in one or two '='. */
    uint8_t a = base64_value[text[at]], b = base64_value[text[at + 1]], c = base64_value[text[at + 2]], d = base64_value[text[at + 3]];
    if ((a | b) & 64)
        return -1 - (int)at;
    *to++ = (uint8_t)(a << 2 | b >> 4);
    if (text[at + 3] != '=') {
        if ((c | d) & 64)
            return -1 - (int)at;
        *to++ = (uint8_t)(b << 4 | c >> 2);
        *to++ = (uint8_t)(c << 6 | d);
    } else if (text[at + 2] != '=') {
        if (c & 64 || c & 3)
            return -1 - (int)at;
        *to++ = (uint8_t)(b << 4 | c >> 2);
    } else if (b & 15) {
        return -1 - (int)at;
    }
    return (int)(to - raw);
}

/* The first place of a text that is not well formed at which no well-formed text can begin with what stands up to there, or its length where it
 * is only too short; all groups before the place given are good. */
size_t plain_fault(const uint8_t *text, size_t length, size_t from)
{
    size_t at = from;
    while (at < length && base64_value[text[at]] != 64)
        at++;
    size_t column = at % 4;
    if (at == length || text[at] != '=' || column < 2 || base64_value[text[at - 1]] & (column == 2 ? 15 : 3))
        return at;
    /* The '=' is good, and so is a second one behind it. */
    at++;
    return column == 2 && at < length && text[at] == '=' ? at + 1 : at;
}

/* Encodes raw bytes to a text, which has room for four characters to each three bytes begun; returns their number. */
size_t plain_encode(const uint8_t *raw, size_t length, uint8_t *text)
{
    uint8_t *to = text;
    size_t at;

    for (at = 0; at + 3 <= length; at += 3) {
        uint32_t group = (uint32_t)raw[at] << 16 | (uint32_t)raw[at + 1] << 8 | raw[at + 2];
        *to++ = (uint8_t)base64_character[group >> 18];
        *to++ = (uint8_t)base64_character[group >> 12 & 63];
        *to++ = (uint8_t)base64_character[group >> 6 & 63];
        *to++ = (uint8_t)base64_character[group & 63];
    }
    if (at + 1 == length) {
        *to++ = (uint8_t)base64_character[raw[at] >> 2];
        *to++ = (uint8_t)base64_character[raw[at] << 4 & 63];
        *to++ = '=';
        *to++ = '=';
    } else if (at + 2 == length) {
        *to++ = (uint8_t)base64_character[raw[at] >> 2];
        *to++ = (uint8_t)base64_character[(raw[at] << 4 | raw[at + 1] >> 4) & 63];
        *to++ = (uint8_t)base64_character[raw[at + 1] << 2 & 63];
        *to++ = '=';
    }
    return (size_t)(to - text);
}

/* Makes the collector's record and bytes all 0, but for whether it skips. */
static void clear(uint32_t collector[2], uint8_t held[126], bool skipping)
{
    collector[0] = 0;
    collector[1] = skipping;
    memset(held, 0, HELD);
}

/* Goes one step through a lump: to the end of the next line, or to the lump's end. */
uint32_t plain_collect(uint32_t collector[2], uint8_t held[126], const uint8_t *lump, size_t lump_len, size_t at, uint8_t line[127],
                       uint32_t got[2])
{
    uint32_t count = collector[0];
    bool skipping = collector[1] != 0;
    if (count > HELD || memchr(held, 0x0A, count) != NULL)
        return 1;
    if (lump_len > LUMP)
        return 12;

    const uint8_t *end = at < lump_len ? memchr(lump + at, 0x0A, lump_len - at) : NULL;
    size_t place = end != NULL ? (size_t)(end - lump) : lump_len, come = at < lump_len ? place - at : 0;
    bool too_long = skipping || count + come > HELD;
    got[0] = 0;
    got[1] = (uint32_t)place;
    if (end == NULL) {
        collector[1] = too_long;
        if (too_long && !skipping) {
            clear(collector, held, true);
        } else if (!skipping && come > 0) {
            memcpy(held + count, lump + at, come);
            collector[0] = count + (uint32_t)come;
        }
        return 0;
    }
    got[1]++;
    if (!too_long) {
        memcpy(line, held, count);
        memcpy(line + count, lump + at, come + 1);
        got[0] = count + (uint32_t)come + 1;
    }
    clear(collector, held, false);
    return too_long ? 2 : 0;
}

/* Makes the record idle and passes a refusal on. */
static uint32_t drop(uint32_t reader[4], uint32_t refusal)
{
    memset(reader, 0, 4 * sizeof reader[0]);
    return refusal;
}

/* A frame's body and CRC bytes, and the packet that they belong to: its total, the bytes come before, the first CRC byte where it came. */
struct frame {
    uint32_t total, come, first, count;
    const uint8_t *bytes;
};

/* The packet that an initial frame begins; returns 0, or refusal 6. */
static uint32_t begin(struct frame *frame)
{
    if (frame->count < 2)
        return 6;
    frame->total = (uint32_t)frame->bytes[0] << 8 | frame->bytes[1];
    frame->come = 0;
    frame->first = 0;
    frame->bytes += 2;
    frame->count -= 2;
    return frame->total < BODY_MIN + 2 ? 6 : 0;
}

/* The packet that a partial frame goes on with; returns 0, or refusal 5. */
static uint32_t resume(struct frame *frame, const uint32_t reader[4])
{
    frame->total = reader[1];
    frame->come = reader[2];
    frame->first = reader[3];
    if (reader[0] == 0 || frame->total < BODY_MIN + 2 || frame->total > BODY_MAX + 2)
        return 5;
    return frame->come >= frame->total || frame->first > 255 ? 5 : 0;
}

/* Puts a frame's bytes to the packet and the record; returns 0 with the body's length where it is complete, else 0, or refusal 7, 8 or 9. */
static uint32_t add(const struct frame *frame, uint32_t reader[4], uint8_t *packet, size_t packet_len, uint32_t *body)
{
    const uint8_t *bytes = frame->bytes;
    uint32_t total = frame->total, body_len = total - 2, come = frame->come + frame->count;
    if (body_len > packet_len)
        return drop(reader, 7);
    if (frame->count > total - frame->come)
        return drop(reader, 8);

    /* How many of this frame's bytes are the body's; the rest, at most two, are the CRC's. */
    uint32_t place = frame->come < body_len ? frame->come : body_len;
    uint32_t carried = frame->count < body_len - place ? frame->count : body_len - place;
    if (come == total) {
        uint32_t first = frame->count - carried == 2 ? bytes[carried] : frame->first;
        uint16_t own = plain_crc(plain_crc(0, packet, place), bytes, carried);
        if (own != (first << 8 | bytes[frame->count - 1]))
            return drop(reader, 9);
    }
    memcpy(packet + place, bytes, carried);
    if (come == total) {
        *body = body_len;
        return drop(reader, 0);
    }
    reader[0] = 1;
    reader[1] = total;
    reader[2] = come;
    reader[3] = come == total - 1 ? bytes[carried] : 0;
    *body = 0;
    return 0;
}

/* Takes one line. */
uint32_t plain_take_line(uint32_t reader[4], const uint8_t *line, size_t line_len, uint8_t *packet, size_t packet_len, uint32_t *body,
                         uint32_t *place)
{
    uint8_t raw[RAW];
    if (line_len > LINE)
        return 2;
    if (line_len < 3 || line[line_len - 1] != 0x0A)
        return 3;
    bool initial = line[0] == 0x06 && line[1] == 0x09;
    if (!initial && !(line[0] == 0x04 && line[1] == 0x14))
        return 3;

    int length = plain_decode(line + 2, line_len - 3, raw);
    if (length < 0) {
        *place = (uint32_t)(2 + plain_fault(line + 2, line_len - 3, (size_t)(-1 - length)));
        return drop(reader, 4);
    }
    struct frame frame = {.count = (uint32_t)length, .bytes = raw};
    if (initial && begin(&frame) != 0)
        return drop(reader, 6);
    if (!initial && resume(&frame, reader) != 0)
        return 5;
    return add(&frame, reader, packet, packet_len, body);
}

/* The number of frames that a body is cut into. */
static size_t frame_count(size_t body_len)
{
    if (body_len <= ONE_FRAME)
        return 1;
    if (body_len <= 2 * FIRST)
        return 2;
    return 2 + (body_len - 2 * FIRST + RAW - 1) / RAW;
}

/* Writes one frame of a body. */
uint32_t plain_send_frame(const uint8_t *body, size_t body_len, size_t k, uint8_t *out, size_t out_len, uint32_t sent[2])
{
    uint8_t raw[RAW];
    size_t used = 0, place, carried;

    if (out_len < LINE || body_len < BODY_MIN || body_len > BODY_MAX)
        return 12;
    size_t count = frame_count(body_len);
    if (k >= count)
        return 13;

    if (k == 0) {
        raw[used++] = (uint8_t)((body_len + 2) >> 8);
        raw[used++] = (uint8_t)(body_len + 2);
        place = 0;
        carried = FIRST;
    } else {
        place = FIRST + (k - 1) * RAW;
        carried = RAW;
    }
    if (place > body_len)
        place = body_len;
    if (carried > body_len - place)
        carried = body_len - place;
    memcpy(raw + used, body + place, carried);
    used += carried;
    if (k == count - 1) {
        uint16_t own = plain_crc(0, body, body_len);
        raw[used++] = (uint8_t)(own >> 8);
        raw[used++] = (uint8_t)own;
    }

    out[0] = k == 0 ? 0x06 : 0x04;
    out[1] = k == 0 ? 0x09 : 0x14;
    size_t length = 2 + plain_encode(raw, used, out + 2);
    out[length++] = 0x0A;
    sent[0] = (uint32_t)length;
    sent[1] = (uint32_t)count;
    return 0;
}
