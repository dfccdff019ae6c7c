/* Recordings, their replay and its transcript in plain C: see plain.h. */
#include "plain.h"

#include <stdbool.h>
#include <string.h>

enum { TRAILER = 8, HEAD = 3, TO_CONTROLLER = 0x3E, FROM_CONTROLLER = 0x3C, MEMORY = 8192, BUFFER = 1024, NUMBERS = 4 };

/* A number of 4 bytes, the high one first. */
static inline size_t number32(const uint8_t *at)
{
    return (size_t)at[0] << 24 | (size_t)at[1] << 16 | (size_t)at[2] << 8 | at[3];
}

/* The length of the record at a place before an end, head and line; 0 where there is none. */
static inline size_t record_at(const uint8_t *file, size_t at, size_t end)
{
    if (end - at < HEAD || (file[at] != TO_CONTROLLER && file[at] != FROM_CONTROLLER))
        return 0;
    size_t length = HEAD + ((size_t)file[at + 1] << 8 | file[at + 2]);
    return length <= end - at ? length : 0;
}

/* Finds the first record of a recording; false where it is none. */
static bool first_record(const uint8_t *file, size_t file_len, size_t *first, size_t *number)
{
    if (file_len < TRAILER)
        return false;
    size_t end = file_len - TRAILER, distance = number32(file + end), count = 0, length;
    if (distance > end)
        return false;
    *first = end - distance;
    *number = number32(file + end + 4);
    for (size_t at = *first; at < end; at += length) {
        length = record_at(file, at, end);
        if (length == 0)
            return false;
        count++;
    }
    return count == *number;
}

/* Replays a recording on a bench that begins anew. */
uint32_t plain_replay(const uint8_t *file, size_t file_len, uint8_t memory[8192], uint32_t session[4], uint8_t tag[32], uint32_t reader[4],
                      uint8_t packet[1024], uint8_t reply[1024], uint32_t *answers, size_t answers_len, size_t *count)
{
    static const size_t layout[4] = {0, MEMORY / 2, MEMORY / 2, MEMORY / 2};
    size_t first, number, lines = 0, length;
    if (!first_record(file, file_len, &first, &number) || answers_len / NUMBERS < number)
        return 12;
    memset(memory, 255, MEMORY);
    memset(session, 0, 4 * sizeof *session);
    memset(tag, 0, 32);
    memset(reader, 0, 4 * sizeof *reader);
    for (size_t at = first; at < file_len - TRAILER; at += length) {
        length = HEAD + ((size_t)file[at + 1] << 8 | file[at + 2]);
        if (file[at] != TO_CONTROLLER)
            continue;
        uint32_t body = 0, answer[2], numbers[12] = {0}, *to = answers + NUMBERS * lines++;
        to[1] = to[2] = to[3] = 0;
        to[0] = plain_take_line(reader, file + at + HEAD, length - HEAD, packet, BUFFER, &body, &to[3]);
        if (to[0] != 0 || body == 0)
            continue;
        to[0] = plain_handle(layout, memory, MEMORY, session, tag, packet, body, reply, BUFFER, answer);
        if (to[0] != 0)
            continue;
        to[1] = 1;
        plain_read_reply(reply, answer[0], numbers);
        to[2] = numbers[6];
    }
    *count = lines;
    return 0;
}

/* How many digits a number has. */
static inline size_t digits(size_t number)
{
    size_t count = 1;
    for (; number >= 10; number /= 10)
        count++;
    return count;
}

/* The length of an answer's line, of this number. */
static size_t line_length(size_t k, const uint32_t answer[NUMBERS])
{
    return digits(k) + 1 + digits(answer[0]) + 1 + (answer[1] != 0 ? digits(answer[2]) : 1) + 1;
}

/* Writes a number and a byte behind it; gives the place after them. */
static uint8_t *put_number(uint8_t *to, size_t number, uint8_t behind)
{
    uint8_t *end = to + digits(number);
    uint8_t *at = end;
    do {
        *--at = (uint8_t)('0' + number % 10);
        number /= 10;
    } while (at > to);
    *end = behind;
    return end + 1;
}

/* Writes the transcript of the first answers and of the session at the end. */
uint32_t plain_write_transcript(const uint32_t *answers, size_t answers_len, size_t count, const uint32_t session[4], uint8_t *out,
                                size_t out_len, size_t *text_len)
{
    size_t length = 4 + (session[0] != 0 ? digits(session[2]) : 4) + 1;
    if (answers_len / NUMBERS < count)
        return 12;
    for (size_t k = 0; k < count; k++)
        length += line_length(k, answers + NUMBERS * k);
    if (out_len < length)
        return 12;
    uint8_t *to = out;
    for (size_t k = 0; k < count; k++) {
        const uint32_t *answer = answers + NUMBERS * k;
        to = put_number(to, k, ' ');
        to = put_number(to, answer[0], ' ');
        if (answer[1] != 0) {
            to = put_number(to, answer[2], '\n');
        } else {
            memcpy(to, "-\n", 2);
            to += 2;
        }
    }
    memcpy(to, "end ", 4);
    if (session[0] != 0)
        put_number(to + 4, session[2], '\n');
    else
        memcpy(to + 4, "none\n", 5);
    *text_len = length;
    return 0;
}
