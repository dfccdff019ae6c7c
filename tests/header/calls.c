/* Calls every function of belagunthi.h once or more through the archive, with small known cases; both C99 and
 * C++11. */
#include "belagunthi.h"
#include "belagunthi.h"

#include <stdio.h>
#include <string.h>

static unsigned checks = 0;
static unsigned bad = 0;

/* Counts a check, and says which one failed. */
static void check(int held, const char *what)
{
    checks++;
    if (!held) {
        bad++;
        printf("header: wrong: %s\n", what);
    }
}

/* Says whether bytes are those wanted. */
static int same(const void *bytes, const void *wanted, size_t len)
{
    return memcmp(bytes, wanted, len) == 0;
}

/* Collects a line from two lumps and one that is too long from one, and what a collector refuses. */
static void check_collector(void)
{
    const uint8_t empty[BG_HELD] = {0};
    uint8_t held[BG_HELD] = {0};
    uint8_t lump[BG_LUMP + 1];
    uint8_t line[BG_LINE];
    uint32_t collector[BG_COLLECTOR] = {0, 0};
    uint32_t got[2] = {7, 7};

    memset(line, 0xEE, sizeof line);
    check(bg_collect(collector, held, (const uint8_t *)"ab", 2, 0, line, got) == 0, "a lump without an 0A is taken");
    check(got[0] == 0 && got[1] == 2 && collector[BG_COLLECTOR_COUNT] == 2 && same(held, "ab", 3) && line[0] == 0xEE,
          "its bytes are held");
    check(bg_collect(collector, held, (const uint8_t *)"c\nd", 3, 0, line, got) == 0, "a lump with an 0A is taken");
    check(got[0] == 4 && got[1] == 2 && same(line, "abc\n\356", 5), "the line of both lumps");
    check(collector[BG_COLLECTOR_COUNT] == 0 && same(held, empty, BG_HELD), "the collector is empty behind its line");
    check(bg_collect(collector, held, (const uint8_t *)"c\nd", 3, 2, line, got) == 0 && got[0] == 0 && got[1] == 3
              && held[0] == 'd',
          "the lump's other bytes are held");

    memset(lump, 'x', sizeof lump);
    check(bg_collect(collector, held, lump, BG_LUMP + 1, 0, line, got) == 12, "a lump of 257 bytes is refused 12");
    check(got[1] == 3 && collector[BG_COLLECTOR_COUNT] == 1 && held[1] == 0, "a refused lump leaves all");
    check(bg_collect(collector, held, lump, BG_LUMP, 0, line, got) == 0 && collector[BG_COLLECTOR_SKIPPING] == 1
              && collector[BG_COLLECTOR_COUNT] == 0 && same(held, empty, BG_HELD),
          "a line that is too long is skipped");
    check(bg_collect(collector, held, NULL, 0, 0, line, got) == 0 && got[1] == 0 && collector[BG_COLLECTOR_SKIPPING] == 1,
          "an empty lump changes nothing");
    check(bg_collect(collector, held, (const uint8_t *)"x\nd", 3, 0, line, got) == 2 && got[0] == 0 && got[1] == 2
              && collector[BG_COLLECTOR_SKIPPING] == 0 && line[0] == 'a',
          "its 0A is refused 2");
    collector[BG_COLLECTOR_COUNT] = BG_HELD + 1;
    check(bg_collect(collector, held, lump, BG_LUMP + 1, 0, line, got) == 1 && got[1] == 2,
          "a record of 127 held bytes is refused 1");
}

/* Sends a body of eight zero bytes, and refuses what cannot be sent. */
static void check_sender(void)
{
    const uint8_t body[90] = {0};
    uint8_t out[BG_LINE + 1];
    uint32_t sent[2] = {7, 7};

    memset(out, 0xEE, sizeof out);
    check(bg_send_frame(body, 8, 0, out, BG_LINE - 1, sent) == 12, "a frame in 126 bytes is refused 12");
    check(bg_send_frame(body, 7, 0, out, BG_LINE, sent) == 12, "a body of 7 bytes is refused 12");
    check(bg_send_frame(NULL, 0, 0, out, BG_LINE, sent) == 12, "a body of 0 bytes is refused 12");
    check(bg_send_frame(body, 8, 1, out, BG_LINE, sent) == 13, "frame 1 of 1 is refused 13");
    check(sent[0] == 7 && sent[1] == 7 && out[0] == 0xEE, "a refused frame leaves all");
    check(bg_send_frame(body, 8, 0, out, BG_LINE, sent) == 0, "eight zero bytes are sent");
    check(sent[0] == 19 && sent[1] == 1, "eight zero bytes are one line of 19 bytes");
    check(same(out, "\006\011AAoAAAAAAAAAAAAA\n\356", 20), "the line of eight zero bytes");
    check(bg_send_frame(body, 88, 0, out, sizeof out, sent) == 0 && sent[0] == 127 && sent[1] == 1,
          "88 bytes are one line");
    check(bg_send_frame(body, 89, 0, out, sizeof out, sent) == 0 && sent[0] == 127 && sent[1] == 1,
          "89 bytes are one line");
    check(bg_send_frame(body, 90, 0, out, BG_LINE, sent) == 0 && sent[0] == 127 && sent[1] == 2,
          "90 bytes are two lines");
    check(bg_send_frame(body, 90, 1, out, BG_LINE, sent) == 0 && sent[0] == 7 && sent[1] == 2,
          "the second line of 90");
    check(out[BG_LINE] == 0xEE, "the byte after the output stays");
}

/* Reads the line of eight zero bytes back, and what a reader refuses. */
static void check_reader(void)
{
    const uint8_t zeros[8] = {0};
    const uint8_t idle[16] = {0};
    uint8_t line[20];
    uint8_t packet[16];
    uint32_t reader[BG_READER] = {0, 0, 0, 0};
    uint32_t body = 99;
    uint32_t place = 99;

    memcpy(line, "\006\011AAoAAAAAAAAAAAAA\n", 20);
    memset(packet, 0xEE, sizeof packet);
    check(bg_take_line(reader, NULL, 0, packet, sizeof packet, &body, &place) == 3, "an empty line is refused 3");
    check(bg_take_line(reader, line, 19, packet, 7, &body, &place) == 7, "a buffer of 7 bytes is refused 7");
    line[10] = 'B';
    check(bg_take_line(reader, line, 19, packet, sizeof packet, &body, &place) == 9, "a changed byte is refused 9");
    check(place == 99, "a line that is refused otherwise leaves the place");
    line[10] = '-';
    check(bg_take_line(reader, line, 19, packet, sizeof packet, &body, &place) == BG_BAD_TEXT && place == 10,
          "text that is no Base64 is refused 4, with the place");
    check(bg_take_line(reader, (const uint8_t *)"\006\011AB==\n", 7, packet, 16, &body, &place) == 4 && place == 4,
          "bits that are not zero have the place of the =");
    check(bg_take_line(reader, (const uint8_t *)"\006\011AAA\n", 6, packet, 16, &body, &place) == 4 && place == 5,
          "a text that is too short has the place of the 0A");
    line[10] = 'A';
    check(body == 99 && packet[0] == 0xEE && same(reader, idle, 16), "a refused line leaves all else");
    check(bg_take_line(reader, line, 19, packet, sizeof packet, &body, &place) == 0 && place == 5,
          "the line is taken, and the place stays");
    check(body == 8 && same(packet, zeros, 8) && packet[8] == 0xEE && same(reader, idle, 16),
          "the line gives the body");

    check(bg_take_line(reader, (const uint8_t *)"\006\011AAoA\n", 7, packet, 16, &body, &place) == 0,
          "a begun packet is taken");
    check(body == 0 && reader[0] != 0 && reader[1] == 10 && reader[2] == 1, "a begun packet is open");
    check(bg_take_line(reader, (const uint8_t *)"console\n", 8, packet, 16, &body, &place) == 3,
          "a console line is refused 3");
    check(reader[0] != 0 && reader[1] == 10 && reader[2] == 1, "a console line leaves the open packet");
    check(bg_take_line(reader, (const uint8_t *)"\004\024AAAAAAAAAAAA\n", 15, packet, 16, &body, &place) == 0 && body == 8,
          "its partial frame completes it");
    check(bg_take_line(reader, (const uint8_t *)"\004\024AAAA\n", 7, packet, 16, &body, &place) == 5,
          "no packet is open: 5");
}

/* Handles the packet of eight zero bytes, and a whole small upload written by the host's calls. */
static void check_controller(void)
{
    const uint8_t zeros[8] = {0};
    const uint8_t missing[13] = {1, 0, 0, 5, 0, 0, 0, 0, 0xA1, 0x62, 0x72, 0x63, 3};
    const uint8_t data[3] = {1, 2, 3};
    const uint8_t slot[8] = {255, 255, 1, 2, 3, 255, 255, 255};
    const size_t layout[BG_LAYOUT] = {0, 2, 2, 6};
    const size_t outside[BG_LAYOUT] = {0, 2, 2, 7};
    const size_t outside0[BG_LAYOUT] = {8, 1, 2, 6};
    const size_t shared[BG_LAYOUT] = {0, 3, 2, 6};
    const size_t inside[BG_LAYOUT] = {4, 0, 2, 6};
    uint8_t memory[8];
    uint8_t packet[128];
    uint8_t reply[64];
    uint8_t tag[BG_TAG];
    uint8_t image_tag[BG_TAG];
    uint32_t session[BG_SESSION] = {9, 9, 9, 9};
    uint32_t answer[2] = {7, 7};
    uint32_t numbers[BG_REPLY];
    uint32_t len = 0;

    memset(memory, 255, sizeof memory);
    memset(reply, 0xEE, sizeof reply);
    memset(image_tag, 0x5A, sizeof image_tag);
    memset(tag, 9, sizeof tag);
    check(bg_configure(outside, 8, session, tag) == 1, "a slot that ends outside the memory is refused 1");
    check(bg_configure(outside0, 8, session, tag) == 1, "a slot 0 that ends outside the memory is refused 1");
    check(bg_configure(shared, 8, session, tag) == 1, "a byte in both slots is refused 1");
    check(session[0] == 9 && tag[0] == 9, "a refused layout leaves all");
    check(bg_configure(inside, 8, session, tag) == 0, "a slot 0 of no bytes inside the slot is taken");
    session[0] = 9;
    tag[31] = 9;
    check(bg_configure(layout, 8, session, tag) == 0, "slots side by side in the memory are taken");
    check(session[0] == 0 && session[3] == 0 && tag[0] == 0 && tag[31] == 0, "they have a closed session");
    check(bg_handle(outside, memory, 8, session, tag, zeros, 8, reply, 64, answer) == 1,
          "an impossible slot is refused 1");
    check(bg_handle(shared, memory, 8, session, tag, zeros, 8, reply, 64, answer) == 1,
          "impossible slots are refused 1");
    check(bg_handle(layout, memory, 8, session, tag, zeros, 8, reply, 31, answer) == 11,
          "a reply in 31 bytes is refused 11");
    check(bg_handle(layout, memory, 8, session, tag, zeros, 7, reply, 64, answer) == 10,
          "a packet of 7 bytes is refused 10");
    check(answer[0] == 7 && answer[1] == 7 && reply[0] == 0xEE, "a refused packet leaves all");
    check(bg_handle(layout, memory, 8, session, tag, zeros, 8, reply, 64, answer) == 0,
          "eight zero bytes are handled");
    check(answer[0] == 13 && answer[1] == 0 && same(reply, missing, 13) && reply[13] == 0xEE,
          "their reply is rc 3");
    check(bg_read_reply(reply, 13, numbers) == 0 && numbers[0] == 1 && numbers[6] == 3,
          "that reply is read as rc 3");

    check(bg_write_upload(200, data, 3, 0, 3, image_tag, 32, packet, sizeof packet, &len) == 0,
          "an upload is written");
    check(bg_handle(layout, memory, 8, session, tag, packet, len, reply, 64, answer) == 0, "the upload is handled");
    check(bg_read_reply(reply, answer[0], numbers) == 0 && numbers[4] == 200, "its reply has its sequence number");
    check(numbers[0] == 3 && numbers[3] == 1 && numbers[5] == 1 && numbers[6] == 0,
          "its reply is of the upload, rc 0");
    check(numbers[7] == 1 && numbers[8] == 3 && numbers[9] == 0, "its reply has the offset 3 and no text");
    check(same(memory, slot, 8), "the slot holds the image, and the rest stays");
    check(session[0] != 0 && session[1] == 3 && session[2] == 3 && session[3] != 0 && same(tag, image_tag, 32),
          "the session is open, whole and tagged");

    check(bg_write_upload(201, data, 3, 0, 7, image_tag, 32, packet, sizeof packet, &len) == 0
              && bg_handle(layout, memory, 8, session, tag, packet, len, reply, 64, answer) == 0
              && bg_read_reply(reply, answer[0], numbers) == 0 && numbers[BG_REPLY_RC] == 2,
          "a length above the slot is rc 2");
    check(bg_write_upload(202, data, 3, 0, 4, image_tag, 32, packet, sizeof packet, &len) == 0
              && bg_handle(layout, memory, 8, session, tag, packet, len, reply, 64, answer) == 0
              && bg_read_reply(reply, answer[0], numbers) == 0 && numbers[BG_REPLY_RC] == 6,
          "the session's tag with another length is rc 6");
    check(same(memory, slot, 8) && session[1] == 3 && session[2] == 3 && same(tag, image_tag, 32),
          "both leave slot and session");
}

/* Lists the images of two slots: none, then one in each; and what is answered with an rc. */
static void check_list(void)
{
    const size_t layout[BG_LAYOUT] = {80, 72, 4, 72};
    const uint8_t header[24] = {0x3D, 0xB8, 0xF3, 0x96, 0, 0, 0, 0, 32,  0, 0,    0,
                                0,    0,    0,    0,    0, 0, 0, 0, 255, 2, 0x39, 0x30};
    const uint8_t area[8] = {0x07, 0x69, 40, 0, 0x10, 0, 32, 0};
    const uint8_t ask[8] = {0, 0, 0, 0, 0, 1, 77, 0};
    const uint8_t ask_cut[9] = {0, 0, 0, 1, 0, 1, 77, 0, 0xA1};
    const uint8_t none[17] = {1, 0, 0, 9, 0, 1, 77, 0, 0xA1, 0x66, 'i', 'm', 'a', 'g', 'e', 's', 0x80};
    const uint8_t first[35] = {0x82, 0xA3, 0x64, 's', 'l', 'o', 't', 0,   0x67, 'v', 'e', 'r',
                               's',  'i',  'o',  'n', 0x6B, '2', '5', '5', '.', '2', '.', '1',
                               '2',  '3',  '4',  '5', 0x64, 'h', 'a', 's', 'h', 0x58, 32};
    uint8_t memory[160];
    uint8_t before[160];
    uint8_t reply[160];
    uint8_t tag[BG_TAG];
    uint32_t session[BG_SESSION];
    uint32_t answer[2] = {7, 7};
    uint32_t numbers[BG_REPLY];

    memset(memory, 255, sizeof memory);
    memset(reply, 0xEE, sizeof reply);
    check(bg_configure(layout, 160, session, tag) == 0, "slot 0 may stand behind the slot");
    check(bg_handle(layout, memory, 160, session, tag, ask, 8, reply, 32, answer) == 0 && answer[0] == 17
              && answer[1] == 0 && same(reply, none, 17) && reply[17] == 0xEE,
          "two erased slots give an empty list");

    memset(memory + 4, 0, 32);
    memcpy(memory + 4, header, sizeof header);
    memcpy(memory + 36, area, sizeof area);
    memset(memory + 44, 0x5A, 32);
    memcpy(memory + 80, memory + 4, 72);
    memset(memory + 120, 0xA5, 32);
    memcpy(before, memory, sizeof memory);
    check(bg_handle(layout, memory, 160, session, tag, ask, 8, reply, 148, answer) == 0 && answer[0] == 13
              && reply[12] == 7,
          "a list longer than the reply buffer is rc 7");
    check(bg_handle(layout, memory, 160, session, tag, ask, 8, reply, 149, answer) == 0 && answer[0] == 149,
          "a list of two images");
    check(same(reply + 16, first, sizeof first) && same(reply + 51, memory + 120, 32), "slot 0's image comes first");
    check(reply[83] == 0xA3 && reply[89] == 1 && same(reply + 117, memory + 44, 32), "then the upload slot's");
    check(same(memory, before, sizeof memory), "a list writes nothing to the memory");
    check(bg_read_reply(reply, 149, numbers) == 10, "a list is no reply that is read: 10");
    check(bg_handle(layout, memory, 160, session, tag, ask_cut, 9, reply, 32, answer) == 0 && answer[0] == 13
              && reply[12] == 3,
          "a malformed map is rc 3, also where the list would not fit");
}

/* Writes each request, and what a writer refuses. */
static void check_writers(void)
{
    const uint8_t at_512[23] = {2,    0,    0,    15,   0,    1,    9,    1,    0xA2, 0x64, 0x64, 0x61,
                                0x74, 0x61, 0x41, 0x01, 0x63, 0x6F, 0x66, 0x66, 0x19, 0x02, 0x00};
    const uint8_t echo[14] = {2, 0, 0, 6, 0, 0, 255, 0, 0xA1, 0x61, 'd', 0x62, 'h', 'i'};
    const uint8_t reset[9] = {2, 0, 0, 1, 0, 0, 5, 5, 0xA0};
    const uint8_t erase[9] = {2, 0, 0, 1, 0, 1, 6, 5, 0xA0};
    const uint8_t one[1] = {1};
    uint8_t out[64];
    uint32_t len = 77;

    memset(out, 0xEE, sizeof out);
    check(bg_write_upload(9, one, 1, 512, 0, NULL, 0, out, 22, &len) == 12, "an output too short is refused 12");
    check(bg_write_upload(9, NULL, 0, 512, 0, NULL, 0, out, 64, &len) == 12, "empty data is refused 12");
    check(bg_write_upload(9, one, 1, 4294967296u, 0, NULL, 0, out, 64, &len) == 12,
          "an offset too large is refused 12");
    check(bg_write_upload(9, one, 1, 0, 0, NULL, 0, out, 64, &len) == 12, "a length of 0 is refused 12");
    check(bg_write_upload(9, one, 1, 0, 1, one, 1, out, 64, &len) == 12, "a tag of one byte is refused 12");
    check(len == 77 && out[0] == 0xEE, "a refused request leaves all");
    check(bg_write_upload(9, one, 1, 512, 0, NULL, 0, out, 23, &len) == 0, "data 01 at 512 is written");
    check(len == 23 && same(out, at_512, 23) && out[23] == 0xEE, "the packet of data 01 at 512");
    check(bg_write_echo(255, (const uint8_t *)"hi", 2, out, 64, &len) == 0 && len == 14 && same(out, echo, 14),
          "an echo");
    check(bg_write_echo(255, (const uint8_t *)"hi", 2, out, 13, &len) == 12 && len == 14,
          "an echo too long is refused 12");
    check(bg_write_reset(5, out, 64, &len) == 0 && len == 9 && same(out, reset, 9), "a reset");
    check(bg_write_reset(5, out, 8, &len) == 12, "a reset in 8 bytes is refused 12");
    check(bg_write_erase(6, out, 64, &len) == 0 && len == 9 && same(out, erase, 9), "an erase");
    check(bg_write_erase(6, out, 8, &len) == 12, "an erase in 8 bytes is refused 12");
}

/* Reads replies, and what is none; counts sequence numbers. */
static void check_replies(void)
{
    const uint8_t echoed[14] = {3, 0, 0, 6, 0, 0, 4, 0, 0xA1, 0x61, 'r', 0x62, 'h', 'i'};
    const uint8_t at_512[20] = {3, 0, 0, 12, 0, 1, 8, 1, 0xA2, 0x62, 'r', 'c', 0, 0x63, 'o', 'f', 'f', 0x19, 2, 0};
    const uint8_t request[9] = {2, 0, 0, 1, 0, 0, 5, 5, 0xA0};
    const uint32_t of_echo[BG_REPLY] = {3, 0, 6, 0, 4, 0, 0, 0, 0, 1, 12, 2};
    const uint32_t of_512[BG_REPLY] = {3, 0, 12, 1, 8, 1, 0, 1, 512, 0, 0, 0};
    uint32_t reply[BG_REPLY];

    memset(reply, 0xEE, sizeof reply);
    check(bg_read_reply(request, 9, reply) == 10, "a request is no reply: 10");
    check(bg_read_reply(echoed, 13, reply) == 10, "a wrong length is refused 10");
    check(bg_read_reply(NULL, 0, reply) == 10 && reply[0] == 0xEEEEEEEEu,
          "an empty packet is refused 10, and all stays");
    check(bg_read_reply(echoed, 14, reply) == 0 && same(reply, of_echo, sizeof reply), "an echo's reply");
    check(bg_read_reply(at_512, 20, reply) == 0 && same(reply, of_512, sizeof reply), "an upload's reply");
    check(bg_most_data(512, 0, 100000, 32) == 443 && bg_most_data(512, 65536, 0, 0) == 486
              && bg_most_data(20, 1, 0, 0) == 0 && bg_most_data(512, 0, 9, 31) == 0,
          "the most data of a packet");
    check(bg_next_sequence(0) == 1 && bg_next_sequence(254) == 255 && bg_next_sequence(255) == 0,
          "sequence numbers");
}

/* Reads a recording's records, replays it and writes the transcript; and what is refused. */
static void check_recordings(void)
{
    const uint8_t recording[56] = "any\076\000\023\006\011AAoAAAAAAAAAAAAA\n\074\000\004boo\n\076\000\005\006\011A-\n"
                                  "\000\000\000\045\000\000\000\003";
    const uint8_t trailer[8] = {0, 0, 0, 0, 0, 0, 0, 0};
    const uint32_t idle[4] = {0, 0, 0, 0};
    uint8_t file[56];
    uint8_t memory[BG_BENCH_MEMORY];
    uint8_t packet[BG_BENCH_BUFFER];
    uint8_t reply[BG_BENCH_BUFFER];
    uint8_t tag[BG_TAG];
    uint8_t out[32];
    uint32_t session[BG_SESSION] = {9, 9, 9, 9};
    uint32_t reader[BG_READER] = {9, 9, 9, 9};
    uint32_t answers[3 * BG_ANSWER + 1];
    size_t first[BG_FIRST] = {7, 7};
    size_t record[BG_RECORD] = {7, 7, 7};
    size_t count = 77;
    size_t len = 77;

    memcpy(file, recording, sizeof file);
    check(bg_first_record(file, 7, first) == 12, "seven bytes are no recording: 12");
    check(bg_first_record(NULL, 0, first) == 12, "no bytes are no recording: 12");
    file[47] = 4;
    check(bg_first_record(file, 48, first) == 12 && first[0] == 7, "a wrong number is refused 12, and all stays");
    file[47] = 3;
    check(bg_first_record(file, 48, first) == 0 && first[BG_FIRST_PLACE] == 3 && first[BG_FIRST_NUMBER] == 3,
          "the first record stands behind the preface");
    check(bg_first_record(trailer, 8, first) == 0 && first[0] == 0 && first[1] == 0, "a trailer alone is a recording");
    check(bg_next_record(file, 48, 0, record) == 12 && record[0] == 7, "the preface is no record: 12, and all stays");
    check(bg_next_record(file, 48, 3, record) == 0 && record[BG_RECORD_KIND] == BG_TO_CONTROLLER
              && record[BG_RECORD_START] == 6 && record[BG_RECORD_LENGTH] == 19,
          "a line to the controller");
    check(bg_next_record(file, 48, 25, record) == 0 && record[0] == BG_FROM_CONTROLLER && record[1] == 28 && record[2] == 4,
          "a line from the controller");
    check(bg_next_record(file, 48, 40, record) == 0 && record[0] == BG_RECORDS_OVER && record[1] == 40 && record[2] == 0,
          "behind the last the records are over");
    check(bg_next_record(file, 48, 41, record) == 12 && bg_next_record(file, 48, SIZE_MAX, record) == 12,
          "a place behind that is refused 12");

    memset(memory, 7, sizeof memory);
    memset(packet, 0xEE, sizeof packet);
    memset(reply, 0xEE, sizeof reply);
    memset(tag, 9, sizeof tag);
    memset(answers, 0xEE, sizeof answers);
    check(bg_replay(file, 48, memory, session, tag, reader, packet, reply, answers, 3 * BG_ANSWER - 1, &count) == 12,
          "answers for two of three records are refused 12");
    check(memory[0] == 7 && session[0] == 9 && tag[0] == 9 && reader[0] == 9 && answers[0] == 0xEEEEEEEEu && count == 77,
          "a refused replay leaves all");
    check(bg_replay(file, 48, memory, session, tag, reader, packet, reply, answers, 3 * BG_ANSWER, &count) == 0 && count == 2,
          "two lines to the controller");
    check(answers[BG_ANSWER_REFUSAL] == 0 && answers[BG_ANSWER_REPLIED] == 1 && answers[BG_ANSWER_RC] == 3
              && answers[BG_ANSWER_PLACE] == 0,
          "the first is answered rc 3");
    check(answers[4] == BG_BAD_TEXT && answers[5] == 0 && answers[6] == 0 && answers[7] == 3 && answers[8] == 0xEEEEEEEEu,
          "the second is refused 4 with its place, and the other numbers stay");
    check(memory[0] == 255 && memory[BG_BENCH_MEMORY - 1] == 255 && same(session, idle, 16) && same(reader, idle, 16)
              && tag[0] == 0,
          "memory, session, tag and reader began anew");
    check(packet[0] == 0 && packet[8] == 0xEE && reply[12] == 3 && reply[13] == 0xEE, "the buffers have packet and reply");

    memset(out, 0xEE, sizeof out);
    check(bg_write_transcript(answers, 2 * BG_ANSWER - 1, 2, session, out, 32, &len) == 12,
          "answers for one of two are refused 12");
    check(bg_write_transcript(answers, 3 * BG_ANSWER, SIZE_MAX / BG_ANSWER + 1, session, out, 32, &len) == 12,
          "a count whose four numbers are over 64 bits is refused 12");
    check(bg_write_transcript(answers, 2 * BG_ANSWER, 2, session, out, 20, &len) == 12 && len == 77 && out[0] == 0xEE,
          "an output too short is refused 12, and all stays");
    check(bg_write_transcript(answers, 2 * BG_ANSWER, 2, session, out, 21, &len) == 0 && len == 21
              && same(out, "0 0 3\n1 4 -\nend none\n\356", 22),
          "a transcript, in which no place stands");
    session[BG_SESSION_OPEN] = 1;
    session[BG_SESSION_PLACE] = 4096;
    check(bg_write_transcript(NULL, 0, 0, session, out, 32, &len) == 0 && len == 9 && same(out, "end 4096\n", 9),
          "the transcript of an open session");
}

/* Runs the checks. */
int main(void)
{
    check_collector();
    check_sender();
    check_reader();
    check_controller();
    check_list();
    check_writers();
    check_replies();
    check_recordings();
    printf("%u checks, %u wrong\n", checks, bad);
    return bad == 0 ? 0 : 1;
}
