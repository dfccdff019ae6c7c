/*
 * Both ends of the port in plain C, to measure the proved calls against: each plain_x has the parameters, answers, refusals and effects of
 * bg_x in include/belagunthi.h. bench/peer.c compares the two.
 */
#ifndef PLAIN_H
#define PLAIN_H

#include <stddef.h>
#include <stdint.h>

/* plain_frame.c; built with PLAIN_CRC_BITS it computes the CRC bit by bit, else by a table. */

uint16_t plain_crc(uint16_t crc, const uint8_t *bytes, size_t length);

int plain_decode(const uint8_t *text, size_t length, uint8_t *raw);
size_t plain_fault(const uint8_t *text, size_t length, size_t from);
size_t plain_encode(const uint8_t *raw, size_t length, uint8_t *text);

uint32_t plain_collect(uint32_t collector[2], uint8_t held[126], const uint8_t *lump, size_t lump_len, size_t at, uint8_t line[127],
                       uint32_t got[2]);

uint32_t plain_take_line(uint32_t reader[4], const uint8_t *line, size_t line_len, uint8_t *packet, size_t packet_len, uint32_t *body,
                         uint32_t *place);

uint32_t plain_send_frame(const uint8_t *body, size_t body_len, size_t k, uint8_t *out, size_t out_len, uint32_t sent[2]);

/* plain_packet.c */

uint32_t plain_configure(const size_t layout[4], size_t memory_len, uint32_t session[4], uint8_t tag[32]);

uint32_t plain_handle(const size_t layout[4], uint8_t *memory, size_t memory_len, uint32_t session[4], uint8_t tag[32],
                      const uint8_t *packet, size_t packet_len, uint8_t *reply, size_t reply_len, uint32_t answer[2]);

uint32_t plain_write_echo(uint8_t sequence, const uint8_t *text, size_t text_len, uint8_t *out, size_t out_len, uint32_t *packet_len);

uint32_t plain_write_upload(uint8_t sequence, const uint8_t *data, size_t data_len, uint64_t off, uint64_t length, const uint8_t *tag,
                            size_t tag_len, uint8_t *out, size_t out_len, uint32_t *packet_len);

uint32_t plain_read_reply(const uint8_t *packet, size_t packet_len, uint32_t reply[12]);

uint8_t plain_next_sequence(uint8_t sequence);

/* plain_recording.c */

uint32_t plain_replay(const uint8_t *file, size_t file_len, uint8_t memory[8192], uint32_t session[4], uint8_t tag[32], uint32_t reader[4],
                      uint8_t packet[1024], uint8_t reply[1024], uint32_t *answers, size_t answers_len, size_t *count);

uint32_t plain_write_transcript(const uint32_t *answers, size_t answers_len, size_t count, const uint32_t session[4], uint8_t *out,
                                size_t out_len, size_t *text_len);

#endif
