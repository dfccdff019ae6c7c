/* Inputs for bench/peer.c, made by a seed: valid ones, damaged ones, and any bytes. */
#ifndef INPUTS_H
#define INPUTS_H

#include <stdbool.h>
#include <stddef.h>
#include <stdint.h>

/* The longest packet made, with ten bytes more than the longest one allowed, the longest line, and the longest lump. */
enum { PACKET_MAX = 65543, LINE_MAX = 160, LUMP_MAX = 262 };

/* A generator of numbers (xorshift64*). */
struct rng {
    uint64_t state;
};

/* The controller as a request finds it. */
struct device {
    size_t memory_len, start0, size0, start, size;
    uint32_t session[4];
    uint8_t tag[32];
};

struct rng rng_of(uint64_t seed);
uint64_t any(struct rng *rng);
size_t below(struct rng *rng, size_t bound);
size_t range(struct rng *rng, size_t first, size_t last);
bool once_in(struct rng *rng, size_t times);
uint64_t number(struct rng *rng);
void fill(struct rng *rng, void *to, size_t length);
void make_tag(struct rng *rng, uint8_t tag[32]);

void make_image(struct rng *rng, uint8_t *region, size_t size);
size_t make_request(struct rng *rng, const struct device *device, uint8_t packet[PACKET_MAX]);
size_t make_reply(struct rng *rng, uint8_t packet[PACKET_MAX]);

size_t encode_line(bool initial, const uint8_t *raw, size_t raw_len, uint8_t line[LINE_MAX]);
size_t damage_line(struct rng *rng, uint8_t line[LINE_MAX], size_t length);
size_t make_line(struct rng *rng, uint8_t line[LINE_MAX]);
void make_reader(struct rng *rng, uint32_t reader[4]);

size_t make_lump(struct rng *rng, uint8_t lump[LUMP_MAX]);
void make_collector(struct rng *rng, uint32_t collector[2], uint8_t held[126]);

#endif
