/* Inputs for bench/peer.c: see inputs.h. */
#include "inputs.h"

#include <string.h>

enum { HEADER = 8, PAIRS_MAX = 64, POOL = 66000, LONGEST = 65533 };

/* The types of a value; RAW is written as it stands. */
enum type { UNSIGNED = 0, NEGATIVE = 1, BYTES = 2, TEXT = 3, MAP = 5, RAW };

/* A string of bytes. */
struct string {
    const uint8_t *bytes;
    size_t length;
};

/* A key and its value. */
struct pair {
    struct string key, string;
    enum type type;
    uint64_t number;
};

/* A map that is to be written: its pairs, whether its heads have any width, and its count where that is not the pairs'. */
struct map {
    struct pair pair[PAIRS_MAX];
    size_t length;
    bool wide;
    uint64_t more;
};

/* Bytes that are being written. */
struct writer {
    uint8_t *bytes;
    size_t length, room;
};

#define STRING(literal) {(const uint8_t *)(literal), sizeof(literal) - 1}
#define COUNT(array) (sizeof(array) / sizeof *(array))
#define PICK(rng, array) ((array)[below(rng, COUNT(array))])

/* Numbers at the edges of head widths and of the rules' bounds. */
static const uint64_t edges[] = {
    0, 1, 2, 3, 7, 8, 9, 10, 11, 23, 24, 25, 31, 32, 33, 88, 89, 90, 91, 92, 93, 126, 127, 128, 182, 183, 255, 256, 257, 65533, 65534,
    65535, 65536, 1048575, 1048576, 1048577, UINT32_MAX, UINT32_MAX + 1ull, UINT32_MAX + 2ull, UINT64_MAX, UINT64_MAX - 7,
};

/* The known keys, some that are nearly so, and others. */
static const struct string keys[] = {
    STRING("d"), STRING("r"), STRING("rc"), STRING("off"), STRING("data"), STRING("len"), STRING("image"), STRING("sha"),
    STRING("upgrade"), STRING("slot"), STRING(""), STRING("D"), STRING("c"), STRING("rb"), STRING("cr"), STRING("of"), STRING("ofx"),
    STRING("lem"), STRING("shb"), STRING("offf"), STRING("dat"), STRING("datb"), STRING("data\0"), STRING("slou"), STRING("imagf"),
    STRING("upgradf"), STRING("upgrad"), STRING("upgraded"), STRING("force"), STRING("\xFF"),
};

/* Values that no key may have. */
static const struct string forbidden[] = {
    STRING("\xF7"), STRING("\xF0"), STRING("\xE0"), STRING("\xF3"), STRING("\xF8\x14"), STRING("\xF8\x15"), STRING("\xF8\xFF"),
    STRING("\xF9\x3E\x00"), STRING("\xFA\x47\xC3\x50\x00"), STRING("\xFB\x3F\xF1\x99\x99\x99\x99\x99\x9A"), STRING("\x80"),
    STRING("\x81\x00"), STRING("\xA0"), STRING("\xA1\x61\x61\x01"), STRING("\xC0\x60"), STRING("\xC1\x00"), STRING("\xD8\x18\x41\x00"),
    STRING("\x5F\x41\x01\xFF"), STRING("\x7F\x61\x61\xFF"), STRING("\x9F\xFF"), STRING("\xBF\xFF"), STRING("\x1C"), STRING("\x1D"),
    STRING("\x1E"), STRING("\x1F"), STRING("\x3C"), STRING("\x3F"), STRING("\x5C"), STRING("\x7D"), STRING("\xFC"), STRING("\xFF"),
    STRING("\x5B\xFF\xFF\xFF\xFF\xFF\xFF\xFF\xFF"), STRING("\x7B\xFF\xFF\xFF\xFF\xFF\xFF\xFF\xF8"), STRING("\x7A\xFF\xFF\xFF\xFF"),
    STRING("\x1C\0\0\0\0\0\0\0\0"), STRING("\x1C\0\0\0\0\0\0\0\0\0\0\0\0\0\0\0\0"), STRING("\x5C\0\0\0\0\0\0\0\0"),
};

/* The characters of Base64. */
static const char base64[] = "ABCDEFGHIJKLMNOPQRSTUVWXYZabcdefghijklmnopqrstuvwxyz0123456789+/";

/* False, true and null. */
static const struct string simples[] = {STRING("\xF4"), STRING("\xF5"), STRING("\xF6")};

/* A generator from a seed. */
struct rng rng_of(uint64_t seed)
{
    struct rng rng = {seed * 0x9E3779B97F4A7C15u | 1};
    for (int i = 0; i < 8; i++)
        any(&rng);
    return rng;
}

/* The next 64 bits. */
uint64_t any(struct rng *rng)
{
    rng->state ^= rng->state >> 12;
    rng->state ^= rng->state << 25;
    rng->state ^= rng->state >> 27;
    return rng->state * 0x2545F4914F6CDD1Du;
}

/* A number below a bound, which is not 0. */
size_t below(struct rng *rng, size_t bound)
{
    return (size_t)((any(rng) >> 32) * bound >> 32);
}

/* A number from a first to a last. */
size_t range(struct rng *rng, size_t first, size_t last)
{
    return first + below(rng, last - first + 1);
}

/* True once in so many times. */
bool once_in(struct rng *rng, size_t times)
{
    return below(rng, times) == 0;
}

/* A number at an edge, near one, small, or of any width. */
uint64_t number(struct rng *rng)
{
    switch (below(rng, 4)) {
    case 0:
        return PICK(rng, edges);
    case 1:
        return PICK(rng, edges) + below(rng, 7) - 3;
    case 2:
        return below(rng, 64);
    default:
        return any(rng) >> below(rng, 64);
    }
}

/* Any bytes, or all the same. */
void fill(struct rng *rng, void *to, size_t length)
{
    uint8_t *bytes = to;
    if (once_in(rng, 4)) {
        memset(bytes, (int)(any(rng) >> 56), length);
        return;
    }
    while (length > 0) {
        uint64_t eight = any(rng);
        size_t some = length < 8 ? length : 8;
        memcpy(bytes, &eight, some);
        bytes += some;
        length -= some;
    }
}

/* A tag out of a few, so that tags meet again; two of them differ in the last byte only. */
void make_tag(struct rng *rng, uint8_t tag[32])
{
    size_t which = below(rng, 5);
    if (which == 0)
        fill(rng, tag, 32);
    else
        memset(tag, (int)(which < 3 ? 0 : which), 32);
    if (which == 2)
        tag[31] = 1;
}

/* Some bytes, which stand until the pool is filled anew. */
static struct string some(struct rng *rng, size_t length)
{
    static uint8_t pool[POOL];
    static bool full;
    if (!full || once_in(rng, 4000)) {
        fill(rng, pool, sizeof pool);
        full = true;
    }
    return (struct string){pool + below(rng, POOL - length + 1), length};
}

/* Writes a byte where there is room. */
static void put_byte(struct writer *to, uint8_t byte)
{
    if (to->length < to->room)
        to->bytes[to->length++] = byte;
}

/* Writes a string's bytes where there is room. */
static void put_bytes(struct writer *to, struct string string)
{
    for (size_t i = 0; i < string.length; i++)
        put_byte(to, string.bytes[i]);
}

/* Writes a head of the shortest width, or of any that holds the number. */
static void put_head(struct rng *rng, bool wide, struct writer *to, enum type type, uint64_t value)
{
    size_t width = value < 24 ? 0 : value <= 0xFF ? 1 : value <= 0xFFFF ? 2 : value <= UINT32_MAX ? 3 : 4;
    if (wide)
        width = range(rng, width, 4);
    if (width == 0) {
        put_byte(to, (uint8_t)((unsigned)type << 5 | value));
        return;
    }
    put_byte(to, (uint8_t)((unsigned)type << 5 | (23 + width)));
    for (int left = 1 << (width - 1); left > 0; left--)
        put_byte(to, (uint8_t)(value >> 8 * (left - 1)));
}

/* Writes a map. */
static void put_map(struct rng *rng, const struct map *map, struct writer *to)
{
    put_head(rng, map->wide, to, MAP, map->length + map->more);
    for (const struct pair *pair = map->pair; pair < map->pair + map->length; pair++) {
        put_head(rng, map->wide, to, TEXT, pair->key.length);
        put_bytes(to, pair->key);
        if (pair->type != RAW)
            put_head(rng, map->wide, to, pair->type, pair->type <= NEGATIVE ? pair->number : pair->string.length);
        if (pair->type > NEGATIVE)
            put_bytes(to, pair->string);
    }
}

/* Puts a pair to a place of a map, where there is room. */
static void insert(struct map *map, size_t at, struct pair pair)
{
    if (map->length == PAIRS_MAX)
        return;
    memmove(map->pair + at + 1, map->pair + at, (map->length - at) * sizeof pair);
    map->pair[at] = pair;
    map->length++;
}

/* Takes the pair at a place out of a map; the last one takes its place. */
static void leave_out(struct map *map, size_t at)
{
    map->length--;
    map->pair[at] = map->pair[map->length];
}

/* Adds a number under a key. */
static void add_number(struct map *map, struct string key, uint64_t value)
{
    insert(map, map->length, (struct pair){.key = key, .type = UNSIGNED, .number = value});
}

/* Adds a string under a key. */
static void add_string(struct map *map, struct string key, enum type type, struct string string)
{
    insert(map, map->length, (struct pair){.key = key, .type = type, .string = string});
}

/* Gives a pair a value that an unknown key may have. */
static void make_simple(struct rng *rng, struct pair *pair)
{
    static const enum type types[] = {UNSIGNED, UNSIGNED, NEGATIVE, BYTES, TEXT, RAW};
    pair->type = PICK(rng, types);
    pair->number = number(rng);
    pair->string = pair->type == RAW ? PICK(rng, simples) : some(rng, below(rng, 40));
}

/* A key of any command, near to one, or any. */
static struct string make_key(struct rng *rng)
{
    if (once_in(rng, 40))
        return some(rng, range(rng, 20, 300));
    return once_in(rng, 6) ? some(rng, below(rng, 9)) : PICK(rng, keys);
}

/* A pair of any key and a value that is allowed, or one that is not. */
static struct pair make_pair(struct rng *rng, bool allowed)
{
    struct pair pair = {.key = make_key(rng), .type = RAW, .string = PICK(rng, forbidden)};
    if (allowed)
        make_simple(rng, &pair);
    return pair;
}

/* Makes one fault in a map's pairs: one twice, another value, one that is not allowed, one left out, or another count. */
static void spoil_pairs(struct rng *rng, struct map *map)
{
    size_t at = below(rng, map->length + 1), way = below(rng, 6);
    if (way == 0 || at == map->length) {
        insert(map, at, make_pair(rng, false));
    } else if (way == 1) {
        insert(map, at, map->pair[below(rng, map->length)]);
    } else if (way == 2) {
        make_simple(rng, &map->pair[at]);
    } else if (way == 3) {
        map->pair[at].type = RAW;
        map->pair[at].string = PICK(rng, forbidden);
    } else if (way == 4) {
        leave_out(map, at);
    } else {
        static const uint64_t more[] = {1, (uint64_t)-1, 256, 1ull << 32, 1ull << 63};
        map->more = PICK(rng, more);
    }
}

/* Damages bytes: cut, longer, a byte changed, put in or left out. */
static size_t damage(struct rng *rng, uint8_t *bytes, size_t length, size_t room)
{
    size_t at = below(rng, length + 1), way = below(rng, 6);
    if (way == 0 || length == 0 || length + 9 > room)
        return at;
    if (way == 1) {
        size_t more = range(rng, 1, 9);
        fill(rng, bytes + length, more);
        return length + more;
    }
    if (way == 2) {
        memmove(bytes + at + 1, bytes + at, length - at);
        bytes[at] = (uint8_t)any(rng);
        return length + 1;
    }
    at = below(rng, length);
    if (way == 3) {
        memmove(bytes + at, bytes + at + 1, length - at - 1);
        return length - 1;
    }
    bytes[at] ^= (uint8_t)(way == 4 ? 1u << below(rng, 8) : range(rng, 1, 255));
    return length;
}

/* Adds other pairs among a map's own, and changes their order. */
static void mix(struct rng *rng, struct map *map)
{
    if (once_in(rng, 3))
        for (size_t left = once_in(rng, 40) ? range(rng, 20, 40) : range(rng, 1, 3); left > 0; left--)
            insert(map, below(rng, map->length + 1), make_pair(rng, true));
    if (map->length > 1 && once_in(rng, 3)) {
        size_t a = below(rng, map->length), b = below(rng, map->length);
        struct pair pair = map->pair[a];
        map->pair[a] = map->pair[b];
        map->pair[b] = pair;
    }
    map->wide = once_in(rng, 3);
}

/* Writes a map's payload, mixed and perhaps spoilt; or none, or any bytes. */
static size_t make_payload(struct rng *rng, struct map *map, uint8_t *payload)
{
    struct writer to = {payload, 0, PACKET_MAX - HEADER};
    if (once_in(rng, 40))
        return 0;
    if (once_in(rng, 40)) {
        to.length = below(rng, 60);
        fill(rng, payload, to.length);
        return to.length;
    }
    mix(rng, map);
    if (once_in(rng, 10))
        spoil_pairs(rng, map);
    put_map(rng, map, &to);
    return once_in(rng, 10) ? damage(rng, payload, to.length, to.room) : to.length;
}

/* Writes a header over a payload, its length mostly right; gives the packet's length. */
static size_t make_packet(struct rng *rng, uint8_t op, uint16_t group, uint8_t command, uint8_t *packet, size_t payload)
{
    size_t length = HEADER + payload, said = payload;
    if (once_in(rng, 60))
        said += once_in(rng, 2) ? range(rng, 1, 9) : (size_t)any(rng);
    uint8_t header[HEADER] = {op, once_in(rng, 3) ? (uint8_t)any(rng) : 0, (uint8_t)(said >> 8), (uint8_t)said, (uint8_t)(group >> 8),
                              (uint8_t)group, (uint8_t)any(rng), command};
    memcpy(packet, header, HEADER);
    if (once_in(rng, 80))
        return below(rng, once_in(rng, 2) ? HEADER + 1 : length + 1);
    return length;
}

/* A number near to the session's, the slot's, or any. */
static uint64_t near(struct rng *rng, const struct device *device)
{
    const uint64_t bases[] = {0, device->session[2], device->session[2], device->session[1], device->size};
    uint64_t base = PICK(rng, bases);
    switch (below(rng, 8)) {
    case 0:
        return base + 1;
    case 1:
        return base - 1;
    case 2:
        return number(rng);
    case 3:
        return base + (1ull << 32);
    default:
        return base;
    }
}

/* Data that ends at a length, one after it, or anywhere. */
static struct string make_data(struct rng *rng, uint64_t length, uint64_t from)
{
    uint64_t left = length > from ? length - from : 0;
    size_t whole = left > 3000 ? 3000 : (size_t)left;
    static const size_t sizes[] = {0, 1, 2, 22, 23, 24, 255, 256};
    switch (below(rng, 8)) {
    case 0:
        return some(rng, whole);
    case 1:
        return some(rng, whole + 1);
    case 2:
        return some(rng, PICK(rng, sizes));
    case 3:
        return some(rng, whole > 0 ? whole - 1 : 0);
    default:
        return some(rng, range(rng, 1, whole + 1));
    }
}

/* The pairs of a chunk at an offset above 0, or near. */
static void make_later(struct rng *rng, const struct device *device, struct map *map)
{
    uint64_t off = once_in(rng, 3) ? near(rng, device) : device->session[2] + (device->session[2] == 0);
    add_string(map, (struct string)STRING("data"), BYTES, make_data(rng, device->session[1], off));
    add_number(map, (struct string)STRING("off"), off);
    if (once_in(rng, 6))
        add_number(map, (struct string)STRING("len"), near(rng, device));
}

/* The pairs of a chunk at offset 0, often with the session's own tag and length. */
static void make_first(struct rng *rng, const struct device *device, struct map *map)
{
    bool same = device->session[0] != 0 && once_in(rng, 2);
    uint64_t length = same ? device->session[1] : range(rng, 1, device->size == 0 || device->size > 4000 ? 4000 : device->size);
    if (once_in(rng, 4))
        length = once_in(rng, 2) ? near(rng, device) : device->size + below(rng, 2);
    add_string(map, (struct string)STRING("data"), BYTES, make_data(rng, length, 0));
    if (!once_in(rng, 30))
        add_number(map, (struct string)STRING("len"), length);
    add_number(map, (struct string)STRING("off"), 0);
    static uint8_t tag[33];
    make_tag(rng, tag);
    if (same && device->session[3] != 0)
        memcpy(tag, device->tag, 32);
    static const size_t sizes[] = {0, 1, 31, 33};
    if (once_in(rng, 2) || (same && device->session[3] != 0))
        add_string(map, (struct string)STRING("sha"), BYTES, (struct string){tag, once_in(rng, 12) ? PICK(rng, sizes) : 32});
}

/* The pairs of an upload, for a controller as it stands. */
static void make_upload(struct rng *rng, const struct device *device, struct map *map)
{
    static const uint64_t images[] = {0, 0, 1, 1ull << 32, UINT64_MAX};
    if (once_in(rng, 2))
        make_later(rng, device, map);
    else
        make_first(rng, device, map);
    if (once_in(rng, 8))
        add_number(map, (struct string)STRING("image"), PICK(rng, images));
    if (once_in(rng, 8))
        add_string(map, (struct string)STRING("upgrade"), RAW, PICK(rng, simples));
    if (once_in(rng, 40))
        leave_out(map, below(rng, map->length));
}

/* A text to echo: short, at an edge of a head or of the reply's room, or as long as a packet takes. */
static struct string make_text(struct rng *rng)
{
    if (once_in(rng, 400))
        return some(rng, LONGEST - 8 - 6 - below(rng, 12));
    if (once_in(rng, 4)) {
        static const size_t sizes[] = {0, 19, 20, 21, 22, 23, 24, 25, 255, 256};
        return some(rng, PICK(rng, sizes));
    }
    return some(rng, below(rng, 80));
}

/* A packet of the longest lengths, on both sides of what is allowed: a map of one long text. */
static size_t make_long(struct rng *rng, uint8_t op, uint8_t packet[PACKET_MAX])
{
    struct map map = {.length = 0};
    struct writer to = {packet + HEADER, 0, PACKET_MAX - HEADER};
    add_string(&map, (struct string)STRING("r"), TEXT, some(rng, LONGEST - 8 - 6 + below(rng, 11)));
    put_map(rng, &map, &to);
    return make_packet(rng, op, 0, 0, packet, to.length);
}

/* Writes a number of two bytes, the low one first. */
static void put_little(struct writer *to, size_t value)
{
    put_byte(to, (uint8_t)value);
    put_byte(to, (uint8_t)(value >> 8));
}

/* Writes a TLV area: mostly one SHA-256 entry of 32 bytes, perhaps another among others. */
static void put_area(struct rng *rng, struct writer *to)
{
    static const size_t types[] = {0, 1, 0x11, 0x1000, 0x110, 0x10}, lengths[] = {0, 31, 33, 32};
    size_t entries = once_in(rng, 2) ? 1 : below(rng, 4), hash = below(rng, entries + 1);
    to->length += 4;
    for (size_t i = 0; i < entries; i++) {
        bool is_hash = i == hash || once_in(rng, entries == 1 ? 1 : 8);
        size_t length = is_hash ? (once_in(rng, 10) ? PICK(rng, lengths) : 32) : below(rng, 9);
        put_little(to, is_hash ? 0x10 : PICK(rng, types));
        put_little(to, length);
        put_bytes(to, some(rng, length));
    }
    struct writer head = {to->bytes, 0, 4};
    put_little(&head, 0x6907);
    put_little(&head, to->length);
}

/* Puts an image to a region's start, as much of it as there is room for; valid, or with a bit or a size changed. */
void make_image(struct rng *rng, uint8_t *region, size_t size)
{
    uint8_t bytes[32] = {0x3D, 0xB8, 0xF3, 0x96, [8] = 32}, area[256];
    struct writer entries = {area, 0, sizeof area}, to = {region, 0, size};
    put_area(rng, &entries);
    size_t whole = sizeof bytes + entries.length, left = size > whole ? size - whole : 0;
    size_t header = once_in(rng, 4) ? below(rng, (left < 40 ? left : 40) + 1) : 0;
    size_t body = once_in(rng, 3) ? left - header : below(rng, left - header + 1), less = once_in(rng, 20), said = body + less;
    if (once_in(rng, 12))
        said = once_in(rng, 2) ? body + below(rng, 3) - 1 : UINT32_MAX - below(rng, 40);
    bytes[8] = (uint8_t)(32 + header - less);
    for (size_t i = 0; i < 4; i++)
        bytes[12 + i] = (uint8_t)(said >> 8 * i);
    fill(rng, bytes + 20, 12);
    for (size_t i = 20; once_in(rng, 2) && i < 24; i++)
        bytes[i] = (uint8_t)(i == 23 ? 0 : below(rng, 120));
    if (once_in(rng, 5))
        bytes[below(rng, 20)] ^= (uint8_t)(1u << below(rng, 8));
    if (once_in(rng, 5))
        area[below(rng, entries.length < 12 ? entries.length : 12)] ^= (uint8_t)(1u << below(rng, 8));
    put_bytes(&to, (struct string){bytes, sizeof bytes});
    to.length += to.length + header + body < size ? header + body : 0;
    put_bytes(&to, (struct string){area, entries.length});
}

/* A request for a controller as it stands. */
size_t make_request(struct rng *rng, const struct device *device, uint8_t packet[PACKET_MAX])
{
    static const uint64_t slots[] = {1, 1, 1, 0, 2, 257, 1ull << 32, (1ull << 32) + 1, UINT64_MAX};
    static const uint8_t ops[] = {0, 1, 2, 3, 4, 10, 255};
    static const uint16_t groups[] = {0, 1, 2, 256, 257, 65535};
    struct map map = {.length = 0};
    uint8_t op = 2, command = 0;
    uint16_t group = 0;
    size_t which = below(rng, 22);
    if (once_in(rng, 2000))
        return make_long(rng, 0, packet);
    if (which < 4) {
        op = once_in(rng, 2) ? 0 : 2;
        add_string(&map, (struct string)STRING("d"), TEXT, make_text(rng));
    } else if (which == 4) {
        command = 5;
    } else if (which == 5) {
        group = 1;
        command = 5;
        if (once_in(rng, 2))
            add_number(&map, (struct string)STRING("slot"), PICK(rng, slots));
    } else if (which < 8) {
        op = 0;
        group = 1;
    } else {
        group = 1;
        command = 1;
        make_upload(rng, device, &map);
    }
    if (once_in(rng, 30))
        op = PICK(rng, ops);
    if (once_in(rng, 40))
        group = PICK(rng, groups);
    if (once_in(rng, 40))
        command = once_in(rng, 2) ? (uint8_t)below(rng, 7) : (uint8_t)any(rng);
    return make_packet(rng, op, group, command, packet, make_payload(rng, &map, packet + HEADER));
}

/* A packet to be read as a reply. */
size_t make_reply(struct rng *rng, uint8_t packet[PACKET_MAX])
{
    static const uint8_t ops[] = {0, 2, 4, 11, 255};
    struct map map = {.length = 0};
    uint8_t op = once_in(rng, 2) ? 1 : 3;
    if (once_in(rng, 2000))
        return make_long(rng, op, packet);
    if (!once_in(rng, 3))
        add_number(&map, (struct string)STRING("rc"), once_in(rng, 2) ? below(rng, 12) : number(rng));
    if (!once_in(rng, 3))
        add_number(&map, (struct string)STRING("off"), number(rng));
    if (once_in(rng, 3))
        add_string(&map, (struct string)STRING("r"), TEXT, make_text(rng));
    if (once_in(rng, 30))
        op = PICK(rng, ops);
    return make_packet(rng, op, (uint16_t)below(rng, 3), (uint8_t)any(rng), packet, make_payload(rng, &map, packet + HEADER));
}

/* Writes a frame's line; gives its length. */
size_t encode_line(bool initial, const uint8_t *raw, size_t raw_len, uint8_t line[LINE_MAX])
{
    size_t length = 2;
    line[0] = initial ? 0x06 : 0x04;
    line[1] = initial ? 0x09 : 0x14;
    for (size_t at = 0; at < raw_len; at += 3) {
        size_t left = raw_len - at;
        uint32_t group = (uint32_t)raw[at] << 16 | (left > 1 ? (uint32_t)raw[at + 1] << 8 : 0) | (left > 2 ? raw[at + 2] : 0);
        for (size_t i = 0; i < 4; i++)
            line[length++] = i > left ? '=' : (uint8_t)base64[group >> (18 - 6 * i) & 63];
    }
    line[length++] = 0x0A;
    return length;
}

/* Damages the last group of a line's text: another character of Base64 or padding at any of its places. */
static void damage_group(struct rng *rng, uint8_t line[LINE_MAX], size_t end)
{
    if (end >= 6)
        line[range(rng, end - 4, end - 1)] = once_in(rng, 3) ? '=' : (uint8_t)base64[below(rng, 64)];
}

/* Damages a line: its marker, its end, its text, its last group, its length. */
size_t damage_line(struct rng *rng, uint8_t line[LINE_MAX], size_t length)
{
    static const uint8_t characters[] = {'=', '-', '_', 0x0A, 0x0D, 0, 0x80, 0xFF, 'A', 'B', '/', '+'};
    size_t end = length - 1;
    switch (below(rng, 6)) {
    case 0:
        line[below(rng, 2)] ^= (uint8_t)(1u << below(rng, 8));
        return length;
    case 1:
        line[end] = (uint8_t)any(rng);
        return length;
    case 2:
        return damage(rng, line, length, LINE_MAX);
    case 3:
        damage_group(rng, line, end);
        return length;
    case 4:
        while (length < 128 + below(rng, 8))
            line[length++] = 'A';
        line[length - 1] = 0x0A;
        return length;
    default:
        line[below(rng, length)] = PICK(rng, characters);
        return length;
    }
}

/* A line by itself: a frame of any raw bytes, perhaps damaged, or any bytes. */
size_t make_line(struct rng *rng, uint8_t line[LINE_MAX])
{
    uint8_t raw[93];
    if (once_in(rng, 20)) {
        size_t length = below(rng, LINE_MAX + 1);
        fill(rng, line, length);
        return length;
    }
    size_t length = once_in(rng, 4) ? below(rng, 5) : range(rng, 1, 93);
    fill(rng, raw, sizeof raw);
    if (once_in(rng, 2)) {
        raw[0] = 0;
        raw[1] = (uint8_t)(once_in(rng, 4) ? below(rng, 14) : length + below(rng, 4) - 2);
    }
    length = encode_line(once_in(rng, 2), raw, length, line);
    return once_in(rng, 4) ? damage_line(rng, line, length) : length;
}

/* A reader's record: idle, open in its bounds, or any. */
void make_reader(struct rng *rng, uint32_t reader[4])
{
    uint32_t total = (uint32_t)(once_in(rng, 3) ? range(rng, 10, 65535) : range(rng, 10, 300));
    uint32_t come = (uint32_t)(once_in(rng, 3) ? total - 1 - below(rng, 4) : below(rng, total));
    uint32_t record[4] = {1, total, come, once_in(rng, 2) ? 0 : (uint32_t)below(rng, 256)};
    size_t which = below(rng, 8);
    if (which == 0)
        memset(record, 0, sizeof record);
    if (which == 1)
        record[0] = (uint32_t)any(rng);
    if (which == 2)
        record[below(rng, 4)] = (uint32_t)number(rng);
    if (which == 3)
        record[3] = (uint32_t)range(rng, 254, 257);
    if (which == 4)
        record[1] = (uint32_t)(once_in(rng, 2) ? range(rng, 8, 11) : range(rng, 65534, 65537));
    memcpy(reader, record, sizeof record);
}

/* Bytes without an 0A. */
static void fill_line(struct rng *rng, uint8_t *to, size_t length)
{
    fill(rng, to, length);
    for (size_t i = 0; i < length; i++)
        to[i] ^= to[i] == 0x0A;
}

/* A lump of bytes with some line ends or none; now and then too long. */
size_t make_lump(struct rng *rng, uint8_t lump[LUMP_MAX])
{
    size_t length = once_in(rng, 12) ? range(rng, 250, LUMP_MAX) : once_in(rng, 4) ? below(rng, 4) : below(rng, 257);
    size_t ends = once_in(rng, 8) ? below(rng, 20) : below(rng, 4);
    fill_line(rng, lump, length);
    for (; length > 0 && ends > 0; ends--)
        lump[below(rng, length)] = 0x0A;
    return length;
}

/* A collector's record and bytes: empty, possible, or any. */
void make_collector(struct rng *rng, uint32_t collector[2], uint8_t held[126])
{
    collector[0] = (uint32_t)(once_in(rng, 4) ? 0 : once_in(rng, 3) ? range(rng, 120, 126) : below(rng, 127));
    collector[1] = once_in(rng, 3) ? (uint32_t)number(rng) : 0;
    fill_line(rng, held, 126);
    if (once_in(rng, 8))
        held[below(rng, 126)] = 0x0A;
    if (once_in(rng, 8))
        collector[0] = (uint32_t)number(rng);
}
