/* Requests and replies in plain C: see plain.h. */
#include "plain.h"

#include <stdbool.h>
#include <string.h>

enum { HEADER = 8, LONGEST = 65533, REPLY_ROOM = 32, LARGEST_SLOT = 1048576, TAG = 32 };
enum { IMAGE_HEADER = 32, AREA_HEAD = 4, ENTRY_HEAD = 4, AREA_MAGIC = 0x6907, SHA256 = 0x10, HASH = 32, VERSION_MAX = 13 };

/* The types of a value: CBOR's major types, and FLAG for false and true, NOTHING for null. */
enum type { UNSIGNED = 0, NEGATIVE = 1, BYTES = 2, TEXT = 3, MAP = 5, SIMPLE = 7, FLAG, NOTHING };

/* A value: its type, its number (of a string the length, of false and true 0 and 1), and a string's bytes. */
struct value {
    unsigned type;
    uint64_t number;
    const uint8_t *bytes;
};

/* The known keys of all maps. */
enum key { D, DATA, IMAGE, LEN, OFF, R, RC, SHA, SLOT, UPGRADE, OTHER };

/* The type listed for each known key. */
static const uint8_t type_of[OTHER] = {
    [D] = TEXT, [DATA] = BYTES, [IMAGE] = UNSIGNED, [LEN] = UNSIGNED, [OFF] = UNSIGNED, [R] = TEXT, [RC] = UNSIGNED,
    [SHA] = BYTES, [SLOT] = UNSIGNED, [UPGRADE] = FLAG,
};

/* Whose map it is. */
enum kind { ECHO, RESET, LIST, UPLOAD, ERASE, REPLY, UNKNOWN };

/* A map's known keys: a bit of `seen` for each that came, and its value. */
struct map {
    unsigned seen;
    struct value value[OTHER];
};

/* The slot and its session, as they were lent. */
struct slot {
    uint8_t *bytes;
    size_t size;
    uint32_t *session;
    uint8_t *tag;
};

/* A valid image: its hash, null where there is none, and its version as text. */
struct image {
    const uint8_t *hash;
    uint8_t version[VERSION_MAX];
    size_t version_len;
};

/* A number of 2 bytes, the high one first. */
static inline uint32_t number16(const uint8_t *at)
{
    return (uint32_t)at[0] << 8 | at[1];
}

/* A number of 4 bytes, the high one first. */
static inline uint32_t number32(const uint8_t *at)
{
    return (uint32_t)at[0] << 24 | (uint32_t)at[1] << 16 | (uint32_t)at[2] << 8 | at[3];
}

/* A number of 2 bytes, the low one first. */
static inline uint32_t little16(const uint8_t *at)
{
    return (uint32_t)at[1] << 8 | at[0];
}

/* A number of 4 bytes, the low one first. */
static inline uint32_t little32(const uint8_t *at)
{
    return little16(at + 2) << 16 | little16(at);
}

/* Reads the number of a head of 24 to 27; returns the place after it, or null where it is malformed. */
static inline const uint8_t *read_wide(const uint8_t *at, const uint8_t *end, unsigned info, uint64_t *number)
{
    if (info > 27 || end - at < 1 << (info - 24))
        return NULL;
    switch (info) {
    case 24:
        *number = at[0];
        return at + 1;
    case 25:
        *number = number16(at);
        return at + 2;
    case 26:
        *number = number32(at);
        return at + 4;
    default:
        *number = (uint64_t)number32(at) << 32 | number32(at + 4);
        return at + 8;
    }
}

/* Reads a head to a value's type and number; returns the place after it, or null where it is malformed. */
static inline const uint8_t *read_head(const uint8_t *at, const uint8_t *end, struct value *head)
{
    if (at == end)
        return NULL;
    unsigned info = *at & 31;
    head->type = *at >> 5;
    head->number = info;
    return info < 24 ? at + 1 : read_wide(at + 1, end, info, &head->number);
}

/* Reads a simple value, which is one byte: false, true or null; returns the place after it, or null where it is another. */
static const uint8_t *read_simple(const uint8_t *at, struct value *value)
{
    if (*at < 0xF4 || *at > 0xF6)
        return NULL;
    value->type = *at == 0xF6 ? NOTHING : FLAG;
    value->number = *at == 0xF5;
    return at + 1;
}

/* Reads one value; returns the place after it, or null where it is malformed. */
static inline const uint8_t *read_value(const uint8_t *at, const uint8_t *end, struct value *value)
{
    const uint8_t *next = read_head(at, end, value);
    if (next == NULL || value->type <= NEGATIVE)
        return next;
    if (value->type > TEXT)
        return value->type == SIMPLE ? read_simple(at, value) : NULL;
    value->bytes = next;
    return value->number > (size_t)(end - next) ? NULL : next + value->number;
}

/* The name is this literal of as many characters. */
#define NAMED(literal) (memcmp(name, literal, sizeof literal - 1) == 0)

/* The upload's key of a name. */
static enum key upload_key(const uint8_t *name, uint64_t length)
{
    switch (length) {
    case 3:
        return NAMED("off") ? OFF : NAMED("len") ? LEN : NAMED("sha") ? SHA : OTHER;
    case 4:
        return NAMED("data") ? DATA : OTHER;
    case 5:
        return NAMED("image") ? IMAGE : OTHER;
    case 7:
        return NAMED("upgrade") ? UPGRADE : OTHER;
    default:
        return OTHER;
    }
}

/* The reply's key of a name. */
static enum key reply_key(const uint8_t *name, uint64_t length)
{
    switch (length) {
    case 1:
        return NAMED("r") ? R : OTHER;
    case 2:
        return NAMED("rc") ? RC : OTHER;
    case 3:
        return NAMED("off") ? OFF : OTHER;
    default:
        return OTHER;
    }
}

/* The key of a name in a map of this kind. */
static inline enum key key_of(enum kind kind, const uint8_t *name, uint64_t length)
{
    switch (kind) {
    case ECHO:
        return length == 1 && NAMED("d") ? D : OTHER;
    case UPLOAD:
        return upload_key(name, length);
    case ERASE:
        return length == 4 && NAMED("slot") ? SLOT : OTHER;
    case REPLY:
        return reply_key(name, length);
    default:
        return OTHER;
    }
}

/* Reads a payload as a map of this kind, in one pass; false where it is malformed. */
static bool read_map(enum kind kind, const uint8_t *at, const uint8_t *end, struct map *map)
{
    struct value head, value;

    map->seen = 0;
    if (at == end)
        return true;
    at = read_head(at, end, &head);
    if (at == NULL || head.type != MAP)
        return false;
    for (uint64_t left = head.number; left > 0; left--) {
        at = read_head(at, end, &head);
        if (at == NULL || head.type != TEXT || head.number > (size_t)(end - at))
            return false;
        enum key key = key_of(kind, at, head.number);
        at = read_value(at + head.number, end, &value);
        if (at == NULL)
            return false;
        if (key == OTHER)
            continue;
        if (map->seen >> key & 1 || value.type != type_of[key])
            return false;
        map->seen |= 1u << key;
        map->value[key] = value;
    }
    return at == end;
}

/* The key came. */
static inline bool has(const struct map *map, enum key key)
{
    return map->seen >> key & 1;
}

/* The key came with a number above this one. */
static inline bool above(const struct map *map, enum key key, uint64_t number)
{
    return has(map, key) && map->value[key].number > number;
}

/* Writes a head, the shortest for its number; returns the place after it. */
static inline uint8_t *put_head(uint8_t *to, enum type type, uint32_t number)
{
    unsigned bytes = number < 24 ? 0 : number <= 0xFF ? 1 : number <= 0xFFFF ? 2 : 4;
    uint8_t major = (uint8_t)(type << 5);
    if (bytes == 0) {
        *to++ = major | (uint8_t)number;
        return to;
    }
    *to++ = major | (uint8_t)(bytes == 4 ? 26 : 23 + bytes);
    for (unsigned left = bytes; left > 0; left--)
        *to++ = (uint8_t)(number >> 8 * (left - 1));
    return to;
}

/* The length of the shortest head of a number. */
static inline size_t head_length(uint32_t number)
{
    return number < 24 ? 1 : number <= 0xFF ? 2 : number <= 0xFFFF ? 3 : 5;
}

/* Writes bytes; returns the place after them. */
static inline uint8_t *put(uint8_t *to, const void *bytes, size_t length)
{
    if (length > 0)
        memcpy(to, bytes, length);
    return to + length;
}

/* Writes a string: its head, then its bytes; returns the place after it. */
static inline uint8_t *put_string(uint8_t *to, enum type type, const uint8_t *bytes, size_t length)
{
    return put(put_head(to, type, (uint32_t)length), bytes, length);
}

/* Writes a header with flags 0 over a payload that ends before `end`. */
static inline void put_header(uint8_t *packet, uint8_t op, uint32_t group, uint8_t sequence, uint8_t command, const uint8_t *end)
{
    size_t payload = (size_t)(end - packet) - HEADER;
    packet[0] = op;
    packet[1] = 0;
    packet[2] = (uint8_t)(payload >> 8);
    packet[3] = (uint8_t)payload;
    packet[4] = (uint8_t)(group >> 8);
    packet[5] = (uint8_t)group;
    packet[6] = sequence;
    packet[7] = command;
}

/* The packet's length is 8 plus its payload length, and at most 65,533. */
static inline bool right_length(const uint8_t *packet, size_t packet_len)
{
    return packet_len >= HEADER && packet_len <= LONGEST && packet_len == HEADER + number16(packet + 2);
}

/* A region ends inside the memory. */
static inline bool lies_in(size_t start, size_t size, size_t memory_len)
{
    return size <= memory_len && start <= memory_len - size;
}

/* The slot is 1 to 1,048,576 bytes, both regions end inside the memory, and no byte is in both. */
static inline bool possible_layout(const size_t layout[4], size_t memory_len)
{
    size_t start0 = layout[0], size0 = layout[1], start = layout[2], size = layout[3];
    if (size < 1 || size > LARGEST_SLOT || !lies_in(start, size, memory_len) || !lies_in(start0, size0, memory_len))
        return false;
    return size0 == 0 || start0 + size0 <= start || start + size <= start0;
}

/* The session is closed, or open with a length of 1 to the slot's size and a place of 1 to the length. */
static inline bool possible_session(const uint32_t session[4], size_t size)
{
    return session[0] == 0 || (session[2] >= 1 && session[2] <= session[1] && session[1] <= size);
}

/* Makes session and tag all 0: closed. */
static void close_session(uint32_t session[4], uint8_t tag[TAG])
{
    memset(session, 0, 4 * sizeof session[0]);
    memset(tag, 0, TAG);
}

/* Fixes a layout and closes its session. */
uint32_t plain_configure(const size_t layout[4], size_t memory_len, uint32_t session[4], uint8_t tag[32])
{
    if (!possible_layout(layout, memory_len))
        return 1;
    close_session(session, tag);
    return 0;
}

/* Writes the map {"rc": rc}; returns the place after it. */
static uint8_t *put_rc(uint8_t *to, uint8_t rc)
{
    to = put(to, "\xA1\x62rc", 4);
    *to++ = rc;
    return to;
}

/* Writes the map {"rc": 0, "off": off}; returns the place after it. */
static uint8_t *put_success(uint8_t *to, uint32_t off)
{
    return put_head(put(to, "\xA2\x62rc\0\x63off", 9), UNSIGNED, off);
}

/* Echoes the text: the map {"r": text}, or rc 3 or 7; returns the place after it. */
static uint8_t *echo(const struct map *map, uint8_t *to, size_t room)
{
    if (!has(map, D))
        return put_rc(to, 3);
    const struct value *text = &map->value[D];
    if (3 + head_length((uint32_t)text->number) + text->number > room)
        return put_rc(to, 7);
    return put_string(put(to, "\xA1\x61r", 3), TEXT, text->bytes, text->number);
}

/* Sets the slot to 255 and closes the session, or rc 3; returns the place after the reply. */
static uint8_t *erase(const struct map *map, const struct slot *slot, uint8_t *to)
{
    if (has(map, SLOT) && map->value[SLOT].number != 1)
        return put_rc(to, 3);
    memset(slot->bytes, 255, slot->size);
    close_session(slot->session, slot->tag);
    return put_rc(to, 0);
}

/* The bytes of the one SHA-256 entry, of 32 bytes, among entries that end exactly at a place; null where it is not so. */
static const uint8_t *find_hash(const uint8_t *at, const uint8_t *end)
{
    const uint8_t *hash = NULL;
    while (at < end) {
        if (end - at < ENTRY_HEAD)
            return NULL;
        uint32_t type = little16(at), length = little16(at + 2);
        at += ENTRY_HEAD;
        if ((size_t)(end - at) < length)
            return NULL;
        if (type == SHA256) {
            if (hash != NULL || length != HASH)
                return NULL;
            hash = at;
        }
        at += length;
    }
    return hash;
}

/* The hash of the valid image in a region; null where there is none. */
static const uint8_t *hash_in(const uint8_t *region, size_t size)
{
    if (size < IMAGE_HEADER + AREA_HEAD || little32(region) != 0x96F3B83D || little32(region + 4) != 0)
        return NULL;
    size_t header = little16(region + 8), area = header + little32(region + 12);
    if (header < IMAGE_HEADER || little16(region + 10) != 0 || little32(region + 16) != 0 || area > size - AREA_HEAD)
        return NULL;
    size_t total = little16(region + area + 2);
    if (little16(region + area) != AREA_MAGIC || total < AREA_HEAD || total > size - area)
        return NULL;
    return find_hash(region + area + AREA_HEAD, region + area + total);
}

/* Writes a number of up to 16 bits in decimal; returns the place after it. */
static uint8_t *put_decimal(uint8_t *to, uint32_t number)
{
    size_t digits = number < 10 ? 1 : number < 100 ? 2 : number < 1000 ? 3 : number < 10000 ? 4 : 5;
    for (size_t i = digits; i > 0; i--, number /= 10)
        to[i - 1] = (uint8_t)('0' + number % 10);
    return to + digits;
}

/* Reads the image in a region; gives the length of its map in the list, 0 where there is none. */
static size_t read_image(const uint8_t *region, size_t size, struct image *image)
{
    image->hash = hash_in(region, size);
    if (image->hash == NULL)
        return 0;
    uint8_t *to = put_decimal(image->version, region[20]);
    *to++ = '.';
    to = put_decimal(to, region[21]);
    *to++ = '.';
    image->version_len = (size_t)(put_decimal(to, little16(region + 22)) - image->version);
    return 55 + image->version_len;
}

/* Writes an image's map, of a slot; returns the place after it. */
static uint8_t *put_image(uint8_t *to, uint8_t slot, const struct image *image)
{
    if (image->hash == NULL)
        return to;
    to = put(to, "\xA3\x64slot", 6);
    *to++ = slot;
    to = put_string(put(to, "\x67version", 8), TEXT, image->version, image->version_len);
    return put(put(to, "\x64hash\x58\x20", 7), image->hash, HASH);
}

/* Lists the images of both slots, or rc 7; returns the place after the reply. */
static uint8_t *list(const size_t layout[4], const uint8_t *memory, uint8_t *to, size_t room)
{
    struct image first, second;
    size_t length = 9 + read_image(memory + layout[0], layout[1], &first);
    length += read_image(memory + layout[2], layout[3], &second);
    if (length > room)
        return put_rc(to, 7);
    to = put(to, "\xA1\x66images", 8);
    *to++ = (uint8_t)(0x80 + (first.hash != NULL) + (second.hash != NULL));
    return put_image(put_image(to, 0, &first), 1, &second);
}

/* Adds a chunk at an offset above 0, where it is the next; returns the place after the reply. */
static uint8_t *append(const struct map *map, const struct slot *slot, uint8_t *to)
{
    const struct value *data = &map->value[DATA];
    uint32_t *session = slot->session, place = session[2];
    if (session[0] == 0)
        return put_success(to, 0);
    if (map->value[OFF].number != place)
        return put_success(to, place);
    if (data->number > session[1] - place)
        return put_rc(to, 3);
    memcpy(slot->bytes + place, data->bytes, data->number);
    session[2] = place + (uint32_t)data->number;
    return put_success(to, session[2]);
}

/* The rc for the keys of a chunk at offset 0; 0 where they are as the rules have them, but for the session's tag. */
static uint8_t start_rc(const struct map *map, size_t size)
{
    if (above(map, IMAGE, 0) || !has(map, LEN) || map->value[LEN].number == 0)
        return 3;
    if (map->value[LEN].number > size)
        return 2;
    return (!has(map, SHA) || map->value[SHA].number == TAG) && map->value[DATA].number <= map->value[LEN].number ? 0 : 3;
}

/* Starts a session at offset 0, or resumes the open one; returns the place after the reply. */
static uint8_t *start_session(const struct map *map, const struct slot *slot, uint8_t *to)
{
    const struct value *data = &map->value[DATA], *sha = &map->value[SHA];
    uint32_t *session = slot->session;
    uint8_t rc = start_rc(map, slot->size);
    if (rc != 0)
        return put_rc(to, rc);
    uint32_t length = (uint32_t)map->value[LEN].number;
    bool tagged = has(map, SHA), same = tagged && session[0] != 0 && session[3] != 0 && memcmp(sha->bytes, slot->tag, TAG) == 0;
    if (same && session[1] != length)
        return put_rc(to, 6);
    if (above(map, UPGRADE, 0))
        return put_rc(to, 8);
    if (same)
        return put_success(to, session[2]);

    memset(slot->bytes + data->number, 255, slot->size - data->number);
    memcpy(slot->bytes, data->bytes, data->number);
    session[0] = 1;
    session[1] = length;
    session[2] = (uint32_t)data->number;
    session[3] = tagged;
    if (tagged)
        memcpy(slot->tag, sha->bytes, TAG);
    else
        memset(slot->tag, 0, TAG);
    return put_success(to, session[2]);
}

/* Takes an upload by the three checks in order; returns the place after the reply. */
static uint8_t *upload(const struct map *map, const struct slot *slot, uint8_t *to)
{
    if (!has(map, OFF) || !has(map, DATA) || map->value[DATA].number == 0 || above(map, OFF, UINT32_MAX) || above(map, LEN, UINT32_MAX))
        return put_rc(to, 3);
    return map->value[OFF].number > 0 ? append(map, slot, to) : start_session(map, slot, to);
}

/* The kind of request that op, group and command name together. */
static enum kind kind_of(uint8_t op, uint32_t group, uint8_t command)
{
    if (group == 0 && command == 0)
        return ECHO;
    if (op == 2 && group == 0 && command == 5)
        return RESET;
    if (op == 0 && group == 1 && command == 0)
        return LIST;
    if (op == 2 && group == 1 && command == 1)
        return UPLOAD;
    if (op == 2 && group == 1 && command == 5)
        return ERASE;
    return UNKNOWN;
}

/* Closes the session and asks for the reset; returns the place after the reply. */
static uint8_t *reset(const struct slot *slot, uint8_t *to, uint32_t *asked)
{
    close_session(slot->session, slot->tag);
    *asked = 1;
    return put_rc(to, 0);
}

/* Takes one request. */
uint32_t plain_handle(const size_t layout[4], uint8_t *memory, size_t memory_len, uint32_t session[4], uint8_t tag[32],
                      const uint8_t *packet, size_t packet_len, uint8_t *reply, size_t reply_len, uint32_t answer[2])
{
    if (!possible_layout(layout, memory_len) || !possible_session(session, layout[3]))
        return 1;
    if (reply_len < REPLY_ROOM)
        return 11;
    if (!right_length(packet, packet_len) || (packet[0] != 0 && packet[0] != 2))
        return 10;

    struct slot slot = {memory + layout[2], layout[3], session, tag};
    struct map map;
    uint32_t group = number16(packet + 4), asked = 0;
    enum kind kind = kind_of(packet[0], group, packet[7]);
    uint8_t *to = reply + HEADER;
    session[0] = session[0] != 0;
    session[3] = session[3] != 0;
    if (kind == UNKNOWN)
        to = put_rc(to, 8);
    else if (!read_map(kind, packet + HEADER, packet + packet_len, &map))
        to = put_rc(to, 3);
    else if (kind == UPLOAD)
        to = upload(&map, &slot, to);
    else if (kind == ECHO)
        to = echo(&map, to, reply_len - HEADER);
    else if (kind == ERASE)
        to = erase(&map, &slot, to);
    else if (kind == LIST)
        to = list(layout, memory, to, reply_len - HEADER);
    else
        to = reset(&slot, to, &asked);
    put_header(reply, packet[0] + 1, group, packet[6], packet[7], to);
    answer[0] = (uint32_t)(to - reply);
    answer[1] = asked;
    return 0;
}

/* Writes an echo of a text. */
uint32_t plain_write_echo(uint8_t sequence, const uint8_t *text, size_t text_len, uint8_t *out, size_t out_len, uint32_t *packet_len)
{
    if (text_len > LONGEST)
        return 12;
    size_t length = HEADER + 3 + head_length((uint32_t)text_len) + text_len;
    if (length > LONGEST || length > out_len)
        return 12;
    uint8_t *end = put_string(put(out + HEADER, "\xA1\x61" "d", 3), TEXT, text, text_len);
    put_header(out, 2, 0, sequence, 0, end);
    *packet_len = (uint32_t)length;
    return 0;
}

/* An upload at offset 0 has a length that its data and 32 bits allow, and a tag of 32 bytes or none. */
static bool sendable(size_t data_len, uint64_t length, size_t tag_len)
{
    return length >= 1 && length <= UINT32_MAX && data_len <= length && (tag_len == 0 || tag_len == TAG);
}

/* Writes an upload of data at an offset. */
uint32_t plain_write_upload(uint8_t sequence, const uint8_t *data, size_t data_len, uint64_t off, uint64_t length, const uint8_t *tag,
                            size_t tag_len, uint8_t *out, size_t out_len, uint32_t *packet_len)
{
    bool first = off == 0, tagged = first && tag_len != 0;
    if (off > UINT32_MAX || data_len == 0 || data_len > LONGEST || (first && !sendable(data_len, length, tag_len)))
        return 12;
    size_t whole = HEADER + 1 + 5 + head_length((uint32_t)data_len) + data_len + 4 + head_length((uint32_t)off);
    if (first)
        whole += 4 + head_length((uint32_t)length);
    if (tagged)
        whole += 4 + 2 + TAG;
    if (whole > LONGEST || whole > out_len)
        return 12;

    uint8_t *to = out + HEADER;
    *to++ = (uint8_t)(0xA2 + first + tagged);
    to = put_string(put(to, "\x64" "data", 5), BYTES, data, data_len);
    if (first)
        to = put_head(put(to, "\x63len", 4), UNSIGNED, (uint32_t)length);
    to = put_head(put(to, "\x63off", 4), UNSIGNED, (uint32_t)off);
    if (tagged)
        to = put_string(put(to, "\x63sha", 4), BYTES, tag, TAG);
    put_header(out, 2, 1, sequence, 1, to);
    *packet_len = (uint32_t)whole;
    return 0;
}

/* Reads a packet as a reply. */
uint32_t plain_read_reply(const uint8_t *packet, size_t packet_len, uint32_t reply[12])
{
    struct map map;
    if (!right_length(packet, packet_len) || (packet[0] != 1 && packet[0] != 3))
        return 10;
    if (!read_map(REPLY, packet + HEADER, packet + packet_len, &map) || above(&map, RC, UINT32_MAX) || above(&map, OFF, UINT32_MAX))
        return 10;
    const struct value *text = &map.value[R];
    reply[0] = packet[0];
    reply[1] = packet[1];
    reply[2] = number16(packet + 2);
    reply[3] = number16(packet + 4);
    reply[4] = packet[6];
    reply[5] = packet[7];
    reply[6] = has(&map, RC) ? (uint32_t)map.value[RC].number : 0;
    reply[7] = has(&map, OFF);
    reply[8] = has(&map, OFF) ? (uint32_t)map.value[OFF].number : 0;
    reply[9] = has(&map, R);
    reply[10] = has(&map, R) ? (uint32_t)(text->bytes - packet) : 0;
    reply[11] = has(&map, R) ? (uint32_t)text->number : 0;
    return 0;
}

/* The sequence number after this one: 0 after 255. */
uint8_t plain_next_sequence(uint8_t sequence)
{
    return (uint8_t)(sequence + 1);
}
