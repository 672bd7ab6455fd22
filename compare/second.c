/* Each call asks in this order: is the state well formed, is the area the room, what does the packet say, and does the
 * map of the picture agree with it. Nothing is written before the last question is answered. */
#include "second.h"
#include "quantiser.h"

#include <stdbool.h>
#include <string.h>

/* Document 01's numbers and not the product's header, which is tried too. */
enum {
    DONE = 0,               /* opened, built, or read without a fault */
    HELD = 0,
    WHOLE = 1,
    AGAIN = 2,
    ROOM_REFUSED = 7,
    AREA_IS_NOT_ROOM = 8,
    NOT_WELL_FORMED = 9,
    TOO_SHORT = 10,
    TOO_LONG = 11,
    WRONG_VERSION = 12,
    WRONG_PAYLOAD_TYPE = 13,
    OTHER_SOURCE = 14,
    WRONG_TYPE = 15,
    WRONG_TYPE_SPECIFIC = 16,
    WRONG_Q = 17,
    NO_SIZE = 18,
    NO_INTERVAL = 19,
    WRONG_TABLES = 20,
    NO_SCAN = 21,
    PAST = 22,
    UNLIKE_PICTURE = 23,
    BEYOND_ROOM = 24,
    CLASH = 25,
    FULL = 26,
    NO_TABLES_KEPT = 27,
    NOT_WHOLE = 30,
    OUTPUT_TOO_SHORT = 31
};

enum { PACKET_MAX = 2048, FRAGMENTS_MAX = 64, TABLES = 128 };
enum { RTP_JPEG = 26, RTP_PADDING = 0x20, RTP_EXTENSION = 0x10 };

/* An entry of the map. That a gap is 0 lets zeroed memory be one. */
enum { GAP = 0, FIRST = 1, REST = 2 };

/* ---- The packet reader ---- */

/* What is not read yet of a packet. */
typedef struct {
    const uint8_t *at;
    size_t left;
} unread;

/* `tables` and `scan` lie in the packet; `tables` is NULL where it brings none. */
typedef struct {
    uint32_t time;
    uint32_t marker;
    uint32_t offset;
    second_header header;
    const uint8_t *tables;
    const uint8_t *scan;
    uint32_t length;
} scan_packet;

static uint32_t big16(const uint8_t *b) { return (uint32_t)b[0] << 8 | b[1]; }
static uint32_t big24(const uint8_t *b) { return (uint32_t)b[0] << 16 | big16(b + 1); }
static uint32_t big32(const uint8_t *b) { return (uint32_t)b[0] << 24 | big24(b + 1); }

/* The next bytes, now read; NULL where there are fewer. */
static const uint8_t *next(unread *rest, size_t count) {
    const uint8_t *bytes = rest->at;
    if (rest->left < count) return NULL;
    rest->at += count;
    rest->left -= count;
    return bytes;
}

static bool type_is_known(uint32_t kind) { return kind == 0 || kind == 1 || kind == 64 || kind == 65; }
static bool type_has_interval(uint32_t kind) { return kind >= 64; }
static bool q_makes_tables(uint32_t q) { return q >= 1 && q <= 99; }
static bool q_brings_tables(uint32_t q) { return q >= 128 && q <= 255; }
static bool q_keeps_tables(uint32_t q) { return q >= 128 && q <= 254; }

static bool padding_is_dropped(unread *rest) {
    size_t padding = rest->left == 0 ? 0 : rest->at[rest->left - 1];
    if (padding == 0 || padding > rest->left) return false;
    rest->left -= padding;
    return true;
}

/* Passes over the parts of the RTP header that may be absent, as `flags`, its first byte, says. */
static bool rtp_options_are_passed(unread *rest, uint8_t flags) {
    if (next(rest, 4 * (size_t)(flags & 15)) == NULL) return false;
    if (flags & RTP_EXTENSION) {
        const uint8_t *extension = next(rest, 4);
        if (extension == NULL || next(rest, 4 * (size_t)big16(extension + 2)) == NULL) return false;
    }
    return !(flags & RTP_PADDING) || padding_is_dropped(rest);
}

static uint32_t read_rtp_header(unread *rest, uint32_t source, scan_packet *p) {
    const uint8_t *head = next(rest, 12);
    if (head == NULL) return TOO_SHORT;
    if (head[0] >> 6 != 2) return WRONG_VERSION;
    if ((head[1] & 127) != RTP_JPEG) return WRONG_PAYLOAD_TYPE;
    if (big32(head + 8) != source) return OTHER_SOURCE;
    p->marker = head[1] >> 7;
    p->time = big32(head + 4);
    return rtp_options_are_passed(rest, head[0]) ? DONE : TOO_SHORT;
}

static uint32_t read_main_header(unread *rest, scan_packet *p) {
    const uint8_t *head = next(rest, 8);
    if (head == NULL) return TOO_SHORT;
    p->offset = big24(head + 1);
    p->header = (second_header){.kind = head[4], .q = head[5], .width = head[6], .height = head[7], .interval = 0};
    if (!type_is_known(p->header.kind)) return WRONG_TYPE;
    if (head[0] != 0) return WRONG_TYPE_SPECIFIC;
    if (!q_makes_tables(p->header.q) && !q_brings_tables(p->header.q)) return WRONG_Q;
    return p->header.width == 0 || p->header.height == 0 ? NO_SIZE : DONE;
}

static uint32_t read_restart_header(unread *rest, scan_packet *p) {
    const uint8_t *head;
    if (!type_has_interval(p->header.kind)) return DONE;
    head = next(rest, 4);
    if (head == NULL) return TOO_SHORT;
    p->header.interval = big16(head);
    return p->header.interval == 0 ? NO_INTERVAL : DONE;
}

static bool has_a_zero(const uint8_t *tables) { return memchr(tables, 0, TABLES) != NULL; }

/* A length that the packet does not have is a short packet, even where that length is not lawful either. */
static uint32_t read_tables(unread *rest, scan_packet *p) {
    const uint8_t *head, *tables;
    uint32_t length;
    p->tables = NULL;
    if (p->offset != 0 || !q_brings_tables(p->header.q)) return DONE;
    head = next(rest, 4);
    if (head == NULL) return TOO_SHORT;
    length = big16(head + 2);
    tables = next(rest, length);
    if (tables == NULL) return TOO_SHORT;
    if ((head[1] & 3) != 0) return WRONG_TABLES;
    if (length == 0) return q_keeps_tables(p->header.q) ? DONE : WRONG_TABLES;
    if (length != TABLES || has_a_zero(tables)) return WRONG_TABLES;
    p->tables = tables;
    return DONE;
}

/* `p` counts only where the reply is DONE. */
static uint32_t read_packet(uint32_t source, const uint8_t *packet, size_t packet_len, scan_packet *p) {
    unread rest = {packet, packet_len};
    uint32_t reply = packet_len > PACKET_MAX ? TOO_LONG : DONE;
    if (reply == DONE) reply = read_rtp_header(&rest, source, p);
    if (reply == DONE) reply = read_main_header(&rest, p);
    if (reply == DONE) reply = read_restart_header(&rest, p);
    if (reply == DONE) reply = read_tables(&rest, p);
    if (reply == DONE && rest.left == 0) reply = NO_SCAN;
    p->scan = rest.at;
    p->length = (uint32_t)rest.left;
    return reply;
}

/* ---- The map ---- */

/* The first place at or after `from`, but not after `to`, whose entry is not `entry`. */
static uint32_t end_of_run(const second_receiver *s, uint32_t from, uint32_t to, uint8_t entry) {
    uint8_t eight[8];
    memset(eight, entry, sizeof eight);
    while (from + sizeof eight <= to && memcmp(s->map + from, eight, sizeof eight) == 0) from += sizeof eight;
    while (from < to && s->map[from] == entry) from++;
    return from;
}

static bool has_no_gap_below(const second_receiver *s, uint32_t end) { return memchr(s->map, GAP, end) == NULL; }

/* Enters a fragment of 1 byte or more, where there is room and nothing but gap. */
static void enter_fragment(second_receiver *s, uint32_t offset, uint32_t length, uint32_t marker) {
    uint32_t end = offset + length;
    memset(s->map + offset, REST, length);
    s->map[offset] = FIRST;
    s->held += length;
    s->count++;
    if (s->top < end) s->top = end;
    if (marker) s->end = end;
    s->whole = s->end != 0 && has_no_gap_below(s, s->end);
}

/* Lists the fragments of the map; `fragments` has a place for each. The marked one is that which reaches the end. */
static void list_fragments(const second_receiver *s, lj_fragment *fragments) {
    uint32_t past = 0;
    for (uint32_t i = 0; i < s->count; i++) {
        uint32_t first = end_of_run(s, past, s->top, GAP);
        past = end_of_run(s, first + 1, s->top, REST);
        fragments[i] = (lj_fragment){.offset = first, .length = past - first, .marker = past == s->end};
    }
}

/* ---- The state and its fields ---- */

_Static_assert(sizeof(lj_receiver) == 12 * 4 + FRAGMENTS_MAX * 12 + TABLES + 4 + TABLES, "fields are compared as bytes");

/* The fields of a well-formed state. */
static void say_fields(const second_receiver *s, lj_receiver *f) {
    memset(f, 0, sizeof *f);
    f->source = s->source;
    f->room = s->room;
    f->picture = s->picture;
    f->time = s->time;
    f->kind = s->header.kind;
    f->q = s->header.q;
    f->width = s->header.width;
    f->height = s->header.height;
    f->interval = s->header.interval;
    f->end = s->end;
    f->whole = s->whole;
    f->fragment_count = s->count;
    list_fragments(s, f->fragments);
    memcpy(f->tables, s->tables, TABLES);
    f->kept = s->kept;
}

static bool all_zero(const uint8_t *tables) {
    static const uint8_t zeros[TABLES];
    return memcmp(tables, zeros, TABLES) == 0;
}

static bool header_can_be_read(const second_header *h) {
    return type_is_known(h->kind) && (q_makes_tables(h->q) || q_brings_tables(h->q)) &&
        h->width >= 1 && h->width <= 255 && h->height >= 1 && h->height <= 255 &&
        h->interval <= 65535 && type_has_interval(h->kind) == (h->interval != 0);
}

static bool kept_is_lawful(const lj_kept *kept) {
    return kept->q == 0 ? all_zero(kept->tables) : q_keeps_tables(kept->q) && !has_a_zero(kept->tables);
}

/* To be asked when the map is filled: the tables come with the fragment at offset 0. */
static bool tables_are_lawful(const second_receiver *s) {
    uint8_t made[TABLES];
    if (s->map[0] == GAP) return all_zero(s->tables);
    if (!q_makes_tables(s->header.q)) return !has_a_zero(s->tables);
    tables_made(s->header.q, made);
    return memcmp(s->tables, made, TABLES) == 0;
}

/* Whether the fragments could all be entered, rising and apart, and none lies past a marked one. */
static bool map_is_filled(second_receiver *s, const lj_receiver *f) {
    if (f->fragment_count > FRAGMENTS_MAX) return false;
    for (uint32_t i = 0; i < f->fragment_count; i++) {
        lj_fragment g = f->fragments[i];
        if (g.length == 0 || g.offset < s->top || g.offset > s->room || g.length > s->room - g.offset) return false;
        enter_fragment(s, g.offset, g.length, g.marker);
    }
    return s->end == 0 || s->end == s->top;
}

static bool picture_is_taken_over(second_receiver *s, const lj_receiver *f) {
    s->picture = 1;
    s->time = f->time;
    s->header = (second_header){f->kind, f->q, f->width, f->height, f->interval};
    memcpy(s->tables, f->tables, TABLES);
    return header_can_be_read(&s->header) && map_is_filled(s, f) && tables_are_lawful(s);
}

/* Whether the fields are well formed. What follows from the map (markers, end, whole), what is unused, and the flags
 * need no test of their own: a state filled from well-formed fields says the same fields. */
static bool fields_are_taken_over(second_receiver *s, const lj_receiver *f) {
    lj_receiver said;
    if (f->room < 1 || f->room > SECOND_ROOM_MAX || !kept_is_lawful(&f->kept)) return false;
    s->source = f->source;
    s->room = f->room;
    s->kept = f->kept;
    if (f->picture == 1 && !picture_is_taken_over(s, f)) return false;
    say_fields(s, &said);
    return memcmp(&said, f, sizeof said) == 0;
}

/* Of the map only what the room has is ever looked at. */
void second_load(second_receiver *s, const lj_receiver *fields) {
    uint32_t room = fields->room <= SECOND_ROOM_MAX ? fields->room : 0;
    memset(s, 0, offsetof(second_receiver, map) + room);
    s->well_formed = fields_are_taken_over(s, fields);
    if (!s->well_formed) s->loaded = *fields;
}

void second_store(const second_receiver *s, lj_receiver *fields) {
    if (s->well_formed)
        say_fields(s, fields);
    else
        *fields = s->loaded;
}

lj_answer second_open(second_receiver *s, uint32_t source, uint32_t room) {
    bool lawful = room >= 1 && room <= SECOND_ROOM_MAX;
    lj_receiver fresh = {.source = source, .room = lawful ? room : 0};
    second_load(s, &fresh);
    return (lj_answer){lawful ? DONE : ROOM_REFUSED, 0};
}

/* ---- The receiver ---- */

static bool is_newer(uint32_t time, uint32_t than) {
    uint32_t ahead = time - than;
    return ahead >= 1 && ahead <= 0x7fffffff;
}

static bool starts_picture(const second_receiver *s, const scan_packet *p) {
    return !s->picture || is_newer(p->time, s->time);
}

static bool same_header(const second_header *a, const second_header *b) {
    return a->kind == b->kind && a->q == b->q && a->width == b->width && a->height == b->height &&
        a->interval == b->interval;
}

/* Whether the packet is a fragment of the map over again. */
static bool is_repeat(const second_receiver *s, const uint8_t *area, const scan_packet *p) {
    uint32_t end = p->offset + p->length;
    return s->map[p->offset] == FIRST && end_of_run(s, p->offset + 1, s->top, REST) == end &&
        p->marker == (end == s->end) && memcmp(area + p->offset, p->scan, p->length) == 0 &&
        (p->tables == NULL || memcmp(p->tables, s->tables, TABLES) == 0);
}

/* `gaps` is longer than any scan that a packet carries. */
static bool shares_a_byte(const second_receiver *s, const scan_packet *p) {
    static const uint8_t gaps[PACKET_MAX];
    return memcmp(s->map + p->offset, gaps, p->length) != 0;
}

static bool clashes(const second_receiver *s, const scan_packet *p) {
    uint32_t end = p->offset + p->length;
    bool passes_the_end = s->end != 0 && end > s->end;
    bool ends_wrongly = p->marker && (s->end != 0 || end < s->top);
    return shares_a_byte(s, p) || passes_the_end || ends_wrongly;
}

static bool lacks_tables(const second_receiver *s, const scan_packet *p) {
    return p->offset == 0 && q_brings_tables(p->header.q) && p->tables == NULL && s->kept.q != p->header.q;
}

/* The checks of a packet for the picture that is held, from the clash on. */
static uint32_t judge_beside_others(const second_receiver *s, const uint8_t *area, const scan_packet *p) {
    if (is_repeat(s, area, p)) return AGAIN;
    if (clashes(s, p)) return CLASH;
    return s->count == FRAGMENTS_MAX ? FULL : HELD;
}

/* HELD for a packet to be taken, else the reply that leaves everything as it is. */
static uint32_t judge_packet(const second_receiver *s, const uint8_t *area, const scan_packet *p) {
    bool starts = starts_picture(s, p);
    uint32_t reply = HELD;
    if (!starts && (p->time != s->time || s->whole)) return PAST;
    if (!starts && !same_header(&p->header, &s->header)) return UNLIKE_PICTURE;
    if (p->offset + p->length > s->room) return BEYOND_ROOM;    /* no wrap: 24 bits and at most PACKET_MAX */
    if (!starts) reply = judge_beside_others(s, area, p);
    if (reply != HELD) return reply;
    return lacks_tables(s, p) ? NO_TABLES_KEPT : HELD;
}

/* Empties the map, which is gap from `top` on, for the picture that this packet begins. */
static void start_picture(second_receiver *s, const scan_packet *p) {
    memset(s->map, GAP, s->top);
    memset(s->tables, 0, TABLES);
    s->picture = 1;
    s->time = p->time;
    s->header = p->header;
    s->end = s->whole = s->held = s->count = s->top = 0;
}

static void take_tables(second_receiver *s, const scan_packet *p) {
    if (q_makes_tables(p->header.q)) {
        tables_made(p->header.q, s->tables);
        return;
    }
    memcpy(s->tables, p->tables != NULL ? p->tables : s->kept.tables, TABLES);
    if (p->tables != NULL && q_keeps_tables(p->header.q)) {
        s->kept.q = p->header.q;
        memcpy(s->kept.tables, p->tables, TABLES);
    }
}

static void take_packet(second_receiver *s, uint8_t *area, const scan_packet *p) {
    if (starts_picture(s, p)) start_picture(s, p);
    if (p->offset == 0) take_tables(s, p);
    enter_fragment(s, p->offset, p->length, p->marker);
    memcpy(area + p->offset, p->scan, p->length);
}

lj_answer second_receive(second_receiver *s, uint8_t *area, size_t area_len, const uint8_t *packet, size_t packet_len) {
    scan_packet p;
    uint32_t reply;
    if (!s->well_formed) return (lj_answer){NOT_WELL_FORMED, 0};
    if (area_len != s->room) return (lj_answer){AREA_IS_NOT_ROOM, s->held};
    reply = read_packet(s->source, packet, packet_len, &p);
    if (reply == DONE) reply = judge_packet(s, area, &p);
    if (reply == HELD) {
        take_packet(s, area, &p);
        reply = s->whole ? WHOLE : HELD;
    }
    return (lj_answer){reply, s->held};
}

/* ---- The file builder ---- */

enum { DHT = 0xc4, SOF0 = 0xc0, SOI = 0xd8, EOI = 0xd9, SOS = 0xda, DQT = 0xdb, DRI = 0xdd };
enum { HEAD_LENGTH = 605, DRI_LENGTH = 6, EOI_LENGTH = 2 };

/* T.81 K.3 to K.6: how many codes there are of 1 to 16 bits, and the symbols in the order of their codes. */
static const uint8_t luma_dc_counts[16] = {0, 1, 5, 1, 1, 1, 1, 1, 1};
static const uint8_t chroma_dc_counts[16] = {0, 3, 1, 1, 1, 1, 1, 1, 1, 1, 1};
static const uint8_t dc_symbols[12] = {0, 1, 2, 3, 4, 5, 6, 7, 8, 9, 10, 11};

static const uint8_t luma_ac_counts[16] = {0, 2, 1, 3, 3, 2, 4, 3, 5, 5, 4, 4, 0, 0, 1, 125};
static const uint8_t luma_ac_symbols[162] = {
    0x01, 0x02, 0x03, 0x00, 0x04, 0x11, 0x05, 0x12, 0x21, 0x31, 0x41, 0x06, 0x13, 0x51, 0x61, 0x07, 0x22, 0x71,
    0x14, 0x32, 0x81, 0x91, 0xa1, 0x08, 0x23, 0x42, 0xb1, 0xc1, 0x15, 0x52, 0xd1, 0xf0, 0x24, 0x33, 0x62, 0x72,
    0x82, 0x09, 0x0a, 0x16, 0x17, 0x18, 0x19, 0x1a, 0x25, 0x26, 0x27, 0x28, 0x29, 0x2a, 0x34, 0x35, 0x36, 0x37,
    0x38, 0x39, 0x3a, 0x43, 0x44, 0x45, 0x46, 0x47, 0x48, 0x49, 0x4a, 0x53, 0x54, 0x55, 0x56, 0x57, 0x58, 0x59,
    0x5a, 0x63, 0x64, 0x65, 0x66, 0x67, 0x68, 0x69, 0x6a, 0x73, 0x74, 0x75, 0x76, 0x77, 0x78, 0x79, 0x7a, 0x83,
    0x84, 0x85, 0x86, 0x87, 0x88, 0x89, 0x8a, 0x92, 0x93, 0x94, 0x95, 0x96, 0x97, 0x98, 0x99, 0x9a, 0xa2, 0xa3,
    0xa4, 0xa5, 0xa6, 0xa7, 0xa8, 0xa9, 0xaa, 0xb2, 0xb3, 0xb4, 0xb5, 0xb6, 0xb7, 0xb8, 0xb9, 0xba, 0xc2, 0xc3,
    0xc4, 0xc5, 0xc6, 0xc7, 0xc8, 0xc9, 0xca, 0xd2, 0xd3, 0xd4, 0xd5, 0xd6, 0xd7, 0xd8, 0xd9, 0xda, 0xe1, 0xe2,
    0xe3, 0xe4, 0xe5, 0xe6, 0xe7, 0xe8, 0xe9, 0xea, 0xf1, 0xf2, 0xf3, 0xf4, 0xf5, 0xf6, 0xf7, 0xf8, 0xf9, 0xfa,
};

static const uint8_t chroma_ac_counts[16] = {0, 2, 1, 2, 4, 4, 3, 4, 7, 5, 4, 4, 0, 1, 2, 119};
static const uint8_t chroma_ac_symbols[162] = {
    0x00, 0x01, 0x02, 0x03, 0x11, 0x04, 0x05, 0x21, 0x31, 0x06, 0x12, 0x41, 0x51, 0x07, 0x61, 0x71, 0x13, 0x22,
    0x32, 0x81, 0x08, 0x14, 0x42, 0x91, 0xa1, 0xb1, 0xc1, 0x09, 0x23, 0x33, 0x52, 0xf0, 0x15, 0x62, 0x72, 0xd1,
    0x0a, 0x16, 0x24, 0x34, 0xe1, 0x25, 0xf1, 0x17, 0x18, 0x19, 0x1a, 0x26, 0x27, 0x28, 0x29, 0x2a, 0x35, 0x36,
    0x37, 0x38, 0x39, 0x3a, 0x43, 0x44, 0x45, 0x46, 0x47, 0x48, 0x49, 0x4a, 0x53, 0x54, 0x55, 0x56, 0x57, 0x58,
    0x59, 0x5a, 0x63, 0x64, 0x65, 0x66, 0x67, 0x68, 0x69, 0x6a, 0x73, 0x74, 0x75, 0x76, 0x77, 0x78, 0x79, 0x7a,
    0x82, 0x83, 0x84, 0x85, 0x86, 0x87, 0x88, 0x89, 0x8a, 0x92, 0x93, 0x94, 0x95, 0x96, 0x97, 0x98, 0x99, 0x9a,
    0xa2, 0xa3, 0xa4, 0xa5, 0xa6, 0xa7, 0xa8, 0xa9, 0xaa, 0xb2, 0xb3, 0xb4, 0xb5, 0xb6, 0xb7, 0xb8, 0xb9, 0xba,
    0xc2, 0xc3, 0xc4, 0xc5, 0xc6, 0xc7, 0xc8, 0xc9, 0xca, 0xd2, 0xd3, 0xd4, 0xd5, 0xd6, 0xd7, 0xd8, 0xd9, 0xda,
    0xe2, 0xe3, 0xe4, 0xe5, 0xe6, 0xe7, 0xe8, 0xe9, 0xea, 0xf2, 0xf3, 0xf4, 0xf5, 0xf6, 0xf7, 0xf8, 0xf9, 0xfa,
};

/* Each of these writes at `at` and answers where the next byte goes. */

static uint8_t *put_bytes(uint8_t *at, const uint8_t *bytes, size_t count) {
    memcpy(at, bytes, count);
    return at + count;
}

static uint8_t *put_marker(uint8_t *at, uint8_t code) {
    *at++ = 0xff;
    *at++ = code;
    return at;
}

/* A segment up to its body, of `body` bytes; the length that is written counts its own two bytes too. */
static uint8_t *put_segment(uint8_t *at, uint8_t code, size_t body) {
    at = put_marker(at, code);
    *at++ = (uint8_t)((body + 2) >> 8);
    *at++ = (uint8_t)(body + 2);
    return at;
}

static uint8_t *put_quantiser(uint8_t *at, uint8_t number, const uint8_t *table) {
    at = put_segment(at, DQT, 1 + TABLES / 2);
    *at++ = number;
    return put_bytes(at, table, TABLES / 2);
}

static uint8_t *put_interval(uint8_t *at, uint32_t interval) {
    const uint8_t body[] = {(uint8_t)(interval >> 8), (uint8_t)interval};
    at = put_segment(at, DRI, sizeof body);
    return put_bytes(at, body, sizeof body);
}

/* The size in pixels, and for each component its number, its sampling and its quantiser. */
static uint8_t *put_frame(uint8_t *at, const second_header *h) {
    uint32_t width = 8 * h->width, height = 8 * h->height;
    uint8_t luma_sampling = h->kind == 0 || h->kind == 64 ? 0x21 : 0x22;
    const uint8_t body[] = {
        8, (uint8_t)(height >> 8), (uint8_t)height, (uint8_t)(width >> 8), (uint8_t)width,
        3, 0, luma_sampling, 0, 1, 0x11, 1, 2, 0x11, 1,
    };
    at = put_segment(at, SOF0, sizeof body);
    return put_bytes(at, body, sizeof body);
}

/* `place` has the class (0 DC, 1 AC) in its upper half and the number in its lower. */
static uint8_t *put_huffman(uint8_t *at, uint8_t place, const uint8_t *counts, const uint8_t *symbols, size_t codes) {
    at = put_segment(at, DHT, 1 + 16 + codes);
    *at++ = place;
    at = put_bytes(at, counts, 16);
    return put_bytes(at, symbols, codes);
}

/* For each component its number and its Huffman tables, then all 64 coefficients in one pass. */
static uint8_t *put_scan_header(uint8_t *at) {
    static const uint8_t body[] = {3, 0, 0x00, 1, 0x11, 2, 0x11, 0, 63, 0};
    at = put_segment(at, SOS, sizeof body);
    return put_bytes(at, body, sizeof body);
}

static uint8_t *put_head(uint8_t *at, const second_receiver *s) {
    at = put_marker(at, SOI);
    at = put_quantiser(at, 0, s->tables);
    at = put_quantiser(at, 1, s->tables + TABLES / 2);
    if (s->header.interval != 0) at = put_interval(at, s->header.interval);
    at = put_frame(at, &s->header);
    at = put_huffman(at, 0x00, luma_dc_counts, dc_symbols, sizeof dc_symbols);
    at = put_huffman(at, 0x10, luma_ac_counts, luma_ac_symbols, sizeof luma_ac_symbols);
    at = put_huffman(at, 0x01, chroma_dc_counts, dc_symbols, sizeof dc_symbols);
    at = put_huffman(at, 0x11, chroma_ac_counts, chroma_ac_symbols, sizeof chroma_ac_symbols);
    return put_scan_header(at);
}

static bool scan_has_eoi(const uint8_t *scan, uint32_t length) {
    return length >= 2 && scan[length - 2] == 0xff && scan[length - 1] == EOI;
}

lj_written second_build(const second_receiver *s, const uint8_t *area, size_t area_len, uint8_t *out, size_t out_len) {
    bool add_eoi;
    uint32_t length;
    uint8_t *at;
    if (!s->well_formed) return (lj_written){NOT_WELL_FORMED, 0};
    if (area_len != s->room) return (lj_written){AREA_IS_NOT_ROOM, 0};
    if (!s->whole) return (lj_written){NOT_WHOLE, 0};
    add_eoi = !scan_has_eoi(area, s->end);
    length = HEAD_LENGTH + (s->header.interval != 0 ? DRI_LENGTH : 0) + s->end + (add_eoi ? EOI_LENGTH : 0);
    if (out_len < length) return (lj_written){OUTPUT_TOO_SHORT, 0};
    at = put_head(out, s);
    at = put_bytes(at, area, s->end);
    if (add_eoi) put_marker(at, EOI);
    return (lj_written){DONE, length};
}
