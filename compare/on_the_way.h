/* What becomes of packets on the way to a receiver: all that a reader passes over, and all that it must notice. */
#ifndef ON_THE_WAY_H
#define ON_THE_WAY_H

#include "made_up.h"

/* ---- In a packet of this picture without CSRC entries or extension ---- */

/* Where the table header stands, in a packet that has one. */
static inline size_t tables_at(const sending *s) { return s->type >= 64 ? 24 : 20; }

static inline int has_table_header(const packet *p, const sending *s) {
    return s->q >= 128 && p->bytes[13] == 0 && p->bytes[14] == 0 && p->bytes[15] == 0;
}

/* What a reader makes nothing of: the sequence, F, L and count, the zero byte, and the upper bits of the precision. */
static inline void vary(packet *p, const sending *s) {
    size_t at = tables_at(s);
    p->bytes[3] = (uint8_t)any();
    if (s->type >= 64) p->bytes[22] = p->bytes[23] = (uint8_t)any();
    if (!has_table_header(p, s)) return;
    p->bytes[at] = (uint8_t)any();
    p->bytes[at + 1] = (uint8_t)(any() & 0xfc);
}

/* Tables that break a rule, are at a limit of what is right, or are others in one entry. */
static inline void spoil_tables(packet *p, const sending *s) {
    static const uint16_t lengths[] = {0, 1, 64, 127, 129, 256, 0xffff};
    uint8_t *header = p->bytes + tables_at(s), *entry = header + 4 + some_place();
    uint16_t length = ONE_OF(lengths);
    switch (below(4)) {
    case 0: header[1] = (uint8_t)any(); break;
    case 1:
        header[2] = (uint8_t)(length >> 8);
        header[3] = (uint8_t)length;
        break;
    case 2: *entry = 0; break;
    default: *entry ^= 1;
    }
}

/* A type-specific byte, offset, type, Q or side that is wrong, or at a limit of what is right. */
static inline void spoil_main_header(packet *p) {
    static const uint8_t values[] = {0, 0, 0, 1, 2, 63, 64, 65, 66, 99, 100, 101, 126, 127, 128, 254, 255};
    static const uint8_t places[] = {12, 15, 16, 17, 17, 18, 18, 19};
    uint8_t place = ONE_OF(places);
    switch (below(8)) {
    case 0: /* the last offsets of 24 bits */
        memset(p->bytes + 13, 0xff, 3);
        p->bytes[15] -= (uint8_t)below(256);
        break;
    case 1: p->bytes[13] = (uint8_t)between(1, 255); break;
    default: p->bytes[place] = ONE_OF(values);
    }
}

/* One field is wrong, or at a limit of what is right; or there is no scan. */
static inline void spoil_field(packet *p, const sending *s) {
    size_t place = below(8), headers = tables_at(s) + (has_table_header(p, s) ? 4 + s->tables_len : 0);
    switch (below(has_table_header(p, s) ? 20 : 10)) {
    case 0: p->bytes[0] ^= (uint8_t)(between(1, 3) << 6); break;
    case 1: p->bytes[1] ^= (uint8_t)(1u << below(8)); break;
    case 2: p->bytes[4 + place] ^= (uint8_t)(1u << below(8)); break;
    case 3: memset(p->bytes + 8, 0, 4); break;
    case 4: memset(p->bytes + 20, 0, 2); break;
    case 5: p->length = headers; break;
    case 6:
    case 7:
    case 8:
    case 9: spoil_main_header(p); break;
    default: spoil_tables(p, s);
    }
}

/* Two at once show which of them is asked first. */
static inline void spoil_fields(packet *p, const sending *s) {
    for (uint32_t fields = between(1, 2); fields > 0; fields--) spoil_field(p, s);
}

/* ---- In any packet ---- */

/* So many bytes of noise at this place, and what stands there behind them. */
static inline uint8_t *insert(packet *p, size_t at, size_t count) {
    memmove(p->bytes + at + count, p->bytes + at, p->length - at);
    memcpy(p->bytes + at, noise + below(sizeof noise - PACKET_MOST), count);
    p->length += count;
    return p->bytes + at;
}

/* Few as a rule, and in a short packet now and then more than a byte counts. */
static inline size_t extension_words(const packet *p) {
    if (below(4)) return below(4);
    return p->length < 600 && below(8) == 0 ? between(250, 280) : below(30);
}

/* CSRC entries, an extension and padding, each or not. */
static inline void dress(packet *p) {
    size_t at = 12, csrcs = below(2) ? below(16) : 0, words = extension_words(p), drop = between(1, 255);
    p->bytes[0] |= (uint8_t)csrcs;
    insert(p, at, 4 * csrcs);
    at += 4 * csrcs;
    if (below(2)) {
        uint8_t *head = insert(p, at, 4 + 4 * words);
        p->bytes[0] |= 0x10;
        head[2] = (uint8_t)(words >> 8);
        head[3] = (uint8_t)words;
    }
    if (below(2)) {
        if (below(2)) drop = between(1, 4);
        insert(p, p->length, drop);
        p->bytes[0] |= 0x20;
        p->bytes[p->length - 1] = (uint8_t)drop;
    }
}

/* Cut, made longer, with bits turned over, or with RTP's flags or count of padding set to what is not so. */
static inline void damage(packet *p) {
    uint32_t length = (uint32_t)p->length, bit = below(8 * (length == 0 ? 1 : below(2) && 32 < length ? 32 : length));
    uint32_t cut_at = below(below(2) ? 40 : length + 1);
    switch (below(9)) {
    case 0:
    case 1: p->length = cut_at < length ? cut_at : length; break;
    case 2: insert(p, length, between(1, below(2) ? 8 : 2000)); break;
    case 3: insert(p, length, length < 2048 ? 2048 - length + below(2) : 1); break;
    case 4:
    case 5: p->bytes[bit / 8] ^= (uint8_t)(1u << bit % 8); break;
    case 6: p->bytes[0] ^= (uint8_t)(between(1, 3) << 4); break;
    case 7: p->bytes[0] ^= (uint8_t)between(1, 15); break;
    default:
        if (length == 0) return;
        p->bytes[0] |= 0x20;
        p->bytes[length - 1] = (uint8_t)(below(2) ? below(256) : length - cut_at);
    }
}

#endif
