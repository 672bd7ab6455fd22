/* What lj_packet is given, and a second sender, which goes through the whole frame as RFC 2435 Appendix C does: it sends
 * packet after packet from offset 0 and keeps the one that is asked for. It works out no offset, length or count
 * beforehand. */
#ifndef SENDER_H
#define SENDER_H

#include "../include/ljosvark.h"

#include <string.h>

typedef struct {
    uint32_t type, q, width, height, interval;
    const uint8_t *tables;
    size_t tables_len;
    const uint8_t *scan;
    size_t scan_len;
    uint32_t packet_size;
    uint16_t start;
    uint32_t time, source, k;
    size_t out_len;
} sending;

/* lj_packet, with tables and scan as they lie there. */
static inline lj_written asked(const sending *s, uint8_t *out) {
    return lj_packet(s->type, s->q, s->width, s->height, s->interval, s->tables, s->tables_len, s->scan, s->scan_len,
                     s->packet_size, s->start, s->time, s->source, s->k, out, s->out_len);
}

/* Long enough for packets that are too long. */
enum { PACKET_MOST = 4096 };

typedef struct {
    uint8_t bytes[PACKET_MOST];
    size_t length;
} packet;

/* Packet k of the library's sender; 0 where it has none, or the picture is not taken. */
static inline int sent(sending s, uint32_t k, packet *out) {
    s.k = k;
    s.out_len = PACKET_MOST;
    lj_written w = asked(&s, out->bytes);
    out->length = w.length;
    return w.reply == LJ_SUCCESS;
}

/* ---- The second sender ---- */

/* One field, most significant byte first. */
static inline void put_field(packet *p, int bytes, uint32_t value) {
    while (bytes-- > 0) p->bytes[p->length++] = (uint8_t)(value >> 8 * bytes);
}

static inline void put_bytes(packet *p, const uint8_t *from, size_t length) {
    memcpy(p->bytes + p->length, from, length);
    p->length += length;
}

/* All that stands before the scan data of the packet at this offset. Whether it is the last is not known yet, so the
 * marker is left clear. */
static inline void put_headers(packet *p, const sending *s, uint16_t sequence, uint32_t offset) {
    p->length = 0;
    put_field(p, 1, 2 << 6); /* version 2, and no padding, extension or CSRC */
    put_field(p, 1, 26);
    put_field(p, 2, sequence);
    put_field(p, 4, s->time);
    put_field(p, 4, s->source);
    put_field(p, 1, 0); /* type-specific */
    put_field(p, 3, offset);
    put_field(p, 1, s->type);
    put_field(p, 1, s->q);
    put_field(p, 1, s->width);
    put_field(p, 1, s->height);
    if (s->type >= 64) {
        put_field(p, 2, s->interval);
        put_field(p, 2, 1 << 15 | 1 << 14 | 0x3fff); /* F, L and the count of a frame to be put together first */
    }
    if (s->q >= 128 && offset == 0) {
        put_field(p, 1, 0);
        put_field(p, 1, 0); /* precision */
        put_field(p, 2, (uint32_t)s->tables_len);
        put_bytes(p, s->tables, s->tables_len);
    }
}

/* A packet of any stretch of the scan, as another sender might cut it. Offsets that no scan has bring the bytes of the
 * offset modulo 65,536. */
static inline void cut(packet *p, const sending *s, lj_fragment f, uint16_t sequence) {
    put_headers(p, s, sequence, f.offset);
    if (f.marker) p->bytes[1] |= 0x80;
    put_bytes(p, s->scan + f.offset % 65536, f.length);
}

/* Sends the frame, keeps packet k of it if there is one, and answers how many packets went out. */
static inline uint32_t send_frame(const sending *s, packet *kept) {
    uint32_t sent = 0;
    uint16_t sequence = s->start;
    size_t offset = 0, left = s->scan_len;
    packet now;
    while (left > 0) {
        put_headers(&now, s, sequence, (uint32_t)offset);
        size_t share = s->packet_size - now.length;
        if (left <= share) {
            share = left;
            now.bytes[1] |= 0x80; /* the marker */
        }
        put_bytes(&now, s->scan + offset, share);
        if (sent == s->k) {
            memcpy(kept->bytes, now.bytes, now.length);
            kept->length = now.length;
        }
        offset += share;
        left -= share;
        sequence++;
        sent++;
    }
    return sent;
}

static inline int parameters_right(const sending *s) {
    int plain = s->type == 0 || s->type == 1, restarts = s->type == 64 || s->type == 65;
    if (!plain && !restarts) return 0;
    if (plain && s->interval != 0) return 0;
    if (restarts && (s->interval == 0 || 65535 < s->interval)) return 0;
    if (!(1 <= s->q && s->q <= 99) && !(128 <= s->q && s->q <= 255)) return 0;
    return 1 <= s->width && s->width <= 255 && 1 <= s->height && s->height <= 255;
}

static inline int without_zero(const uint8_t *tables) { return memchr(tables, 0, 128) == NULL; }

static inline int tables_right(const sending *s) {
    if (s->q <= 99) return s->tables_len == 0;
    if (s->tables_len == 0) return s->q != 255;
    return s->tables_len == 128 && without_zero(s->tables);
}

static inline lj_written second_packet(const sending *s, uint8_t *out) {
    if (!parameters_right(s)) return (lj_written){40, 0};
    if (s->scan_len < 1 || 65536 < s->scan_len) return (lj_written){41, 0};
    if (s->packet_size < 192 || 1472 < s->packet_size) return (lj_written){42, 0};
    if (!tables_right(s)) return (lj_written){43, 0};
    packet kept;
    uint32_t sent = send_frame(s, &kept);
    if (64 < sent) return (lj_written){44, 0};
    if (sent <= s->k) return (lj_written){45, 0};
    if (s->out_len < kept.length) return (lj_written){46, 0};
    memcpy(out, kept.bytes, kept.length);
    return (lj_written){0, (uint32_t)kept.length};
}

#endif
