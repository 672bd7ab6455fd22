/* Pictures, and receivers that only a C host can make, chosen by chance. */
#ifndef MADE_UP_H
#define MADE_UP_H

#include "chance.h"
#include "quantiser.h"
#include "sender.h"

/* Scans, areas and tables are stretches of these bytes; `entries` has no 0. */
static uint8_t noise[4 * 65536], entries[65536];
static uint8_t made[100][128]; /* the tables of each Q from 1 to 99 */

static inline void fill_bytes(void) {
    for (size_t i = 0; i < sizeof noise; i++) noise[i] = (uint8_t)any();
    for (size_t i = 0; i < sizeof entries; i++) entries[i] = (uint8_t)between(1, 255);
    for (uint32_t q = 1; q <= 99; q++) tables_made(q, made[q]);
}

static inline const uint8_t *some_entries(void) { return entries + below(sizeof entries - 128); }

/* A place in tables, often at one of their ends. */
static inline uint32_t some_place(void) {
    static const uint8_t ends[] = {0, 63, 64, 127};
    return below(2) ? ONE_OF(ends) : below(128);
}

static inline int within(uint32_t n, uint32_t least, uint32_t most) { return least <= n && n <= most; }

/* ---- Pictures ---- */

static inline uint32_t chosen_q(void) {
    unsigned which = below(5);
    return which < 2 ? between(1, 99) : which == 4 ? 255 : between(128, 254);
}

static inline sending chosen_picture(uint32_t room) {
    static const uint32_t types[] = {0, 1, 64, 65};
    sending p = {.type = ONE_OF(types)};
    p.q = chosen_q();
    p.width = between(1, 255);
    p.height = between(1, 255);
    if (p.type >= 64) p.interval = below(8) ? between(1, below(2) ? 65535 : 3) : 65535;
    p.tables = some_entries();
    p.tables_len = p.q >= 128 && (p.q == 255 || below(4)) ? 128 : 0;
    p.scan = noise + 2048 + below(65536);
    p.packet_size = below(2) ? between(192, 260) : between(192, 1472);
    p.start = (uint16_t)any();
    uint32_t most = 40 * (p.packet_size - 24);
    p.scan_len = between(1, room < most ? room : most);
    p.time = below(4) ? any() : UINT32_MAX - below(3);
    p.source = any();
    return p;
}

static inline uint32_t chosen_room(void) {
    static const uint32_t most[] = {1200, 1200, 1200, 1200, 4096, 4096, 4096, 11008};
    return below(128) == 0 ? 65536 : between(1, ONE_OF(most));
}

/* ---- Receivers built from lawful fields ---- */

/* Fragments one behind the other with gaps or without; answers where the last one ends. */
static inline uint32_t build_fragments(lj_receiver *r, uint32_t count, uint32_t longest, uint32_t gap) {
    uint32_t at = below(3) ? 0 : below(gap + 1);
    for (uint32_t i = 0; i < count; i++) {
        r->fragments[i].offset = at;
        r->fragments[i].length = between(1, longest);
        at += r->fragments[i].length;
        if (i + 1 < count) at += below(2) ? 0 : below(gap + 1);
    }
    r->fragment_count = count;
    return at;
}

static inline void build_end(lj_receiver *r) {
    uint64_t sum = 0;
    if (r->fragment_count == 0 || below(2)) return;
    lj_fragment *last = &r->fragments[r->fragment_count - 1];
    last->marker = 1;
    r->end = last->offset + last->length;
    for (uint32_t i = 0; i < r->fragment_count; i++) sum += r->fragments[i].length;
    r->whole = sum == r->end;
}

static inline void build_picture(lj_receiver *r, const sending *p) {
    static const uint32_t counts[] = {0, 1, 1, 2, 3, 5, 10, 40, 63, 64, 64}, gaps[] = {0, 1, 9, 200};
    uint32_t count = below(16) ? ONE_OF(counts) : below(65);
    r->picture = 1;
    r->time = p->time;
    r->kind = p->type;
    r->q = p->q;
    r->width = p->width;
    r->height = p->height;
    r->interval = p->interval;
    uint32_t longest = count > 10 ? 60 : below(8) ? 400 : 4000, gap = ONE_OF(gaps);
    uint32_t reach = build_fragments(r, count, between(1, longest), gap);
    r->room = reach + (below(3) && reach ? 0 : between(1, 400));
    build_end(r);
    if (count != 0 && r->fragments[0].offset == 0) memcpy(r->tables, p->q <= 99 ? made[p->q] : p->tables, 128);
}

/* The store is the picture's own now and then. */
static inline void build_store(lj_kept *kept, const sending *p) {
    int own = within(p->q, 128, 254) && below(2);
    kept->q = own ? p->q : between(128, 254);
    memcpy(kept->tables, own && below(2) ? p->tables : some_entries(), 128);
}

/* Well formed, with a picture as a rule, and with kept tables or without. */
static inline lj_receiver lawful_receiver(const sending *p) {
    lj_receiver r = {.source = p->source, .room = chosen_room()};
    if (below(8)) build_picture(&r, p);
    if (below(64) == 0) r.room = 65536;
    if (below(2)) build_store(&r.kept, p);
    return r;
}

/* The scan's own bytes where the receiver says that it has them, as far as the area goes. */
static inline void lay_out(uint8_t *area, size_t length, const lj_receiver *r, const sending *p) {
    for (uint32_t i = 0; i < 64 && i < r->fragment_count; i++) {
        lj_fragment f = r->fragments[i];
        if (length < f.offset || length - f.offset < f.length) return;
        memcpy(area + f.offset, p->scan + f.offset, f.length);
    }
}

/* ---- What is written over a receiver ---- */

/* The numbers at which some field stops being lawful, on both sides. */
static const uint32_t limits[] = {0,   1,   2,   63,  64,  65,  66,    99,    100,   127,
                                  128, 253, 254, 255, 256, 512, 65535, 65536, 65537, 65536 + 64};

static inline uint32_t chosen_number(uint32_t old) {
    switch (below(8)) {
    case 0: return any();
    case 1: return below(300);
    case 2: return 0;
    case 3: return UINT32_MAX - (below(2) ? 0 : below(300));
    case 4:
    case 5: return ONE_OF(limits);
    default: return old + below(5) - 2;
    }
}

static inline void change_number(uint32_t *n) { *n = chosen_number(*n); }

static inline void change_byte(uint8_t *bytes, size_t length, uint8_t byte) { bytes[below((uint32_t)length)] = byte; }

static inline uint8_t some_entry(void) { return (uint8_t)between(1, 255); }

enum { FIELDS = 13 };

/* The numbers that are not a fragment's. */
static inline uint32_t *field(lj_receiver *r, uint32_t i) {
    uint32_t *fields[FIELDS] = {&r->source, &r->time,     &r->room, &r->picture, &r->kind,           &r->q,     &r->width,
                                &r->height, &r->interval, &r->end,  &r->whole,   &r->fragment_count, &r->kept.q};
    return fields[i];
}

/* One of those held as a rule, or the first place behind them; now and then offset and length together pass 2^32. */
static inline void change_fragment(lj_receiver *r) {
    uint32_t held = r->fragment_count;
    lj_fragment *f = &r->fragments[below(8) ? below(held < 64 ? held + 1 : 64) : below(64)];
    switch (below(7)) {
    case 0: change_number(&f->offset); break;
    case 1: change_number(&f->length); break;
    case 2: change_number(&f->marker); break;
    case 3: f->length -= below(3); break;
    case 4: f->marker ^= 1; break;
    case 5:
        f->offset = 0 - between(1, 300);
        f->length = below(600);
        break;
    default: *f = r->fragments[below(64)];
    }
}

/* What follows from the fragments is put right again, so that the change itself is what decides. */
static inline void follow_fragments(lj_receiver *r) {
    uint32_t count = 0, sum = 0;
    while (count < 64 && r->fragments[count].length != 0) sum += r->fragments[count++].length;
    r->fragment_count = count;
    r->end = count && r->fragments[count - 1].marker ? r->fragments[count - 1].offset + r->fragments[count - 1].length : 0;
    r->whole = r->end != 0 && sum == r->end;
}

/* A marker on one fragment alone, and the end that it gives, which is lawful on the last; whole, or not. */
static inline void mark_any(lj_receiver *r) {
    uint32_t count = r->fragment_count <= 64 ? r->fragment_count : 64, at = below(count + 1), sum = 0;
    for (uint32_t i = 0; i < count; i++) {
        r->fragments[i].marker = i == at;
        sum += r->fragments[i].length;
    }
    r->end = at < count ? r->fragments[at].offset + r->fragments[at].length : 0;
    r->whole = below(4) ? r->end != 0 && sum == r->end : below(2);
}

static inline void change_bytes(lj_receiver *r) {
    uint8_t *bytes = below(3) == 0 ? (uint8_t *)r : below(2) ? r->tables : r->kept.tables;
    size_t length = bytes == (uint8_t *)r ? sizeof *r : 128;
    for (uint32_t n = between(1, below(4) ? 1 : 8); n > 0; n--) change_byte(bytes, length, (uint8_t)any());
}

/* A 0 or another entry among tables. */
static inline void change_entry(lj_receiver *r) {
    uint8_t *tables = below(2) ? r->tables : r->kept.tables, *entry = tables + some_place();
    *entry = below(3) ? 0 : *entry + 1;
}

/* What a host might do in good faith, and mostly may. */
static inline void change_lawfully(lj_receiver *r) {
    switch (below(7)) {
    case 0: r->time = any(); break;
    case 1: r->source = any(); break;
    case 2: r->room = r->room < 65000 ? r->room + below(500) : 65536; break;
    case 3: r->width = between(1, 255); break;
    case 4: r->kept.q = between(128, 254); break;
    case 5: change_byte(r->kept.tables, 128, some_entry()); break;
    default: change_byte(r->tables, 128, some_entry());
    }
}

static inline void write_over(lj_receiver *r) {
    for (unsigned times = below(3) ? 1 : 2; times > 0; times--) {
        switch (below(10)) {
        case 0:
        case 1: change_number(field(r, below(FIELDS))); break;
        case 2: change_fragment(r); break;
        case 3:
            change_fragment(r);
            follow_fragments(r);
            break;
        case 4: change_bytes(r); break;
        case 5: change_entry(r); break;
        case 6: mark_any(r); break;
        default: change_lawfully(r);
        }
    }
}

static inline void fill_with_noise(lj_receiver *r) {
    for (size_t at = 0; at < sizeof *r; at += 4) {
        uint32_t n = any();
        memcpy((uint8_t *)r + at, &n, 4);
    }
}

/* ---- The next packet for a receiver ---- */

/* The longest stretch of a scan that fits a packet with any headers. */
enum { SCAN_MOST = 1300 };

/* The picture as the receiver has it now, as far as the sender takes it. */
static inline sending picture_held(const lj_receiver *r, const sending *p) {
    sending now = *p;
    now.type = r->kind;
    now.q = r->q;
    now.width = r->width;
    now.height = r->height;
    now.interval = r->interval;
    now.tables_len = r->q < 128 || (r->q != 255 && below(2)) ? 0 : 128;
    if (below(4) && without_zero(r->tables)) now.tables = r->tables;
    return now;
}

/* One that is held already, perhaps not quite so; one for a gap or behind the last; or one anywhere. */
static inline lj_fragment chosen_fragment(const lj_receiver *r) {
    uint32_t count = r->fragment_count < 64 ? r->fragment_count : 64, i = below(count + 1), choice = below(8);
    lj_fragment f = {below(r->room % 70000 + 10), 1, choice % 2};
    f.length = between(1, below(2) ? 8 : 300);
    if (choice < 2 && i < count) {
        f = r->fragments[i];
        if (choice == 1) *(below(3) == 0 ? &f.offset : below(2) ? &f.length : &f.marker) += 1;
    } else if (choice < 7) {
        uint32_t from = i == 0 ? 0 : r->fragments[i - 1].offset + r->fragments[i - 1].length;
        uint32_t gap = (i < count ? r->fragments[i].offset : r->room) - from;
        f.offset = from + (gap && below(2) ? below(gap) : 0);
        f.length = below(2) ? from + gap - f.offset : between(1, 8);
        f.marker = i == count && below(2);
    }
    f.marker &= 1;
    f.length = f.length < 1 ? 1 : f.length > SCAN_MOST ? SCAN_MOST : f.length;
    return f;
}

static inline uint32_t chosen_time(uint32_t held) {
    switch (below(8)) {
    case 0: return held + between(1, 5000);
    case 1: return held + INT32_MAX;
    case 2: return held + UINT32_C(0x80000000) - below(3) + 1;
    case 3: return any();
    default: return held;
    }
}

#endif
