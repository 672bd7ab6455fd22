/* lj_packet against the second sender of sender.h. The first argument, if there is one, is the seed of the scan and table
 * bytes and of the cases chosen by chance. */
#include "chance.h"
#include "lent.h"
#include "sender.h"

#include <inttypes.h>

_Static_assert(LJ_SUCCESS == 0 && LJ_PARAMETERS == 40 && LJ_SCAN_LENGTH == 41 && LJ_PACKET_SIZE == 42 &&
                   LJ_SENT_TABLES == 43 && LJ_OVER_64_PACKETS == 44 && LJ_INDEX_TOO_LARGE == 45 &&
                   LJ_PACKET_OUTPUT == 46,
               "the header's numbers are document 01's");

enum { SCANS = 3 * 65536, BY_CHANCE = 240000 };

/* The scan of a call is a stretch of scan_bytes. Neither scan_bytes nor the tables here are ever lent: the second sender
 * reads them, and a copy of them is lent. */
static uint8_t scan_bytes[GUARD + SCANS + GUARD], scan_lent[GUARD + SCANS + GUARD];
static uint8_t table_bytes[LENT_MOST], table_bytes_with_zero[LENT_MOST];

/* ---- Comparing ---- */

static lent output, tables_lent;
static uint64_t seed;
static unsigned long compared, replies[47];
static int inputs_kept; /* whether the last call left scan, tables and their guards as they were */

static void print_hex(const char *name, const uint8_t *bytes, size_t length, size_t most) {
    printf("  %s, %zu bytes:", name, length);
    for (size_t i = 0; i < length && i < most; i++) printf("%s%02x", i % 4 ? "" : " ", bytes[i]);
    printf(most < length ? " ..\n" : "\n");
}

static void print_call(const sending *c) {
    printf("  seed %" PRIu64 ", case %lu\n", seed, compared);
    printf("  type %" PRIu32 ", q %" PRIu32 ", width %" PRIu32 ", height %" PRIu32 ", interval %" PRIu32 "\n",
           c->type, c->q, c->width, c->height, c->interval);
    printf("  packet size %" PRIu32 ", start %u, time %" PRIu32 ", source %" PRIu32 ", k %" PRIu32 "\n",
           c->packet_size, c->start, c->time, c->source, c->k);
    printf("  output, %zu bytes\n", c->out_len);
    print_hex("tables", c->tables, c->tables_len, 129);
    print_hex("scan", c->scan, c->scan_len, 64);
}

/* The first difference ends the program, so that no caller has to hand it on. */
static _Noreturn void stop(const sending *c) {
    print_call(c);
    exit(1);
}

static lj_written called(sending c, const uint8_t *tables, const uint8_t *scan, uint8_t *out) {
    c.tables = tables;
    c.scan = scan;
    return asked(&c, out);
}

/* The place in scan_lent, a twin of scan_bytes, that the scan has in scan_bytes. */
static uint8_t *lent_scan(const sending *c) { return scan_lent + (c->scan - scan_bytes); }

/* Tables between guards like the output's. The scan lies among the other bytes of scan_lent: some scans are longer than a
 * `lent` holds, and copying the long ones for each call would take most of the time. */
static lj_written between_guards(const sending *c, uint8_t *out, uint8_t fill) {
    uint8_t *tables = lend_copy(&tables_lent, c->tables, c->tables_len, fill);
    lj_written ours = called(*c, tables, lent_scan(c), out);
    inputs_kept = all_wanted(&tables_lent) &&
                  memcmp(lent_scan(c) - GUARD, c->scan - GUARD, GUARD + c->scan_len + GUARD) == 0;
    return ours;
}

static uint8_t *heap_copy(const uint8_t *from, size_t length) {
    if (length == 0) return NULL;
    uint8_t *copy = malloc(length);
    if (copy == NULL) {
        printf("packets: no memory for %zu bytes\n", length);
        exit(1);
    }
    return memcpy(copy, from, length);
}

static int alike(const uint8_t *a, const uint8_t *b, size_t length) {
    return length == 0 || memcmp(a, b, length) == 0;
}

/* Each of the three in heap memory of exactly its length, so that whoever watches the heap sees a step past an end, and
 * memory of no bytes at NULL. What was written goes back to `out`, where it is compared. */
static lj_written on_heap(const sending *c, uint8_t *out) {
    uint8_t *tables = heap_copy(c->tables, c->tables_len);
    uint8_t *scan = heap_copy(c->scan, c->scan_len);
    uint8_t *own = heap_copy(out, c->out_len);
    lj_written ours = called(*c, tables, scan, own);
    inputs_kept = alike(tables, c->tables, c->tables_len) && alike(scan, c->scan, c->scan_len);
    if (c->out_len != 0) memcpy(out, own, c->out_len);
    free(tables);
    free(scan);
    free(own);
    return ours;
}

enum place { GUARDS, HEAP };

/* One comparison; answers what both senders answered. */
static lj_written same(const sending *c, uint8_t fill, enum place place) {
    uint8_t *out = lend(&output, c->out_len, fill);
    lj_written theirs = second_packet(c, wanted(&output));
    lj_written ours = place == HEAP ? on_heap(c, out) : between_guards(c, out, (uint8_t)~fill);
    compared++;
    replies[theirs.reply]++;
    if (ours.reply == theirs.reply && ours.length == theirs.length && inputs_kept && all_wanted(&output)) return theirs;
    printf("packets differ, memory %s: reply %" PRIu32 " length %" PRIu32 " and not %" PRIu32 " length %" PRIu32 "\n",
           place == HEAP ? "of exact size" : "between guards", ours.reply, ours.length, theirs.reply, theirs.length);
    if (!all_wanted(&output)) {
        long at = first_difference(&output);
        printf("  output byte %ld is %02x and not %02x, each was %02x at first\n", at, output.memory[GUARD + at],
               output.wanted[GUARD + at], fill);
    }
    if (!inputs_kept) printf("  the call changed its scan or tables, or bytes beside them\n");
    stop(c);
}

/* A case whose reply is stated, so that both senders being wrong alike shows too: by document 01's limits, and where the
 * number or the length of the packets decides, by the second sender's walk or by hand. Two fills, so that a byte written
 * as it was before shows in one of them. */
static void stated(const sending *c, uint32_t reply) {
    uint32_t answered = same(c, 0x00, GUARDS).reply;
    same(c, 0xa5, GUARDS);
    same(c, 0x5a, HEAP);
    if (answered == reply) return;
    printf("packets differ: both senders reply %" PRIu32 ", and stated is %" PRIu32 "\n", answered, reply);
    stop(c);
}

static void fill_bytes(void) {
    begin_chance(seed);
    for (size_t i = 0; i < sizeof scan_bytes; i++) scan_bytes[i] = (uint8_t)any();
    memcpy(scan_lent, scan_bytes, sizeof scan_bytes);
    for (size_t i = 0; i < sizeof table_bytes; i++) table_bytes[i] = (uint8_t)between(1, 255);
    memcpy(table_bytes_with_zero, table_bytes, sizeof table_bytes);
}

/* ---- Limits ---- */

/* Bytes of scan data in a full packet: each behind the first, and the first. Only to choose cases near a packet's end. */
static uint32_t later_room(const sending *c) { return c->packet_size - (c->type >= 64 ? 24 : 20); }

static uint32_t first_room(const sending *c) {
    return later_room(c) - (c->q >= 128 ? 4 + (uint32_t)c->tables_len : 0);
}

static uint32_t packets_of(const sending *c) {
    packet kept;
    return send_frame(c, &kept);
}

/* A right call for packet 0 of a few, to be changed in one place by each trial below. */
static sending right_call(uint32_t type, uint32_t q, size_t tables_len) {
    return (sending){.type = type, .q = q, .width = 40, .height = 30, .interval = type >= 64 ? 0x1234 : 0,
                     .tables = table_bytes, .tables_len = tables_len, .scan = scan_bytes + GUARD + 1000, .scan_len = 500,
                     .packet_size = 192, .start = 0xfffe, .time = 0x01020304, .source = 0xa1b2c3d4, .out_len = 1600};
}

static void try_packet_sizes(sending c) {
    static const uint32_t sizes[] = {0, 1, 20, 24, 36, 156, 157, 191, 192, 193, 255, 256, 1471, 1472, 1473, 1474,
                                     65535, 65536 + 192, 65536 + 1472, UINT32_MAX};
    for (size_t i = 0; i < COUNT(sizes); i++) {
        c.packet_size = sizes[i];
        stated(&c, 192 <= sizes[i] && sizes[i] <= 1472 ? 0 : 42);
    }
}

/* At each length: packet 0, the last one, one past it, and the largest number. */
static void try_scan_lengths(sending c) {
    static const size_t lengths[] = {1, 2, 36, 37, 168, 169, 172, 173, 255, 256, 11008, 11009, 65535, 65536};
    static const size_t refused[] = {0, 65537, 65536 + 172, 2 * 65536};
    static const uint32_t sizes[] = {192, 193, 600, 1044, 1472};
    for (size_t s = 0; s < COUNT(sizes); s++) {
        c.packet_size = sizes[s];
        for (size_t i = 0; i < COUNT(lengths); i++) {
            c.scan_len = lengths[i];
            uint32_t packets = packets_of(&c), ks[] = {0, packets - 1, packets, UINT32_MAX};
            for (size_t j = 0; j < COUNT(ks); j++) {
                c.k = ks[j];
                stated(&c, packets > 64 ? 44 : c.k < packets ? 0 : 45);
            }
        }
        c.k = 0;
        for (size_t i = 0; i < COUNT(refused); i++) {
            c.scan_len = refused[i];
            stated(&c, 41);
        }
    }
}

/* 64 full packets and one byte more, from the smallest packet size to the first at which 65,536 bytes fit, and the
 * largest. */
static void try_64_packets(sending c) {
    static const uint32_t sizes[] = {192,  193,  500,  1000, 1043, 1044, 1045, 1046,
                                     1047, 1048, 1049, 1050, 1051, 1052, 1472};
    static const uint32_t ks[] = {0, 1, 63, 64, 65, UINT32_MAX};
    for (size_t s = 0; s < COUNT(sizes); s++) {
        c.packet_size = sizes[s];
        size_t most = first_room(&c) + 63 * (size_t)later_room(&c);
        for (size_t j = 0; j < COUNT(ks) && most < 65536; j++) {
            c.k = ks[j];
            c.scan_len = most;
            stated(&c, c.k < 64 ? 0 : 45);
            c.scan_len = most + 1;
            stated(&c, 44);
        }
        c.k = 0;
        c.scan_len = 65536;
        stated(&c, most < 65536 ? 44 : 0);
    }
}

/* Among the large ones are those whose product with 172 or 168 is a small number modulo 2^32. */
static void try_indexes(sending c) {
    static const uint32_t ks[] = {0,        1,        2,   3,     4,     5,     63,         64,
                                  255,      256,      257, 65535, 65536, 65537, UINT32_MAX, UINT32_MAX - 1,
                                  1u << 29, 1u << 30, 1u << 31, (1u << 29) + 1, (1u << 30) + 1, (1u << 31) + 1};
    uint32_t packets = packets_of(&c);
    for (size_t i = 0; i < COUNT(ks); i++) {
        c.k = ks[i];
        stated(&c, ks[i] < packets ? 0 : 45);
    }
}

/* Enough is the length of this very packet, and not the packet size. */
static void try_outputs(sending c) {
    static const size_t lengths[] = {1, 172, 500};
    for (size_t i = 0; i < COUNT(lengths); i++) {
        c.scan_len = lengths[i];
        uint32_t packets = packets_of(&c);
        for (c.k = 0; c.k < packets; c.k++) {
            packet kept;
            send_frame(&c, &kept);
            size_t outputs[] = {kept.length - 1, kept.length, kept.length + 1, c.k == 0 ? LENT_MOST : 256,
                                0, 1, 12, 20, 191, 192, 193, 1472, 4096};
            for (size_t j = 0; j < COUNT(outputs); j++) {
                c.out_len = outputs[j];
                stated(&c, kept.length <= c.out_len ? 0 : 46);
            }
        }
    }
}

static void try_tables(sending c) {
    static const size_t lengths[] = {0, 1, 2, 63, 64, 65, 127, 128, 129, 192, 255, 256, 384, LENT_MOST};
    static const size_t places[] = {0, 1, 62, 63, 64, 65, 126, 127};
    for (size_t i = 0; i < COUNT(lengths); i++) {
        c.tables_len = lengths[i];
        int right = c.q <= 99 ? c.tables_len == 0 : c.tables_len == 128 || (c.tables_len == 0 && c.q < 255);
        stated(&c, right ? 0 : 43);
    }
    c.tables = table_bytes_with_zero;
    c.tables_len = 128;
    for (size_t i = 0; i < COUNT(places); i++) {
        table_bytes_with_zero[places[i]] = 0;
        stated(&c, 43);
        table_bytes_with_zero[places[i]] = table_bytes[places[i]];
    }
    /* A 0 behind the tables is not theirs. */
    table_bytes_with_zero[128] = 0;
    stated(&c, c.q <= 99 ? 43 : 0);
    table_bytes_with_zero[128] = table_bytes[128];
}

static void try_intervals(sending c) {
    static const uint32_t intervals[] = {0,     1,     2,     127,   128,         254,      255,       256,
                                         65534, 65535, 65536, 65537, 65536 + 255, 1u << 31, UINT32_MAX};
    for (size_t i = 0; i < COUNT(intervals); i++) {
        c.interval = intervals[i];
        int right = c.type < 64 ? c.interval == 0 : 1 <= c.interval && c.interval <= 65535;
        stated(&c, right ? 0 : 40);
    }
}

/* Every type of a byte, and larger ones that are right modulo a power of 2, each with an interval and without. */
static void try_types(sending c) {
    static const uint32_t larger[] = {256, 257, 320, 321, 65536, 65536 + 64, 1u << 31, (1u << 31) + 65, UINT32_MAX};
    for (uint32_t i = 0; i < 256 + COUNT(larger); i++) {
        c.type = i < 256 ? i : larger[i - 256];
        c.interval = 0;
        stated(&c, c.type == 0 || c.type == 1 ? 0 : 40);
        c.interval = 9;
        stated(&c, c.type == 64 || c.type == 65 ? 0 : 40);
    }
}

/* Every Q to 600 and larger ones, each with the tables of the call. */
static void try_qs(sending c) {
    static const uint32_t larger[] = {65536 + 50, 65536 + 200, 65536 + 255, 1u << 31, (1u << 31) + 50, UINT32_MAX};
    for (uint32_t i = 0; i <= 600 + COUNT(larger); i++) {
        uint32_t q = c.q = i <= 600 ? i : larger[i - 601];
        int right = (1 <= q && q <= 99) || (128 <= q && q <= 255);
        int tables = q <= 99 ? c.tables_len == 0 : q < 255 || c.tables_len == 128;
        stated(&c, !right ? 40 : tables ? 0 : 43);
    }
}

static void try_sides(sending c) {
    static const uint32_t sides[] = {0,   1,   2,   127, 128,   254,   255,      256,
                                     257, 511, 512, 65536, 65537, 1u << 31, UINT32_MAX};
    for (size_t i = 0; i < COUNT(sides) * COUNT(sides); i++) {
        c.width = sides[i % COUNT(sides)];
        c.height = sides[i / COUNT(sides)];
        int right = 1 <= c.width && c.width <= 255 && 1 <= c.height && c.height <= 255;
        stated(&c, right ? 0 : 40);
    }
}

static void try_numbers(sending c) {
    static const uint32_t numbers[] = {0, 1, 0xff, 0xff00, 0xff0000, 0x7fffffff, 0x80000000, 0xff000000, UINT32_MAX};
    for (size_t i = 0; i < COUNT(numbers) * COUNT(numbers); i++) {
        c.time = numbers[i % COUNT(numbers)];
        c.source = numbers[i / COUNT(numbers)];
        c.k = i % 2;
        stated(&c, 0);
    }
}

/* All packets of a picture, and one past the last. */
static void try_whole(sending c) {
    uint32_t packets = packets_of(&c);
    for (c.k = 0; c.k <= packets; c.k++) stated(&c, c.k < packets ? 0 : 45);
}

/* Pictures that end within a packet, at its end, and with one byte in the next; sequences that go past 65,535. */
static void try_every_packet(sending c) {
    static const uint32_t sizes[] = {192, 193, 700, 1472};
    static const uint16_t starts[] = {0, 255, 32767, 65534, 65535};
    for (size_t i = 0; i < COUNT(sizes); i++) {
        c.packet_size = sizes[i];
        uint32_t first = first_room(&c), later = later_room(&c);
        const size_t lengths[] = {1, first - 1, first, first + 1, first + 2 * later, first + 2 * later + 1, 1500};
        for (size_t j = 0; j < COUNT(lengths); j++) {
            c.scan_len = lengths[j];
            c.start = starts[(i + j) % COUNT(starts)];
            try_whole(c);
        }
    }
    c.packet_size = 192;
    c.scan_len = first_room(&c) + 63 * later_room(&c);
    c.start = 65535 - 40;
    try_whole(c);
}

/* ---- Several faults at once ---- */

/* Makes a call wrong so that this refusal is due, in a way that the turn chooses. */
static void spoil(sending *c, unsigned refusal, unsigned turn) {
    static const uint32_t scans[] = {0, 65537, 65536 + 172}, sizes[] = {191, 1473, 0, 65536 + 192, UINT32_MAX};
    static const uint32_t ks[] = {UINT32_MAX, 64, 1u << 30}, outputs[] = {0, 191, 20, 1};
    static const size_t tables[] = {127, 129, 1, 128};
    switch (refusal) {
    case 40:
        if (turn % 5 == 0) c->type = 2;
        if (turn % 5 == 1) c->q = c->q < 100 ? 0 : 256;
        if (turn % 5 == 2) c->width = 256;
        if (turn % 5 == 3) c->height = 0;
        if (turn % 5 == 4) c->interval = c->type < 64 ? 1 : 0;
        break;
    case 41: c->scan_len = scans[turn % COUNT(scans)]; break;
    case 42: c->packet_size = sizes[turn % COUNT(sizes)]; break;
    case 43:
        c->tables = table_bytes_with_zero;
        c->tables_len = tables[turn % COUNT(tables)];
        break;
    case 44: c->scan_len = 12000; break;
    case 45: c->k = ks[turn % COUNT(ks)]; break;
    case 46: c->out_len = outputs[turn % COUNT(outputs)]; break;
    }
}

/* Each set of the seven refusals: the lowest number is given. 44 is made before 41, which then decides the scan. */
static void try_order(sending c) {
    static const unsigned made[] = {44, 41, 42, 43, 45, 46, 40};
    table_bytes_with_zero[77] = 0;
    for (unsigned set = 0; set < 128; set++)
        for (unsigned turn = 0; turn < 5; turn++) {
            sending spoilt = c;
            uint32_t lowest = 0;
            for (size_t i = 0; i < COUNT(made); i++)
                if (set >> (made[i] - 40) & 1) spoil(&spoilt, made[i], turn + set);
            for (unsigned refusal = 46; refusal >= 40; refusal--)
                if (set >> (refusal - 40) & 1) lowest = refusal;
            stated(&spoilt, lowest);
        }
    table_bytes_with_zero[77] = table_bytes[77];
}

static void try_limits(void) {
    static void (*const trials[])(sending) = {try_packet_sizes, try_scan_lengths, try_64_packets, try_indexes, try_outputs,
                                           try_tables,       try_intervals,    try_types,      try_qs,      try_sides,
                                           try_numbers,      try_every_packet, try_order};
    static const uint32_t types[] = {0, 1, 64, 65}, qs[] = {1, 50, 99, 128, 128, 254, 254, 255};
    static const size_t tables_lens[] = {0, 0, 0, 0, 128, 0, 128, 128};
    for (size_t t = 0; t < COUNT(types); t++)
        for (size_t i = 0; i < COUNT(qs); i++)
            for (size_t trial = 0; trial < COUNT(trials); trial++)
                trials[trial](right_call(types[t], qs[i], tables_lens[i]));
}

/* ---- Packets written out by hand ---- */

/* Packet k is this head, the tables if it has them, and the scan from one place to another. */
static void by_hand(sending c, uint32_t k, const char *head, size_t head_len, int tables, size_t from, size_t to) {
    uint8_t right[1472], written[1472];
    size_t length = head_len;
    memcpy(right, head, head_len);
    if (tables) memcpy(right + length, c.tables, 128);
    if (tables) length += 128;
    memcpy(right + length, c.scan + from, to - from);
    length += to - from;
    c.k = k;
    c.out_len = length - 1;
    stated(&c, 46);
    c.out_len = length;
    stated(&c, 0);
    if (second_packet(&c, written).length == length && memcmp(written, right, length) == 0) return;
    printf("packets differ: both senders from the packet written out by hand\n");
    stop(&c);
}

#define BY_HAND(c, k, head, tables, from, to) by_hand(c, k, head, sizeof(head) - 1, tables, from, to)

/* Document 01's own lines on packets of 192 bytes, and a Q above 127 without tables, with the bytes. */
static void try_by_hand(void) {
#define STAMP "\x01\x02\x03\x04\xa1\xb2\xc3\xd4"
    sending c = right_call(0, 50, 0);
    c.scan_len = 172;
    BY_HAND(c, 0, "\x80\x9a\xff\xfe" STAMP "\0\0\0\0\x00\x32\x28\x1e", 0, 0, 172);
    c.scan_len = 173;
    BY_HAND(c, 0, "\x80\x1a\xff\xfe" STAMP "\0\0\0\0\x00\x32\x28\x1e", 0, 0, 172);
    BY_HAND(c, 1, "\x80\x9a\xff\xff" STAMP "\0\0\0\xac\x00\x32\x28\x1e", 0, 172, 173);
    c.scan_len = 11008;
    BY_HAND(c, 63, "\x80\x9a\x00\x3d" STAMP "\0\0\x2a\x54\x00\x32\x28\x1e", 0, 10836, 11008);
    c = right_call(65, 255, 128);
    c.scan_len = 205;
    c.start = 65535;
    BY_HAND(c, 0, "\x80\x1a\xff\xff" STAMP "\0\0\0\0\x41\xff\x28\x1e\x12\x34\xff\xff\0\0\0\x80", 1, 0, 36);
    BY_HAND(c, 1, "\x80\x1a\x00\x00" STAMP "\0\0\0\x24\x41\xff\x28\x1e\x12\x34\xff\xff", 0, 36, 204);
    BY_HAND(c, 2, "\x80\x9a\x00\x01" STAMP "\0\0\0\xcc\x41\xff\x28\x1e\x12\x34\xff\xff", 0, 204, 205);
    c = right_call(1, 200, 0);
    c.scan_len = 169;
    BY_HAND(c, 0, "\x80\x1a\xff\xfe" STAMP "\0\0\0\0\x01\xc8\x28\x1e\0\0\0\0", 0, 0, 168);
    BY_HAND(c, 1, "\x80\x9a\xff\xff" STAMP "\0\0\0\xa8\x01\xc8\x28\x1e", 0, 168, 169);
#undef STAMP
}

/* ---- Lengths that do not fit 32 bits ---- */

#if SIZE_MAX > UINT32_MAX
/* One of the three is lent at `far`, of which only the first bytes are ever looked at; the others are right. */
static void same_far(const sending *c, uint8_t *far, char which, uint32_t reply) {
    static uint8_t near[2048], right[2048], tables[128];
    memset(near, 0x5a, sizeof near);
    memset(right, 0x5a, sizeof right);
    memcpy(tables, table_bytes, sizeof tables);
    lj_written theirs = second_packet(c, right);
    uint8_t *out = which == 'o' ? far : near;
    memcpy(far, which == 's' ? c->scan : which == 't' ? table_bytes : near, sizeof near);
    lj_written ours = called(*c, which == 't' ? far : tables, which == 's' ? far : lent_scan(c), out);
    compared++;
    replies[theirs.reply]++;
    if (ours.reply == theirs.reply && ours.length == theirs.length && theirs.reply == reply &&
        memcmp(out, right, sizeof right) == 0 && memcmp(tables, table_bytes, sizeof tables) == 0)
        return;
    printf("packets differ, a length over 32 bits: reply %" PRIu32 " length %" PRIu32 " and not %" PRIu32 "\n",
           ours.reply, ours.length, reply);
    stop(c);
}

/* Each length is right modulo 2^32. The memory is reserved and hardly used; a machine that has no such room says so. */
static const char *try_far(void) {
    static const struct {
        char which;
        uint32_t q;
        size_t tables_len, over;
        uint32_t reply;
    } cases[] = {{'s', 50, 0, 172, 41},  {'s', 255, 128, 1, 41}, {'s', 200, 0, 0, 41},    {'t', 50, 0, 0, 43},
                 {'t', 200, 0, 0, 43},   {'t', 200, 0, 128, 43}, {'t', 255, 128, 128, 43}, {'o', 50, 0, 0, 0},
                 {'o', 255, 128, 191, 0}, {'o', 200, 0, 1472, 0}};
    const size_t over_32_bits = (size_t)UINT32_MAX + 1;
    uint8_t *far = malloc(over_32_bits + 4096);
    if (far == NULL) return "not tried, no such memory";
    for (size_t i = 0; i < COUNT(cases); i++) {
        sending c = right_call(i % 2 ? 64 : 0, cases[i].q, cases[i].tables_len);
        if (cases[i].which == 's') c.scan_len = over_32_bits + cases[i].over;
        if (cases[i].which == 't') c.tables_len = over_32_bits + cases[i].over;
        if (cases[i].which == 'o') c.out_len = over_32_bits + cases[i].over;
        same_far(&c, far, cases[i].which, cases[i].reply);
    }
    free(far);
    return "tried";
}
#else
static const char *try_far(void) { return "none here"; }
#endif

/* ---- Cases chosen by chance ---- */

/* A length of scan within `most`, short as a rule, and often at a packet's end or one byte off. */
static size_t chosen_scan(const sending *c, uint32_t most) {
    static const uint32_t bounds[] = {4, 200, 200, 600, 600, 600, 2000, 2000};
    uint32_t length = first_room(c) - 1 + below(3);
    if (below(4) == 0)
        length += below(6) * later_room(c);
    else if (below(64) == 0)
        length = most - below(most / 2);
    else
        length = 1 + below(bounds[below(COUNT(bounds))]);
    return length < 1 ? 1 : length > most ? most : length;
}

static sending chosen_picture(void) {
    static const uint32_t types[] = {0, 1, 64, 65};
    sending c = right_call(types[below(4)], 0, 0);
    unsigned q = below(4);
    c.q = q == 0 ? between(1, 99) : q == 3 ? 255 : between(128, 254);
    c.tables_len = q < 2 ? 0 : 128;
    c.tables = table_bytes + below(LENT_MOST - 512);
    c.width = between(1, 255);
    c.height = between(1, 255);
    if (c.type >= 64) c.interval = between(1, 65535);
    c.packet_size = below(3) == 0 ? 192 : between(192, below(2) ? 400 : 1472);
    uint32_t most = first_room(&c) + 63 * later_room(&c);
    c.scan_len = chosen_scan(&c, most < 65536 ? most : 65536);
    c.start = (uint16_t)(below(4) ? any() : 65536 - below(8));
    c.time = any();
    c.source = any();
    return c;
}

/* Numbers just outside the limits, or anywhere else outside them. */
static uint32_t outside(uint32_t least, uint32_t most) {
    for (;;) {
        uint32_t n = below(3) == 0 ? any() : below(2) ? most + 1 + below(300) : least - 1 - below(2);
        if (n < least || most < n) return n;
    }
}

static void wrong_parameter(sending *c) {
    uint32_t q = outside(1, 99);
    switch (below(5)) {
    case 0:
        do c->type = below(2) ? below(400) : any();
        while (c->type == 0 || c->type == 1 || c->type == 64 || c->type == 65);
        break;
    case 1: c->q = 128 <= q && q <= 255 ? 256 + q : q; break;
    case 2: c->width = outside(1, 255); break;
    case 3: c->height = outside(1, 255); break;
    default: c->interval = c->type < 64 ? between(1, 70000) : below(2) ? 0 : outside(1, 65535);
    }
}

static void wrong_tables(sending *c) {
    uint8_t *own = table_bytes_with_zero;
    int none = c->q <= 99 || below(2) == 0;
    size_t length = c->q == 255 && below(3) == 0 ? 0 : between(1, 300);
    c->tables_len = none && c->q > 99 && length == 128 ? 129 : none ? length : 128;
    memcpy(own, c->tables, c->tables_len);
    if (!none) own[below(128)] = 0;
    c->tables = own;
}

/* Spoils what the refusals 40 to 44 look at. The set has a bit for each refusal, the lowest for 40. */
static void wrong_picture(sending *c, unsigned set) {
    if (set & 1 << 4) {
        c->packet_size = between(192, below(4) ? 300 : 1000);
        uint32_t most = first_room(c) + 63 * later_room(c), more = 65536 - most;
        c->scan_len = most + 1 + below(below(2) ? 3 : more < 3000 ? more : 3000);
    }
    if (set & 1 << 3) wrong_tables(c);
    if (set & 1 << 2) c->packet_size = outside(192, 1472);
    if (set & 1 << 1) c->scan_len = below(4) ? 0 : 65537 + below(3000);
    if (set & 1 << 0) wrong_parameter(c);
}

/* An output length near the packet's, on the side that the set wants. */
static size_t chosen_output(const sending *c, int too_short) {
    packet kept;
    send_frame(c, &kept);
    if (too_short) return below(2) ? kept.length - 1 : below((uint32_t)kept.length);
    return kept.length + (below(2) ? 0 : below(2) ? 1 : below(below(8) ? 64 : 2000));
}

/* Two of three calls are right; the others have one fault, or now and then two. */
static sending chosen_call(void) {
    sending c = chosen_picture();
    unsigned set = 0;
    if (below(3) == 0) set |= 1u << below(7);
    if (set != 0 && below(4) == 0) set |= 1u << below(7);
    wrong_picture(&c, set);
    c.scan = scan_bytes + GUARD + below(SCANS - (uint32_t)c.scan_len + 1);
    if (set & 0x1f) {
        c.k = below(2) ? below(70) : any();
        c.out_len = below(2000);
        return c;
    }
    uint32_t packets = packets_of(&c);
    c.k = below(3) ? below(packets) : packets - 1;
    c.out_len = chosen_output(&c, set >> 6 & 1);
    if (set & 1 << 5) c.k = below(2) ? packets + below(3) : packets + below(UINT32_MAX - packets);
    return c;
}

static void try_by_chance(void) {
    for (unsigned long i = 0; i < BY_CHANCE; i++) {
        sending c = chosen_call();
        same(&c, (uint8_t)any(), i % 16 == 0 ? HEAP : GUARDS);
    }
}

/* ---- */

static int every_reply_occurred(void) {
    int all = replies[0] != 0;
    for (size_t i = 40; i <= 46; i++) all = all && replies[i] != 0;
    if (!all) printf("packets: some reply never occurred\n");
    return all;
}

int main(int argc, char **argv) {
    seed = seed_given("packets", argc, argv);
    fill_bytes();
    try_by_hand();
    try_limits();
    const char *far = try_far();
    try_by_chance();
    if (memcmp(scan_lent, scan_bytes, sizeof scan_bytes) != 0) {
        printf("packets: some call wrote far from its scan (seed %" PRIu64 ")\n", seed);
        return 1;
    }
    printf("packets: %lu cases compared, all equal (seed %" PRIu64 "); replies 0: %lu", compared, seed, replies[0]);
    for (size_t i = 40; i <= 46; i++) printf(", %zu: %lu", i, replies[i]);
    printf("; lengths over 32 bits: %s\n", far);
    return every_reply_occurred() ? 0 : 1;
}
