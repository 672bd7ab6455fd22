/* lj_build beside the second implementation of second.h, on the same receivers, areas and lengths: replies, lengths and
 * every byte of the outputs must be equal. The receivers take pictures that lj_packet sends, or are written over in ways
 * of which document 01 says plainly what they make of a receiver. What is known so of an answer is stated, and must hold
 * of both. The first argument, if there is one, is the seed of all that is chosen by chance. */
#include "built.h"
#include "chance.h"
#include "quantiser.h"
#include "received.h"
#include "second.h"
#include "sender.h"

#include <inttypes.h>

_Static_assert(LJ_SUCCESS == 0 && LJ_AREA_NOT_ROOM == 8 && LJ_NOT_WELL_FORMED == 9 && LJ_NOT_WHOLE == 30 &&
                   LJ_FILE_OUTPUT == 31 && LJ_FILE_BESIDE_SCAN == 611 + 2,
               "the header's numbers are document 01's");

enum { LENGTH_MOST = LENT_MOST + LENT_BEYOND, HISTORIES = 1500 };

/* What one call is given, and what is known of the receiver from the way in which it was made. */
typedef struct {
    lj_receiver receiver;
    int broken, whole;
    size_t area_len, out_len;
} call;

/* The area of the receiver at hand, and noise behind it; what is lent is a copy. */
static uint8_t area[LENGTH_MOST], noise[4 * 65536];

/* ---- Comparing ---- */

static uint64_t seed;
static unsigned long compared, replies[LJ_FILE_OUTPUT + 1];
static second_receiver second;
static uint8_t theirs[LENGTH_MOST]; /* the second's output */

/* The first difference ends the program, so that no caller has to hand it on. */
static _Noreturn void stop(const call *c, const char *why) {
    const lj_receiver *r = &c->receiver;
    printf("files differ: %s\n  seed %" PRIu64 ", case %lu; area of %zu bytes, output of %zu; made %s, %s\n", why, seed,
           compared, c->area_len, c->out_len, c->broken ? "not well formed" : "well formed",
           c->whole ? "whole" : "not whole");
    print_receiver("receiver", r);
    if (2 <= r->end && r->end <= sizeof area) printf("  scan ends in %02x %02x\n", area[r->end - 2], area[r->end - 1]);
    exit(1);
}

static void compare_answers(const call *c, lj_written ours, lj_written right) {
    if (ours.reply == right.reply && ours.length == right.length) return;
    printf("files: reply %" PRIu32 " length %" PRIu32 " and not %" PRIu32 " length %" PRIu32 "\n", ours.reply,
           ours.length, right.reply, right.length);
    stop(c, "the answer is another one");
}

/* The whole of both outputs: the file, and what is past it. */
static void compare_outputs(const call *c, const uint8_t *ours, size_t length) {
    if (memcmp(ours, theirs, length) == 0) return;
    size_t at = 0;
    while (ours[at] == theirs[at]) at++;
    printf("files: byte %zu is %02x and not %02x\n", at, ours[at], theirs[at]);
    stop(c, "the output is another one");
}

/* Hands the second the receiver, which it must find to be what it was made: broken or not, whole or not. */
static void load_second(const call *c) {
    second_load(&second, &c->receiver);
    if (second.well_formed == (uint32_t)c->broken || (!c->broken && second.whole != (uint32_t)c->whole))
        stop(c, "the second takes the receiver for another one than was made");
}

/* One comparison; answers what both builders answered. */
static lj_written same(const call *c, uint8_t fill) {
    const char *wrong;
    lj_written ours = built(&c->receiver, area, c->area_len, c->out_len, fill, &wrong);
    load_second(c);
    memset(theirs, (uint8_t)~fill, c->out_len); /* as built.h fills the library's */
    lj_written right = second_build(&second, area, c->area_len, theirs, c->out_len);
    compared++;
    replies[right.reply]++;
    compare_answers(c, ours, right);
    if (wrong != NULL) stop(c, wrong);
    compare_outputs(c, built_file(), c->out_len);
    return right;
}

/* A case whose answer is stated, so that both builders being wrong alike shows too. Two fills, so that a byte that
 * was not written shows in one of them. */
static void stated(const call *c, uint32_t reply, size_t length) {
    lj_written answered = same(c, 0x00);
    same(c, 0xa5);
    if (answered.reply == reply && answered.length == length) return;
    printf("files: stated is reply %" PRIu32 " length %zu, and both answer %" PRIu32 " length %" PRIu32 "\n", reply,
           length, answered.reply, answered.length);
    stop(c, "both builders from what is stated");
}

/* A whole picture whose file has so many bytes: in an output of just that length, of one byte less, of more, of still
 * less, and of none. Of the long files, which take most of the time, only the first two. */
static void stated_length(call c, size_t length) {
    const size_t outputs[] = {length, length - 1, length + 1, length + 700, length - 2, 605, 0};
    for (size_t i = 0; i < (length < 60000 ? COUNT(outputs) : 2); i++) {
        c.out_len = outputs[i];
        if (length <= c.out_len) stated(&c, 0, length);
        else stated(&c, 31, 0);
    }
}

/* ---- Receivers that are written down ---- */

static void fill_area(void) { memcpy(area, noise + below(sizeof noise - LENGTH_MOST), LENGTH_MOST); }

static void random_tables(uint8_t *tables) {
    for (int i = 0; i < 128; i++) tables[i] = (uint8_t)between(1, 255);
}

static void tables_for(uint32_t q, uint8_t *tables) {
    if (q <= 99) tables_made(q, tables);
    else random_tables(tables);
}

/* The whole scan in so many fragments, or one for each byte where it has fewer. */
static void cut_scan(lj_receiver *r, uint32_t end, uint32_t count) {
    uint32_t at = 0;
    if (end < count) count = end;
    memset(r->fragments, 0, sizeof r->fragments);
    for (uint32_t i = 0; i < count; i++) {
        uint32_t most = end - at - (count - 1 - i);
        uint32_t length = i + 1 == count ? most : between(1, most < 2 * (end / count) ? most : 2 * (end / count));
        r->fragments[i] = (lj_fragment){at, length, i + 1 == count};
        at += length;
    }
    r->fragment_count = count;
    r->end = end;
}

/* A whole picture of this type and Q in a room that its scan fills. The scan is what stands in the area. */
static call whole_picture(uint32_t type, uint32_t q, uint32_t scan_len) {
    call c = {.receiver = {.source = 7, .room = scan_len, .picture = 1, .time = any(), .kind = type, .q = q,
                           .width = 40, .height = 30, .interval = type >= 64 ? 0x1234 : 0, .whole = 1},
              .whole = 1, .area_len = scan_len, .out_len = 700 + scan_len};
    cut_scan(&c.receiver, scan_len, between(1, 64));
    tables_for(q, c.receiver.tables);
    return c;
}

static void give_room(call *c, uint32_t room) {
    c->receiver.room = room;
    c->area_len = room;
}

static size_t head_length(const lj_receiver *r) { return r->kind < 64 ? 605 : 611; }

static const uint32_t types[] = {0, 1, 64, 65}, qs[] = {1, 50, 99, 128, 254, 255};

static call some_picture(uint32_t scan_len) {
    uint32_t type = ONE_OF(types);
    return whole_picture(type, ONE_OF(qs), scan_len);
}

/* ---- Limits ---- */

static const struct {
    uint8_t bytes[4];
    uint32_t length;
    size_t eoi; /* how many bytes of EOI are to follow */
} endings[] = {{{0xff, 0xd9}, 2, 0},       {{0xff}, 1, 2},
               {{0xd9}, 1, 2},             {{0x00, 0xd9}, 2, 2},
               {{0xff, 0xff}, 2, 2},       {{0xd9, 0xff}, 2, 2},
               {{0xd9, 0xd9}, 2, 2},       {{0xff, 0xd8}, 2, 2},
               {{0xff, 0xda}, 2, 2},       {{0xfe, 0xd9}, 2, 2},
               {{0xff, 0xff, 0xd9}, 3, 0}, {{0xff, 0xd9, 0x00}, 3, 2},
               {{0xff, 0x00, 0xd9}, 3, 2}, {{0xff, 0xd9, 0xff}, 3, 2},
               {{0x00}, 1, 2},             {{0xff, 0xd9, 0xff, 0xd9}, 4, 0}};

/* In a longer room too, where FF D9, D9 or FF stand behind the scan, which are not to be taken for the scan's. */
static void try_rooms(call c, size_t length) {
    static const uint8_t behind[][2] = {{0xff, 0xd9}, {0xd9, 0xff}, {0xff, 0xff}};
    uint32_t end = c.receiver.end;
    stated_length(c, length);
    for (size_t i = 0; i < COUNT(behind) && end + 2 <= 65536; i++) {
        memcpy(area + end, behind[i], 2);
        give_room(&c, end + (below(2) ? 1 : 2));
        stated(&c, 0, length);
    }
}

/* A scan that is its ending alone, or has so many bytes in front of it. */
static void try_endings(void) {
    static const uint32_t fronts[] = {0, 1, 2, 100, 2999};
    for (size_t t = 0; t < COUNT(types); t++)
        for (size_t e = 0; e < COUNT(endings); e++)
            for (size_t f = 0; f <= COUNT(fronts); f++) {
                uint32_t front = f < COUNT(fronts) ? fronts[f] : 65536 - endings[e].length;
                fill_area();
                if (front != 0) area[front - 1] = 0x7f; /* so that the ending is all that counts */
                memcpy(area + front, endings[e].bytes, endings[e].length);
                call c = whole_picture(types[t], ONE_OF(qs), front + endings[e].length);
                try_rooms(c, head_length(&c.receiver) + c.receiver.end + endings[e].eoi);
            }
}

/* Each length of a scan to 1,300, and the longest ones. No byte of it is FF, and so EOI always follows. */
static void try_lengths(void) {
    fill_area();
    for (size_t i = 0; i < sizeof area; i++)
        if (area[i] == 0xff) area[i] = 0xfe;
    for (uint32_t n = 1; n <= 1310; n++) {
        uint32_t end = n <= 1300 ? n : 65536 + 1300 - n + 1;
        call c = some_picture(end);
        c.out_len = head_length(&c.receiver) + end + 2;
        stated(&c, 0, c.out_len);
        c.out_len -= 1;
        stated(&c, 31, 0);
    }
}

/* Each width and each height, each Q, and intervals of which both bytes count. */
static void try_fields(void) {
    static const uint32_t intervals[] = {1, 2, 127, 128, 254, 255, 256, 257, 511, 512, 0xff00, 65534, 65535};
    fill_area();
    area[19] = 0;
    for (uint32_t n = 1; n <= 255; n++)
        for (size_t t = 0; t < COUNT(types); t++) {
            uint32_t q = n <= 99 || 128 <= n ? n : 255;
            call c = whole_picture(types[t], q, 20);
            c.receiver.width = n;
            c.receiver.height = 256 - n;
            if (types[t] >= 64) c.receiver.interval = n % 3 ? ONE_OF(intervals) : between(1, 65535);
            stated(&c, 0, head_length(&c.receiver) + 20 + 2);
        }
}

/* ---- By hand ---- */

static lj_answer taken(call *c, const uint8_t *packet, size_t length) {
    const char *wrong;
    lj_answer a = received(&c->receiver, area, c->receiver.room, packet, length, (uint8_t)any(), &wrong);
    if (wrong != NULL) stop(c, wrong);
    return a;
}

/* What stands at fixed places in the file of document 01's example: all of the head but tables' contents past their
 * beginnings, with the lengths worked out by hand. */
static void try_places(const call *c) {
    static const struct {
        size_t at;
        const char *bytes;
        size_t length;
    } places[] = {
#define PLACE(at, bytes) {at, bytes, sizeof(bytes) - 1}
        PLACE(0, "\xff\xd8\xff\xdb\x00\x43\x00\x10\x0b\x0c\x0e\x0c\x0a\x10\x0e"),
        PLACE(71, "\xff\xdb\x00\x43\x01\x11\x12\x12\x18\x15\x18\x2f\x1a"),
        PLACE(140, "\xff\xc0\x00\x11\x08\x00\x10\x00\x10\x03\x00\x22\x00\x01\x11\x01\x02\x11\x01"),
        PLACE(159, "\xff\xc4\x00\x1f\x00\x00\x01\x05\x01\x01\x01\x01\x01\x01\x00\x00\x00\x00\x00\x00\x00"
                   "\x00\x01\x02\x03\x04\x05\x06\x07\x08\x09\x0a\x0b"),
        PLACE(192, "\xff\xc4\x00\xb5\x10\x00\x02\x01\x03\x03\x02\x04\x03\x05\x05\x04\x04\x00\x00\x01\x7d\x01\x02\x03"),
        PLACE(375, "\xff\xc4\x00\x1f\x01\x00\x03\x01\x01\x01\x01\x01\x01\x01\x01\x01\x00\x00\x00\x00\x00"
                   "\x00\x01\x02\x03\x04\x05\x06\x07\x08\x09\x0a\x0b"),
        PLACE(408, "\xff\xc4\x00\xb5\x11\x00\x02\x01\x02\x04\x04\x03\x04\x07\x05\x04\x04\x00\x01\x02\x77\x00\x01\x02"),
        PLACE(591, "\xff\xda\x00\x0c\x03\x00\x00\x01\x11\x02\x11\x00\x3f\x00\xaa\xbb\xcc\xdd\xff\xd9")
#undef PLACE
    };
    for (size_t i = 0; i < COUNT(places); i++)
        if (memcmp(theirs + places[i].at, places[i].bytes, places[i].length) != 0) {
            printf("files: both from what is written out by hand for byte %zu and those behind it\n", places[i].at);
            stop(c, "document 01's example");
        }
}

/* Document 01's example: its four packets, their replies, and 611 bytes of file once the third is in. */
static void try_example(void) {
    static const uint8_t last[] = {0x80, 0x9a, 0, 1, 0, 0, 3, 0xe8, 0, 0, 0, 1, 0, 0, 0, 2, 1, 50, 2, 2, 0xcc, 0xdd};
    static const uint8_t first[] = {0x80, 0x1a, 0, 0, 0, 0, 3, 0xe8, 0, 0, 0, 1, 0, 0, 0, 0, 1, 50, 2, 2, 0xaa, 0xbb};
    static const struct {
        const uint8_t *packet;
        uint32_t reply, held, file;
    } steps[] = {{last, 0, 2, 0}, {last, 2, 2, 0}, {first, 1, 4, 611}, {first, 22, 4, 611}};
    call c = {.receiver = lj_open(1, 32768).receiver, .area_len = 32768, .out_len = 611};
    fill_area();
    stated(&c, 30, 0);
    for (size_t i = 0; i < COUNT(steps); i++) {
        lj_answer a = taken(&c, steps[i].packet, sizeof first);
        c.whole = steps[i].file != 0;
        if (a.reply != steps[i].reply || a.held != steps[i].held) stop(&c, "a packet of document 01 has another answer");
        stated(&c, c.whole ? 0 : 30, steps[i].file);
        if (c.whole) try_places(&c);
    }
    stated_length(c, 611);
}

/* ---- Receivers that are not well formed ---- */

/* Each of these breaks a rule of "Well formed", or answers 0 where the receiver has nothing of that kind. */

static int break_room(lj_receiver *r) {
    static const uint32_t rooms[] = {0, 0, 65537, 65537, 2 * 65536, UINT32_MAX};
    r->room = ONE_OF(rooms);
    return 1;
}

static int break_flags(lj_receiver *r) {
    static const uint32_t others[] = {2, 3, 256, 1u << 31, UINT32_MAX};
    switch (below(4)) {
    case 0: r->whole ^= 1; break;
    case 1: r->whole = ONE_OF(others); break;
    case 2: r->picture ^= 1; break; /* fields that are not 0 without a picture, or Q 0 and sides of 0 with one */
    default: r->picture = ONE_OF(others);
    }
    return 1;
}

/* One less leaves a fragment in an unused place, one more takes an unused place for a fragment; without any, 65 and more
 * are still too many. */
static int break_count(lj_receiver *r) {
    static const uint32_t counts[] = {65, 66, 256, UINT32_MAX};
    uint32_t choice = below(3), count = r->fragment_count;
    if (choice == 0 && count != 0) r->fragment_count = count - 1;
    else if (choice == 1) r->fragment_count = count + 1;
    else r->fragment_count = ONE_OF(counts);
    return 1;
}

static int break_unused(lj_receiver *r) {
    if (r->fragment_count == 64) return 0;
    lj_fragment *f = &r->fragments[below(2) ? r->fragment_count : between(r->fragment_count, 63)];
    *(below(3) == 0 ? &f->offset : below(2) ? &f->length : &f->marker) = 1;
    return 1;
}

static int break_end(lj_receiver *r) {
    if (below(2)) r->end += 1;
    else r->end = r->end == 0 ? r->room : r->end - 1;
    return 1;
}

/* What a packet that the reader takes cannot say. */
static int break_header(lj_receiver *r) {
    static const uint32_t kinds[] = {2, 63, 66, 128, 256, 256 + 64}, sides[] = {0, 256, 65536 + 9};
    static const uint32_t reserved[] = {0, 100, 127, 256, 256 + 50};
    if (r->picture == 0) return 0;
    switch (below(5)) {
    case 0: r->kind = ONE_OF(kinds); break;
    case 1: r->q = ONE_OF(reserved); break;
    case 2: r->width = ONE_OF(sides); break;
    case 3: r->height = ONE_OF(sides); break;
    default: r->interval = r->kind < 64 ? between(1, 65535) : below(2) ? 0 : 65536 + below(9);
    }
    return 1;
}

/* Without a picture every number of one is 0. */
static int break_nothing(lj_receiver *r) {
    uint32_t *fields[] = {&r->time, &r->kind, &r->q, &r->width, &r->height, &r->interval}, *field = ONE_OF(fields);
    if (r->picture == 1) return 0;
    *field = between(1, 64);
    return 1;
}

/* Fragments without bytes, over each other, beyond the room, or with a marker that is none or in the wrong place. */
static int break_fragments(lj_receiver *r) {
    if (r->fragment_count == 0) return 0;
    lj_fragment *first = r->fragments, *last = first + r->fragment_count - 1, *some = first + below(r->fragment_count);
    switch (below(7)) {
    case 0: some->length = 0; break;
    case 1: some->marker = 2; break;
    case 2: last->marker ^= 1; break;
    case 3: last->offset = r->room; break;
    case 4: last->offset = 0 - last->length; break;
    case 5: first->marker = first == last ? 2 : 1; break;
    default:
        if (some == first) return 0;
        some->offset = some[-1].offset + some[-1].length - 1;
    }
    return 1;
}

static int break_inside(lj_receiver *r) {
    if (r->fragment_count == 0) return 0;
    lj_fragment last = r->fragments[r->fragment_count - 1];
    uint32_t reach = last.offset + last.length;
    if (reach == 1) return 0;
    r->room = below(2) ? reach - 1 : between(1, reach - 1);
    return 1;
}

/* A 0 among tables, or what is not made for this Q; where there are none yet, or no picture, an entry that is not 0. */
static int break_tables(lj_receiver *r) {
    uint8_t *entry = &r->tables[below(128)];
    int there = r->fragment_count != 0 && r->fragments[0].offset == 0;
    *entry = !there ? (uint8_t)between(1, 255) : r->q <= 99 && below(2) ? *entry + 1 : 0;
    return 1;
}

static int break_kept(lj_receiver *r) {
    static const uint32_t none[] = {1, 50, 99, 127, 255, 256, 256 + 128, UINT32_MAX};
    uint8_t *entry = &r->kept.tables[below(128)];
    if (below(2)) r->kept.q = ONE_OF(none);
    else *entry = r->kept.q == 0 ? (uint8_t)between(1, 255) : 0;
    return 1;
}

static int (*const breaks[])(lj_receiver *) = {break_room,   break_flags,  break_count,   break_unused,
                                               break_end,    break_header, break_nothing, break_fragments,
                                               break_inside, break_tables, break_kept};

static void break_receiver(lj_receiver *r) {
    while (!ONE_OF(breaks)(r)) continue;
}

/* ---- Changes that leave a receiver well formed ---- */

static void change_header(lj_receiver *r) {
    switch (below(4)) {
    case 0: r->width = between(1, 255); break;
    case 1: r->height = between(1, 255); break;
    case 2: r->kind ^= 1; break;
    default: r->kind ^= below(2) ? 64 : 0;
    }
    r->interval = r->kind < 64 ? 0 : between(1, below(2) ? 65535 : 300);
}

/* Another Q with tables for it, where the first packet is in. */
static void change_q(lj_receiver *r) {
    r->q = below(3) == 0 ? between(1, 99) : between(128, 255);
    if (r->tables[0] != 0) tables_for(r->q, r->tables);
}

/* With the picture's Q too: whether they are its own tables is not tested. */
static void change_kept(lj_receiver *r) {
    memset(&r->kept, 0, sizeof r->kept);
    if (below(3) == 0) return;
    r->kept.q = 128 <= r->q && r->q <= 254 && below(2) ? r->q : between(128, 254);
    random_tables(r->kept.tables);
}

static void change_lawfully(call *c) {
    lj_receiver *r = &c->receiver;
    switch (below(6)) {
    case 0: r->source = any(); break;
    case 1: change_kept(r); break;
    case 2: give_room(c, below(8) == 0 ? 65536 : between(r->room, r->room < 65000 ? r->room + 500 : 65536)); break;
    case 3:
        if (r->picture) r->time = any();
        break;
    case 4:
        if (r->picture) change_header(r);
        break;
    default:
        if (r->picture) change_q(r);
    }
    if (c->whole && below(4) == 0) cut_scan(r, r->end, between(1, 64));
}

/* ---- Receivers that pictures came to ---- */

static uint8_t scan[65536];

static uint32_t chosen_length(uint32_t room) {
    static const uint32_t most[] = {3, 60, 700, 700, 4000, 4000, 65536};
    uint32_t m = ONE_OF(most);
    return below(8) == 0 ? room : between(1, m < room ? m : room);
}

/* Noise with one of the endings, or without. */
static void choose_scan(uint32_t length) {
    size_t e = below(COUNT(endings));
    memcpy(scan, noise + below(sizeof noise - 65536), length);
    if (below(2) && endings[e].length <= length)
        memcpy(scan + length - endings[e].length, endings[e].bytes, endings[e].length);
}

/* A picture that this receiver takes, and sometimes one for which it has kept the tables. */
static sending chosen_picture(const lj_receiver *r) {
    static uint8_t tables[128];
    sending p = {.source = r->source, .tables = tables, .scan = scan};
    p.type = ONE_OF(types);
    p.q = below(3) == 0 ? between(1, 99) : below(2) ? 255 : between(128, 254);
    p.width = between(1, 255);
    p.height = between(1, 255);
    if (p.type >= 64) p.interval = between(1, below(2) ? 65535 : 300);
    if (r->kept.q != 0 && below(2)) p.q = r->kept.q;
    random_tables(tables);
    p.tables_len = p.q <= 99 || (p.q == r->kept.q && below(2)) ? 0 : 128;
    p.scan_len = chosen_length(r->room);
    p.packet_size = 6000 < p.scan_len ? between(1200, 1472) : between(192, below(2) ? 260 : 1472);
    p.start = (uint16_t)any();
    p.time = r->picture ? r->time + between(1, INT32_MAX) : any();
    return p;
}

/* The picture's packets in any order, all of them or not, but at least one. */
static void deliver(call *c, const sending *p, int all) {
    static packet packets[64];
    uint32_t order[64], count = 0;
    for (; count < 64 && sent(*p, count, &packets[count]); count++) order[count] = count;
    uint32_t missing = all || count < 2 ? 0 : between(1, count - 1);
    if (count == 0) stop(c, "the sender refuses a picture");
    for (uint32_t n = count; n > missing; n--) {
        uint32_t i = below(n), k = order[i];
        order[i] = order[n - 1];
        lj_answer a = taken(c, packets[k].bytes, packets[k].length);
        c->whole = n == 1;
        if (a.reply != (n == 1 ? LJ_WHOLE : LJ_HELD)) stop(c, "the receiver does not take a picture as it should");
    }
    if (c->whole && memcmp(area, scan, p->scan_len) != 0) stop(c, "the area does not hold the scan that was sent");
}

/* A receiver that took one picture to three; the last one is whole, or not. */
static call reached(void) {
    static const uint32_t rooms[] = {4, 700, 700, 700, 4096, 4096};
    uint32_t room = below(64) == 0 ? 65536 : between(1, ONE_OF(rooms));
    call c = {.receiver = lj_open(any(), room).receiver, .area_len = room};
    fill_area();
    for (uint32_t pictures = below(16) ? between(1, 3) : 0; pictures > 0; pictures--) {
        sending p = chosen_picture(&c.receiver);
        choose_scan((uint32_t)p.scan_len);
        deliver(&c, &p, below(3) != 0);
    }
    return c;
}

/* ---- Several faults at once ---- */

enum { NOT_FORMED = 1, NOT_ROOM = 2, TOO_SHORT = 4, SETS = 8 };

static size_t other_area(const lj_receiver *r) {
    size_t some = below(2000), others[] = {r->room - 1, (size_t)r->room + 1, 0, r->end, some, below(16) ? 1 : 65536};
    for (;;) {
        size_t length = ONE_OF(others);
        if (length != r->room && length <= LENGTH_MOST) return length;
    }
}

/* Around the file's length, where there is one, and else around any. */
static size_t chosen_output(const call *c, int too_short) {
    size_t length = 605 + below(2000);
    if (c->whole) {
        load_second(c);
        length = second_build(&second, area, c->area_len, theirs, sizeof theirs).length;
        if (length < 605) stop(c, "the second has no file of a whole picture");
    }
    const size_t shorter[] = {length - 1, length - 1, length - 2, 605, 604, 0, below((uint32_t)length)};
    const size_t more = below(700);
    const size_t longer[] = {length, length, length + 1, length + more, below(16) ? length : LENGTH_MOST};
    size_t chosen = too_short ? ONE_OF(shorter) : ONE_OF(longer);
    return too_short && length <= chosen ? length - 1 : chosen;
}

/* Whether lj_receive takes the receiver for well formed: the two calls must agree, and compare/states.c holds that one to
 * all of document 01's rules. No packet at all is refused by every receiver, and changes nothing. */
static int formed_to_receive(lj_receiver r) { return lj_receive(&r, NULL, 0, NULL, 0).reply != LJ_NOT_WELL_FORMED; }

/* With each set of faults; that the picture is not whole is one more, or not, as the receiver has it. */
static void try_faults(const call *base) {
    for (unsigned set = 0; set < SETS; set++) {
        call c = *base;
        for (uint32_t n = below(3); n > 0; n--) change_lawfully(&c);
        c.out_len = chosen_output(&c, set & TOO_SHORT);
        if (set & NOT_FORMED) {
            c.broken = 1;
            break_receiver(&c.receiver);
        }
        c.area_len = c.receiver.room <= LENGTH_MOST ? c.receiver.room : 0;
        if (set & NOT_ROOM) c.area_len = other_area(&c.receiver);
        uint32_t right = set & NOT_FORMED ? 9 : set & NOT_ROOM ? 8 : !c.whole ? 30 : set & TOO_SHORT ? 31 : 0;
        if (same(&c, (uint8_t)any()).reply != right) stop(&c, "both builders from the order of the faults");
        if (formed_to_receive(c.receiver) == c.broken) stop(&c, "lj_receive has another opinion of the receiver");
    }
}

static void try_reached(void) {
    for (int i = 0; i < HISTORIES; i++) {
        call c = reached();
        if (c.receiver.whole != (uint32_t)c.whole) stop(&c, "the receiver is whole, or is not, against what it took");
        try_faults(&c);
        try_faults(&c);
    }
}

/* A picture of which nothing is held yet: well formed, and not whole. lj_receive makes none such. */
static void try_empty_picture(void) {
    for (int i = 0; i < 100; i++) {
        call c = some_picture(between(1, 500));
        lj_receiver *r = &c.receiver;
        memset(r->fragments, 0, sizeof r->fragments);
        memset(r->tables, 0, sizeof r->tables);
        r->fragment_count = r->end = r->whole = 0;
        c.whole = 0;
        stated(&c, 30, 0);
        try_faults(&c);
    }
}

/* ---- Lengths that do not fit 32 bits ---- */

#if SIZE_MAX > UINT32_MAX
static const size_t over_32_bits = (size_t)UINT32_MAX + 1;

static void try_far_area(call c, uint8_t *far) {
    static uint8_t ours[LENGTH_MOST];
    const lj_written refused = {LJ_AREA_NOT_ROOM, 0};
    memcpy(far, area, c.area_len);
    memset(theirs, 0, sizeof theirs);
    c.area_len += over_32_bits;
    load_second(&c);
    compare_answers(&c, second_build(&second, far, c.area_len, theirs, sizeof theirs), refused);
    compare_answers(&c, lj_build(c.receiver, far, c.area_len, ours, sizeof ours), refused);
    compare_outputs(&c, ours, sizeof ours);
}

static void try_far_output(call c, uint8_t *far) {
    load_second(&c);
    memset(far, 0x5a, LENGTH_MOST);
    lj_written right = second_build(&second, area, c.area_len, far, c.out_len);
    memcpy(theirs, far, LENGTH_MOST);
    memset(far, 0x5a, LENGTH_MOST);
    compare_answers(&c, lj_build(c.receiver, area, c.area_len, far, c.out_len), right);
    compare_outputs(&c, far, LENGTH_MOST);
    if (right.reply != LJ_SUCCESS) stop(&c, "both find an output over 32 bits too short");
}

/* The memory is reserved and hardly used; a machine that has no such room says so. */
static const char *try_far(void) {
    uint8_t *far = malloc(over_32_bits + LENGTH_MOST);
    if (far == NULL) return "not tried, no such memory";
    for (size_t t = 0; t < COUNT(types); t++) {
        fill_area();
        call c = whole_picture(types[t], 255, 100);
        try_far_area(c, far);
        c.out_len = over_32_bits + 100 * t;
        try_far_output(c, far);
        compared += 2;
    }
    free(far);
    return "tried";
}
#else
static const char *try_far(void) { return "none here"; }
#endif

/* ---- */

static int every_reply_occurred(void) {
    static const unsigned due[] = {0, 8, 9, 30, 31};
    for (size_t i = 0; i < COUNT(due); i++)
        if (replies[due[i]] == 0) {
            printf("files: reply %u never occurred\n", due[i]);
            return 0;
        }
    return 1;
}

int main(int argc, char **argv) {
    seed = seed_given("files", argc, argv);
    begin_chance(seed);
    for (size_t i = 0; i < sizeof noise; i++) noise[i] = (uint8_t)any();
    try_example();
    try_endings();
    try_lengths();
    try_fields();
    try_empty_picture();
    const char *far = try_far();
    try_reached();
    printf("files: %lu builds compared, all equal (seed %" PRIu64 "); replies", compared, seed);
    for (size_t i = 0; i < COUNT(replies); i++)
        if (replies[i] != 0) printf("%s %zu: %lu", i ? "," : "", i, replies[i]);
    printf("; lengths over 32 bits: %s\n", far);
    return every_reply_occurred() ? 0 : 1;
}
