/* Receivers that only a C host can make: lj_receive beside the second implementation of second.h. Each is handed no
 * packet at all, and then a packet that is right for some receiver or damaged; replies, counts, receivers and areas must
 * be equal after each call. The first argument, if there is one, is the seed of all that is chosen by chance. */
#include "on_the_way.h"
#include "received.h"
#include "second.h"

#include <inttypes.h>

_Static_assert(LJ_HELD == 0 && LJ_WHOLE == 1 && LJ_AGAIN == 2 && LJ_AREA_NOT_ROOM == 8 && LJ_NOT_WELL_FORMED == 9 &&
                   LJ_TOO_SHORT == 10 && LJ_BARE == 27,
               "the header's numbers are document 01's");

enum { STATES = 170000, OF_NOISE = 100000, PARTLY_NOISE = 6000, WRITTEN_OVER = 40000, REACHED = 600 };

/* ---- One call ---- */

enum kind { ON_THE_WAY, FULL, LIMIT, NOISY, PARTLY_NOISY, OVERWRITTEN, BUILT, KINDS };

static struct {
    const char *name;
    unsigned long states, well_formed;
} kinds[KINDS] = {{"on the way to a state", 0, 0},    {"with full fields", 0, 0}, {"with a field at a limit", 0, 0},
                  {"of random bytes", 0, 0},          {"partly so", 0, 0},        {"reached and written over", 0, 0},
                  {"built from lawful fields", 0, 0}};

static uint64_t seed;
static enum kind kind_now = ON_THE_WAY;
static unsigned long states, well_formed, replies[LJ_BARE + 1];

/* The library's area, and the second implementation as the last call left it, with an area of its own. What that call
 * was given, and the receiver that the library made of it, stand in received.h's memory. */
static uint8_t area[LENT_MOST], second_area[LENT_MOST];
static second_receiver second;

/* The first difference ends the program, so that no caller has to hand it on. */
static _Noreturn void stop(const char *why, lj_answer ours, lj_answer theirs) {
    lj_receiver after;
    second_store(&second, &after);
    printf("states differ: %s; reply %" PRIu32 ", held %" PRIu32 ", and the second's %" PRIu32 ", held %" PRIu32 "\n",
           why, ours.reply, ours.held, theirs.reply, theirs.held);
    printf("  seed %" PRIu64 ", state %lu, %s; to the second %swell formed; area of %zu bytes\n", seed, states,
           kinds[kind_now].name, second.well_formed ? "" : "not ", area_lent.length);
    print_receiver("given ", &receiver_before.receiver);
    print_receiver("ours  ", &receiver_lent.receiver);
    print_receiver("theirs", &after);
    print_packet();
    exit(1);
}

/* What the two do not agree on, or NULL. */
static const char *difference(lj_answer ours, lj_answer theirs, const lj_receiver *our_receiver, size_t area_len) {
    lj_receiver their_receiver;
    second_store(&second, &their_receiver);
    if (ours.reply != theirs.reply || ours.held != theirs.held) return "the answers";
    if (memcmp(our_receiver, &their_receiver, sizeof their_receiver) != 0) return "the receivers";
    return memcmp(area, second_area, area_len) == 0 ? NULL : "the areas";
}

/* Hands both the receiver and a packet, or none where it is at NULL, and stops at whatever is wrong. */
static lj_answer handed(lj_receiver *r, size_t area_len, const packet *p) {
    const char *wrong;
    const uint8_t *bytes = p ? p->bytes : NULL;
    size_t length = p ? p->length : 0;
    uint8_t fill = (uint8_t)any(), *lent_area = area_len == 0 && below(2) ? NULL : area;
    second_load(&second, r);
    memcpy(second_area, area, area_len);
    lj_answer theirs = second_receive(&second, second_area, area_len, bytes, length);
    lj_answer ours = received(r, lent_area, area_len, bytes, length, fill, &wrong);
    if (wrong == NULL) wrong = difference(ours, theirs, r, area_len);
    if (wrong != NULL) stop(wrong, ours, theirs);
    replies[ours.reply]++;
    return ours;
}

/* ---- Receivers reached by histories ---- */

typedef struct {
    lj_receiver receiver;
    sending picture;
} reached;

static reached pool[REACHED];

/* What no call has written yet is noise. */
static void clear_area(size_t length) { memcpy(area, noise + below(sizeof noise - LENT_MOST), length); }

/* Opens both, with a room that is one or not. A difference is reported with what they were asked for as the state. */
static lj_receiver opened(uint32_t source, uint32_t room) {
    lj_opened ours = lj_open(source, room);
    lj_answer theirs = second_open(&second, source, room);
    if (difference(ours.answer, theirs, &ours.receiver, 0) == NULL) return ours.receiver;
    receiver_before.receiver = (lj_receiver){.source = source, .room = room};
    receiver_lent.receiver = ours.receiver;
    area_lent.length = packet_lent.length = 0;
    stop("opening", ours.answer, theirs);
}

/* Every packet of a history fits, and its picture is held or newer: so it is taken, and when it comes once more it is a
 * repeat, or past. Only its tables can be missing. */
static void deliver_one(lj_receiver *r, const sending *p, const packet *now, int is_first, int was_there) {
    int bare = is_first && within(p->q, 128, 254) && p->tables_len == 0 && r->kept.q != p->q;
    uint32_t right = bare ? LJ_BARE : !was_there ? LJ_HELD : r->whole ? LJ_PAST : LJ_AGAIN;
    lj_answer a = handed(r, r->room, now);
    if (a.reply != right && !(right == LJ_HELD && a.reply == LJ_WHOLE))
        stop("both from the reply to a packet of a history", a, a);
}

/* Some of the picture's packets, or all of them, in any order, some of them twice. */
static void deliver(lj_receiver *r, const sending *p) {
    static packet packets[64];
    uint32_t order[64], count = 0;
    for (; count < 64 && sent(*p, count, &packets[count]); count++) order[count] = count;
    uint32_t missing = below(3) ? below(count + 1) : 0;
    for (uint32_t n = count; n > missing; n--) {
        uint32_t i = below(n), k = order[i];
        order[i] = order[n - 1];
        deliver_one(r, p, &packets[k], k == 0, 0);
        if (below(8) == 0) deliver_one(r, p, &packets[k], k == 0, 1);
    }
}

/* A receiver that took one picture to three, each newer than the one before. */
static void reach(reached *e) {
    uint32_t room = chosen_room(), pictures = between(1, 3);
    lj_receiver r = opened(any(), room);
    clear_area(room);
    for (uint32_t i = 0; i < pictures; i++) {
        e->picture = chosen_picture(room);
        e->picture.source = r.source;
        if (r.picture) e->picture.time = r.time + 1 + below(below(2) ? 5000 : INT32_MAX);
        if (r.kept.q != 0 && below(2)) {
            e->picture.q = r.kept.q;
            e->picture.tables_len = below(2) ? 128 : 0;
        }
        deliver(&r, &e->picture);
    }
    e->receiver = r;
}

static void build(reached *e) {
    e->picture = chosen_picture(4096);
    e->receiver = lawful_receiver(&e->picture);
}

static void try_opening(void) {
    static const uint32_t rooms[] = {0, 1, 2, 4096, 65535, 65536, 65537, 65536 + 256, UINT32_MAX - 1, UINT32_MAX};
    for (size_t i = 0; i < COUNT(rooms); i++) {
        opened(0, rooms[i]);
        opened(UINT32_MAX, rooms[i]);
        opened(any(), rooms[i]);
    }
}

/* ---- The packet for a state ---- */

/* Of the picture that the receiver was made with, of the one it holds now, or of another one; then perhaps damaged. */
static void chosen_packet(const lj_receiver *r, const sending *given, packet *out) {
    sending p = below(8) ? picture_held(r, given) : chosen_picture(4096);
    lj_fragment f = chosen_fragment(r);
    if (!parameters_right(&p) || !tables_right(&p)) p = chosen_picture(4096);
    p.source = r->source - (below(32) == 0);
    p.time = chosen_time(r->time);
    if (below(4) || !sent(*given, below(8), out)) cut(out, &p, f, (uint16_t)any());
    else p = *given;
    if (below(3) == 0) vary(out, &p);
    if (below(6) == 0) spoil_fields(out, &p);
    if (below(8) == 0) dress(out);
    if (below(8) == 0) damage(out);
}

/* ---- Each state ---- */

/* As long as the room, or now and then not; any length where the room is none. */
static size_t chosen_area(const lj_receiver *r) {
    size_t room = within(r->room, 1, LENT_MOST) ? r->room : below(300);
    size_t others[] = {room - (room != 0), room < LENT_MOST ? room + 1 : 1, 0, below(300)};
    return below(16) ? room : ONE_OF(others);
}

static void try_state(enum kind kind, const reached *e) {
    static packet p;
    lj_receiver r = e->receiver;
    kind_now = kind;
    kinds[kind].states++;
    states++;
    size_t length = chosen_area(&r);
    clear_area(length);
    lay_out(area, length, &r, &e->picture);
    lj_answer a = handed(&r, length, NULL);
    if (kind == BUILT && !second.well_formed) stop("both refuse what is built from lawful fields", a, a);
    kinds[kind].well_formed += second.well_formed;
    well_formed += second.well_formed;
    chosen_packet(&r, &e->picture, &p);
    handed(&r, length, &p);
}

/* Every number of 32 bits in turn, in several receivers that are well formed; then all bytes at once. */
static void try_full_fields(void) {
    reached e = pool[0];
    for (int base = 0; base < 8; base++)
        for (size_t at = 0; at <= offsetof(lj_receiver, kept); at += 4) {
            if (offsetof(lj_receiver, tables) <= at && at < offsetof(lj_receiver, kept)) continue;
            if (base % 2) build(&e);
            else e = pool[base];
            memset((uint8_t *)&e.receiver + at, 0xff, 4);
            try_state(FULL, &e);
        }
    memset(&e.receiver, 0xff, sizeof e.receiver);
    try_state(FULL, &e);
}

/* Every number that is not a fragment's at every limit, in several receivers that are well formed. */
static void try_limits(void) {
    for (uint32_t i = 0; i < FIELDS; i++)
        for (size_t l = 0; l < COUNT(limits); l++)
            for (int base = 0; base < 24; base++) {
                reached e = pool[below(REACHED)];
                if (base % 2) build(&e);
                *field(&e.receiver, i) = limits[l];
                try_state(LIMIT, &e);
            }
}

/* Random bytes are almost always refused for the room. Those that are partly noise come further: room and picture are
 * such as they can be, and nothing is kept. */
static void try_noise(void) {
    for (int i = 0; i < OF_NOISE + PARTLY_NOISE; i++) {
        reached e = pool[below(REACHED)];
        fill_with_noise(&e.receiver);
        if (OF_NOISE <= i) {
            e.receiver.room = chosen_room();
            e.receiver.picture = below(2);
            memset(&e.receiver.kept, 0, sizeof e.receiver.kept);
        }
        try_state(i < OF_NOISE ? NOISY : PARTLY_NOISY, &e);
    }
}

static void try_written_over(void) {
    for (int i = 0; i < WRITTEN_OVER; i++) {
        reached e = pool[below(REACHED)];
        write_over(&e.receiver);
        try_state(OVERWRITTEN, &e);
    }
}

static void try_built(void) {
    while (states < STATES) {
        reached e;
        build(&e);
        try_state(BUILT, &e);
    }
}

static int every_reply_occurred(void) {
    for (size_t i = 0; i < COUNT(replies); i++)
        if (replies[i] == 0 && (i <= LJ_AGAIN || LJ_AREA_NOT_ROOM <= i)) {
            printf("states: reply %zu never occurred\n", i);
            return 0;
        }
    return 1;
}

static void print_counts(unsigned long taken_on_the_way) {
    printf("states: %lu tried, all answered right (seed %" PRIu64 ")", states, seed);
    for (int i = FULL; i < KINDS; i++)
        printf("%s %lu %s (%lu well formed)", i == FULL ? ":" : ",", kinds[i].states, kinds[i].name,
               kinds[i].well_formed);
    printf("; %lu not well formed, %lu well formed, %lu took a packet, and %lu were taken on the way; replies",
           states - well_formed, well_formed, replies[LJ_HELD] + replies[LJ_WHOLE] - taken_on_the_way, taken_on_the_way);
    for (size_t i = 0; i < COUNT(replies); i++)
        if (replies[i] != 0) printf("%s %zu: %lu", i ? "," : "", i, replies[i]);
    printf("\n");
}

int main(int argc, char **argv) {
    seed = seed_given("states", argc, argv);
    begin_chance(seed);
    fill_bytes();
    try_opening();
    for (int i = 0; i < REACHED; i++) reach(&pool[i]);
    unsigned long taken_on_the_way = replies[LJ_HELD] + replies[LJ_WHOLE];
    try_full_fields();
    try_limits();
    try_noise();
    try_written_over();
    try_built();
    if (!every_reply_occurred()) return 1;
    print_counts(taken_on_the_way);
    return 0;
}
