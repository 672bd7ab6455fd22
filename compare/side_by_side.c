/* The library beside the second implementation of second.h, on histories chosen by chance: each opens a receiver or makes
 * one up, and hands both the same packets of one picture to four, whole or damaged, in any order. Replies and counts are
 * compared at every call, receivers and areas at every call in small rooms and else at the end, and files at every whole.
 * `side_by_side [SEED [HISTORIES]]`: the same seed has the same histories. In 1,000 and more every reply must occur. */
#include "on_the_way.h"
#include "received.h"
#include "second.h"

#include <inttypes.h>

enum { HISTORIES = 200000, SMALL_ROOM = 256, PICTURES = 4, ARRIVALS = 320, FILE_MOST = LENT_MOST + LJ_FILE_BESIDE_SCAN };

/* ---- What is counted ---- */

enum call { OPEN, RECEIVE, BUILD, MAKE_TABLES, PACKET, CALLS };

static const char *const names[CALLS] = {"lj_open", "lj_receive", "lj_build", "lj_make_tables", "lj_packet"};
static unsigned long histories, made_up, replies[CALLS][47];
static uint64_t seed;

/* Whether document 01 has this reply for this call. */
static int possible(enum call call, uint32_t reply) {
    switch (call) {
    case OPEN: return reply == 0 || reply == 7;
    case RECEIVE: return reply <= 2 || within(reply, 8, 27);
    case BUILD: return reply == 0 || within(reply, 8, 9) || within(reply, 30, 31);
    case MAKE_TABLES: return reply == 0 || within(reply, 34, 35);
    default: return reply == 0 || within(reply, 40, 46);
    }
}

static unsigned long calls(enum call call) {
    unsigned long sum = 0;
    for (uint32_t reply = 0; reply < COUNT(replies[call]); reply++) sum += replies[call][reply];
    return sum;
}

static int every_reply_occurred(void) {
    int all = 1;
    for (enum call call = 0; call < CALLS; call++)
        for (uint32_t reply = 0; reply < COUNT(replies[call]); reply++)
            if (possible(call, reply) && replies[call][reply] == 0) {
                printf("side_by_side: %s never answered %" PRIu32 "\n", names[call], reply);
                all = 0;
            }
    return all;
}

static void print_counts(void) {
    printf("side_by_side: %lu histories, all equal (seed %" PRIu64 "), with %lu receivers made up\n", histories, seed,
           made_up);
    for (enum call call = 0; call < CALLS; call++) {
        printf("  %s, %lu calls:", names[call], calls(call));
        for (uint32_t reply = 0; reply < COUNT(replies[call]); reply++)
            if (replies[call][reply] != 0) printf(" %" PRIu32 ": %lu", reply, replies[call][reply]);
        printf("\n");
    }
}

/* ---- The two, and what they must agree on ---- */

/* The library's receiver and area lie in received.h's memory; the area's `wanted` bytes are the second's area. */
static second_receiver second;
static lent output_lent, tables_lent, scan_lent;

/* The first difference ends the program. */
static _Noreturn void differ(const char *what) {
    lj_receiver theirs;
    second_store(&second, &theirs);
    printf("side_by_side differ: %s (seed %" PRIu64 ", history %lu, packet %lu)\n", what, seed, histories,
           calls(RECEIVE));
    print_receiver("ours  ", &receiver_lent.receiver);
    print_receiver("theirs", &theirs);
    print_packet();
    exit(1);
}

static void agree(enum call call, uint32_t our_reply, uint32_t our_number, uint32_t their_reply, uint32_t their_number) {
    if (our_reply != their_reply || our_number != their_number) {
        printf("%s: %" PRIu32 " with %" PRIu32 ", and the second %" PRIu32 " with %" PRIu32 "\n", names[call], our_reply,
               our_number, their_reply, their_number);
        differ("the answers");
    }
    if (!possible(call, our_reply)) differ("document 01 has no such reply here");
    replies[call][our_reply]++;
}

static void agree_on_written(enum call call, lj_written ours, lj_written theirs) {
    agree(call, ours.reply, ours.length, theirs.reply, theirs.length);
}

static void agree_on_receivers(void) {
    lj_receiver theirs;
    second_store(&second, &theirs);
    if (memcmp(&theirs, &receiver_lent.receiver, sizeof theirs) != 0) differ("the receivers");
    if (!all_wanted(&area_lent)) differ("the areas, or a byte beside ours");
}

/* All that is ever lent. A call to the library stands between closing and opening its guards. */
static lent *const lents[] = {&area_lent, &packet_lent, &output_lent, &tables_lent, &scan_lent};

static void each_guard(void (*change)(const uint8_t *guard)) {
    change(receiver_lent.before);
    change(receiver_lent.behind);
    for (size_t i = 0; i < COUNT(lents); i++) {
        change(lents[i]->memory);
        change(lents[i]->memory + GUARD + lents[i]->length);
    }
}

static void guards_untouched(void) {
    if (!receiver_guards_wanted()) differ("a byte beside the receiver was changed");
    if (!guards_wanted(&area_lent)) differ("a byte beside the area was changed");
}

/* ---- Table making and the sender ---- */

static void try_tables(void) {
    static const uint32_t qs[] = {0, 1, 50, 51, 99, 100, 128, 255, 256 + 50, UINT32_MAX};
    static const size_t lengths[] = {128, 128, 129, 200, 127, 64, 0};
    uint32_t q = below(2) ? between(1, 99) : ONE_OF(qs);
    size_t length = ONE_OF(lengths);
    uint8_t *out = lend(&output_lent, length, (uint8_t)any());
    lj_written theirs = second_tables(q, wanted(&output_lent), length);
    each_guard(close_guard);
    lj_written ours = lj_make_tables(q, out, length);
    each_guard(open_guard);
    agree_on_written(MAKE_TABLES, ours, theirs);
    if (!all_wanted(&output_lent)) differ("the made tables, or a byte beside them");
}

/* Scan and tables stay lent for all packets of the picture. */
static void lend_picture(const sending *p) {
    lend_copy(&tables_lent, p->tables, p->tables_len, (uint8_t)any());
    lend_copy(&scan_lent, p->scan, p->scan_len, (uint8_t)any());
}

static void picture_untouched(void) {
    if (!all_wanted(&tables_lent) || !all_wanted(&scan_lent)) differ("the sender changed its scan or tables");
}

/* Packet k of both senders; 0 where there is none, or they do not take the picture. */
static int sent_by_both(sending p, uint32_t k, size_t out_len, packet *out) {
    p.k = k;
    p.out_len = out_len;
    uint8_t *bytes = lend(&output_lent, out_len, (uint8_t)any());
    lj_written theirs = second_packet(&p, wanted(&output_lent));
    p.tables = tables_lent.memory + GUARD;
    p.scan = scan_lent.memory + GUARD;
    each_guard(close_guard);
    lj_written ours = asked(&p, bytes);
    each_guard(open_guard);
    agree_on_written(PACKET, ours, theirs);
    if (!all_wanted(&output_lent)) differ("the packets sent, or a byte beside them");
    memcpy(out->bytes, bytes, theirs.length);
    out->length = theirs.length;
    return theirs.reply == LJ_SUCCESS;
}

/* Asks the sender in a way that it does not take. */
static void ask_wrongly(sending p) {
    static const uint32_t sizes[] = {0, 191, 1473, UINT32_MAX}, scans[] = {0, 65537, 65536 + 172};
    static const uint32_t kinds[] = {2, 63, 66, 128, 255, 256}, qs[] = {0, 100, 127, 256, 306};
    static const size_t tables[] = {1, 127, 129};
    static uint8_t with_zero[256];
    static packet unused;
    size_t out_len = 1472;
    p.scan = noise;
    uint32_t *numbers[] = {&p.width, &p.height, &p.interval}, *number = ONE_OF(numbers);
    switch (below(8)) {
    case 0: *number = below(2) ? 0 : 65536; break;
    case 1: p.type = ONE_OF(kinds); break;
    case 2: p.q = ONE_OF(qs); break;
    case 3: p.scan_len = ONE_OF(scans); break;
    case 4: p.packet_size = ONE_OF(sizes); break;
    case 5:
        memcpy(with_zero, some_entries(), 128);
        with_zero[below(128)] = 0;
        p.tables = with_zero;
        p.tables_len = below(2) ? 128 : ONE_OF(tables);
        break;
    case 6:
        p.packet_size = 192;
        p.scan_len = between(9000, 12000);
        break;
    default: out_len = below(192);
    }
    lend_picture(&p);
    sent_by_both(p, below(4) ? below(3) : any(), out_len, &unused);
    picture_untouched();
}

/* ---- Receiving and building ---- */

/* Memory of no bytes may be at NULL. */
static uint8_t *or_null(uint8_t *memory, size_t length) { return length == 0 && below(2) ? NULL : memory; }

/* Both from these fields on. */
static void load(const lj_receiver *r) {
    receiver_lent.receiver = *r;
    second_load(&second, r);
}

/* Noise, and around it guards. */
static void lend_area(size_t length) {
    const uint8_t *bytes = noise + below(sizeof noise - LENT_MOST);
    lend_copy(&area_lent, bytes, length, (uint8_t)any());
}

static lj_written build(size_t area_len, size_t out_len) {
    uint8_t *out = or_null(lend(&output_lent, out_len, (uint8_t)any()), out_len);
    uint8_t *area = or_null(area_lent.memory + GUARD, area_len);
    each_guard(close_guard);
    lj_written ours = lj_build(receiver_lent.receiver, area, area_len, out, out_len);
    each_guard(open_guard);
    agree_on_written(BUILD, ours, second_build(&second, wanted(&area_lent), area_len, wanted(&output_lent), out_len));
    if (!all_wanted(&output_lent)) differ("the files, or a byte beside ours");
    if (area_lent.length <= SMALL_ROOM && !all_wanted(&area_lent)) differ("building changed the area");
    guards_untouched();
    return ours;
}

/* The file in an output with room to spare, in one of exactly its length, and in one that is too short. */
static void build_whole(void) {
    uint32_t end = receiver_lent.receiver.end;
    size_t area_len = area_lent.length;
    lj_written w = build(area_len, end + LJ_FILE_BESIDE_SCAN + below(8));
    if (w.reply != LJ_SUCCESS) differ("a whole picture has no file");
    if (below(4) == 0) build(area_len, w.length);
    if (below(4) == 0) build(area_len, below(2) ? w.length - 1 : below(w.length));
}

/* Hands both a packet and an area of this length, of which only as much as the room is lent. */
static uint32_t hand(const packet *p, size_t area_len) {
    uint8_t *bytes = or_null(lend_copy(&packet_lent, p->bytes, p->length, (uint8_t)any()), p->length);
    uint8_t *area = or_null(area_lent.memory + GUARD, area_len);
    each_guard(close_guard);
    lj_answer ours = lj_receive(&receiver_lent.receiver, area, area_len, bytes, p->length);
    each_guard(open_guard);
    lj_answer theirs = second_receive(&second, wanted(&area_lent), area_len, p->bytes, p->length);
    agree(RECEIVE, ours.reply, ours.held, theirs.reply, theirs.held);
    if (!all_wanted(&packet_lent)) differ("the packet was changed, or a byte beside it");
    guards_untouched();
    if (area_lent.length <= SMALL_ROOM) agree_on_receivers();
    if (ours.reply == LJ_WHOLE) build_whole();
    return ours.reply;
}

/* ---- Receivers made up on the way ---- */

/* The receiver is written over. It goes on as it then is, unless that made it one that takes no packet of this source into
 * this area: then it is put back. The two must agree before, since the second takes over what the library has. */
static void hand_made_up(const packet *p) {
    agree_on_receivers();
    lj_receiver before = receiver_lent.receiver, now = before;
    if (below(16)) write_over(&now);
    else fill_with_noise(&now);
    made_up++;
    load(&now);
    uint32_t reply = hand(p, area_lent.length);
    agree_on_receivers();
    if (below(4) == 0) build(area_lent.length, below(2) ? below(2000) : FILE_MOST);
    if (reply == LJ_NOT_WELL_FORMED || reply == LJ_AREA_NOT_ROOM || reply == LJ_OTHER_SOURCE) load(&before);
}

/* ---- The pictures of a history ---- */

static sending pictures[PICTURES];
static uint8_t scans[PICTURES][LENT_MOST + PACKET_MOST];
static uint32_t picture_count;

static struct {
    packet packet;
    uint32_t picture;
} arrivals[ARRIVALS];
static uint32_t arrival_count;

/* What the pictures of a history have in common. */
static struct {
    uint32_t source, room, time, q;
    const uint8_t *tables;
} house;

static uint32_t next_time(uint32_t last) {
    switch (below(12)) {
    case 0: return last + INT32_MAX;
    case 1: return last + UINT32_C(0x80000000);
    case 2: return last - between(1, 3000);
    case 3: return last;
    case 4: return any();
    default: return last + between(1, below(2) ? 2 : 100000);
    }
}

/* Often as long as the room, and now and then longer. */
static uint32_t scan_length(void) {
    uint32_t chosen = between(1, below(2) || house.room < 9 ? house.room : 9);
    if (below(house.room < 10000 ? 4 : 2) == 0) return house.room;
    return below(16) == 0 && house.room < 65000 ? house.room + between(1, 300) : chosen;
}

/* Noise that ends in EOI, in a half of it, or in anything, and goes on behind the end. */
static const uint8_t *chosen_scan(uint32_t which, uint32_t length) {
    static const uint8_t endings[][2] = {{0xff, 0xd9}, {0xff, 0xd9}, {0xd9, 0xff}, {0xff, 0xff}, {0xd9, 0xd9}, {0, 0xff}};
    const uint8_t *ending = ONE_OF(endings);
    memcpy(scans[which], noise + below(sizeof noise - sizeof *scans), length + SCAN_MOST);
    if (below(2)) scans[which][length - 1] = ending[1];
    if (below(2) && 1 < length) memcpy(scans[which] + length - 2, ending, 2);
    return scans[which];
}

/* The same picture, but for one thing. */
static sending nearly(sending p) {
    switch (below(6)) {
    case 0: p.time = next_time(p.time); break;
    case 1: p.type ^= 1; break;
    case 2: p.q = p.q < 128 ? p.q % 99 + 1 : p.q == 255 ? 255 : 128 + (p.q - 127) % 127; break;
    case 3: p.width = p.width % 255 + 1; break;
    case 4: p.height = p.height % 255 + 1; break;
    default: p.interval = p.type < 64 ? 0 : p.interval % 65535 + 1;
    }
    return p;
}

static void choose_picture(uint32_t which) {
    sending p = chosen_picture(house.room);
    p.source = below(10) ? house.source : below(8) ? house.source ^ 1u << below(32) : 0;
    p.time = which == 0 ? house.time : next_time(pictures[below(which)].time);
    if (p.q >= 128 && p.q < 255 && below(4)) p.q = house.q;
    if (below(2)) p.tables = house.tables;
    p.start = (uint16_t)(below(2) ? any() : 65535);
    p.scan_len = scan_length();
    if (10000 < p.scan_len && below(4)) p.packet_size = between(1100, 1472); /* in at most 64 packets */
    p.scan = chosen_scan(which, (uint32_t)p.scan_len);
    pictures[which] = p;
    if (which != 0 && below(8) == 0) pictures[which] = nearly(pictures[which - 1]);
}

static packet *next_arrival(uint32_t which) {
    arrivals[arrival_count].picture = which;
    return &arrivals[arrival_count].packet;
}

/* As our sender cuts it. */
static void send_picture(uint32_t which) {
    const sending *p = &pictures[which];
    lend_picture(p);
    for (uint32_t k = 0; arrival_count < ARRIVALS && sent_by_both(*p, k, p->packet_size, next_arrival(which)); k++)
        arrival_count++;
    picture_untouched();
    if (below(8) == 0) ask_wrongly(*p);
}

/* How long the next of so many pieces is, where so much of the scan is left: a fair share, or anything around it. */
static uint32_t piece_length(uint32_t left, uint32_t pieces, int fair) {
    uint32_t share = left / pieces ? left / pieces : 1, length = fair ? share : between(1, 2 * share);
    if (SCAN_MOST < length) length = SCAN_MOST;
    return length < left ? length : left;
}

/* As another sender might: in few pieces or some 64, now and then over each other, without their end or with two. */
static void cut_picture(uint32_t which) {
    static const uint32_t many[] = {62, 63, 64, 64, 64, 65, 66, 80, 100};
    const sending *p = &pictures[which];
    uint32_t pieces = below(20) ? between(1, 7) : ONE_OF(many), left = (uint32_t)p->scan_len, length;
    int fair = below(2), strange = below(4) == 0;
    for (; 0 < left && arrival_count < ARRIVALS; left -= length) {
        length = piece_length(left, pieces, fair);
        pieces -= 1 < pieces;
        lj_fragment f = {(uint32_t)p->scan_len - left, length, length == left};
        if (strange && below(6) == 0) f.offset += below(3);
        if (strange && below(6) == 0) f.length += below(3);
        if (strange && below(12) == 0) f.marker ^= 1;
        cut(next_arrival(which), p, f, (uint16_t)any());
        arrival_count++;
    }
}

static void choose_pictures(uint32_t from) {
    picture_count = from + between(1, PICTURES - 1);
    arrival_count = 0;
    for (uint32_t which = 0; which < picture_count; which++) {
        if (from <= which) choose_picture(which);
        if (below(2)) send_picture(which);
        else cut_picture(which);
    }
}

/* ---- The order of arrival ---- */

static uint32_t order[ARRIVALS];

static void swap(uint32_t i, uint32_t j) {
    uint32_t k = order[i];
    order[i] = order[j];
    order[j] = k;
}

/* In no order within so many places, which keeps pictures apart, lets them run into each other, or mixes all. */
static void mix(uint32_t reach) {
    for (uint32_t i = 0; i < arrival_count; i++) {
        uint32_t left = arrival_count - i;
        swap(i, i + below(left < reach ? left : reach));
    }
}

static void reverse(uint32_t from, uint32_t to) {
    for (; from + 1 < to; from++) swap(from, --to);
}

/* Each picture by itself, or all of them. */
static void reverse_pictures(void) {
    uint32_t from = 0;
    for (uint32_t i = 1; i <= arrival_count; i++)
        if (i == arrival_count || arrivals[i].picture != arrivals[from].picture) {
            reverse(from, i);
            from = i;
        }
    if (below(8) == 0) reverse(0, arrival_count);
}

static void choose_order(void) {
    static const uint32_t reaches[] = {1, 2, 4, 10, ARRIVALS};
    for (uint32_t i = 0; i < arrival_count; i++) order[i] = i;
    if (below(4) == 0) reverse_pictures();
    else mix(ONE_OF(reaches));
}

/* ---- Histories ---- */

/* One in so many packets is damaged, meets a receiver that is made up, and so on; 0 for none. */
static struct {
    uint32_t damaged, dressed, made_up, strange;
} odds;

static int one_in(uint32_t n) { return n != 0 && below(n) == 0; }

/* The picture that is held, or nearly, as far as a sender takes it. */
static sending related_picture(const lj_receiver *r) {
    sending p = pictures[below(picture_count)];
    for (uint32_t i = 0; i < picture_count; i++)
        if (pictures[i].time == r->time) p = pictures[i];
    p = picture_held(r, &p);
    if (within(r->kept.q, 128, 254) && below(8) == 0) p.tables = r->kept.tables;
    if (!parameters_right(&p) || !tables_right(&p)) p = pictures[0];
    p.source = r->source;
    p.time = chosen_time(r->time);
    return p;
}

/* A packet of it: for a gap, behind the last, held already and the same or not quite, or over what is held. */
static void related_packet(packet *out) {
    const lj_receiver *r = &receiver_lent.receiver;
    sending p = related_picture(r);
    lj_fragment f = chosen_fragment(r);
    if (r->fragment_count != 0 && r->fragments[0].length <= SCAN_MOST && below(4) == 0) f = r->fragments[0];
    cut(out, &p, f, (uint16_t)any());
    if (has_table_header(out, &p) && below(4) == 0) spoil_tables(out, &p);
    if (below(8) == 0) out->bytes[out->length - 1] ^= 1;
}

/* An arrival as it comes this time. */
static void hand_arrival(uint32_t i) {
    static packet p;
    const sending *s = &pictures[arrivals[i].picture];
    p.length = arrivals[i].packet.length;
    memcpy(p.bytes, arrivals[i].packet.bytes, p.length);
    if (below(3) == 0) vary(&p, s);
    if (one_in(2 * odds.damaged)) spoil_fields(&p, s);
    if (one_in(odds.dressed)) dress(&p);
    if (one_in(2 * odds.damaged)) damage(&p);
    if (one_in(odds.made_up)) hand_made_up(&p);
    else hand(&p, area_lent.length);
}

/* What else a host may do between two packets. */
static void do_otherwise(void) {
    static packet p;
    size_t room = area_lent.length, lengths[] = {0, room - 1, room + 1, room / 2}, length = ONE_OF(lengths);
    related_packet(&p);
    switch (below(16)) {
    case 0: hand(&p, length); break;
    case 1: build(length, below(1000)); break;
    case 2: build(room, below(1000)); break;
    default: hand(&p, room);
    }
}

/* A receiver that was made up has gaps that packets of its picture, cut anew, would hardly fit. */
static void choose_odds(int is_made_up) {
    static const uint32_t damaged[] = {0, 0, 8, 2}, dressed[] = {0, 4, 1}, strange[] = {0, 10, 2};
    odds.damaged = ONE_OF(damaged);
    odds.dressed = ONE_OF(dressed);
    odds.strange = is_made_up ? 1 : ONE_OF(strange);
    odds.made_up = below(3) ? 0 : 4;
}

static void open_both(uint32_t source, uint32_t room) {
    lj_opened ours = lj_open(source, room);
    lj_answer theirs = second_open(&second, source, room);
    receiver_lent.receiver = ours.receiver;
    lend_area(within(room, 1, LENT_MOST) ? room : below(300));
    agree(OPEN, ours.answer.reply, ours.answer.held, theirs.reply, theirs.held);
    agree_on_receivers();
}

static uint32_t history_room(void) {
    uint32_t choice = below(100);
    if (choice < 60) return between(1, below(4) ? SMALL_ROOM : 16);
    if (choice < 97) return between(SMALL_ROOM + 1, 4096);
    return below(3) ? between(4097, 65536) : 65536;
}

static void begin_opened(void) {
    static const uint32_t wrong[] = {0, 65537, 2 * 65536, UINT32_MAX};
    static const packet none;
    house.source = any();
    house.room = history_room();
    house.time = below(2) ? any() : 0 - between(1, 5000);
    if (below(32) == 0) {
        open_both(house.source, ONE_OF(wrong));
        hand(&none, area_lent.length);
        agree_on_receivers();
    }
    open_both(house.source, house.room);
    choose_pictures(0);
}

/* A receiver in the midst of a picture, with the scan's bytes where it says that it has them. */
static void begin_made_up(void) {
    pictures[0] = chosen_picture(4096);
    lj_receiver r = lawful_receiver(&pictures[0]);
    house.source = r.source;
    house.room = r.room;
    lend_area(r.room);
    lay_out(area_lent.memory + GUARD, r.room, &r, &pictures[0]);
    lay_out(wanted(&area_lent), r.room, &r, &pictures[0]);
    made_up++;
    load(&r);
    choose_pictures(1);
}

static void run_history(void) {
    house.q = between(128, 254);
    house.tables = some_entries();
    memset(&receiver_lent, (uint8_t)any(), sizeof receiver_lent);
    receiver_before = receiver_lent;
    int is_made_up = below(6) == 0;
    if (is_made_up) begin_made_up();
    else begin_opened();
    choose_odds(is_made_up);
    choose_order();
    for (uint32_t i = 0; i < arrival_count; i++) {
        if (one_in(odds.strange)) do_otherwise();
        if (odds.damaged == 0 || below(16)) hand_arrival(order[i]);
        if (below(6) == 0) hand_arrival(order[below(i + 1)]);
    }
    agree_on_receivers();
    if (below(4) == 0) try_tables();
    histories++;
}

int main(int argc, char **argv) {
    uint64_t all = number_given("side_by_side", argc, argv, 2, HISTORIES);
    seed = seed_given("side_by_side", argc, argv);
    begin_chance(seed);
    fill_bytes();
    while (histories < all) run_history();
    print_counts();
    return all < 1000 || every_reply_occurred() ? 0 : 1;
}
