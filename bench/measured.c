/* The library's calls beside the floor, which is memcpy of the scan bytes that they carry, and beside the second implementation.
 * Each prints a line for every row of the table and every way of its three:
 *   measured time    the row, the way, the nanoseconds that a packet takes, or a call where there are no packets, and the row's
 *                    aim. They are the median of many samples, and the ways of a row take turns
 *   measured count   the row, the way, and how many packets were taken, for callgrind, which leaves a file of the instructions
 *                    with row and way in it
 *   measured size    of a receiver alone, in bytes
 * A run that does not come out as it should ends the program. */
#include "../compare/chance.h"
#include "../compare/quantiser.h"
#include "../compare/second.h"
#include "../compare/sender.h"

#include <time.h>
#include <valgrind/callgrind.h>

enum { SOURCE = 2435, ROOM = 32768, CARRIED = 1400, FRAGMENTS = 64, FILE_MOST = ROOM + LJ_FILE_BESIDE_SCAN };
enum { OURS, FLOOR, SECOND, WAYS };

static const char *const way_names[WAYS] = {"ours", "floor", "second"};

/* One line of the table: what is made ready, and what runs in each way. */
typedef struct row {
    const char *name;
    void (*prepare)(const struct row *);
    int (*run[WAYS])(void); /* whether it came out as it should; NULL where there is no such way */
    uint32_t scan_len, q;
    int reversed;
    const char *aim;
} row;

static uint8_t scan[ROOM], tables[128], area[ROOM], file[FILE_MOST], sent_bytes[1472];
static packet packets[FRAGMENTS];
static lj_fragment cuts[FRAGMENTS];
static uint32_t count; /* of packets in a run, or of calls where there are none */
static sending picture;
static lj_receiver receiver;
static second_receiver second;
static uint32_t now; /* the time stamp of the picture that is under way */

static void must(int right, const char *what) {
    if (right) return;
    fprintf(stderr, "not so: %s\n", what);
    exit(1);
}

/* ---- Packets to file ---- */

/* The packets of a picture, each with as much of the scan as the rows say, in the order in which they come. */
static void prepare_packets(const row *r) {
    picture = (sending){.q = r->q, .width = 40, .height = 30, .tables = tables, .tables_len = r->q < 128 ? 0 : 128,
                        .scan = scan, .scan_len = r->scan_len, .packet_size = 1472, .source = SOURCE, .out_len = 1472};
    count = (r->scan_len + CARRIED - 1) / CARRIED;
    for (uint32_t k = 0; k < count; k++) {
        uint32_t offset = k * CARRIED, left = r->scan_len - offset, place = r->reversed ? count - 1 - k : k;
        cuts[place] = (lj_fragment){offset, left < CARRIED ? left : CARRIED, left <= CARRIED};
        cut(&packets[place], &picture, cuts[place], (uint16_t)k);
    }
    receiver = lj_open(SOURCE, ROOM).receiver;
    second_open(&second, SOURCE, ROOM);
    now = 0;
}

/* Every picture is newer than the one before. In every way, so that it weighs the same. */
static void stamp_packets(void) {
    now++;
    for (uint32_t i = 0; i < count; i++) {
        uint8_t *time = packets[i].bytes + 4;
        time[0] = (uint8_t)(now >> 24), time[1] = (uint8_t)(now >> 16), time[2] = (uint8_t)(now >> 8), time[3] = (uint8_t)now;
    }
}

static int ours_to_file(void) {
    uint32_t reply = LJ_HELD;
    stamp_packets();
    for (uint32_t i = 0; i < count; i++)
        reply = lj_receive(&receiver, area, ROOM, packets[i].bytes, packets[i].length).reply;
    return reply == LJ_WHOLE && lj_build(receiver, area, ROOM, file, FILE_MOST).reply == LJ_SUCCESS;
}

static int second_to_file(void) {
    uint32_t reply = LJ_HELD;
    stamp_packets();
    for (uint32_t i = 0; i < count; i++)
        reply = second_receive(&second, area, ROOM, packets[i].bytes, packets[i].length).reply;
    return reply == LJ_WHOLE && second_build(&second, area, ROOM, file, FILE_MOST).reply == LJ_SUCCESS;
}

static int floor_to_file(void) {
    stamp_packets();
    for (uint32_t i = 0; i < count; i++)
        memcpy(area + cuts[i].offset, packets[i].bytes + packets[i].length - cuts[i].length, cuts[i].length);
    memcpy(file + 605, area, picture.scan_len);
    return 1;
}

/* ---- Scan to packets ---- */

static int ours_to_packets(void) {
    lj_written w = {LJ_SUCCESS, 0};
    sending s = picture;
    for (s.k = 0; s.k < count; s.k++) w = asked(&s, sent_bytes);
    return w.reply == LJ_SUCCESS;
}

static int floor_to_packets(void) {
    for (uint32_t k = 0; k < count; k++) memcpy(sent_bytes + 1472 - cuts[k].length, scan + cuts[k].offset, cuts[k].length);
    return 1;
}

/* Where our sender cuts the picture is read back from its packets. */
static void prepare_scan(const row *r) {
    prepare_packets(r);
    for (count = 0; sent(picture, count, &packets[count]); count++) {
        const uint8_t *p = packets[count].bytes;
        size_t headers = count == 0 && r->q >= 128 ? 20 + 4 + 128 : 20;
        cuts[count] = (lj_fragment){(uint32_t)(p[13] << 16 | p[14] << 8 | p[15]), (uint32_t)(packets[count].length - headers), 0};
    }
    must(count == (r->scan_len < 3000 ? 2 : 22), "as many packets as the rows say");
}

/* ---- Single calls ---- */

static int ours_make(void) {
    int right = 1;
    for (uint32_t q = 1; q <= count; q++) right &= lj_make_tables(q, file, 128).reply == LJ_SUCCESS;
    return right;
}

static int second_make(void) {
    int right = 1;
    for (uint32_t q = 1; q <= count; q++) right &= second_tables(q, file, 128).reply == LJ_SUCCESS;
    return right;
}

static int ours_open(void) {
    receiver = lj_open(SOURCE, ROOM).receiver;
    return receiver.room == ROOM;
}

static int second_opens(void) { return second_open(&second, SOURCE, ROOM).reply == LJ_SUCCESS; }

static void prepare_tables(const row *r) {
    (void)r;
    count = 99;
}

static void prepare_open(const row *r) {
    (void)r;
    count = 1;
}

/* A refused packet comes to receivers that hold a whole picture of 22 packets, the same picture for both. */
static void prepare_held(const row *r) {
    prepare_packets(r);
    int whole = ours_to_file();
    now--;
    must(whole && second_to_file(), "the picture is whole before the packets that are refused");
}

static int ours_refuse(void) {
    int refused = 1;
    for (uint32_t i = 0; i < count; i++)
        refused &= LJ_AGAIN < lj_receive(&receiver, area, ROOM, packets[i].bytes, packets[i].length).reply;
    return refused;
}

static int second_refuse(void) {
    int refused = 1;
    for (uint32_t i = 0; i < count; i++)
        refused &= LJ_AGAIN < second_receive(&second, area, ROOM, packets[i].bytes, packets[i].length).reply;
    return refused;
}

static void prepare_other_source(const row *r) {
    prepare_held(r);
    for (uint32_t i = 0; i < count; i++) packets[i].bytes[11] ^= 1;
}

static void prepare_random(const row *r) {
    prepare_held(r);
    count = FRAGMENTS;
    for (uint32_t i = 0; i < count; i++) {
        packets[i].length = between(1, 1472);
        for (size_t j = 0; j < packets[i].length; j++) packets[i].bytes[j] = (uint8_t)any();
    }
}

/* ---- The rows ---- */

#define TO_FILE prepare_packets, {ours_to_file, floor_to_file, second_to_file}
#define TO_PACKETS prepare_scan, {ours_to_packets, floor_to_packets, NULL}
#define REFUSED {ours_refuse, NULL, second_refuse}, LONG, 50, 0, ""
enum { LONG = 22 * CARRIED, SHORT = 2000 };
static const char WITH_Q_50[] = "2,300 instructions", WITH_Q_255[] = "3 floors, 1,500 instructions", OF_2_KB[] = "10 floors",
                  SENDING[] = "1.5 floors";

static const row rows[] = {
    {"packet to file, 30 kB, Q 50", TO_FILE, LONG, 50, 0, WITH_Q_50},
    {"packet to file, 30 kB, Q 50, reversed", TO_FILE, LONG, 50, 1, WITH_Q_50},
    {"packet to file, 30 kB, Q 255", TO_FILE, LONG, 255, 0, WITH_Q_255},
    {"packet to file, 30 kB, Q 255, reversed", TO_FILE, LONG, 255, 1, WITH_Q_255},
    {"packet to file, 2 kB, Q 50", TO_FILE, SHORT, 50, 0, OF_2_KB},
    {"packet to file, 2 kB, Q 50, reversed", TO_FILE, SHORT, 50, 1, OF_2_KB},
    {"packet to file, 2 kB, Q 255", TO_FILE, SHORT, 255, 0, OF_2_KB},
    {"packet to file, 2 kB, Q 255, reversed", TO_FILE, SHORT, 255, 1, OF_2_KB},
    {"scan to packet, 30 kB, Q 50", TO_PACKETS, LONG, 50, 0, SENDING},
    {"scan to packet, 30 kB, Q 255", TO_PACKETS, LONG, 255, 0, SENDING},
    {"scan to packet, 2 kB, Q 50", TO_PACKETS, SHORT, 50, 0, SENDING},
    {"scan to packet, 2 kB, Q 255", TO_PACKETS, SHORT, 255, 0, SENDING},
    {"refused: another source", prepare_other_source, REFUSED},
    {"refused: picture whole already", prepare_held, REFUSED},
    {"refused: random bytes", prepare_random, REFUSED},
    {"tables of a Q", prepare_tables, {ours_make, NULL, second_make}, 0, 0, 0, ""},
    {"opening", prepare_open, {ours_open, NULL, second_opens}, 0, 0, 0, ""},
};

/* ---- Measuring ---- */

enum { SAMPLES = 301 };
static const double SAMPLE_NS = 50e3;

static void repeat(int (*run)(void), uint32_t times) {
    int right = 1;
    for (uint32_t i = 0; i < times; i++) right &= run();
    must(right, "every run came out as it should");
}

static double nanoseconds(int (*run)(void), uint32_t times) {
    struct timespec from, to;
    clock_gettime(CLOCK_MONOTONIC, &from);
    repeat(run, times);
    clock_gettime(CLOCK_MONOTONIC, &to);
    return (double)(to.tv_sec - from.tv_sec) * 1e9 + (double)(to.tv_nsec - from.tv_nsec);
}

static int by_size(const void *a, const void *b) {
    double x = *(const double *)a, y = *(const double *)b;
    return (x > y) - (x < y);
}

static void time_row(const row *r) {
    static double samples[WAYS][SAMPLES];
    uint32_t times[WAYS];
    for (int way = 0; way < WAYS; way++)
        for (times[way] = 1; r->run[way] && nanoseconds(r->run[way], times[way]) < SAMPLE_NS;) times[way] *= 2;
    for (int sample = 0; sample < SAMPLES; sample++)
        for (int way = 0; way < WAYS; way++)
            if (r->run[way]) samples[way][sample] = nanoseconds(r->run[way], times[way]) / times[way] / count;
    for (int way = 0; way < WAYS; way++) {
        if (!r->run[way]) continue;
        qsort(samples[way], SAMPLES, sizeof(double), by_size);
        printf("%s;%s;%.1f;%s\n", r->name, way_names[way], samples[way][SAMPLES / 2], r->aim);
    }
}

static void count_row(const row *r) {
    enum { TIMES = 10 };
    for (int way = 0; way < WAYS; way++) {
        if (!r->run[way]) continue;
        char name[80];
        snprintf(name, sizeof name, "%s;%s", r->name, way_names[way]);
        repeat(r->run[way], 1);
        CALLGRIND_ZERO_STATS;
        repeat(r->run[way], TIMES);
        CALLGRIND_DUMP_STATS_AT(name);
        printf("%s;%u\n", name, TIMES * count);
    }
}

static void measure(void (*row_by_row)(const row *)) {
    begin_chance(2435);
    for (size_t i = 0; i < sizeof scan; i++) scan[i] = (uint8_t)any();
    for (size_t i = 0; i < sizeof tables; i++) tables[i] = (uint8_t)between(1, 255);
    for (size_t i = 0; i < COUNT(rows); i++) {
        rows[i].prepare(&rows[i]);
        row_by_row(&rows[i]);
    }
}

int main(int argc, char **argv) {
    const char *what = argc == 2 ? argv[1] : "";
    if (strcmp(what, "time") == 0) measure(time_row);
    else if (strcmp(what, "count") == 0) measure(count_row);
    else if (strcmp(what, "size") == 0) printf("%zu\n", sizeof receiver);
    else must(0, "one word, which is time, count or size");
}
