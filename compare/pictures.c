/* A picture that a real encoder wrote, through sender, receiver and file builder: `pictures ORIGINAL REBUILT QUALITY`
 * takes the scan out of the file ORIGINAL, sends it, hands the packets to a receiver out of order and some of them again,
 * and writes the file that is built from it to REBUILT, for a real decoder to read. QUALITY, 1 to 99, is the one that the
 * encoder was given, which is RFC 2435's Q too; 0 where there is no such Q. */
#include "built.h"
#include "chance.h"
#include "received.h"
#include "../examples/jpeg_file.h"

_Static_assert(LJ_HELD == 0 && LJ_WHOLE == 1 && LJ_AGAIN == 2 && LJ_PAST == 22 && LJ_NOT_WHOLE == 30 &&
                   LJ_FILE_OUTPUT == 31 && LJ_OVER_64_PACKETS == 44 && LJ_INDEX_TOO_LARGE == 45,
               "the header's numbers are document 01's");

enum { SOURCE = 0x5eed, ROOM = 65536, FILE_MOST = 611 + ROOM + 2 };

/* ---- Files ---- */

/* All that decides the pixels is the same. The components' names may differ. */
static void compare_jpegs(const jpeg *a, const jpeg *b) {
    must(a->width == b->width && a->height == b->height, "the sides differ");
    must(memcmp(a->sampling, b->sampling, 3) == 0, "the sampling differs");
    must(memcmp(a->quantiser_of, b->quantiser_of, 3) == 0, "the components' quantiser tables differ");
    must(memcmp(a->huffman_of, b->huffman_of, 3) == 0, "the components' Huffman tables differ");
    must(memcmp(a->quantisers, b->quantisers, 128) == 0, "the quantiser tables differ");
    must(memcmp(a->huffman_len, b->huffman_len, sizeof a->huffman_len) == 0, "the Huffman tables' lengths differ");
    must(memcmp(a->huffman, b->huffman, sizeof a->huffman) == 0, "the Huffman tables differ");
    must(a->interval == b->interval, "the interval differs");
    must(a->scan_len == b->scan_len, "the scan's length differs");
    must(memcmp(a->scan, b->scan, a->scan_len) == 0, "the scan differs");
}

/* ---- Sending ---- */

/* One way to send the picture. Each gives the same file: the tables are those of the original by each way, and a scan that
 * brings its EOI gets no second one. */
typedef struct {
    const char *name;
    uint32_t q;
    int tables, eoi, smallest; /* whether they are sent; whether it is; whether the packets are as small as can be */
} way;

typedef struct {
    uint8_t bytes[1472];
    size_t length;
} packet;

static packet packets[64];

static lj_written send_one(const jpeg *j, const way *w, uint32_t packet_size, uint32_t time, uint32_t k, packet *p) {
    lj_written answer =
        lj_packet(type_of(j), w->q, j->width / 8, j->height / 8, j->interval, j->quantisers, w->tables ? 128 : 0, j->scan,
                  j->scan_len + (w->eoi ? 2 : 0), packet_size, 65530, time, SOURCE, k, p->bytes, packet_size);
    p->length = answer.length;
    return answer;
}

/* Fills `packets` and answers how many there are. */
static uint32_t send_all(const jpeg *j, const way *w, uint32_t time) {
    uint32_t size = w->smallest ? 192 : 1472, count = 0, reply;
    while (size < 1472 && send_one(j, w, size, time, 0, &packets[0]).reply == LJ_OVER_64_PACKETS) size++;
    for (;; count++) {
        packet next;
        reply = send_one(j, w, size, time, count, &next).reply;
        if (reply != LJ_SUCCESS) break;
        must(count < 64, "a 65th packet");
        packets[count] = next;
    }
    must(count != 0 && reply == LJ_INDEX_TOO_LARGE, "the sender does not take it");
    return count;
}

/* ---- Receiving ---- */

static lj_receiver receiver;
static uint8_t area[ROOM];

static lj_answer take(const packet *p) {
    const char *wrong;
    lj_answer a = received(&receiver, area, ROOM, p->bytes, p->length, (uint8_t)any(), &wrong);
    must(wrong == NULL, wrong);
    return a;
}

static lj_written build(size_t out_len) {
    const char *wrong;
    lj_written w = built(&receiver, area, ROOM, out_len, (uint8_t)any(), &wrong);
    must(wrong == NULL, wrong);
    return w;
}

static size_t scan_bytes(const packet *p, const way *w) {
    int first = p->bytes[13] == 0 && p->bytes[14] == 0 && p->bytes[15] == 0;
    size_t tables = w->q < 128 || !first ? 0 : w->tables ? 4 + 128 : 4;
    return p->length - 20 - (p->bytes[16] >= 64 ? 4 : 0) - tables;
}

/* A packet that is in already: a repeat, and once the picture is whole it is past. */
static void repeat(const packet *p, int whole, size_t held) {
    lj_answer a = take(p);
    must(a.reply == (whole ? LJ_PAST : LJ_AGAIN) && a.held == held, "a repeated packet has another answer");
}

/* All packets in any order, some of them again: whole comes once, with the last that was missing, and no file before. */
static void deliver(const way *w, uint32_t count) {
    uint32_t order[64], arrived[64], wholes = 0;
    size_t held = 0;
    for (uint32_t k = 0; k < count; k++) order[k] = k;
    for (uint32_t left = count; left > 0; left--) {
        uint32_t i = below(left), k = order[i];
        order[i] = order[left - 1];
        arrived[count - left] = k;
        held += scan_bytes(&packets[k], w);
        lj_answer a = take(&packets[k]);
        wholes += a.reply == LJ_WHOLE;
        must(a.reply == (left == 1 ? LJ_WHOLE : LJ_HELD) && a.held == held, "a new packet has another answer");
        if (left > 1 && below(8) == 0) must(build(FILE_MOST).reply == LJ_NOT_WHOLE, "a file before the picture is whole");
        if (below(3) == 0) repeat(&packets[arrived[below(count - left + 1)]], left == 1, held);
    }
    repeat(&packets[below(count)], 1, held);
    must(wholes == 1, "whole other than once");
}

/* ---- Building ---- */

static uint8_t rebuilt[FILE_MOST];
static size_t rebuilt_len;

/* The file that this way gives, which is read like the original and says the same; it is left in `rebuilt`. */
static void build_file(const jpeg *original) {
    jpeg read;
    size_t length = (original->interval != 0 ? 611 : 605) + original->scan_len + 2;
    must(build(length - 1).reply == LJ_FILE_OUTPUT, "one byte of output too few, and it is not refused");
    lj_written w = build(length);
    must(w.reply == LJ_SUCCESS && w.length == length, "the file has another length");
    read_jpeg(&read, built_file(), length);
    compare_jpegs(original, &read);
    must(rebuilt_len == 0 || memcmp(rebuilt, built_file(), length) == 0, "two ways to send it give two files");
    memcpy(rebuilt, built_file(), length);
    rebuilt_len = length;
}

/* One receiver takes the picture each way in turn, as pictures of which each is newer than the last. */
static void send_each_way(const jpeg *original, uint32_t quality) {
    const way ways[] = {{"with Q 255", 255, 1, 0, 1},
                        {"with the encoder's quality as Q", quality, 0, 0, 0},
                        {"with Q 200 and its EOI", 200, 1, 1, 0},
                        {"with Q 200 and the tables kept", 200, 0, 0, 1}};
    receiver = lj_open(SOURCE, ROOM).receiver;
    for (size_t i = 0; i < sizeof area; i++) area[i] = (uint8_t)any();
    for (uint32_t i = 0; i < COUNT(ways); i++) {
        if (ways[i].q == 0) continue;
        doing = ways[i].name;
        deliver(&ways[i], send_all(original, &ways[i], UINT32_MAX - 1 + i));
        build_file(original);
    }
}

/* ---- */

static void write_rebuilt(const char *name) {
    FILE *stream = fopen(name, "wb");
    must(stream != NULL, "it cannot be opened");
    must(fwrite(rebuilt, 1, rebuilt_len, stream) == rebuilt_len && fclose(stream) == 0, "it cannot be written");
}

int main(int argc, char **argv) {
    static uint8_t file[2 * FILE_MOST];
    static jpeg original;
    char *end = "?";
    unsigned long quality = argc == 4 ? strtoul(argv[3], &end, 10) : 0;
    must(*end == '\0' && quality <= 99, "it takes two files, ORIGINAL and REBUILT, and a quality of 1 to 99, or 0");
    begin_chance(2435);
    doing = argv[1];
    read_jpeg(&original, file, read_file(argv[1], file, sizeof file));
    type_of(&original);
    send_each_way(&original, (uint32_t)quality);
    doing = argv[2];
    write_rebuilt(argv[2]);
    return 0;
}
