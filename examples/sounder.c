/* The other end, for trying a plotter without a sounder: `sounder SOURCE PICTURE..` sends JPEG files, such as `cjpeg -baseline`
 * writes with sampling 2x1 or 2x2, and puts the packets on standard output as records of RFC 4571. As on a bad network, those
 * of a picture come in any order, and about every third comes again later. */
#include "jpeg_file.h"
#include "ljosvark.h"

enum { PACKETS_MOST = 64, TIME_BETWEEN = 9000 /* a tenth of a second, by RFC 2435's clock of 90,000 Hz */ };

/* Chance that is the same on every run and machine. */
static uint32_t below(uint32_t n) {
    static uint32_t seed = 2435;
    seed = (uint32_t)((uint64_t)seed * 48271 % 2147483647);
    return seed % n;
}

typedef struct {
    uint8_t bytes[LJ_LONGEST_SENT];
    uint32_t length;
} packet;

/* The Q from which a receiver makes the file's quantiser tables, or 255, with which they are sent along. */
static uint32_t q_of(const jpeg *j) {
    uint8_t made[LJ_TABLES_LENGTH];
    for (uint32_t q = 1; q <= 99; q++) {
        lj_make_tables(q, made, sizeof made);
        if (memcmp(made, j->quantisers, sizeof made) == 0) return q;
    }
    return 255;
}

/* A picture's packets, in order, with sequence numbers from `start` on; answers how many there are. */
static uint32_t send(const jpeg *j, uint16_t start, uint32_t time, uint32_t source, packet *packets) {
    uint32_t q = q_of(j), k;
    size_t tables_len = q < 255 ? 0 : LJ_TABLES_LENGTH;
    for (k = 0; k < PACKETS_MOST; k++) {
        lj_written sent = lj_packet(type_of(j), q, j->width / 8, j->height / 8, j->interval, j->quantisers, tables_len, j->scan,
                                    j->scan_len, LJ_LONGEST_SENT, start, time, source, k, packets[k].bytes, LJ_LONGEST_SENT);
        if (sent.reply == LJ_INDEX_TOO_LARGE) break; /* packet k - 1 was the last */
        must(sent.reply == LJ_SUCCESS, "the sender does not take it, for its sides or the length of its scan");
        packets[k].length = sent.length;
    }
    return k;
}

static void put_record(const packet *p) {
    putchar((int)(p->length >> 8));
    putchar((int)(p->length & 255));
    fwrite(p->bytes, 1, p->length, stdout);
}

/* Each packet once, in an order that chance picks; after every third or so, and after the last, one of those that have been. */
static void put_shuffled(const packet *packets, uint32_t count) {
    uint32_t order[PACKETS_MOST];
    for (uint32_t k = 0; k < count; k++) order[k] = k;
    for (uint32_t done = 0; done < count; done++) {
        uint32_t i = done + below(count - done), k = order[i];
        order[i] = order[done];
        order[done] = k;
        put_record(&packets[k]);
        if (below(3) == 0 || done + 1 == count) put_record(&packets[order[below(done + 1)]]);
    }
}

int main(int argc, char **argv) {
    static uint8_t file[2 * LJ_LARGEST_ROOM];
    static packet packets[PACKETS_MOST];
    uint16_t start = 65530; /* the sequence numbers may begin anywhere, and go on from 0 behind 65,535 */
    char *end = "?";
    unsigned long long source = argc > 2 ? strtoull(argv[1], &end, 0) : 0;
    doing = "usage";
    must(end != argv[1] && *end == '\0' && source <= UINT32_MAX, "sounder SOURCE PICTURE.., where SOURCE is a number of 32 bits");
    for (int i = 2; i < argc; i++) {
        jpeg picture;
        doing = argv[i];
        read_jpeg(&picture, file, read_file(argv[i], file, sizeof file));
        uint32_t count = send(&picture, start, (uint32_t)i * TIME_BETWEEN, (uint32_t)source, packets);
        put_shuffled(packets, count);
        start += (uint16_t)count;
    }
    doing = "standard output";
    must(fflush(stdout) == 0 && !ferror(stdout), "it cannot be written");
    return 0;
}
